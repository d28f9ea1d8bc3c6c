//! The comparison behind tools/compare: the crate (tools/oracle), the model (model.rs) and, where it is built, the program replay
//! answer the same cases. Words are those of tools/compare, which says what they do; it adds `--replay COMMAND`, which is run with the
//! word replay and the cases, `--called NAME`, by which the command is then run and spoken of in the place of replay, and
//! `--fixed-list STDIN STDOUT`.

mod case;
mod generate;
mod live;
mod model;
mod plans;

use std::collections::BTreeMap;
use std::fs;
use std::io::{Read, Write};
use std::panic::catch_unwind;
use std::process::{exit, Command, Stdio};
use std::sync::{Mutex, OnceLock};
use std::thread;

use case::{
    address_of, hop_of, length_of, lengthened, Answer, Case, Route, Short, CHECK, CHIP, COVER, HELD, LIVE, LOOKUP, PLAIN, PLAN,
    REWRITE, SPECIAL, UNROUTED,
};
use generate::Made;
use model::Fault;

const FOLDER: &str = "target/comparison";
const BATCH: u64 = 2_000;
const QUICK_CASES: u64 = 20_000;
const QUICK_REPLAY_CASES: u64 = 2_000;
const QUICK_WORDS: u64 = 100_000;

/// The first bits set.
fn mask(length: u8) -> u64 {
    u64::MAX.checked_shl(64 - length as u32).unwrap_or(0)
}

/// The last address of a prefix at a width.
fn last_of(width: u8, &(address, length, _): &Route) -> u64 {
    address | (!mask(length) & mask(width))
}

/// Is the list one of all that has no route, as far as the crate can be asked? Its longest match finds none at the first and the last address
/// of each prefix, and at the addresses before and after just where a prefix beside it has them; and its mode 1 leaves the list as it is, so that
/// no two of the prefixes make a wider one.
fn listed_by_crate(long: bool, routes: &[Route], list: &[Route]) -> bool {
    let width = if long { 64 } else { 32 };
    // From one address to the next.
    let one = !mask(width - 1) & mask(width);
    let (mut asked, mut none) = (Vec::new(), Vec::new());
    for (i, prefix) in list.iter().enumerate() {
        let (first, last) = (prefix.0, last_of(width, prefix));
        asked.extend([first, last]);
        none.extend([true, true]);
        if first > 0 {
            asked.push(first - one);
            none.push(i > 0 && last_of(width, &list[i - 1]) == first - one);
        }
        if last < mask(width) {
            asked.push(last + one);
            none.push(list.get(i + 1).is_some_and(|next| next.0 == last + one));
        }
    }
    let found = oracle::lookups(long, routes, &asked);
    found.iter().zip(&none).all(|(found, none)| found.is_none() == *none) && oracle::rewrite(long, 1, 0, list) == (list.to_vec(), 0)
}

/// Does the first slot that matches answer as the crate's longest match, at the edges of every slot's prefix and beside them?
fn matched_by_crate(routes: &[Route], slots: &[Route]) -> bool {
    let mut asked = vec![0, mask(32)];
    for slot in slots {
        let (first, last) = (slot.0, last_of(32, slot));
        asked.extend([first, last, first.wrapping_sub(1 << 32), last.wrapping_add(1 << 32)]);
    }
    let matches = |slot: &&Route, address: u64| (slot.0..=last_of(32, slot)).contains(&address);
    let first_match = |&address: &u64| slots.iter().find(|slot| matches(slot, address)).map(|slot| (slot.2, slot.1));
    oracle::lookups(false, routes, &asked).into_iter().eq(asked.iter().map(first_match))
}

/// The crate's rewrite. Under ranks it is given each hop's rank for the hop, so that the smallest number is the lowest rank, and the ranks that come out
/// are put back.
fn rewritten_by_crate(case: &Case, routes: &[Route]) -> (Vec<Route>, i64) {
    match case.ranks.as_deref() {
        Some(ranks @ [_, ..]) if case.mode >= 4 => {
            let ranked: Vec<Route> = routes.iter().map(|&(address, length, hop)| (address, length, ranks[hop as usize])).collect();
            let default = if case.mode == 5 { ranks[case.default as usize] } else { 0 };
            let (out, change) = oracle::rewrite(case.long, case.mode, default, &ranked);
            let hop = |rank: u8| ranks.iter().position(|&of| of == rank).expect("each rank is there") as u8;
            (out.into_iter().map(|(address, length, rank)| (address, length, hop(rank))).collect(), change)
        }
        _ => oracle::rewrite(case.long, case.mode, case.default, routes),
    }
}

/// How often the crate is asked about one plan, at most.
const MOST_ASKED: usize = 20_000;

/// Is the model's word about a plan the crate's? Its longest match after each step is asked at every point where a prefix of the tables or of the steps begins
/// or is over; of long plans at as many of the points as can be afforded, where a word of yes is held to.
fn followed_by_crate(old: &[Short], new: &[Short], steps: &[plans::Step], good: bool) -> bool {
    let (was, goal) = (plans::held(old), plans::held(new));
    let points = plans::points_of(&was, &goal, steps);
    let every = (points.len() * (steps.len() + 1)).div_ceil(MOST_ASKED);
    let points: Vec<u64> = points.into_iter().step_by(every).map(|point| (point as u64) << 32).collect();
    let hops = |routes: &[Short]| -> Vec<Option<u8>> {
        oracle::lookups(false, &lengthened(routes), &points).into_iter().map(|found| found.map(|(hop, _)| hop)).collect()
    };
    let (old_hops, new_hops) = (hops(old), hops(new));
    let mut table = was;
    for &step in steps {
        if plans::done(&mut table, step, Fault::None).is_none() {
            return !good;
        }
        let routes: Vec<Short> = table.iter().map(|(&(address, length), &hop)| (address, length, hop)).collect();
        let kept = |((now, old), new): ((&Option<u8>, &Option<u8>), &Option<u8>)| now == old || now == new;
        if !hops(&routes).iter().zip(&old_hops).zip(&new_hops).all(kept) {
            return !good;
        }
    }
    good == (table == goal) || every > 1 && !good
}

/// The answer that is expected: refusals 1 to 9, 12 to 16 and 23 to 28, the list of what has no route, the chip's image and plans by the model, all else by
/// the crate, which is asked about those all the same.
fn expected(case: &Case) -> Answer {
    if case.call == LIVE {
        return live::by_crate(case);
    }
    if case.call == CHECK || case.call == PLAN {
        let answer = model::answer(case, Fault::None);
        if let Ok((old, new, steps)) = plans::accepted(case, Fault::None) {
            let agreed = match &answer {
                Answer::Judged(good) => followed_by_crate(&old, &new, &steps, *good),
                Answer::Planned(Some(steps)) => followed_by_crate(&old, &new, steps, true),
                _ => true,
            };
            assert!(agreed, "the crate finds another answer after a step");
        }
        return answer;
    }
    if let Err((number, at)) = model::accepted(case, Fault::None) {
        return Answer::Refused(number, at);
    }
    // The records as they stand: the crate does its own masking.
    let record = |r: &[u8]| (address_of(r), length_of(r), hop_of(r));
    let routes: Vec<Route> = case.table.chunks(case.size()).map(record).collect();
    let work_short = || (case.work as usize) < 160 * oracle::nodes(case.long, &routes);
    match case.call {
        REWRITE if work_short() => Answer::Refused(10, 0),
        REWRITE | PLAIN => {
            let (out, change) = rewritten_by_crate(case, &routes);
            if case.mode == 1 {
                let of_retired = oracle::rewrite(case.long, 1, 0, &oracle::consistent_set(case.long, &routes)).0;
                assert!(of_retired == out, "the crate's mode 1 makes something else of what its mode 2 wrote");
            }
            if (case.room as usize) < case.size() * out.len() {
                Answer::Refused(11, 0)
            } else {
                Answer::Rewritten(out, change)
            }
        }
        COVER if work_short() => Answer::Refused(10, 0),
        COVER => Answer::Covered(oracle::covers(case.long, &routes, case.query, case.query_length)),
        LOOKUP => Answer::Match(oracle::lookup(case.long, &routes, case.query)),
        SPECIAL => {
            let ranges = model::ranges(case.edition(), Fault::None).unwrap_or_default();
            Answer::Special(oracle::within(&ranges, &routes).into_iter().position(|inside| inside))
        }
        HELD => Answer::Addresses(oracle::addresses(&routes).map_or(1 << 32, u64::from)),
        _ => {
            let answer = model::answer(case, Fault::None);
            match &answer {
                Answer::Unrouted(list) => {
                    assert!(listed_by_crate(case.long, &routes, list), "the crate finds another list of what has no route")
                }
                Answer::Slots(slots) => {
                    assert!(matched_by_crate(&routes, slots), "the crate finds another answer than the first slot's")
                }
                _ => {}
            }
            answer
        }
    }
}

/// Held by the thread that ends the run, so that only one speaks.
static LAST_WORDS: Mutex<()> = Mutex::new(());

/// Prints a case on which two answers differ, keeps it in a file, and ends the run.
fn differ(case: &Case, one: (&str, &str), other: (&str, &str)) -> ! {
    let _alone = LAST_WORDS.lock();
    let mut bytes = Vec::new();
    case.write(&mut bytes);
    let file = format!("{FOLDER}/difference.bin");
    println!("compare: the answers differ on a case of {} bytes:", bytes.len());
    println!("{}", case::hex(&bytes));
    print!("{}", case.describe());
    print!("by {}:\n{}by {}:\n{}", one.0, one.1, other.0, other.1);
    match fs::write(&file, &bytes) {
        Ok(()) => println!("compare: the case is in {file}"),
        Err(error) => println!("compare: the case could not be written to {file}: {error}"),
    }
    exit(1);
}

fn fail(message: String) -> ! {
    let _alone = LAST_WORDS.lock();
    println!("compare: {message}");
    exit(2);
}

/// The expected text of a case, after the model and the damage's plan were held to it.
fn settle(made: &Made) -> (String, Answer) {
    let case = &made.case;
    let by_model = model::answer(case, Fault::None).text(case);
    let answer =
        catch_unwind(|| expected(case)).unwrap_or_else(|_| differ(case, ("the crate", "a panic\n"), ("the model", &by_model)));
    let text = answer.text(case);
    if text != by_model {
        differ(case, ("the crate", &text), ("the model", &by_model));
    }
    if let Some(damage) = &made.damage {
        let planned = Answer::Refused(damage.expect.0, damage.expect.1).text(case);
        if text != planned {
            differ(case, ("the model", &text), ("the plan of the damage", &planned));
        }
    }
    (text, answer)
}

#[derive(Default)]
struct Counts(BTreeMap<String, u64>);

impl Counts {
    fn add(&mut self, what: String) {
        *self.0.entry(what).or_default() += 1;
    }

    fn see(&mut self, made: &Made, answer: &Answer) {
        let call = match made.case.call {
            REWRITE => format!("rewrite, mode {}", made.case.mode),
            PLAIN => format!("plain rewrite, mode {}", made.case.mode),
            COVER => "cover query".to_string(),
            LOOKUP => "lookup".to_string(),
            HELD => "addresses held".to_string(),
            CHIP => "chip image".to_string(),
            SPECIAL => {
                format!("special use, RFC {}", if [5735, 6890].contains(&made.case.edition()) { made.case.edition() } else { 0 })
            }
            CHECK => "check of a plan".to_string(),
            PLAN => "plan".to_string(),
            LIVE => "live map".to_string(),
            _ => "list of what has no route".to_string(),
        };
        let outcome = match answer {
            Answer::Rewritten(_, change) if *change < 0 => "shorter",
            Answer::Rewritten(_, change) if *change > 0 => "longer",
            Answer::Rewritten(..) => "as long",
            Answer::Refused(..) => "refused",
            Answer::Covered(true) => "covered",
            Answer::Covered(false) => "uncovered",
            Answer::Match(Some(_)) => "a hop",
            Answer::Match(None) => "no route",
            Answer::Addresses(_) => "a total",
            Answer::Unrouted(list) if list.is_empty() => "nothing",
            Answer::Unrouted(list) if list.len() > 1_024 => "more than 1,024",
            Answer::Unrouted(_) => "at most 1,024",
            Answer::Slots(slots) if slots.len() == 1_024 => "full",
            Answer::Slots(_) => "slots",
            Answer::Special(Some(_)) => "a record",
            Answer::Special(None) => "none",
            Answer::Lived(said) if said.contains(&live::Said::Refused(18)) => "with no map at times",
            Answer::Lived(_) => "a map throughout",
            Answer::Judged(true) => "yes",
            Answer::Judged(false) => "no",
            Answer::Planned(None) => "gave up",
            Answer::Planned(Some(steps)) if steps.is_empty() => "no step",
            Answer::Planned(Some(_)) => "steps",
        };
        self.add(format!("call     {call}: {outcome}"));
        if let Answer::Lived(said) = answer {
            for said in said {
                let word = format!("{said:?}");
                self.add(format!("command  {}", word.split('(').next().unwrap_or("")));
                if let live::Said::Refused(number) = said {
                    self.add(format!("refusal  {number:2}"));
                }
            }
        }
        if let Answer::Refused(number, _) = answer {
            self.add(format!("refusal  {number:2}"));
        }
        let host_bits =
            made.case.table.chunks_exact(made.case.size()).any(|r| length_of(r) < 64 && address_of(r) << length_of(r) != 0);
        let reading = match (made.case.strict, host_bits) {
            (true, _) => "strict",
            (false, true) => "masked, with host bits",
            (false, false) => "masked, with none",
        };
        self.add(format!("reading  {reading}"));
        self.add(format!("width    {}", made.case.width()));
        let ranks = match &made.case.ranks {
            None => "none lent",
            Some(ranks) if ranks.is_empty() => "an empty list",
            Some(_) => "lent",
        };
        self.add(format!("ranks    {ranks}"));
        self.add(format!("shape    {}", made.shape));
        self.add(format!("rooms    {}", made.rooms));
        if let Some(damage) = made.damage.as_ref().filter(|damage| damage.second != 0) {
            self.add(format!("pair     {:2} with {:2}", damage.first, damage.second));
        }
    }

    fn print(&self) {
        for (what, count) in &self.0 {
            println!("{count:9}  {what}");
        }
    }
}

/// What a program of the repository writes for these bytes.
fn program(command: &str, name: &str, bytes: &[u8], worker: usize) -> Vec<u8> {
    let file = format!("{FOLDER}/{name}.{worker}.bin");
    fs::write(&file, bytes).unwrap_or_else(|error| fail(format!("cannot write {file}: {error}")));
    let input = fs::File::open(&file).unwrap_or_else(|error| fail(format!("cannot read {file}: {error}")));
    let output = Command::new(command)
        .arg(name)
        .stdin(input)
        .stderr(Stdio::inherit())
        .output()
        .unwrap_or_else(|error| fail(format!("cannot run {command}: {error}")));
    if !output.status.success() {
        fail(format!("{name} ended with {}; its input is in {file}", output.status));
    }
    output.stdout
}

/// What `--called` says.
static CALLED: OnceLock<String> = OnceLock::new();

/// Who answers the cases beside the crate and the model.
fn answerer() -> &'static str {
    CALLED.get().map_or("replay", String::as_str)
}

/// What replay writes for these bytes of cases.
fn replay(command: &str, bytes: &[u8], worker: usize) -> String {
    String::from_utf8_lossy(&program(command, answerer(), bytes, worker)).into_owned()
}

/// Holds replay to the expected texts of some cases, taken in one run.
fn hold_replay(command: &str, made: &[Made], texts: &[String], worker: usize) {
    let mut bytes = Vec::new();
    made.iter().for_each(|made| made.case.write(&mut bytes));
    let wrote = replay(command, &bytes, worker);
    let mut rest = wrote.as_str();
    for (i, text) in texts.iter().enumerate() {
        match rest.strip_prefix(text.as_str()) {
            Some(after) => rest = after,
            None => {
                // A line too many shows only at the next case, so the case before is tried alone too.
                for i in [i.saturating_sub(1), i] {
                    let mut bytes = Vec::new();
                    made[i].case.write(&mut bytes);
                    let alone = replay(command, &bytes, worker);
                    if alone != texts[i] {
                        differ(&made[i].case, ("the crate and the model", &texts[i]), (answerer(), &alone));
                    }
                }
                println!("compare: {} differs here only after the cases before this one, all in {FOLDER}/run.bin", answerer());
                fs::write(format!("{FOLDER}/run.bin"), &bytes).unwrap_or_else(|error| fail(format!("cannot write run.bin: {error}")));
                let has: String = rest.lines().take(text.lines().count() + 1).map(|line| format!("{line}\n")).collect();
                differ(&made[i].case, ("the crate and the model", text), (&format!("{}, in a run of cases", answerer()), &has));
            }
        }
    }
    if !rest.is_empty() {
        println!("compare: {} writes more than the answers to its cases: {}", answerer(), rest.lines().next().unwrap_or(""));
        exit(1);
    }
}

/// Runs seeded cases in batches, every rewrite by both engines: the crate against the model, and the first `by_replay` of them against replay.
fn run(cases: u64, seed: u64, command: Option<&str>, by_replay: u64) {
    let workers = thread::available_parallelism().map_or(1, |n| n.get() as u64).min(8);
    let mut counts = Counts::default();
    let (mut twice, mut replayed) = (0, 0);
    let mut start = 0;
    while start < cases {
        let end = cases.min(start + BATCH);
        let share = (end - start).div_ceil(workers);
        let parts: Vec<Vec<(Made, String, Answer)>> = thread::scope(|scope| {
            let part = |worker: u64| {
                let from = (start + worker * share).min(end);
                scope.spawn(move || {
                    (from..end.min(from + share))
                        .flat_map(|index| generate::both(seed, index))
                        .map(|made| {
                            let (text, answer) = settle(&made);
                            (made, text, answer)
                        })
                        .collect()
                })
            };
            let started: Vec<_> = (0..workers).map(part).collect();
            started.into_iter().map(|thread| thread.join().unwrap_or_else(|_| exit(2))).collect()
        });
        let (mut made, mut texts) = (Vec::new(), Vec::new());
        let (mut seen, mut count) = (start, 0);
        for (one, text, answer) in parts.into_iter().flatten() {
            counts.see(&one, &answer);
            if one.case.call == PLAIN {
                twice += 1;
            } else {
                seen += 1;
            }
            made.push(one);
            texts.push(text);
            if seen <= by_replay {
                count = made.len();
            }
        }
        if let Some(command) = command {
            let share = count.div_ceil(workers as usize).max(1);
            thread::scope(|scope| {
                for (worker, (made, texts)) in made[..count].chunks(share).zip(texts[..count].chunks(share)).enumerate() {
                    scope.spawn(move || hold_replay(command, made, texts, worker));
                }
            });
            replayed += count;
        }
        start = end;
        if start % 100_000 == 0 {
            println!("compare: {start} cases agree so far");
        }
    }
    counts.print();
    let pairs = counts.0.keys().filter(|what| what.starts_with("pair ")).count();
    println!("compare: {pairs} pairs of refusal numbers in one call");
    println!(
        "compare: seed {seed}: the crate and the model agree on {cases} cases and on {twice} rewrites again by the plain engine; {} agrees on {replayed} of \
         them",
        answerer()
    );
}

/// Document 01's worked routes, by the crate and by the model.
fn run_worked() {
    for at in 0..generate::WORKED.len() {
        let (case, routes, change) = generate::worked(at);
        let paper = Answer::Rewritten(routes, change).text(&case);
        let (text, _) = settle(&Made { case: case.clone(), shape: "worked", rooms: "of the programs", damage: None });
        if text != paper {
            differ(&case, ("document 01", &paper), ("the crate", &text));
        }
    }
    println!("compare: the crate and the model give document 01's results on its worked routes, {} of them", generate::WORKED.len());
}

fn read(file: &str) -> Vec<u8> {
    fs::read(file).unwrap_or_else(|error| fail(format!("cannot read {file}: {error}")))
}

/// The cases of a file's bytes and the line that ends the run early, if there is one.
fn parse(mut bytes: &[u8]) -> (Vec<Case>, Option<&'static str>) {
    let mut cases = Vec::new();
    while !bytes.is_empty() {
        match Case::read(bytes) {
            Ok((case, rest)) => {
                cases.push(case);
                bytes = rest;
            }
            Err(line) => return (cases, Some(line)),
        }
    }
    (cases, None)
}

fn check_fixed(stdin: &str, stdout: &str) {
    let bytes = read(stdin);
    let (cases, end) = parse(&bytes);
    if let Some(line) = end {
        fail(format!("{stdin}: {line}"));
    }
    let answers = String::from_utf8_lossy(&read(stdout)).into_owned();
    let mut rest = answers.as_str();
    let count = cases.len();
    for case in cases {
        let made = Made { case, shape: "", rooms: "", damage: None };
        let (text, _) = settle(&made);
        match rest.strip_prefix(text.as_str()) {
            Some(after) => rest = after,
            None => {
                let has: String = rest.lines().take(text.lines().count()).map(|line| format!("{line}\n")).collect();
                differ(&made.case, ("the crate", &text), (stdout, &has));
            }
        }
    }
    if !rest.is_empty() || count == 0 {
        fail(format!("{stdout} has answers to more cases than {stdin}, or there is no case"));
    }
    println!("compare: the crate and the model agree with the fixed list, {count} cases");
}

fn write_fixed(stdin: &str, stdout: &str) {
    let (mut bytes, mut text) = (Vec::new(), String::new());
    let mut counts = Counts::default();
    let list = generate::fixed();
    for made in &list {
        let (answer_text, answer) = settle(made);
        counts.see(made, &answer);
        made.case.write(&mut bytes);
        text.push_str(&answer_text);
    }
    for (file, content) in [(stdin, &bytes[..]), (stdout, text.as_bytes())] {
        fs::write(file, content).unwrap_or_else(|error| fail(format!("cannot write {file}: {error}")));
    }
    counts.print();
    println!("compare: {} cases, {} bytes, in {stdin}; their answers in {stdout}", list.len(), bytes.len());
}

/// How a run ends: input cut in a header or in a table, a call that there is not, a work room or a list's output over the bound.
fn check_ends(command: &str) {
    let (case, _, _) = generate::worked(1);
    let mut good = Vec::new();
    case.write(&mut good);
    let text = expected(&case).text(&case);
    let mut tries = vec![(Vec::new(), String::new())];
    for cut in [1, 15, 16, good.len() - 1] {
        tries.push((good[..cut].to_vec(), String::new()));
        tries.push(([&good[..], &good[..cut]].concat(), text.clone()));
    }
    for bytes in [&[(0, LIVE + 1)][..], &[(0, 128 + LIVE + 1)], &[(8, 1)], &[(0, UNROUTED), (8, 0), (9, 4), (10, 0), (11, 1)]] {
        let mut odd = good.clone();
        bytes.iter().for_each(|&(at, byte)| odd[at] = byte);
        tries.push(([&good[..], &odd].concat(), text.clone()));
    }
    for (bytes, mut expect) in tries {
        if let Some(line) = parse(&bytes).1 {
            expect.push_str(line);
            expect.push('\n');
        }
        let wrote = replay(command, &bytes, 0);
        if wrote != expect {
            println!("compare: on the input {} replay writes:\n{wrote}expected:\n{expect}", case::hex(&bytes));
            exit(1);
        }
    }
    println!("compare: replay ends a run as docs/CASES.md says");
}

/// Every planted fault of the model must be found.
fn self_test() {
    let mut left: Vec<(Fault, &str)> = model::FAULTS.to_vec();
    let mut index = 0;
    while !left.is_empty() && index < QUICK_CASES {
        for made in generate::both(1, index) {
            let text = expected(&made.case).text(&made.case);
            left.retain(|&(fault, what)| {
                let same = model::answer(&made.case, fault).text(&made.case) == text;
                if !same {
                    println!("compare: planted fault found by case {index:5} of seed 1: {what}");
                }
                same
            });
        }
        index += 1;
    }
    for (_, what) in &left {
        println!("compare: planted fault NOT found in {index} cases: {what}");
    }
    if !left.is_empty() {
        exit(1);
    }
    println!("compare: all {} planted faults are found", model::FAULTS.len());
}

/// Answers, or puts into words, the cases of standard input.
fn stream(explain: bool) {
    let mut bytes = Vec::new();
    std::io::stdin().read_to_end(&mut bytes).unwrap_or_else(|error| fail(format!("cannot read standard input: {error}")));
    let (cases, end) = parse(&bytes);
    let mut out = std::io::stdout().lock();
    let mut put = |text: String| out.write_all(text.as_bytes()).unwrap_or_else(|_| exit(2));
    for case in cases {
        let (text, _) = settle(&Made { case: case.clone(), shape: "", rooms: "", damage: None });
        put(if explain { format!("{}{text}\n", case.describe()) } else { text });
    }
    if let Some(line) = end {
        put(format!("{line}\n"));
    }
}

fn number(words: &mut impl Iterator<Item = String>, word: &str) -> u64 {
    words.next().and_then(|n| n.parse().ok()).unwrap_or_else(|| fail(format!("{word} needs a number")))
}

/// Holds the program ladders to the crate's folds and pushes: on all patterns of each half of a word, and on random words.
fn run_ladders(command: &str, random: u64, seed: u64) {
    let mut source = generate::Random::new(seed, 0);
    let halves = (0..=0xFFFFu32).flat_map(|half| [half, half << 16]);
    let words: Vec<u32> = halves.chain((0..random).map(|_| source.next() as u32)).collect();
    let wrote = program(command, "ladders", &words.iter().flat_map(|word| word.to_be_bytes()).collect::<Vec<u8>>(), 0);
    let expected = words.iter().flat_map(|&word| oracle::ladders(word)).flat_map(u32::to_be_bytes);
    if let Some(at) = expected.clone().zip(&wrote).position(|(crates, ours)| crates != *ours) {
        println!("compare: DIFFERENCE: ladders of the word {:#010x}, result {} of 10", words[at / 40], at % 40 / 4 + 1);
        exit(1);
    }
    if wrote.len() != 40 * words.len() {
        println!("compare: DIFFERENCE: ladders wrote {} bytes for {} words", wrote.len(), words.len());
        exit(1);
    }
    println!("compare: ladders agrees with the crate on {} words, 10 results each", words.len());
}

fn main() {
    let mut words = std::env::args().skip(1);
    let (mut what, mut cases, mut seed, mut command, mut ladders) = (String::new(), 0, 1, None, None);
    let mut fixed_list = (String::new(), String::new());
    while let Some(word) = words.next() {
        match word.as_str() {
            "--cases" => {
                what = word.clone();
                cases = number(&mut words, &word);
            }
            "--words" => {
                what = word.clone();
                cases = number(&mut words, &word);
            }
            "--ladders" => ladders = words.next(),
            "--seed" => seed = number(&mut words, &word),
            "--replay" => command = words.next(),
            "--called" => CALLED.set(words.next().unwrap_or_default()).unwrap_or_else(|_| fail("--called comes twice".to_string())),
            "--fixed-list" => fixed_list = (words.next().unwrap_or_default(), words.next().unwrap_or_default()),
            "--quick" | "--self-test" | "--fixed" | "--answer" | "--explain" => what = word,
            _ => fail(format!("there is no word {word}")),
        }
    }
    let (command, ladders) = (command.as_deref(), ladders.as_deref());
    match what.as_str() {
        "--cases" if cases > 0 => run(cases, seed, command, cases),
        "--quick" => {
            run_worked();
            check_fixed(&fixed_list.0, &fixed_list.1);
            self_test();
            if let Some(command) = ladders {
                run_ladders(command, QUICK_WORDS, seed);
            }
            if let Some(command) = command {
                check_ends(command);
            }
            run(QUICK_CASES, seed, command, QUICK_REPLAY_CASES);
        }
        "--words" => run_ladders(ladders.unwrap_or_else(|| fail("there is no program ladders".to_string())), cases, seed),
        "--self-test" => self_test(),
        "--fixed" => {
            run_worked();
            write_fixed(&fixed_list.0, &fixed_list.1);
        }
        "--answer" => stream(false),
        "--explain" => stream(true),
        _ => fail("nothing to do: see tools/compare --help".to_string()),
    }
}
