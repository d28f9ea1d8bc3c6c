//! Runs the library's driver (the program `bench`, or library.c) and the crate's (crate.rs) on the same tables, and prints what they take, as
//! tables in markdown.
//! Usage: main FOLDER RUNS LIBRARY-WORDS... -- CRATE-WORDS... -- COUNTED-WORDS... -- PLUGIN-WORDS... -- BOARD-WORDS... -- BOARD-PLUGIN-WORDS...
//! tools/bench calls it: FOLDER is for files, RUNS how often each time is taken; then the words that run the library's driver, the crate's, the
//! crate's that counts its heap, and, where there is an emulator, those that have it count instructions (they go after the emulator's name);
//! then, where the Cortex-M4 board is emulated, those that run the library's driver on it and have its instructions counted.

use std::collections::BTreeSet;
use std::fs;
use std::io::Write;
use std::process::{exit, Command, Stdio};

/// An address with its first bit on top, a length, a hop.
type Route = (u64, u8, u8);

/// The modes of a rewrite; 2 is retired.
const MODES: [u8; 4] = [1, 3, 4, 5];

/// What stands for the list of what has no route where `bench` is told a mode.
const LIST: u8 = 0;

/// What is added to the mode there for the plain engine.
const PLAIN: u8 = 128;

/// And for addresses of 64 bits in records of 16 bytes, which library.c alone takes.
const LONG: u8 = 32;

/// And for calls on a live map, which library.c alone makes: a lookup, a put of a prefix that is present, a put of a new one with its take.
const LIVE: [(u8, &str); 3] = [(64, "lookup"), (65, "put, present"), (66, "put, new, and its take")];

/// A table, and what it is called.
struct Table {
    name: &'static str,
    routes: Vec<Route>,
}

/// Random numbers (splitmix64), from a seed that never changes.
struct Random(u64);

impl Random {
    fn next(&mut self) -> u32 {
        self.wide() as u32
    }

    fn wide(&mut self) -> u64 {
        self.0 = self.0.wrapping_add(0x9E37_79B9_7F4A_7C15);
        let mut z = self.0;
        z = (z ^ z >> 30).wrapping_mul(0xBF58_476D_1CE4_E5B9);
        z = (z ^ z >> 27).wrapping_mul(0x94D0_49BB_1331_11EB);
        z ^ z >> 31
    }
}

fn mask(length: u8) -> u64 {
    u64::MAX.checked_shl(64 - length as u32).unwrap_or(0)
}

fn routes_of(bytes: &[u8]) -> Vec<Route> {
    bytes.chunks_exact(8).map(|r| ((u32::from_be_bytes([r[0], r[1], r[2], r[3]]) as u64) << 32, r[4], r[5])).collect()
}

/// The example's own yard, 10.20.0.0/16, again and again in the /16s from there on, up to 1,024 records.
fn yards(yard: &[Route]) -> Vec<Route> {
    let own: Vec<Route> = yard.iter().copied().filter(|r| r.0 >> 48 == 0x0A14).collect();
    let mut routes: Vec<Route> =
        (0..64u64).flat_map(|k| own.iter().map(move |&(a, l, h)| (a + (k << 48), l, h))).take(1_024).collect();
    routes.sort();
    routes
}

/// So many scattered records of lengths 8 to 32, by 16 hops.
fn mixed(count: usize) -> Vec<Route> {
    let mut random = Random(7);
    let mut prefixes = BTreeSet::new();
    let mut routes = Vec::new();
    while routes.len() < count {
        let length = (8 + random.next() % 25) as u8;
        let address = (random.next() as u64) << 32 & mask(length);
        if prefixes.insert((address, length)) {
            routes.push((address, length, (random.next() % 16) as u8));
        }
    }
    routes.sort();
    routes
}

fn tables(yard: &[Route]) -> Vec<Table> {
    let table = |name, routes| Table { name, routes };
    let mut random = Random(11);
    vec![
        table("yard (the example)", yard.to_vec()),
        table("yards side by side", yards(yard)),
        table("mixed lengths", mixed(1_024)),
        table("host routes", (0..1_024u64).map(|i| (0x0A14_0000 + i << 32, 32, (1 + random.next() % 4) as u8)).collect()),
        table("most nodes", (0..1_024u64).map(|part| (part << 54, 32, (1 + part % 63) as u8)).collect()),
    ]
}

/// The same kinds of tables with addresses of 64 bits: the yards below 2001:db8::/32.
fn long_tables(yard: &[Route]) -> Vec<Table> {
    let table = |name, routes| Table { name, routes };
    let below = |routes: Vec<Route>| routes.into_iter().map(|(a, l, h)| (0x2001_0DB8 << 32 | a >> 32, 32 + l, h)).collect::<Vec<Route>>();
    let mut random = Random(13);
    let mut prefixes = BTreeSet::new();
    let mut mixed = Vec::new();
    while mixed.len() < 1_024 {
        let length = (8 + random.next() % 57) as u8;
        let address = random.wide() & mask(length);
        if prefixes.insert((address, length)) {
            mixed.push((address, length, (random.next() % 16) as u8));
        }
    }
    mixed.sort();
    vec![
        table("yard, 64 bits", below(yard.to_vec())),
        table("yards side by side, 64 bits", below(yards(yard))),
        table("mixed lengths, 64 bits", mixed),
        table("host routes, 64 bits", (0..1_024u64).map(|i| ((0x2001_0DB8 << 32) + i, 64, (1 + random.next() % 4) as u8)).collect()),
        table("most nodes, 64 bits", (0..1_024u64).map(|part| (part << 54, 64, (1 + part % 63) as u8)).collect()),
    ]
}

/// The nodes of a table: the root, and one for each depth 5, 10, .. that a record reaches.
fn nodes(routes: &[Route]) -> usize {
    let mut seen = BTreeSet::from([(0, 0)]);
    for &(address, length, _) in routes {
        for depth in (5..=length).step_by(5) {
            seen.insert((depth, address & mask(depth)));
        }
    }
    seen.len()
}

/// What both programs read.
fn input(times: u32, mode: u8, words: usize, routes: &[Route]) -> Vec<u8> {
    let mut bytes = times.to_be_bytes()[1..].to_vec();
    bytes.extend([mode, 0]);
    bytes.extend(&(words as u32).to_be_bytes()[1..]);
    for &(address, length, hop) in routes {
        let octets = if mode & LONG != 0 { 8 } else { 4 };
        bytes.extend(&address.to_be_bytes()[..octets]);
        bytes.extend([length, if mode % LONG == 1 && !(64..PLAIN).contains(&mode) { 0 } else { hop }]);
        bytes.extend(&[0; 6][..octets - 2]);
    }
    bytes
}

#[repr(C)]
#[derive(Default)]
struct Usage {
    user: [i64; 2],
    system: [i64; 2],
    rest: [i64; 14],
}

extern "C" {
    fn getrusage(who: i32, usage: *mut Usage) -> i32;
}

/// The processor time of all programs that were run so far, in microseconds.
fn used() -> i64 {
    let mut usage = Usage::default();
    // SAFETY: the struct is laid out as C's on 64-bit Linux; -1 asks for the children.
    unsafe { getrusage(-1, &mut usage) };
    1_000_000 * (usage.user[0] + usage.system[0]) + usage.user[1] + usage.system[1]
}

/// Runs a program, and says its line and the processor time that it took.
fn run(words: &[String], bytes: &[u8]) -> (String, i64) {
    let before = used();
    let mut child = Command::new(&words[0])
        .args(&words[1..])
        .stdin(Stdio::piped())
        .stdout(Stdio::piped())
        .spawn()
        .unwrap_or_else(|error| fail(&format!("{}: {error}", words[0])));
    child.stdin.take().unwrap().write_all(bytes).unwrap_or_else(|error| fail(&format!("{}: {error}", words.join(" "))));
    let output = child.wait_with_output().unwrap();
    if !output.status.success() {
        fail(&format!("{} ended with {}", words.join(" "), output.status));
    }
    (String::from_utf8_lossy(&output.stdout).trim().to_string(), used() - before)
}

fn fail(why: &str) -> ! {
    eprintln!("bench: {why}");
    exit(1)
}

/// Instructions, and bytes of stack.
type Counts = [i64; 2];

struct Bench {
    folder: String,
    runs: u32,
    ours: Vec<String>,
    theirs: Vec<String>,
    counted: Vec<String>,
    plugin: Vec<String>,
    board: Vec<String>,
    board_plugin: Vec<String>,
}

impl Bench {
    /// The least time of a rewrite in microseconds: a run of many rewrites less a run of one. They are made so many that they take 50
    /// milliseconds.
    fn time(&self, words: &[String], mode: u8, room: usize, routes: &[Route]) -> f64 {
        let once = |times| run(words, &input(times, mode, room, routes)).1;
        let least = |times| (0..self.runs).map(|_| once(times)).min().unwrap();
        let one = least(1);
        let mut many = 2;
        loop {
            let spent = once(1 + many) - one;
            if spent >= 50_000 || many >= 1 << 22 {
                break;
            }
            many *= if spent < 5_000 { 8 } else { 2 };
        }
        (least(1 + many) - one) as f64 / many as f64
    }

    fn count(&self, words: &[String], times: u32, stack: bool, mode: u8, room: usize, routes: &[Route]) -> Counts {
        let file = format!("{}/counts", self.folder);
        let plugin = if words == self.board { &self.board_plugin } else { &self.plugin };
        let option = format!("{},out={file}{}", plugin[1], if stack { ",stack=on" } else { "" });
        let mut all = vec![words[0].clone(), plugin[0].clone(), option];
        all.extend_from_slice(&words[1..]);
        run(&all, &input(times, mode, room, routes));
        let text = fs::read_to_string(&file).unwrap_or_else(|error| fail(&format!("{file}: {error}")));
        let numbers: Vec<i64> = text.split_whitespace().map(|word| word.parse().unwrap()).collect();
        [numbers[0], numbers[1]]
    }

    /// The instructions of a rewrite: three rewrites less one.
    fn instructions(&self, words: &[String], mode: u8, room: usize, routes: &[Route]) -> i64 {
        let counted = |times| self.count(words, times, false, mode, room, routes)[0];
        (counted(3) - counted(1)) / 2
    }

    fn has_counts(&self) -> bool {
        !self.plugin.is_empty()
    }

    /// One line: a table in a mode.
    fn line(&self, name: &str, mode: u8, routes: &[Route]) {
        let nodes = nodes(routes);
        let room = 160 * nodes;
        let bytes = input(1, mode, room, routes);
        let (one, other) = (run(&self.ours, &bytes).0, run(&self.theirs, &bytes).0);
        if one != other {
            fail(&format!("{name}, mode {mode}: this library answers '{one}', the crate '{other}'"));
        }
        let result = one.split_whitespace().nth(1).unwrap_or("").to_string();
        let (ours, theirs) = (self.time(&self.ours, mode, room, routes), self.time(&self.theirs, mode, room, routes));
        print!(
            "| {name} | {} | {} | {} | {result} | {} | {} | **{:.2}** |",
            thousands_of(routes.len() as i64),
            thousands_of(nodes as i64),
            mode % LONG,
            microseconds(ours),
            microseconds(theirs),
            ours / theirs
        );
        if self.has_counts() {
            let (ours, theirs) =
                (self.instructions(&self.ours, mode, room, routes), self.instructions(&self.theirs, mode, room, routes));
            print!(" {} | {} | {:.2} |", thousands(ours), thousands(theirs), ours as f64 / theirs as f64);
        }
        println!();
    }

    fn head(&self) {
        let counts = self.has_counts();
        println!(
            "| table | records | nodes | mode | result | library, µs | crate, µs | time |{}",
            if counts { " library, instr. | crate, instr. | instr. |" } else { "" }
        );
        println!("|---|--:|--:|--:|--:|--:|--:|--:|{}", if counts { "--:|--:|--:|" } else { "" });
    }

    /// The list of what has no route, which the crate does not have, in an output that is always enough.
    fn lists(&self, tables: &[Table]) {
        let counts = self.has_counts();
        println!("\n| table | records | prefixes without a route | library, µs |{}", if counts { " instr. |" } else { "" });
        println!("|---|--:|--:|--:|{}", if counts { "--:|" } else { "" });
        for table in tables {
            let answer = run(&self.ours, &input(1, LIST, 0, &table.routes)).0;
            let Some(count) = answer.strip_prefix("unrouted ").and_then(|count| count.parse().ok()) else {
                fail(&format!("{}: this library answers '{answer}'", table.name))
            };
            print!(
                "| {} | {} | {} | {:.0} |",
                table.name,
                thousands_of(table.routes.len() as i64),
                thousands_of(count),
                self.time(&self.ours, LIST, 0, &table.routes)
            );
            if counts {
                print!(" {} |", thousands(self.instructions(&self.ours, LIST, 0, &table.routes)));
            }
            println!();
        }
    }

    /// The plain engine, which has no work room, beside the one over nodes.
    fn engines(&self, tables: &[Table]) {
        let counts = self.has_counts();
        println!(
            "\n| table | records | mode | plain, µs | over nodes, µs | plain / nodes |{}",
            if counts { " plain, instr. | over nodes, instr. | instr. |" } else { "" }
        );
        println!("|---|--:|--:|--:|--:|--:|{}", if counts { "--:|--:|--:|" } else { "" });
        for table in tables {
            let room = 160 * nodes(&table.routes);
            for mode in [1, 4, 5] {
                let answer = |mode| run(&self.ours, &input(1, mode, room, &table.routes)).0;
                let (plain, over_nodes) = (answer(PLAIN + mode), answer(mode));
                if plain != over_nodes {
                    fail(&format!("{}, mode {mode}: the plain engine answers '{plain}', the other '{over_nodes}'", table.name));
                }
                let time = |mode| self.time(&self.ours, mode, room, &table.routes);
                let (plain, over_nodes) = (time(PLAIN + mode), time(mode));
                print!(
                    "| {} | {} | {mode} | {} | {} | {:.2} |",
                    table.name,
                    thousands_of(table.routes.len() as i64),
                    microseconds(plain),
                    microseconds(over_nodes),
                    plain / over_nodes
                );
                if counts {
                    let count = |mode| self.instructions(&self.ours, mode, room, &table.routes);
                    let (plain, over_nodes) = (count(PLAIN + mode), count(mode));
                    print!(" {} | {} | {:.2} |", thousands(plain), thousands(over_nodes), plain as f64 / over_nodes as f64);
                }
                println!();
            }
        }
    }

    /// The instructions that clearing a word of the room takes: by a small table in the room that it needs and in the whole one.
    fn clearing(&self, yard: &[Route]) -> f64 {
        let (needed, whole) = (160 * nodes(yard), 824_480);
        let all = |room| self.instructions(&self.ours, 2, room, yard);
        (all(whole) - all(needed)) as f64 / (whole - needed) as f64
    }

    /// Where the work goes. The library checks the rules and counts the nodes, and no more, where it is lent no room.
    fn parts(&self, tables: &[Table], clearing: f64) {
        println!("\n| table | mode | crate: fill | aggregate | write | library: check | walks | clear |");
        println!("|---|--:|--:|--:|--:|--:|--:|--:|");
        for table in tables {
            for mode in MODES {
                let room = 160 * nodes(&table.routes);
                let at = |stage: &str| {
                    let mut words = self.theirs.clone();
                    words.push(stage.to_string());
                    self.instructions(&words, mode, room, &table.routes)
                };
                let (filled, aggregated, written) = (at("filled"), at("aggregated"), at("written"));
                let checked = self.instructions(&self.ours, mode, 0, &table.routes);
                let cleared = (clearing * room as f64) as i64;
                println!(
                    "| {} | {mode} | {} | {} | {} | {} | {} | {} |",
                    table.name,
                    thousands(filled),
                    thousands(aggregated - filled),
                    thousands(written - aggregated),
                    thousands(checked),
                    thousands(self.instructions(&self.ours, mode, room, &table.routes) - checked - cleared),
                    thousands(cleared)
                );
            }
        }
    }

    /// Room, heap and stack. The stack is what two rewrites reach below what the program reaches with none.
    fn memory(&self, tables: &[Table]) {
        println!("\n| table | nodes | mode | library: work room, bytes | stack | crate: heap, bytes | stack |");
        println!("|---|--:|--:|--:|--:|--:|--:|");
        for table in tables {
            for mode in MODES {
                let nodes = nodes(&table.routes);
                let room = 160 * nodes;
                let heap = run(&self.counted, &input(2, mode, room, &table.routes)).0;
                let stack = |words: &[String]| {
                    if !self.has_counts() {
                        return "-".to_string();
                    }
                    let reached = |times| self.count(words, times, true, mode, room, &table.routes)[1];
                    thousands_of(reached(2) - reached(0))
                };
                println!(
                    "| {} | {} | {mode} | {} | {} | {} | {} |",
                    table.name,
                    thousands_of(nodes as i64),
                    thousands_of(4 * room as i64),
                    stack(&self.ours),
                    thousands_of(heap.split_whitespace().nth(1).and_then(|word| word.parse().ok()).unwrap_or(0)),
                    stack(&self.theirs)
                );
            }
        }
    }
}

impl Bench {
    /// Calls on a live map beside a rewrite of the same records, in a room with one node to spare.
    fn live(&self, words: &[String], with_times: bool) {
        println!("\n| records | call |{}", if with_times { " µs | mode 4 of all, µs |" } else { " instr. | mode 4 of all, instr. |" });
        println!("|--:|---|--:|--:|");
        for count in [100, 1_000] {
            let routes = mixed(count);
            let nodes = nodes(&routes);
            for (kind, name) in LIVE {
                let answer = run(words, &input(1, kind, 160 * (nodes + 6), &routes)).0;
                if !answer.starts_with("records ") {
                    fail(&format!("live map, {name}: this library answers '{answer}'"));
                }
                print!("| {} | {name} |", thousands_of(count as i64));
                if with_times {
                    let (call, all) = (self.time(words, kind, 160 * (nodes + 6), &routes), self.time(words, 4, 160 * nodes, &routes));
                    println!(" {} | {} |", microseconds(call), microseconds(all));
                } else {
                    let call = self.instructions(words, kind, 160 * (nodes + 6), &routes);
                    println!(" {} | {} |", thousands_of(call), thousands_of(self.instructions(words, 4, 160 * nodes, &routes)));
                }
            }
        }
    }

    /// What a rewrite takes on the board: instructions, and what they come to at 180 MHz, one a cycle.
    fn on_board(&self, tables: &[Table]) {
        println!("\nCortex-M4, instructions of a rewrite, and milliseconds at 180 MHz if each took one cycle.\n");
        println!("| table | records | nodes | mode 1 | mode 3 | mode 4 | mode 5 | plain, mode 1 | mode 4 | mode 5 |");
        println!("|---|--:|--:|--:|--:|--:|--:|--:|--:|--:|");
        for table in tables {
            let nodes = nodes(&table.routes);
            print!("| {} | {} | {} |", table.name, thousands_of(table.routes.len() as i64), thousands_of(nodes as i64));
            for mode in [1, 3, 4, 5, PLAIN + 1, PLAIN + 4, PLAIN + 5] {
                let count = self.instructions(&self.board, mode, 160 * nodes, &table.routes);
                print!(" {:.2} M, {:.1} ms |", count as f64 / 1e6, count as f64 / 180e3);
            }
            println!();
        }
    }
}

/// A number with commas between its thousands.
fn thousands_of(n: i64) -> String {
    let digits = n.to_string();
    let mut text = String::new();
    for (i, digit) in digits.chars().enumerate() {
        if i > 0 && (digits.len() - i) % 3 == 0 {
            text.push(',');
        }
        text.push(digit);
    }
    text
}

/// Microseconds, to three figures at the least.
fn microseconds(time: f64) -> String {
    let places = [10.0, 100.0].iter().filter(|bound| time < **bound).count();
    format!("{time:.places$}")
}

/// Instructions in thousands.
fn thousands(n: i64) -> String {
    format!("{} k", thousands_of((n + 500) / 1_000))
}

fn main() {
    let words: Vec<String> = std::env::args().skip(1).collect();
    let parts: Vec<Vec<String>> = words[2..].split(|word| word == "--").map(|part| part.to_vec()).collect();
    let bench = Bench {
        folder: words[0].clone(),
        runs: words[1].parse().expect("RUNS is a number"),
        ours: parts[0].clone(),
        theirs: parts[1].clone(),
        counted: parts[2].clone(),
        plugin: parts.get(3).cloned().unwrap_or_default(),
        board: parts.get(4).cloned().unwrap_or_default(),
        board_plugin: parts.get(5).cloned().unwrap_or_default(),
    };
    let yard = routes_of(&fs::read("examples/yard.table").unwrap_or_else(|error| fail(&format!("examples/yard.table: {error}"))));
    let tables = tables(&yard);
    println!("A table in a mode; the ratios are this library's number over the crate's.\n");
    bench.head();
    for table in &tables {
        for mode in MODES {
            bench.line(table.name, mode, &table.routes);
        }
    }
    let by_c = bench.ours.last().is_some_and(|word| word.ends_with("/library"));
    if by_c {
        println!("\nAddresses of 64 bits.\n");
        bench.head();
        for table in &long_tables(&yard) {
            for mode in MODES {
                bench.line(table.name, LONG + mode, &table.routes);
            }
        }
    }
    println!("\nThe list of what has no route, in an output of 180,224 bytes: the holes are not counted first.");
    bench.lists(&tables);
    if by_c {
        println!("\nThe live map, beside a rewrite of its records.");
        bench.live(&bench.ours, true);
    }
    println!("\nThe plain engine beside the one over nodes.");
    bench.engines(&tables);
    println!("\nHow it grows: scattered records of mixed lengths.\n");
    bench.head();
    for mode in [1, 3, 4] {
        for count in [1, 4, 16, 64, 256, 1_024] {
            bench.line("mixed lengths", mode, &mixed(count));
        }
    }
    if bench.has_counts() {
        let clearing = bench.clearing(&yard);
        println!("\nInstructions by part. Clearing a word of the room takes {clearing:.2} of them.");
        bench.parts(&tables, clearing);
    }
    println!("\nMemory.");
    bench.memory(&tables);
    if !bench.board.is_empty() {
        bench.on_board(&tables);
        println!("\nThe live map on the Cortex-M4.");
        bench.live(&bench.board, false);
    }
}
