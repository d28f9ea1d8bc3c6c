//! Plans: the model's planner and checker, written from document 02 by single steps on a table of prefixes, and the cases of both.

use std::collections::BTreeMap;

use crate::case::{lengthened, shortened, table_of, Answer, Case, Short as Route, CHECK, PLAN};
use crate::generate::{self, Damage, Made, Random};
use crate::model::{self, Fault};

/// A step as its eight bytes: address, length, hop, 0 for a take and else a put, a byte that is not read.
pub type StepBytes = [u8; 8];

#[derive(Clone, Copy, PartialEq, Eq, Debug)]
pub enum Step {
    Put(Route),
    Take(u32, u8),
}

/// A table that is changed step by step.
pub type Held = BTreeMap<(u32, u8), u8>;

pub fn held(routes: &[Route]) -> Held {
    routes.iter().map(|&(address, length, hop)| ((address, length), hop)).collect()
}

fn mask(length: u8) -> u32 {
    u32::MAX.checked_shl(32 - length as u32).unwrap_or(0)
}

/// The hop, and the length, of an address's longest match.
fn answer_in(table: &Held, address: u32) -> Option<(u8, u8)> {
    (0..=32u8).rev().find_map(|length| table.get(&(address & mask(length), length)).map(|&hop| (hop, length)))
}

/// Where each of the prefixes begins and where it is over, and address 0: between two of these every prefix matches all addresses or none.
fn points(prefixes: impl Iterator<Item = (u32, u8)>) -> Vec<u32> {
    let mut points = vec![0];
    for (address, length) in prefixes {
        points.push(address);
        points.push((address | !mask(length)).wrapping_add(1));
    }
    points.sort();
    points.dedup();
    points
}

/// The step of eight bytes: masked, and a take's hop not read; none where it deserves number 13.
pub fn step_of(bytes: &StepBytes, strict: bool, fault: Fault) -> Option<Step> {
    let (address, length, hop, put) =
        (u32::from_be_bytes([bytes[0], bytes[1], bytes[2], bytes[3]]), bytes[4], bytes[5], bytes[6] != 0);
    if length > 32 || (strict && address & !mask(length) != 0) {
        return None;
    }
    if hop > 63 && (put || fault == Fault::TakeHopRead) {
        return None;
    }
    let address = if fault == Fault::StepsUnmasked { address } else { address & mask(length) };
    Some(if put { Step::Put((address, length, hop)) } else { Step::Take(address, length) })
}

/// The bytes of a step, as the planner gives them.
pub fn bytes_of(step: Step) -> StepBytes {
    let (address, length, hop, put) = match step {
        Step::Put((address, length, hop)) => (address, length, hop, 1),
        Step::Take(address, length) => (address, length, 0, 0),
    };
    let [a, b, c, d] = address.to_be_bytes();
    [a, b, c, d, length, hop, put, 0]
}

/// The table after a step; none where it cannot be done.
pub fn done(table: &mut Held, step: Step, fault: Fault) -> Option<()> {
    match step {
        Step::Put((address, length, hop)) => {
            table.insert((address, length), hop);
        }
        Step::Take(address, length) => {
            if table.remove(&(address, length)).is_none() && fault != Fault::AbsentTaken {
                return None;
            }
        }
    }
    (table.len() <= 1024 || fault == Fault::CountUnwatched).then_some(())
}

/// The prefix of a step.
pub fn prefix_of(step: Step) -> (u32, u8) {
    match step {
        Step::Put((address, length, _)) | Step::Take(address, length) => (address, length),
    }
}

/// The points at which a plan is followed.
pub fn points_of(old: &Held, new: &Held, steps: &[Step]) -> Vec<u32> {
    points(old.keys().chain(new.keys()).copied().chain(steps.iter().map(|&step| prefix_of(step))))
}

/// Does each address have its old or its new answer after every step, can every step be done, and is the table at the end the new one? A step changes
/// the answers of the addresses in its prefix alone, so that only the points there are asked after it.
pub fn is_good(old: &[Route], new: &[Route], steps: &[Step], fault: Fault) -> bool {
    let (old, new) = (held(old), held(new));
    let points = match fault {
        Fault::OnlyStepStarts => points(std::iter::empty()).into_iter().chain(steps.iter().map(|&step| prefix_of(step).0)).collect(),
        _ => points_of(&old, &new, steps),
    };
    let mut table = old.clone();
    for &step in steps {
        if done(&mut table, step, fault).is_none() {
            return false;
        }
        let (address, length) = prefix_of(step);
        for &point in points.iter().filter(|&&point| point & mask(length) == address) {
            let (was, goal, now) = (answer_in(&old, point), answer_in(&new, point), answer_in(&table, point));
            let hop = |answer: Option<(u8, u8)>| answer.map(|(hop, _)| hop);
            let kept = match fault {
                Fault::OnlyTheEnd => true,
                Fault::LengthsCompared => now == was || now == goal,
                Fault::OnlyTheNew => hop(now) == hop(goal),
                _ => hop(now) == hop(was) || hop(now) == hop(goal),
            };
            if !kept {
                return false;
            }
        }
    }
    table == new
}

/// The planner's steps: puts of what is new or changed by falling length, then takes of what the new table lacks by rising length.
pub fn proposed(old: &[Route], new: &[Route], fault: Fault) -> Vec<Step> {
    let (in_old, in_new) = (held(old), held(new));
    let unchanged = |route: &&Route| fault != Fault::UnchangedPut && in_old.get(&(route.0, route.1)) == Some(&route.2);
    let mut puts: Vec<Route> = new.iter().filter(|route| !unchanged(route)).copied().collect();
    let mut takes: Vec<Route> = old.iter().filter(|route| !in_new.contains_key(&(route.0, route.1))).copied().collect();
    puts.sort_by_key(|route| if fault == Fault::PutsByRisingLength { route.1 } else { 32 - route.1 });
    takes.sort_by_key(|route| if fault == Fault::TakesByFallingLength { 32 - route.1 } else { route.1 });
    let puts = puts.into_iter().map(Step::Put);
    let takes = takes.into_iter().map(|route| Step::Take(route.0, route.1));
    if fault == Fault::TakesFirst {
        takes.chain(puts).collect()
    } else {
        puts.chain(takes).collect()
    }
}

/// How many prefixes the two tables have together.
pub fn together(old: &[Route], new: &[Route]) -> usize {
    let mut both = held(old);
    both.extend(held(new));
    both.len()
}

/// The parts of a case of either call: the installed table, the new one, the bytes of the steps.
pub fn parts(case: &Case) -> (&[u8], &[u8], Vec<StepBytes>) {
    let (new, steps) = case.more.split_at((case.work >> 16) as usize);
    (&case.table, new, steps.chunks_exact(8).map(|step| step.try_into().unwrap()).collect())
}

/// The routes of both tables and the steps of an accepted case; or the refusal by 3 to 8, 23 to 28 or 13.
pub fn accepted(case: &Case, fault: Fault) -> Result<(Vec<Route>, Vec<Route>, Vec<Step>), (u8, usize)> {
    let (installed, new, steps) = parts(case);
    let routes = |table| model::routes_of(table, 8, true, case.strict, fault).map(|routes| shortened(&routes));
    let old = routes(installed)?;
    let new = routes(new).map_err(|(number, at)| (if fault == Fault::NewAsInstalled { number } else { number + 20 }, at))?;
    let read = |(at, bytes): (usize, &StepBytes)| step_of(bytes, case.strict, fault).ok_or((13, at));
    let steps = steps.iter().enumerate().map(read).collect::<Result<Vec<Step>, (u8, usize)>>()?;
    Ok((old, new, steps))
}

/// The model's answer to a case of either call.
pub fn answer(case: &Case, fault: Fault) -> Answer {
    let (old, new, steps) = match accepted(case, fault) {
        Err((number, at)) => return Answer::Refused(number, at),
        Ok(parts) => parts,
    };
    if case.call == CHECK {
        return Answer::Judged(is_good(&old, &new, &steps, fault));
    }
    let plan = proposed(&old, &new, fault);
    let room = case.work as usize & 0xFFFF;
    let many = together(&old, &new) > 1024 && fault != Fault::NeverTooMany;
    Answer::Planned((!many && plan.len() <= room).then_some(plan))
}

/// Another table, near this one: records taken away, given another hop, and put.
fn varied(random: &mut Random, routes: &[Route]) -> Vec<Route> {
    let mut table = held(routes);
    let (dropped, changed) = (random.pick(&[0, 10, 40, 90]), random.pick(&[0, 10, 40]));
    for &(address, length, _) in routes {
        if random.chance(dropped) {
            table.remove(&(address, length));
        } else if random.chance(changed) {
            table.insert((address, length), random.below(64) as u8);
        }
    }
    for _ in 0..random.below(12) {
        let (address, length, hop) = match routes {
            [] => (random.short(), random.below(33) as u8, 1),
            _ => random.pick(routes),
        };
        let near = (length as usize + random.below(5)).saturating_sub(2).min(32) as u8;
        let address = (address ^ if random.chance(50) { 1u32.checked_shl(32 - near as u32).unwrap_or(0) } else { 0 }) & mask(near);
        table.insert((address, near), if random.chance(50) { hop } else { random.below(64) as u8 });
    }
    table.into_iter().map(|((address, length), hop)| (address, length, hop)).take(1024).collect()
}

/// What is done to a good plan, in words.
const SPOILED: [&str; 11] = [
    "as planned",
    "a step left out",
    "a step doubled",
    "two steps swapped",
    "neighbours swapped",
    "another hop",
    "a put as a take",
    "takes first",
    "backwards",
    "an absent prefix taken",
    "a detour put and taken",
];

fn spoil(random: &mut Random, how: usize, old: &[Route], steps: &mut Vec<Step>) {
    if how == 9 || how == 10 {
        let (address, length) = match (old, steps.as_slice()) {
            ([], []) => (random.short(), random.below(33) as u8),
            (_, [_, ..]) if old.is_empty() || random.chance(40) => prefix_of(random.pick(steps)),
            _ => {
                let (address, length, _) = random.pick(old);
                (address, length)
            }
        };
        // A shorter prefix that begins where a longer one hides its start, or one near.
        let shortest = 32 - address.trailing_zeros().min(32) as usize;
        let length = match length as usize {
            length if shortest < length && random.chance(70) => random.within(shortest, length - 1) as u8,
            length => (length + random.below(3)).min(32) as u8,
        };
        let at = random.below(steps.len() + 1);
        let address = address & mask(length);
        steps.insert(at, Step::Take(address, length));
        if how == 10 {
            steps.insert(at, Step::Put((address, length, random.below(64) as u8)));
        }
        return;
    }
    if steps.is_empty() {
        return;
    }
    let (at, other) = (random.below(steps.len()), random.below(steps.len()));
    match how {
        1 => {
            steps.remove(at);
        }
        2 => steps.insert(other, steps[at]),
        3 => steps.swap(at, other),
        4 => {
            let after = (at + 1) % steps.len();
            steps.swap(at, after);
        }
        5 => {
            if let Step::Put(route) = &mut steps[at] {
                route.2 = (route.2 + 1 + random.below(63) as u8) % 64;
            }
        }
        6 => {
            let (address, length) = prefix_of(steps[at]);
            steps[at] = match steps[at] {
                Step::Put(_) => Step::Take(address, length),
                Step::Take(..) => Step::Put((address, length, random.below(64) as u8)),
            };
        }
        7 => steps.sort_by_key(|step| matches!(step, Step::Put(_))),
        8 => steps.reverse(),
        _ => {}
    }
}

/// The bytes of steps, with what is not read arbitrary and, by default, host bits.
fn written(random: &mut Random, steps: &[Step], strict: bool) -> Vec<u8> {
    let loosened = if strict { 0 } else { random.pick(&[0, 30, 100]) };
    let mut bytes = Vec::new();
    for &step in steps {
        let mut step = bytes_of(step);
        if step[6] == 0 {
            step[5] = random.pick(&[0, 63, 64, 255]);
        } else {
            step[6] = random.pick(&[1, 1, 2, 128, 255]);
        }
        step[7] = random.pick(&[0, 1, 255]);
        if random.chance(loosened) {
            let address = u32::from_be_bytes([step[0], step[1], step[2], step[3]]) | random.short() & !mask(step[4]);
            step[..4].copy_from_slice(&address.to_be_bytes());
        }
        bytes.extend(step);
    }
    bytes
}

/// The installed table, the new one, and the steps that lead from one to the other.
fn tables(random: &mut Random, shape: usize) -> (Vec<Route>, Vec<Route>, Vec<Step>) {
    let hops = random.pick(&[1, 2, 2, 3, 8, 64]);
    let routes = |random: &mut Random| shortened(&generate::routes_of(random, false, shape, hops));
    let old = routes(random);
    let new = match random.below(10) {
        0 => old.clone(),
        1 => routes(random),
        _ => varied(random, &old),
    };
    let steps = proposed(&old, &new, Fault::None);
    (old, new, steps)
}

/// A case of either call over these tables and bytes.
fn cased(random: &mut Random, call: u8, strict: bool, tables: (&[Route], &[Route]), steps: &[u8], room: usize) -> Case {
    let mut case = generate::blank(call, random.pick(&[0, 1, 6, 255]));
    (case.strict, case.table) = (strict, table_of(&lengthened(tables.0), false));
    let mut new = table_of(&lengthened(tables.1), false);
    if !strict {
        generate::loosen(random, &mut case.table, 8);
        generate::loosen(random, &mut new, 8);
    }
    case.work = (new.len() as u32) << 16 | if call == CHECK { steps.len() / 8 } else { room } as u32;
    case.more = new;
    if call == CHECK {
        case.more.extend(steps);
    }
    case
}

/// A case of either call on accepted tables of a shape.
pub fn whole(random: &mut Random, call: u8, shape: usize) -> Made {
    let (old, new, mut steps) = tables(random, shape);
    let strict = random.chance(25);
    let rooms;
    let (mut bytes, mut room) = (Vec::new(), 0);
    if call == CHECK {
        let how = if random.chance(20) { 0 } else { random.below(SPOILED.len() + 3).min(SPOILED.len() - 1) };
        spoil(random, how, &old, &mut steps);
        rooms = SPOILED[how];
        bytes = written(random, &steps, strict);
    } else {
        (rooms, room) = match random.below(5) {
            0 => ("one step short", steps.len().saturating_sub(1)),
            1 => ("exact", steps.len()),
            2 => ("as many as the prefixes", together(&old, &new)),
            3 => ("roomy", steps.len() + random.within(1, 20)),
            _ => ("none", 0),
        };
    }
    let case = cased(random, call, strict, (&old, &new), &bytes, room.min(65_535));
    Made { case, shape: generate::SHAPES[shape], rooms, damage: None }
}

/// Two full tables whose prefixes together are more than 1,024, with a plan that never is: each take comes before a put.
pub fn crowded(random: &mut Random, call: u8) -> Made {
    let few = random.within(1, 3);
    let old: Vec<Route> = (0..1024u32).map(|part| (part << 20, 12, random.below(64) as u8)).collect();
    let new: Vec<Route> = old[few..].iter().copied().chain((0..few as u32).map(|part| (1 << 31 | part << 20, 12, 7))).collect();
    let taken = |route: &Route| Step::Take(route.0, route.1);
    let mut steps: Vec<Step> =
        old[..few].iter().zip(&new[1024 - few..]).flat_map(|(old, new)| [taken(old), Step::Put(*new)]).collect();
    if random.chance(50) {
        steps = proposed(&old, &new, Fault::None);
    }
    let bytes = written(random, &steps, true);
    let case = cased(random, call, true, (&old, &new), &bytes, 1_100);
    Made { case, shape: "1,024 each, more together", rooms: "as the shape asks", damage: None }
}

/// The numbers that a call can give, in the order in which they are tried.
pub fn numbers(call: u8) -> &'static [u8] {
    match call {
        CHECK => &[3, 4, 5, 6, 7, 8, 23, 24, 25, 26, 27, 28, 13],
        _ => &[3, 4, 5, 6, 7, 8, 23, 24, 25, 26, 27, 28],
    }
}

/// Pairs of numbers that concern different parts: the installed table, the new one, the steps.
pub fn pairs(call: u8) -> Vec<(u8, u8)> {
    let part = |number: u8| if number == 13 { 3 } else { 1 + number / 20 };
    let all = numbers(call).iter();
    all.flat_map(|&first| numbers(call).iter().filter(move |&&second| part(first) < part(second)).map(move |&second| (first, second)))
        .collect()
}

/// Spoils a table so that it deserves a number of 3 to 8, and says the record.
fn spoil_table(random: &mut Random, table: &mut Vec<u8>, number: u8, strict: bool) -> usize {
    match number {
        3 => {
            table.push(random.pick(&[0, 1, 255]));
            0
        }
        4 => {
            table.extend(vec![255; 8 * 1024]);
            0
        }
        _ => {
            let at = random.within(1, table.len() / 8 - 1);
            generate::spoil(random, table, 8, at, number, false, strict);
            at
        }
    }
}

/// A case of either call with one fault, or with two of them in different parts (`second` not 0).
pub fn damaged(random: &mut Random, call: u8, first: u8, second: u8) -> Made {
    let has = |number: u8| first == number || second == number;
    let strict = has(6) || has(26) || random.chance(30);
    let table = |random: &mut Random| -> Vec<Route> {
        let count = random.within(4, 10) as u32;
        let length = |random: &mut Random| random.within(13, 30) as u8;
        (0..count)
            .map(|i| {
                let length = length(random);
                ((i << 28 | random.short() >> 4) & mask(length), length, random.below(64) as u8)
            })
            .collect()
    };
    let (old, new) = (table(random), table(random));
    let mut bytes = written(random, &proposed(&old, &new, Fault::None), strict);
    let mut at_step = 0;
    if has(13) {
        at_step = random.below(bytes.len() / 8);
        let step = &mut bytes[8 * at_step..8 * at_step + 8];
        match random.below(3) {
            0 if strict => step[3] |= 1,
            1 => (step[5], step[6]) = (random.pick(&[64, 64, 128, 255]), random.pick(&[1, 255])),
            _ => step[4] = random.pick(&[33, 33, 64, 255]),
        }
    }
    let mut case = cased(random, call, strict, (&old, &new), &bytes, 64);
    let steps = case.more.split_off((case.work >> 16) as usize);
    let mut places = [0, at_step];
    for (i, number) in [first, second].into_iter().enumerate() {
        places[i] = match number {
            3..=8 => spoil_table(random, &mut case.table, number, strict),
            23..=28 => spoil_table(random, &mut case.more, number - 20, strict),
            _ => at_step,
        };
    }
    case.work = (case.more.len() as u32) << 16 | case.work & 0xFFFF;
    case.more.extend(steps);
    Made { case, shape: "damaged", rooms: "as the damage asks", damage: Some(Damage { first, second, expect: (first, places[0]) }) }
}

/// Any case of either call.
pub fn seeded(random: &mut Random, call: u8) -> Made {
    if random.chance(20) {
        if random.chance(40) {
            let number = if call == CHECK && random.chance(40) { 13 } else { random.pick(numbers(call)) };
            return damaged(random, call, number, 0);
        }
        let (first, second) = random.pick(&pairs(call));
        return damaged(random, call, first, second);
    }
    if random.chance(3) {
        return crowded(random, call);
    }
    let shape = if random.below(300) == 0 {
        random.within(generate::LARGE, generate::SHAPES.len() - 1)
    } else {
        random.below(generate::LARGE)
    };
    whole(random, call, shape)
}

/// The fixed list's cases of both calls.
pub fn fixed(random: &mut Random) -> Vec<Made> {
    let mut list = Vec::new();
    let small = |random: &mut Random, call, shape| loop {
        let made = whole(random, call, shape);
        if made.case.table.len() + made.case.more.len() <= 900 {
            return made;
        }
    };
    for shape in 0..generate::LARGE {
        for call in [CHECK, CHECK, CHECK, PLAN, PLAN] {
            list.push(small(random, call, shape));
        }
    }
    for call in [CHECK, PLAN] {
        for &number in numbers(call) {
            list.push(damaged(random, call, number, 0));
        }
        for (first, second) in pairs(call) {
            if ![4, 24].contains(&first) && ![4, 24].contains(&second) {
                list.push(damaged(random, call, first, second));
            }
        }
        list.push(crowded(random, call));
        list.push(crowded(random, call));
    }
    list
}
