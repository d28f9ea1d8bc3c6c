//! Makes cases: tables of every shape of docs/CASES.md, whole and damaged, with rooms exactly enough, one short and otherwise.
//! Case `i` of a seed depends on the seed and `i` alone.

use std::collections::BTreeMap;

use crate::case::{
    address_of, length_of, most_list, most_work, table_of, Answer, Case, Route, CHECK, CHIP, COVER, HELD, LIVE, LOOKUP, PLAIN, PLAN,
    REWRITE, SPECIAL, UNROUTED,
};
use crate::model::{self, Fault};
use crate::{live, plans};

/// A case, what it is, and the refusal that its damage was planned to give.
pub struct Made {
    pub case: Case,
    pub shape: &'static str,
    pub rooms: &'static str,
    pub damage: Option<Damage>,
}

pub struct Damage {
    pub first: u8,
    /// The second number, 0 where there is one fault.
    pub second: u8,
    pub expect: (u8, usize),
}

/// Random numbers (splitmix64).
pub struct Random(u64);

impl Random {
    pub fn new(seed: u64, index: u64) -> Self {
        let mut random = Random(seed.wrapping_mul(0x9E37_79B9_7F4A_7C15) ^ index.wrapping_mul(0xD1B5_4A32_D192_ED03));
        random.next();
        random
    }

    pub fn next(&mut self) -> u64 {
        self.0 = self.0.wrapping_add(0x9E37_79B9_7F4A_7C15);
        let mut z = self.0;
        z = (z ^ z >> 30).wrapping_mul(0xBF58_476D_1CE4_E5B9);
        z = (z ^ z >> 27).wrapping_mul(0x94D0_49BB_1331_11EB);
        z ^ z >> 31
    }

    /// A number below `n`.
    pub fn below(&mut self, n: usize) -> usize {
        (self.next() % n as u64) as usize
    }

    pub fn within(&mut self, low: usize, high: usize) -> usize {
        low + self.below(high - low + 1)
    }

    pub fn chance(&mut self, percent: usize) -> bool {
        self.below(100) < percent
    }

    pub fn pick<T: Copy>(&mut self, from: &[T]) -> T {
        from[self.below(from.len())]
    }

    /// An address of 64 bits.
    pub fn address(&mut self) -> u64 {
        self.next()
    }

    /// One of 32 bits.
    pub fn short(&mut self) -> u32 {
        self.next() as u32
    }
}

fn mask(length: u32) -> u64 {
    u64::MAX.checked_shl(64 - length).unwrap_or(0)
}

/// The modes that there are. Mode 2 is retired.
const MODES: [u8; 4] = [1, 3, 4, 5];

/// The shapes of tables. The last ones are of about 1,024 records.
pub const SHAPES: [&str; 24] = [
    "empty",
    "one record",
    "every length, one address",
    "every length, many addresses",
    "lengths 0 to 2",
    "lengths 4 to 6",
    "lengths 9 to 11",
    "lengths 14 to 16",
    "lengths 19 to 21",
    "lengths 24 to 26",
    "lengths 29 to 32",
    "dense block of /30 to /32",
    "nested chain",
    "chain with neighbours",
    "scattered",
    "subtree, split",
    "whole space, split",
    "whole space but one hole",
    "many hops side by side",
    "1,024: most nodes",
    "1,024: every /10",
    "1,024: /32 side by side",
    "1,024: scattered",
    "about 1,024: whole space, split",
];
pub const LARGE: usize = 19;

/// Shapes of 64 bits alone, after those.
pub const LONG_SHAPES: [&str; 7] = [
    "lengths 34 to 36",
    "lengths 39 to 41",
    "lengths 44 to 46",
    "lengths 49 to 51",
    "lengths 54 to 56",
    "lengths 59 to 61",
    "lengths 62 to 64",
];

/// The name of a shape.
fn shape_name(shape: usize) -> &'static str {
    SHAPES.get(shape).copied().unwrap_or_else(|| LONG_SHAPES[shape - SHAPES.len()])
}

struct Building<'a> {
    random: &'a mut Random,
    /// The bits of an address.
    width: usize,
    hops: Vec<u8>,
    routes: BTreeMap<(u64, u8), u8>,
}

impl Building<'_> {
    fn put(&mut self, address: u64, length: usize) {
        let hop = self.random.pick(&self.hops);
        self.routes.insert((address & mask(length as u32), length as u8), hop);
    }

    /// Records with lengths of `low` to `high` that differ only in a few bits before `high`.
    fn near(&mut self, low: usize, high: usize) {
        let base = self.random.address();
        let from = low.saturating_sub(self.random.below(4));
        for _ in 0..self.random.within(1, 40) {
            let address = base & mask(from as u32) | self.random.address() & !mask(from as u32);
            let length = self.random.within(low, high);
            self.put(address, length);
        }
    }

    /// Splits a prefix again and again until `parts` are left; each part has an entry with the given chance, and some of the
    /// prefixes that were split have one too.
    fn split(&mut self, address: u64, length: usize, parts: usize, filled: usize, above: usize) {
        let mut open = vec![(address, length)];
        while open.len() < parts {
            let at = self.random.below(open.len());
            let (address, length) = open[at];
            if length == self.width {
                break;
            }
            if self.random.chance(above) {
                self.put(address, length);
            }
            open[at] = (address, length + 1);
            open.push((address | 1 << (63 - length), length + 1));
        }
        for (address, length) in open {
            if self.random.chance(filled) {
                self.put(address, length);
            }
        }
    }
}

/// The routes of a table of the given shape, with as many different hops, at 32 bits or at 64.
pub fn routes_of(random: &mut Random, long: bool, shape: usize, hop_count: usize) -> Vec<Route> {
    let width = if long { 64 } else { 32 };
    let mut hops: Vec<u8> = (0..64).collect();
    for i in 0..hop_count {
        let other = random.within(i, 63);
        hops.swap(i, other);
    }
    hops.truncate(hop_count);
    let mut b = Building { random, width, hops, routes: BTreeMap::new() };
    match shape {
        0 => {}
        1 => {
            let (address, length) = (b.random.address(), b.random.within(0, width));
            b.put(address, length);
        }
        2 => {
            let address = b.random.address();
            (0..=width).for_each(|length| b.put(address, length));
        }
        3 => {
            for length in 0..=width {
                let address = b.random.address();
                b.put(address, length);
            }
        }
        4 => b.near(0, 2),
        5 => b.near(4, 6),
        6 => b.near(9, 11),
        7 => b.near(14, 16),
        8 => b.near(19, 21),
        9 => b.near(24, 26),
        10 => b.near(29, 32),
        11 => {
            let (base, size, filled) = (b.random.address(), b.random.within(1, 6), b.random.pick(&[50, 80, 95, 100]));
            let base = base & mask((width - size) as u32);
            for host in 0..1u64 << size {
                let address = base | host << (64 - width);
                for length in width - 2..=width {
                    let first = address & !mask(length as u32) & mask(width as u32) == 0;
                    if first && b.random.chance(if length == width { filled } else { filled / 3 }) {
                        b.put(address, length);
                    }
                }
            }
        }
        12 | 13 => {
            let address = b.random.address();
            let taken = b.random.pick(&[20, 50, 90]);
            for length in 0..=width {
                if b.random.chance(taken) {
                    b.put(address, length);
                }
                if shape == 13 && length > 0 && b.random.chance(taken) {
                    b.put(address ^ 1 << (64 - length), length);
                }
            }
        }
        14 => {
            let base = b.random.address();
            let common = b.random.pick(&[0, 0, 8, 16]);
            for _ in 0..b.random.within(2, 60) {
                let address = base & mask(common as u32) | b.random.address() & !mask(common as u32);
                let length = b.random.within(common, width);
                b.put(address, length);
            }
        }
        15 => {
            let (address, length) = (b.random.address(), b.random.within(1, width - 2));
            let (parts, filled, above) = (b.random.within(2, 60), b.random.pick(&[60, 90, 100]), b.random.pick(&[0, 10, 40]));
            b.split(address & mask(length as u32), length, parts, filled, above);
        }
        16 => {
            let (parts, above) = (b.random.within(2, 80), b.random.pick(&[0, 10, 40]));
            b.split(0, 0, parts, 100, above);
        }
        17 => {
            let parts = b.random.within(2, 60);
            b.split(0, 0, parts, 100, 0);
            let at = b.random.below(b.routes.len());
            let hole = *b.routes.keys().nth(at).unwrap();
            b.routes.remove(&hole);
        }
        18 => {
            let bits = b.random.within(1, 6);
            let length = b.random.within(0, width - bits);
            let base = b.random.address() & mask(length as u32);
            for part in 0..1u64 << bits {
                let address = base | part << (64 - length - bits);
                let hop = b.hops[part as usize % b.hops.len()];
                b.routes.insert((address, (length + bits) as u8), hop);
            }
        }
        19 => {
            for part in 0..1024 {
                let (tail, length) = (b.random.address() >> 10, b.random.within(if long { 60 } else { 30 }, width));
                b.put(part << 54 | tail, length);
            }
        }
        20 => (0..1024).for_each(|part| b.put(part << 54, 10)),
        21 => {
            let bits = if b.random.chance(50) { 10 } else { 1 };
            let base = b.random.address() & mask((width - bits) as u32);
            (0..1024u64).for_each(|host| b.put(base.wrapping_add(host << (64 - width)), width));
        }
        22 => {
            while b.routes.len() < 1024 {
                let (address, length) = (b.random.address(), b.random.within(6, width));
                b.put(address, length);
            }
        }
        23 => {
            let (parts, above) = (b.random.within(900, 1024), b.random.pick(&[0, 0, 5]));
            b.split(0, 0, parts, 100, above);
        }
        _ => {
            let low = [34, 39, 44, 49, 54, 59, 62][shape - SHAPES.len()];
            b.near(low, low + 2);
        }
    }
    b.routes.into_iter().map(|((address, length), hop)| (address, length, hop)).take(1024).collect()
}

fn without_hops(routes: Vec<Route>) -> Vec<Route> {
    routes.into_iter().map(|(address, length, _)| (address, length, 0)).collect()
}

fn is_set(call: u8, mode: u8) -> bool {
    call == COVER || call == REWRITE && mode == 1
}

/// A prefix to ask for: a record's, one near it, or any.
fn ask(random: &mut Random, case: &mut Case, routes: &[Route]) {
    let (width, all) = (case.width() as i64, mask(case.width() as u32));
    case.query = random.address() & all;
    case.query_length = random.within(0, width as usize) as u8;
    if !routes.is_empty() && random.chance(85) {
        let (address, length, _) = random.pick(routes);
        let tail = !mask(length as u32);
        case.query = all
            & match random.below(6) {
                0 => address,
                1 => address | tail,
                2 => (address | tail).wrapping_add(1),
                3 => address.wrapping_sub(1),
                _ => address | random.address() & tail,
            };
        let near = length as i64 + random.within(0, 6) as i64 - 4;
        if random.chance(80) {
            case.query_length = near.clamp(0, width) as u8;
        }
    }
}

/// Puts records into a table that lie in, at, beside and above the special-use ranges of one of the editions, and names an edition.
fn near_special(random: &mut Random, case: &mut Case, routes: &mut Vec<Route>) {
    case.query = random.pick(&[5735, 6890]) << 32;
    let ranges = model::ranges(random.pick(&[5735, 6890]), Fault::None).unwrap_or_default();
    // Most tables keep few records, so that the first in a range is not always the first of all.
    if random.chance(60) {
        routes.retain(|route| route.1 > 0 && !ranges.iter().any(|range| route.0 & mask(range.1 as u32) == range.0));
    }
    for _ in 0..random.below(4) {
        let (address, length, _) = random.pick(&ranges);
        let (address, length) = match random.below(4) {
            0 => (address, length),
            1 => (address, length.saturating_sub(1)),
            2 => ((address | !mask(length as u32)).wrapping_add(1), length),
            _ => (address | random.address() & !mask(length as u32), random.within(length as usize, 32) as u8),
        };
        routes.push((address & mask(length as u32), length, random.below(64) as u8));
    }
    routes.sort();
    routes.dedup_by_key(|route| (route.0, route.1));
    routes.truncate(1024);
}

/// The numbers 0 to 63 in another order; now and then as they are.
fn shuffled(random: &mut Random) -> Vec<u8> {
    let mut ranks: Vec<u8> = (0..64).collect();
    if random.chance(95) {
        for i in 0..63 {
            let other = random.within(i, 63);
            ranks.swap(i, other);
        }
    }
    ranks
}

/// A list that is not of the form of ranks.
fn unlawful(random: &mut Random) -> Vec<u8> {
    let mut ranks = shuffled(random);
    let (at, other) = (random.below(63), random.below(63));
    match random.below(6) {
        0 => ranks[at] = ranks[at + 1],
        1 => ranks[other] = random.pick(&[64, 65, 255]),
        2 => ranks.truncate(random.within(1, 63)),
        3 => ranks = vec![0; random.pick(&[1, 63, 64, 255])],
        4 => ranks.push(random.pick(&[0, 63, 64])),
        _ => ranks = (1..=64).collect(),
    }
    ranks
}

/// Ranks for a call: lent to some rewrites, where modes 4 and 5 need them of their form, and standing there, not read, in some of the other calls.
fn lend_ranks(random: &mut Random, case: &mut Case) {
    let reads = case.call == REWRITE && (case.mode == 4 || case.mode == 5);
    case.ranks = match random.below(100) {
        0..=9 => Some(Vec::new()),
        10..=49 if case.call == REWRITE => Some(shuffled(random)),
        50..=69 if case.call == REWRITE && !reads => Some(unlawful(random)),
        10..=14 => Some(unlawful(random)),
        _ => None,
    };
    if reads && case.ranks.as_ref().is_some_and(|ranks| !ranks.is_empty() && ranks.len() != 64) {
        case.ranks = None;
    }
}

/// Sets host bits in some of the records, or in none or all.
pub fn loosen(random: &mut Random, table: &mut [u8], size: usize) {
    let loosened = random.pick(&[0, 10, 50, 100]);
    for record in table.chunks_exact_mut(size) {
        if random.chance(loosened) {
            let (any, last) = (random.address(), 1 << (64 - 4 * size));
            let tail = random.pick(&[last, any, u64::MAX]) & !mask((length_of(record) as u32).min(4 * size as u32));
            let address = (address_of(record) | tail).to_be_bytes();
            record[..size / 2].copy_from_slice(&address[..size / 2]);
        }
    }
}

pub const ROOMS: [&str; 7] = ["exact", "roomy", "one word short", "one byte short", "both one short", "no work room", "no output"];

/// Sets the rooms of a case by what the model needs.
fn make_room(random: &mut Random, case: &mut Case, rooms: usize) {
    let Ok(routes) = model::accepted(case, Fault::None) else {
        case.work = random.pick(&[0, 1, 159, 160, 16_384]);
        case.room = random.pick(&[0, 7, 8, 8_200]);
        return;
    };
    if case.call == LOOKUP || case.call == HELD || case.call == SPECIAL {
        case.work = 0;
        case.room = 0;
        return;
    }
    if case.call == CHIP {
        case.work = random.pick(&[0, u32::MAX]);
        case.room = match rooms {
            0 => 8_192,
            1 => random.pick(&[8_193, 8_200, 16_384, 65_535]),
            3 => 8_191,
            _ => 0,
        };
        return;
    }
    if case.call == UNROUTED {
        case.work = most_list(case.long);
        let Answer::Unrouted(list) = model::answer(case, Fault::None) else { unreachable!("every list fits") };
        let room = (case.size() * list.len()) as u32;
        case.work = match rooms {
            0 => room,
            1 => room + random.within(1, 100) as u32,
            3 => room.saturating_sub(1),
            _ => 0,
        };
        return;
    }
    let work = 160 * model::nodes(&routes, Fault::None) as u32;
    let most = most_work(case.long);
    case.work = most;
    case.room = u16::MAX;
    let room = match model::answer(case, Fault::None) {
        Answer::Rewritten(out, _) => (case.size() * out.len()) as u16,
        _ => 0,
    };
    (case.work, case.room) = match rooms {
        0 => (work, room),
        1 => ((work + random.within(1, 400) as u32).min(most), room + random.within(1, 100) as u16),
        2 => (work - 1, room),
        3 => (work, room.saturating_sub(1)),
        4 => (work - 1, room.saturating_sub(1)),
        5 => (0, room),
        _ => (work, 0),
    };
}

pub fn blank(call: u8, mode: u8) -> Case {
    Case {
        call,
        strict: false,
        long: false,
        ranks: None,
        mode,
        default: 0,
        query_length: 0,
        query: 0,
        work: 0,
        room: 0,
        table: Vec::new(),
        more: Vec::new(),
    }
}

/// A call on an accepted table. What `rooms` says of a room that the call is not lent is passed over.
fn whole(random: &mut Random, call: u8, long: bool, mode: u8, shape: usize, rooms: usize) -> Made {
    let rooms = match (call, rooms) {
        (COVER, 3 | 6) => 0,
        (COVER, 4) => 2,
        (UNROUTED | CHIP, 2 | 5) => 0,
        (UNROUTED | CHIP, 4) => 3,
        _ => rooms,
    };
    let hop_count = if shape == 18 && random.chance(50) { 64 } else { random.pick(&[1, 2, 2, 3, 4, 5, 8, 16, 63, 64]) };
    let mut routes = routes_of(random, long, shape, hop_count);
    let mut case = blank(call, mode);
    case.long = long;
    // What a call does not read is no less arbitrary.
    case.default = if call == REWRITE && mode == 5 { random.below(64) as u8 } else { random.pick(&[0, 63, 64, 255]) };
    if call == REWRITE && mode == 5 && !routes.is_empty() && random.chance(50) {
        case.default = random.pick(&routes).2;
    }
    if is_set(call, mode) {
        routes = without_hops(routes);
    }
    ask(random, &mut case, &routes);
    if call == SPECIAL {
        near_special(random, &mut case, &mut routes);
    }
    case.table = table_of(&routes, long);
    case.strict = random.chance(25);
    if !case.strict {
        let size = case.size();
        loosen(random, &mut case.table, size);
    }
    lend_ranks(random, &mut case);
    make_room(random, &mut case, rooms);
    let rooms = if call == LOOKUP || call == HELD || call == SPECIAL { "none lent" } else { ROOMS[rooms] };
    Made { case, shape: shape_name(shape), rooms, damage: None }
}

/// The numbers that a call can give.
pub fn numbers(call: u8) -> &'static [u8] {
    match call {
        REWRITE => &[1, 16, 2, 15, 3, 4, 5, 6, 7, 8, 10, 11],
        COVER => &[3, 4, 5, 6, 7, 8, 9, 10],
        UNROUTED => &[3, 4, 5, 6, 7, 8, 11],
        CHIP => &[3, 4, 5, 6, 7, 8, 12],
        SPECIAL => &[14, 3, 4, 5, 6, 7, 8],
        _ => &[3, 4, 5, 6, 7, 8],
    }
}

/// Where two faults of records stand: both in one record, or one in each of two.
#[derive(Clone, Copy, PartialEq)]
pub enum Order {
    Same,
    FirstEarlier,
    FirstLater,
}

/// Every pair of numbers that one call can deserve at once, with every order where both are faults of records.
pub fn pairs(call: u8) -> Vec<(u8, u8, Order)> {
    let mut pairs = Vec::new();
    for (i, &first) in numbers(call).iter().enumerate() {
        for &second in &numbers(call)[i + 1..] {
            if [1, 16].contains(&first) && [16, 2, 15].contains(&second) {
                continue; // one needs a mode that there is not, or mode 2; the other mode 2, 4 or 5
            }
            pairs.push((first, second, Order::Same));
            if (5..=8).contains(&first) && (5..=8).contains(&second) {
                pairs.push((first, second, Order::FirstEarlier));
                pairs.push((first, second, Order::FirstLater));
            }
        }
    }
    pairs
}

/// Damages record `at` so that it deserves `number`. Order (8) comes first where it is wanted, as it moves records. A record that stands there
/// twice may have other host bits, where they are masked.
pub fn spoil(random: &mut Random, table: &mut [u8], size: usize, at: usize, number: u8, is_set: bool, strict: bool) {
    let (from, to, octets) = (size * at, size * at + size, size / 2);
    match number {
        5 if size == 16 => table[from + 8] = random.pick(&[65, 65, 66, 128, 255]),
        5 => table[from + 4] = random.pick(&[33, 33, 34, 64, 128, 255]),
        6 => table[from + octets - 1] |= 1,
        7 => match random.below(3) {
            0 => table[from + octets + 1] = if is_set { random.pick(&[1, 63, 64, 255]) } else { random.pick(&[64, 64, 65, 128, 255]) },
            _ => table[random.within(from + octets + 2, to - 1)] = random.pick(&[1, 128, 255]),
        },
        _ if random.chance(50) => {
            table.copy_within(from - size..from, from);
            if !strict {
                loosen(random, &mut table[from..to], size);
            }
        }
        _ => {
            for byte in from..to {
                table.swap(byte - size, byte);
            }
        }
    }
}

/// How many records a table has that is to be damaged. Number 4 takes over 1,024, the others do not.
#[derive(Clone, Copy, PartialEq)]
enum Size {
    Few,
    Full,
    Over,
    Longest,
}

/// A call with one fault, or with two of them (`second` not 0).
fn damaged(random: &mut Random, call: u8, long: bool, first: u8, second: u8, order: Order, size: Size) -> Made {
    let has = |number: u8| first == number || second == number;
    let mode = match call {
        REWRITE if has(1) => random.pick(&[0, 6, 255]),
        REWRITE if has(16) => 2,
        REWRITE if has(2) => 5,
        REWRITE if has(15) => random.pick(&[4, 5]),
        REWRITE => random.pick(&MODES),
        _ => random.pick(&[0, 1, 2, 6, 255]),
    };
    let set = is_set(call, mode) || call == REWRITE && (has(1) || has(16));
    let mut case = blank(call, mode);
    case.long = long;
    let (bytes, width) = (case.size(), case.width() as usize);
    case.default = if has(2) { random.pick(&[64, 64, 65, 255]) } else { random.pick(&[0, 62, 63]) };
    // Lengths of 13 to 30 leave a host bit to set, and no record lies in another: every mode has a result.
    let count = match size {
        Size::Few => random.within(8, 14),
        Size::Full => 1024,
        Size::Over => random.pick(&[1025, 1025, 1026, 1100]),
        Size::Longest => 65_535 / bytes,
    };
    let bits = if count > 14 { 13 } else { 4 };
    let mut routes: Vec<Route> = (0..count as u64)
        .map(|i| {
            let length = random.within(13, width - 2) as u32;
            ((i << (64 - bits) | random.address() >> bits) & mask(length), length as u8, random.below(64) as u8)
        })
        .collect();
    if set {
        routes = without_hops(routes);
    }
    case.table = table_of(&routes, long);
    case.strict = has(6) || random.chance(25);
    if !case.strict {
        loosen(random, &mut case.table, bytes);
    }
    if has(15) {
        case.ranks = Some(unlawful(random));
    } else {
        lend_ranks(random, &mut case);
    }
    ask(random, &mut case, &routes);
    if call == SPECIAL {
        let edition: u32 = if has(14) { random.pick(&[0, 1, 5734, 5736, 6889, 6891, u32::MAX]) } else { random.pick(&[5735, 6890]) };
        case.query = (edition as u64) << 32;
    }
    let width = width as u8;
    case.query_length =
        if has(9) { random.pick(&[width + 1, width + 1, width + 2, 128, 255]) } else { random.pick(&[0, 8, width - 1, width]) };
    if call == CHIP {
        make_room(random, &mut case, 0);
        case.room = if has(12) { random.pick(&[0, 8_191, 8_193, 65_535]) } else { 8_192 };
    } else if call == UNROUTED {
        case.work = most_list(long);
        if has(4) {
            case.work = if has(11) { 0 } else { most_list(long) };
        } else {
            make_room(random, &mut case, 0);
            if has(11) {
                case.work = if random.chance(70) { case.work - 1 } else { 0 };
            }
        }
    } else if has(1) || has(16) || has(2) || has(15) || has(4) || has(9) {
        // The need of work room or output is not defined here, or does not matter: none, or plenty.
        case.work = if has(10) { 0 } else { 16_384 };
        case.room = if has(11) { 0 } else { (bytes * (count + 1)).min(65_535) as u16 };
    } else {
        make_room(random, &mut case, 0);
        if has(10) {
            case.work = if random.chance(70) { case.work - 1 } else { 0 };
        }
        if has(11) {
            case.room = if random.chance(70) { case.room - 1 } else { 0 };
        }
    }
    // Two bad records stand in the two halves of the table. A fault of order needs a record before it, and moves that one.
    let number_early = if order == Order::FirstLater { second } else { first };
    let early = random.within((number_early == 8) as usize, count / 2 - 2);
    let late = random.within(count / 2, count - 1);
    let only = random.within((first == 8 || second == 8) as usize, count - 1);
    let (at_first, at_second) = match order {
        Order::Same => (only, only),
        Order::FirstEarlier => (early, late),
        Order::FirstLater => (late, early),
    };
    let mut faults = vec![(first, at_first), (second, at_second)];
    faults.sort_by_key(|&(number, _)| number != 8);
    for (number, at) in faults {
        if (5..=8).contains(&number) {
            spoil(random, &mut case.table, bytes, at, number, set, case.strict);
        }
    }
    if has(3) {
        for _ in 0..random.within(1, (bytes - 1).min(65_535 - case.table.len())) {
            case.table.push(random.pick(&[0, 0, 1, 255]));
        }
    }
    let place = |number, at| if (5..=8).contains(&number) { (number, at) } else { (number, 0) };
    let expect = match order {
        Order::FirstLater => place(second, at_second),
        _ => place(first, at_first),
    };
    let shape = match size {
        Size::Few => "damaged",
        Size::Full => "damaged, 1,024 records",
        Size::Over => "damaged, over 1,024 records",
        Size::Longest => "damaged, as long as a case can be",
    };
    Made { case, shape, rooms: "as the damage asks", damage: Some(Damage { first, second, expect }) }
}

/// Case `index` of a seed.
pub fn seeded(seed: u64, index: u64) -> Made {
    let random = &mut Random::new(seed, index);
    let call = match random.below(100) {
        0..=49 => REWRITE,
        50..=63 => COVER,
        64..=71 => LOOKUP,
        72..=75 => HELD,
        76..=81 => UNROUTED,
        82..=86 => CHIP,
        87..=90 => SPECIAL,
        91..=94 => CHECK,
        95..=96 => PLAN,
        _ => LIVE,
    };
    if call == LIVE {
        return live::seeded(random);
    }
    if call == CHECK || call == PLAN {
        return plans::seeded(random, call);
    }
    let long = [REWRITE, COVER, LOOKUP, UNROUTED].contains(&call) && random.chance(40);
    if random.chance(20) {
        // Damage by number 4 needs a long table, and comes less often.
        let pairs = pairs(call);
        loop {
            let (mut first, mut second, mut order) = random.pick(&pairs);
            if random.chance(30) {
                (first, second, order) = (random.pick(numbers(call)), 0, Order::Same);
            }
            let size = match (first == 4 || second == 4, random.below(100)) {
                (true, 0) => Size::Longest,
                (true, 1..=14) => Size::Over,
                (true, _) => continue,
                (false, 0) => Size::Full,
                _ => Size::Few,
            };
            return damaged(random, call, long, first, second, order, size);
        }
    }
    let mode = if call == REWRITE { random.pick(&MODES) } else { random.pick(&[0, 1, 2, 6, 255]) };
    let shape = match (random.below(100), long) {
        (0..=1, _) => random.within(LARGE, SHAPES.len() - 1),
        (2..=30, true) => SHAPES.len() + random.below(LONG_SHAPES.len()),
        _ => random.below(LARGE),
    };
    let rooms = if random.chance(70) { random.below(2) } else { random.within(2, ROOMS.len() - 1) };
    whole(random, call, long, mode, shape, rooms)
}

/// The same rewrite by the plain engine. The bytes of its case that say how much work room is lent speak of none or of too much: they are not to
/// be read.
pub fn plain(made: &Made) -> Option<Made> {
    let work = if made.case.work % 2 == 0 { 0 } else { !made.case.work };
    let case = Case { call: PLAIN, work, ..made.case.clone() };
    (made.case.call == REWRITE).then_some(Made { case, shape: made.shape, rooms: made.rooms, damage: None })
}

/// Case `index` of a seed and, where it is a rewrite, the same by the plain engine.
pub fn both(seed: u64, index: u64) -> Vec<Made> {
    let made = seeded(seed, index);
    let again = plain(&made);
    std::iter::once(made).chain(again).collect()
}

fn prefix(text: &str) -> Route {
    let (prefix, hop) = text.split_once('>').unwrap_or((text, "0"));
    let (address, length) = prefix.split_once('/').unwrap();
    let octets: Vec<u8> = address.split('.').map(|octet| octet.parse().unwrap()).collect();
    ((u32::from_be_bytes([octets[0], octets[1], octets[2], octets[3]]) as u64) << 32, length.parse().unwrap(), hop.parse().unwrap())
}

fn prefixes(text: &str) -> Vec<Route> {
    text.split_whitespace().map(prefix).collect()
}

/// The worked routes of document 01, but for mode 2 in cases 3 and 4, which is retired: number, mode, default, input, result, change.
pub const WORKED: [(u8, u8, u8, &str, &str, i64); 14] = [
    (1, 1, 0, "", "", 0),
    (2, 1, 0, "10.0.0.0/9 10.128.0.0/9", "10.0.0.0/8", -1),
    (4, 1, 0, "10.0.0.0/8 10.1.0.0/16", "10.0.0.0/8", -1),
    (5, 1, 0, "0.0.0.0/1 128.0.0.0/1", "0.0.0.0/0", -1),
    (6, 1, 0, "192.0.2.0/32 192.0.2.1/32", "192.0.2.0/31", -1),
    (7, 1, 0, "192.0.2.1/32 192.0.2.2/32", "192.0.2.1/32 192.0.2.2/32", 0),
    (8, 3, 0, "10.0.0.0/8>1 10.1.0.0/16>1", "10.0.0.0/8>1", -1),
    (9, 3, 0, "10.0.0.0/8>1 10.1.0.0/16>2 10.1.2.0/24>1", "10.0.0.0/8>1 10.1.0.0/16>2 10.1.2.0/24>1", 0),
    (10, 4, 0, "10.0.0.0/8>1 10.0.0.0/9>2 10.128.0.0/9>2", "10.0.0.0/8>2", -2),
    (11, 4, 0, "10.0.0.0/9>1 10.128.0.0/9>2", "10.0.0.0/8>1 10.128.0.0/9>2", 0),
    (12, 4, 0, "0.0.0.0/1>1", "0.0.0.0/1>1", 0),
    (13, 5, 3, "", "0.0.0.0/0>3", 1),
    (14, 5, 3, "0.0.0.0/1>3", "0.0.0.0/0>3", 0),
    (15, 5, 0, "10.0.0.0/8>5", "0.0.0.0/0>0 10.0.0.0/8>5", 1),
];

/// A worked case with the rooms of document 01's programs, and the routes that the document says come out.
pub fn worked(at: usize) -> (Case, Vec<Route>, i64) {
    let (_, mode, default, input, result, change) = WORKED[at];
    let mut case = blank(REWRITE, mode);
    (case.default, case.work, case.room) = (default, 16_384, 8_200);
    case.table = table_of(&prefixes(input), false);
    (case, prefixes(result), change)
}

/// The fixed list: the worked cases first, then every mode on every shape, every call, every refusal, every pair of faults, and
/// rooms at their edges.
pub fn fixed() -> Vec<Made> {
    let random = &mut Random::new(1999, 0);
    let mut list: Vec<Made> =
        (0..WORKED.len()).map(|at| Made { case: worked(at).0, shape: "worked", rooms: "of the programs", damage: None }).collect();
    let small = |random: &mut Random, call, mode, shape, rooms| loop {
        let made = whole(random, call, false, mode, shape, rooms);
        if made.case.table.len() <= 320 || shape >= LARGE {
            return made;
        }
    };
    for shape in 0..LARGE {
        for mode in MODES {
            list.push(small(random, REWRITE, mode, shape, 0));
            let rooms = random.within(1, 4);
            list.push(small(random, REWRITE, mode, shape, rooms));
        }
        for call in [COVER, COVER, LOOKUP, LOOKUP, HELD] {
            let rooms = random.pick(&[0, 0, 1, 2]);
            list.push(small(random, call, 0, shape, rooms));
        }
    }
    for (mode, shape, rooms) in
        [(1, 21, 0), (1, 20, 0), (1, 22, 0), (3, 23, 0), (4, 23, 0), (4, 20, 2), (4, 19, 0), (5, 22, 3), (5, 20, 0)]
    {
        list.push(small(random, REWRITE, mode, shape, rooms));
    }
    // 1,024 records, none near another, with the most nodes: fill writes 1,025 records. Exactly the rooms for that, then one byte less,
    // then one word less.
    let routes: Vec<Route> = (0..1024u64).map(|part| (part << 54, 32, 1 + (part % 63) as u8)).collect();
    for (rooms, work, room) in [
        ("exact", most_work(false), 8_200),
        ("one byte short", most_work(false), 8_199),
        ("one word short", most_work(false) - 1, 8_200),
    ] {
        let mut case = blank(REWRITE, 5);
        (case.work, case.room, case.table) = (work, room, table_of(&routes, false));
        list.push(Made { case, shape: "1,024: most nodes", rooms, damage: None });
    }
    // Work rooms that document 01 names: 160 words for no record or a /4, 320 for a /5, 1,120 for a /32.
    for (length, words) in [(None, 160), (Some(4), 160), (Some(5), 320), (Some(32), 1_120)] {
        for (call, mode) in [(REWRITE, 1), (REWRITE, 4), (COVER, 0)] {
            for short in [0, 1] {
                let mut case = blank(call, mode);
                let routes: Vec<Route> = length.map(|length| (0, length, 0)).into_iter().collect();
                (case.work, case.room, case.table) = (words - short, 8, table_of(&routes, false));
                list.push(Made {
                    case,
                    shape: "named in document 01",
                    rooms: ["exact", "one word short"][short as usize],
                    damage: None,
                });
            }
        }
    }
    let size = |first, second| if first == 4 || second == 4 { Size::Over } else { Size::Few };
    for call in [REWRITE, COVER, LOOKUP, HELD] {
        for &number in numbers(call) {
            list.push(damaged(random, call, false, number, 0, Order::Same, size(number, 0)));
        }
        for (first, second, order) in pairs(call) {
            // The long tables of number 4 are kept to the calls that differ.
            if (first == 4 || second == 4) && (call == HELD || second == 6 || second == 7) {
                continue;
            }
            list.push(damaged(random, call, false, first, second, order, size(first, second)));
        }
    }
    list.push(damaged(random, REWRITE, false, 6, 8, Order::FirstLater, Size::Full));
    list.push(damaged(random, LOOKUP, false, 8, 0, Order::Same, Size::Full));
    // The edges of modes, defaults and query lengths.
    let table = table_of(&[prefix("10.0.0.0/8>63"), prefix("10.0.0.0/9>0")], false);
    let set = table_of(&[prefix("0.0.0.0/1"), prefix("128.0.0.0/1")], false);
    for mode in [0, 2, 6, 255] {
        list.push(edge(REWRITE, mode, 0, 0, &table));
    }
    for (mode, default) in [(5, 63), (5, 64), (5, 255), (4, 64), (3, 255)] {
        list.push(edge(REWRITE, mode, default, 0, &table));
    }
    // Ranks: each order of three hops, the first and the last alone moved, lists that are none; a list in every mode and in every other call.
    let side_by_side = table_of(&prefixes("10.0.0.0/10>0 10.64.0.0/10>1 10.128.0.0/9>2 11.0.0.0/9>62 11.128.0.0/9>63"), false);
    let turned = |by: u8| (0..64).map(|hop| (hop + by) % 64).collect::<Vec<u8>>();
    let lists = [
        Vec::new(),
        turned(0),
        turned(1),
        turned(2),
        turned(62),
        turned(63),
        (0..64).rev().collect(),
        vec![0; 64],
        turned(0)[..63].to_vec(),
    ];
    for ranks in lists.into_iter().chain([[&turned(0)[..], &[64]].concat(), [&turned(0)[..63], &[64]].concat(), vec![0; 255]]) {
        for mode in [1, 2, 3, 4, 5] {
            let mut made = edge(REWRITE, mode, 62, 0, if mode <= 2 { &set } else { &side_by_side });
            made.case.ranks = Some(ranks.clone());
            list.push(made);
        }
    }
    for (call, table) in [(COVER, &set), (LOOKUP, &table), (HELD, &table), (UNROUTED, &table), (CHIP, &table), (SPECIAL, &table)] {
        let mut made = edge(call, 0, 0, 8, table);
        made.case.ranks = Some(vec![7; 9]);
        list.push(made);
    }
    for length in [0, 1, 31, 32, 33, 255] {
        list.push(edge(COVER, 0, 0, length, &set));
    }
    // Addresses held: document 02's nested routes; all addresses by one record, and by two with one inside; the last address.
    for text in ["10.0.0.0/8>1 10.1.0.0/16>2", "0.0.0.0/0>1", "0.0.0.0/1>1 128.0.0.0/1>1 128.0.0.0/9>2", "255.255.255.255/32>1"] {
        list.push(edge(HELD, 0, 0, 0, &table_of(&prefixes(text), false)));
    }
    // The list of what has no route: every shape, with just enough output and one byte less; of the large ones those whose list is short, and a
    // list of 22,528 prefixes that does not fit.
    for shape in 0..LARGE {
        for rooms in [0, 1, 3] {
            list.push(small(random, UNROUTED, 0, shape, rooms));
        }
    }
    for (shape, rooms) in [(19, 3), (20, 0), (21, 0), (22, 3), (23, 0)] {
        list.push(small(random, UNROUTED, 0, shape, rooms));
    }
    for &number in numbers(UNROUTED) {
        list.push(damaged(random, UNROUTED, false, number, 0, Order::Same, size(number, 0)));
    }
    for (first, second, order) in pairs(UNROUTED) {
        if second == 11 && first != 4 {
            list.push(damaged(random, UNROUTED, false, first, second, order, Size::Few));
        }
    }
    // The chip's image: every shape, the full tables, image rooms of other sizes, the refusals and their pairs with 12.
    for shape in 0..SHAPES.len() {
        list.push(small(random, CHIP, 0, shape, 0));
    }
    for rooms in [1, 3, 6] {
        list.push(small(random, CHIP, 0, 14, rooms));
    }
    for &number in numbers(CHIP) {
        list.push(damaged(random, CHIP, false, number, 0, Order::Same, size(number, 0)));
    }
    for (first, second, order) in pairs(CHIP) {
        if second == 12 && first != 4 {
            list.push(damaged(random, CHIP, false, first, second, order, Size::Few));
        }
    }
    // Special use: both editions on every shape, at every range of both, one bit wider and one bit longer; the refusals.
    for shape in 0..LARGE {
        list.push(small(random, SPECIAL, 0, shape, 0));
    }
    for edition in [5735, 6890] {
        let first = model::ranges(edition, Fault::None).unwrap_or_default();
        for (address, length, _) in first.into_iter().chain([prefix("100.64.0.0/10"), prefix("192.0.0.0/29"), prefix("224.0.0.0/4")]) {
            for other in [length, length - 1, (length + 1).min(32)] {
                let routes = [(address & mask(other as u32), other, 5)];
                let mut made = edge(SPECIAL, 0, 0, 0, &table_of(&routes, false));
                made.case.query = (edition as u64) << 32;
                list.push(made);
            }
        }
    }
    for &number in numbers(SPECIAL) {
        list.push(damaged(random, SPECIAL, false, number, 0, Order::Same, size(number, 0)));
    }
    for (first, second, order) in pairs(SPECIAL) {
        if first == 14 && second != 4 {
            list.push(damaged(random, SPECIAL, false, first, second, order, Size::Few));
        }
    }
    // Host bits, masked and refused: the octets of 10.0.0.0/8 in the wrong order; two records that mask to one prefix; records in order only once they
    // are masked; every bit past the length set.
    for text in ["0.0.0.10/8>1", "10.1.2.3/8>1 10.4.5.6/8>1", "10.9.0.0/8>1 10.1.0.0/16>2", "255.255.255.255/0>1 255.255.255.255/1>2"]
    {
        for call in [REWRITE, COVER, LOOKUP, HELD, UNROUTED, CHIP, SPECIAL] {
            for strict in [false, true] {
                let hops = if call == COVER { without_hops(prefixes(text)) } else { prefixes(text) };
                let mut made = edge(call, 4, 0, 8, &table_of(&hops, false));
                made.case.strict = strict;
                match call {
                    CHIP => made.case.room = 8_192,
                    SPECIAL => made.case.query = 6890 << 32,
                    _ => {}
                }
                list.push(made);
            }
        }
    }
    // Addresses of 64 bits: every mode and call on every shape, and on those at lengths above 32; the refusals, and their pairs; 1,024 records with the most
    // nodes in exactly the rooms for fill, one byte less and one word less; the rooms of a /5, a /59, a /60 and a /64; the edges of query lengths; host bits.
    list.extend(fixed_long(random));
    // Plans, and checks of plans as they are proposed and damaged.
    list.extend(plans::fixed(random));
    // Sequences of commands to a live map.
    list.extend(live::fixed(random));
    // Every rewrite of the list by the plain engine.
    let again: Vec<Made> = list.iter().filter_map(plain).collect();
    list.extend(again);
    list
}

/// The part of the fixed list with addresses of 64 bits.
fn fixed_long(random: &mut Random) -> Vec<Made> {
    let mut list = Vec::new();
    let small = |random: &mut Random, call, mode, shape, rooms| loop {
        let made = whole(random, call, true, mode, shape, rooms);
        if made.case.table.len() <= 2_080 || (LARGE..SHAPES.len()).contains(&shape) {
            return made;
        }
    };
    for shape in (0..LARGE).chain(SHAPES.len()..SHAPES.len() + LONG_SHAPES.len()) {
        for mode in MODES {
            let rooms = random.below(4);
            list.push(small(random, REWRITE, mode, shape, rooms));
        }
        for call in [COVER, LOOKUP, UNROUTED] {
            let rooms = random.pick(&[0, 0, 1, 3]);
            list.push(small(random, call, 0, shape, rooms));
        }
    }
    for (mode, shape, rooms) in [(1, 21, 0), (3, 23, 0), (4, 20, 2), (5, 22, 3)] {
        list.push(small(random, REWRITE, mode, shape, rooms));
    }
    list.push(small(random, UNROUTED, 0, 20, 0));
    let routes: Vec<Route> = (0..1024u64).map(|part| (part << 54 | part, 64, 1 + (part % 63) as u8)).collect();
    for (rooms, work, room) in [
        ("exact", most_work(true), 16_400),
        ("one byte short", most_work(true), 16_399),
        ("one word short", most_work(true) - 1, 16_400),
    ] {
        let mut case = blank(REWRITE, 5);
        (case.long, case.work, case.room, case.table) = (true, work, room, table_of(&routes, true));
        list.push(Made { case, shape: "1,024: most nodes", rooms, damage: None });
    }
    for (length, words) in [(5, 320), (59, 1_920), (60, 2_080), (64, 2_080)] {
        for (call, mode) in [(REWRITE, 1), (REWRITE, 4), (COVER, 0)] {
            for short in [0, 1] {
                let mut case = blank(call, mode);
                (case.long, case.work, case.room, case.table) = (true, words - short, 16, table_of(&[(0, length, 0)], true));
                list.push(Made { case, shape: "one record", rooms: ["exact", "one word short"][short as usize], damage: None });
            }
        }
    }
    for call in [REWRITE, COVER, LOOKUP, UNROUTED] {
        for &number in numbers(call) {
            let size = if number == 4 { Size::Over } else { Size::Few };
            list.push(damaged(random, call, true, number, 0, Order::Same, size));
        }
        for (first, second, order) in pairs(call) {
            if first != 4 && second != 4 && (call == REWRITE || second >= 9) {
                list.push(damaged(random, call, true, first, second, order, Size::Few));
            }
        }
    }
    let long = |mut made: Made, query: u64| {
        (made.case.long, made.case.query) = (true, query);
        made
    };
    let halves = table_of(&[(0, 1, 0), (1 << 63, 1, 0)], true);
    for length in [0, 1, 32, 33, 63, 64, 65, 255] {
        list.push(long(edge(COVER, 0, 0, length, &halves), 0x2001_0DB8_0000_0001));
    }
    // 2001:db8::/32 as it stands and with its octets reversed; two records that mask to one prefix; every bit past the length set.
    let texts: [&[Route]; 4] = [
        &[(0x2001_0DB8_0000_0000, 32, 1)],
        &[(0x0000_0000_B80D_0120, 32, 1)],
        &[(0x2001_0DB8_0000_0001, 32, 1), (0x2001_0DB8_FFFF_0000, 32, 2)],
        &[(u64::MAX, 0, 1), (u64::MAX, 1, 2), (u64::MAX, 63, 3), (u64::MAX, 64, 4)],
    ];
    for routes in texts {
        for call in [REWRITE, COVER, LOOKUP, UNROUTED] {
            for strict in [false, true] {
                let routes = if call == COVER { without_hops(routes.to_vec()) } else { routes.to_vec() };
                let mut made = long(edge(call, 4, 0, 8, &table_of(&routes, true)), 0x2001_0DB8_1234_5678);
                made.case.strict = strict;
                list.push(made);
            }
        }
    }
    list
}

fn edge(call: u8, mode: u8, default: u8, query_length: u8, table: &[u8]) -> Made {
    let mut case = blank(call, mode);
    (case.default, case.query_length, case.query) = (default, query_length, 0x0A01_0203 << 32);
    (case.work, case.room, case.table) = (16_384, 8_200, table.to_vec());
    Made { case, shape: "edge of a number", rooms: "of the programs", damage: None }
}
