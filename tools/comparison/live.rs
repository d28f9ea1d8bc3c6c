//! The live map: the model of the room's words, written from docs/LIVE-MAP.md, the cases of sequences of commands, and the crate's own map as their
//! judge.

use std::collections::BTreeMap;

use crate::case::{dotted, lengthened, shortened, Answer, Case, Short as Route, LIVE};
use crate::generate::{self, Made, Random};
use crate::model::{self, Fault};

/// A command as its eight bytes: which one, the hop in two bytes, the length or the bit, the address or the word's index.
pub type Command = [u8; 8];

pub const MAKE: u8 = 0;
pub const PUT: u8 = 1;
pub const TAKE: u8 = 2;
pub const LOOK: u8 = 3;
pub const FLIP: u8 = 4;

/// Added to a command where host bits are refused, not masked.
const STRICT: u8 = 128;

/// What replay fills the room with: no word of it begins a live map.
const FILLED: u32 = 0xA5A5_A5A5;

/// The word that a live map begins with: "live".
const MARK: u32 = 0x6C69_7665;

/// What a command is answered with.
#[derive(Clone, Copy, PartialEq, Debug)]
pub enum Said {
    Done,
    Absent,
    Match(Option<(u8, u8)>),
    Refused(u8),
    Flipped,
    NoCommand,
}

fn nodes(routes: &[Route], fault: Fault) -> usize {
    model::nodes(&lengthened(routes), fault)
}

fn mask(length: u8) -> u32 {
    u32::MAX.checked_shl(32 - length as u32).unwrap_or(0)
}

/// The records that the room shows, if it holds a live map.
fn shown(room: &[u32], fault: Fault) -> Option<Vec<Route>> {
    if room.len() < 160 || (room[0] != MARK && fault != Fault::MarkUnread) || room[1] > 1024 || room.len() < 2 + 2 * room[1] as usize {
        return None;
    }
    let mut routes: Vec<Route> = Vec::new();
    for pair in room[2..2 + 2 * room[1] as usize].chunks(2) {
        let (address, length, hop) = (pair[0], pair[1] >> 16, pair[1] & 0xFFFF);
        if length > 32 || hop > 63 || address & !mask(length as u8) != 0 {
            return None;
        }
        let route = (address, length as u8, hop as u8);
        if routes.last().is_some_and(|last| (last.0, last.1) >= (route.0, route.1)) && fault != Fault::OrderUnread {
            return None;
        }
        routes.push(route);
    }
    (nodes(&routes, Fault::None) <= room.len() / 160).then_some(routes)
}

/// Lays the records from the room's start; what lies behind them stays.
fn lay(room: &mut [u32], routes: &BTreeMap<(u32, u8), u8>) {
    (room[0], room[1]) = (MARK, routes.len() as u32);
    for (i, (&(address, length), &hop)) in routes.iter().enumerate() {
        (room[2 + 2 * i], room[3 + 2 * i]) = (address, (length as u32) << 16 | hop as u32);
    }
}

fn table(routes: &[Route]) -> BTreeMap<(u32, u8), u8> {
    routes.iter().map(|&(address, length, hop)| ((address, length), hop)).collect()
}

fn routes_of(table: &BTreeMap<(u32, u8), u8>) -> Vec<Route> {
    table.iter().map(|(&(address, length), &hop)| (address, length, hop)).collect()
}

/// The parts of a command: which, strict, hop, length, address.
fn parts(command: &Command) -> (u8, bool, u16, u8, u32) {
    let [what, high, low, length, a, b, c, d] = *command;
    (what % STRICT, what >= STRICT, u16::from_be_bytes([high, low]), length, u32::from_be_bytes([a, b, c, d]))
}

/// The room with a bit flipped, if the word is there.
fn flip(room: &mut [u32], word: u32, bit: u8) {
    if let Some(word) = room.get_mut(word as usize) {
        *word ^= 1 << (bit % 32);
    }
}

/// The number that the prefix of a command deserves: 5, 6 under the strict choice.
fn bad_prefix(strict: bool, length: u8, address: u32, fault: Fault) -> Option<u8> {
    if length > 32 {
        return Some(5);
    }
    ((strict || fault == Fault::LiveHostBitsRefused) && address & !mask(length) != 0).then_some(6)
}

/// The model's answer to one command, which changes the room. `most` is the most nodes so far, which a planted fault alone reads.
fn told(room: &mut [u32], command: &Command, most: &mut usize, fault: Fault) -> Said {
    let (what, strict, hop, length, address) = parts(command);
    match what {
        MAKE if room.len() < 160 => return Said::Refused(10),
        MAKE => {
            lay(room, &BTreeMap::new());
            *most = 0;
            return Said::Done;
        }
        FLIP => {
            flip(room, address, length);
            return Said::Flipped;
        }
        PUT | TAKE | LOOK => {}
        _ => return Said::NoCommand,
    }
    let Some(routes) = shown(room, fault) else { return Said::Refused(18) };
    if what == LOOK {
        let matches = routes.iter().filter(|route| address & mask(route.1) == route.0);
        return Said::Match(matches.max_by_key(|route| route.1).map(|route| (route.2, route.1)));
    }
    if let Some(number) = bad_prefix(strict, length, address, fault) {
        return Said::Refused(number);
    }
    let mut after = table(&routes);
    let prefix = (address & mask(length), length);
    if what == TAKE {
        if after.remove(&prefix).is_none() {
            return if fault == Fault::AbsentDone { Said::Done } else { Said::Absent };
        }
        lay(room, &after);
        return Said::Done;
    }
    if hop > 63 {
        return Said::Refused(7);
    }
    let was = after.insert(prefix, hop as u8);
    if fault == Fault::ReplaceForgets && was.is_some() {
        after.remove(&prefix);
    }
    let counted = match fault {
        Fault::NodesBeforePut => nodes(&routes, fault),
        Fault::NodesNeverGivenUp => nodes(&routes_of(&after), fault).max(*most),
        _ => nodes(&routes_of(&after), Fault::None),
    };
    if fault == Fault::NodesNeverGivenUp {
        *most = counted;
    }
    let (many, wide) = (after.len() > 1024, counted > room.len() / 160);
    match (many, wide) {
        (true, true) if fault == Fault::NodesBeforeRecords => Said::Refused(10),
        (true, _) => Said::Refused(17),
        (_, true) => Said::Refused(10),
        _ => {
            lay(room, &after);
            Said::Done
        }
    }
}

/// A command in words.
pub fn in_words(command: &Command) -> String {
    let (what, strict, hop, length, address) = parts(command);
    let strict = if strict { ", strict" } else { "" };
    match what {
        MAKE => "make".to_string(),
        PUT => format!("put {}/{length} {hop}{strict}", dotted(address)),
        TAKE => format!("take {}/{length}{strict}", dotted(address)),
        LOOK => format!("lookup {}", dotted(address)),
        FLIP => format!("flip bit {} of word {address}", length % 32),
        _ => format!("command {what}"),
    }
}

pub fn commands(case: &Case) -> impl Iterator<Item = &Command> {
    case.more.chunks_exact(8).map(|command| command.try_into().unwrap())
}

/// The model's answers to a case's commands.
pub fn answer(case: &Case, fault: Fault) -> Answer {
    let mut room = vec![FILLED; case.work as usize];
    let mut most = 0;
    Answer::Lived(commands(case).map(|command| told(&mut room, command, &mut most, fault)).collect())
}

/// The crate's own answers: its map takes what is put and taken, finds the longest match and counts its nodes. The refusals by 5, 6, 7 and 18 are the model's,
/// and so is what a room shows after a bit was flipped.
pub fn by_crate(case: &Case) -> Answer {
    let mut room = vec![FILLED; case.work as usize];
    let (mut map, mut flipped) = (None, false);
    let fit = room.len() / 160;
    let mut answers = Vec::new();
    for command in commands(case) {
        let (what, strict, hop, length, address) = parts(command);
        let key = (address as u64) << 32;
        if flipped {
            map = shown(&room, Fault::None).map(|routes| oracle::Map::of(&lengthened(&routes)));
            flipped = false;
        }
        let by_model = told(&mut room, command, &mut 0, Fault::None);
        answers.push(match (what, &mut map) {
            (MAKE, map) if case.work >= 160 => {
                *map = Some(oracle::Map::of(&[]));
                Said::Done
            }
            (FLIP, _) => {
                flipped = true;
                by_model
            }
            (LOOK, Some(map)) => Said::Match(map.lookup(key)),
            (PUT | TAKE, Some(_)) if bad_prefix(strict, length, address, Fault::None).is_some() => by_model,
            (TAKE, Some(map)) => {
                if map.remove(key, length) {
                    Said::Done
                } else {
                    Said::Absent
                }
            }
            (PUT, Some(_)) if hop > 63 => by_model,
            (PUT, Some(map)) => {
                let before = map.insert(key, length, hop as u8);
                let number = if map.len() > 1024 {
                    17
                } else if map.nodes() > fit {
                    10
                } else {
                    0
                };
                if number == 0 {
                    Said::Done
                } else {
                    assert!(before.is_none(), "a replaced record needs no room");
                    map.remove(key, length);
                    Said::Refused(number)
                }
            }
            _ => by_model,
        });
    }
    Answer::Lived(answers)
}

fn command(what: u8, hop: u16, length: u8, address: u32) -> Command {
    let ([high, low], [a, b, c, d]) = (hop.to_be_bytes(), address.to_be_bytes());
    [what, high, low, length, a, b, c, d]
}

/// A case of these commands on a room of so many words.
fn cased(words: u32, commands: &[Command], shape: &'static str, rooms: &'static str) -> Made {
    let mut case = generate::blank(LIVE, 0);
    (case.work, case.room, case.more) = (words, commands.len() as u16, commands.concat());
    Made { case, shape, rooms, damage: None }
}

/// Any sequence: most begin with an empty map; puts and takes are of a few prefixes, so that they meet; some rooms are damaged on the way.
pub fn seeded(random: &mut Random) -> Made {
    if random.below(60) == 0 {
        return full(random.below(3));
    }
    let shape = random.below(generate::LARGE);
    let pool = shortened(&generate::routes_of(random, false, shape, 8));
    let needed = 160 * nodes(&pool, Fault::None) as u32;
    let (rooms, words) = match random.below(8) {
        0 => ("under 160 words", random.pick(&[0, 1, 2, 159])),
        1 => ("one node", random.pick(&[160, 161, 319])),
        2 => ("one word short", needed - 1),
        3 | 4 => ("exact", needed),
        5 => ("half", (needed / 2).max(160)),
        _ => ("roomy", needed + random.below(3_000) as u32),
    };
    let damaged = random.chance(25);
    let mut commands = Vec::new();
    for at in 0..random.within(1, 60) {
        let what = match (at, random.below(100)) {
            (0, 0..=89) => MAKE,
            (_, 0..=1) => MAKE,
            (_, 2..=49) => PUT,
            (_, 50..=69) => TAKE,
            (_, 70..=89) => LOOK,
            (_, 90..=97) if damaged => FLIP,
            (_, 98) => random.pick(&[5, 6, 127]),
            _ => PUT,
        };
        let (address, length, hop) = if pool.is_empty() || random.chance(10) {
            (random.short(), random.below(33) as u8, random.below(64) as u8)
        } else {
            random.pick(&pool)
        };
        let strict = if random.chance(25) { STRICT } else { 0 };
        let tail = if random.chance(30) { random.short() & !mask(length) } else { 0 };
        let hop = if random.chance(3) {
            random.pick(&[64, 65, 255, 256, 65_535])
        } else if random.chance(20) {
            random.below(64) as u16
        } else {
            hop as u16
        };
        let bad_length = if random.chance(3) { Some(random.pick(&[33, 34, 64, 128, 255])) } else { None };
        commands.push(match what {
            FLIP => command(
                FLIP + strict,
                0,
                random.below(256) as u8,
                random.pick(&[0, 1, 1, 2, 2, 3, 3, 4, 4, 5, 6, 7, 9, words.saturating_sub(1), words]),
            ),
            LOOK if random.chance(30) => command(LOOK + strict, hop, length, random.short()),
            _ => command(what + strict, hop, bad_length.unwrap_or(length), address | tail),
        });
    }
    cased(words, &commands, generate::SHAPES[shape], rooms)
}

/// A full map of neighbouring hosts and some commands more: the next record is one too many by records, by nodes or by both.
fn full(rooms: usize) -> Made {
    let hosts = (0..1024u32).map(|i| command(PUT, (i % 64) as u16, 32, 0x0A00_0000 + i));
    let more = [
        command(PUT, 1, 32, 0x0A00_0400),
        command(PUT, 9, 32, 0x0A00_0000),
        command(LOOK, 0, 0, 0x0A00_0000),
        command(PUT, 1, 64, 0x0A00_0400),
        command(PUT, 64, 32, 0x0A00_0400),
        command(TAKE, 0, 32, 0x0A00_0400),
        command(TAKE, 0, 32, 0x0A00_0000),
        command(PUT, 1, 32, 0x0A00_0400),
        command(LOOK, 0, 0, 0x0A00_0400),
        command(LOOK, 0, 0, 0x0A00_0401),
    ];
    let commands: Vec<Command> = [command(MAKE, 0, 0, 0)].into_iter().chain(hosts).chain(more).collect();
    let needed = |count: u32| nodes(&(0..count).map(|i| (0x0A00_0000 + i, 32, 0)).collect::<Vec<Route>>(), Fault::None) as u32;
    let (words, rooms) = match rooms {
        0 => (160 * needed(1025), "roomy"),
        1 => (160 * needed(1024), "exact"),
        _ => (160 * needed(1024) - 1, "one word short"),
    };
    cased(words, &commands, "1,024: /32 side by side", rooms)
}

/// The fixed list's sequences.
pub fn fixed(random: &mut Random) -> Vec<Made> {
    let mut list: Vec<Made> = (0..80).map(|_| seeded(random)).collect();
    list.extend((0..3).map(full));
    list
}
