//! The case format of docs/CASES.md: a case as bytes and as text, and an answer as text.

use std::fmt::Write;

use crate::live::{self, Said};
use crate::plans::{self, Step};

/// The address with its first bit on top, so that one of 32 bits is the upper half; the length; the hop.
pub type Route = (u64, u8, u8);

/// Address, length, hop at 32 bits alone.
pub type Short = (u32, u8, u8);

/// Routes of 32 bits, from one form to the other.
pub fn shortened(routes: &[Route]) -> Vec<Short> {
    routes.iter().map(|&(address, length, hop)| ((address >> 32) as u32, length, hop)).collect()
}

pub fn lengthened(routes: &[Short]) -> Vec<Route> {
    routes.iter().map(|&(address, length, hop)| ((address as u64) << 32, length, hop)).collect()
}

pub const REWRITE: u8 = 0;
pub const COVER: u8 = 1;
pub const LOOKUP: u8 = 2;
pub const HELD: u8 = 3;
pub const UNROUTED: u8 = 4;
/// A rewrite by the plain engine, which is lent no work room.
pub const PLAIN: u8 = 5;
/// The chip's slot image.
pub const CHIP: u8 = 6;
/// Is a plan one without a detour?
pub const CHECK: u8 = 7;
/// A plan.
pub const PLAN: u8 = 8;
/// The first record in a special-use range.
pub const SPECIAL: u8 = 9;
/// A sequence of commands to a live map.
pub const LIVE: u8 = 10;

/// Added to the call where host bits are refused, not masked.
pub const STRICT: u8 = 128;

/// Added to the call where ranks are lent.
pub const RANKED: u8 = 64;

/// Added to the call where addresses have 64 bits.
pub const LONG: u8 = 32;

/// The most steps of a plan that is checked.
const MOST_STEPS: u32 = 32_768;

/// The most words of a live map's room.
const MOST_LIVE: u32 = 412_240;

/// The most commands to a live map.
const MOST_COMMANDS: u32 = 8_191;

/// The most words of work room that a case asks for: 160 for each of 5,153 nodes, or of 11,297 at 64 bits.
pub fn most_work(long: bool) -> u32 {
    if long {
        1_807_520
    } else {
        824_480
    }
}

/// The most bytes of output that a list of what has no route asks for.
pub fn most_list(long: bool) -> u32 {
    if long {
        1_048_576
    } else {
        262_144
    }
}

#[derive(Clone)]
pub struct Case {
    pub call: u8,
    pub strict: bool,
    /// Records of 16 bytes, addresses of 64 bits.
    pub long: bool,
    /// The ranks that are lent; an empty list is as none.
    pub ranks: Option<Vec<u8>>,
    pub mode: u8,
    pub default: u8,
    pub query_length: u8,
    /// The query's address, its first bit on top; the edition of the special-use ranges in the upper half.
    pub query: u64,
    /// Words of work room; bytes of output for a list of what has no route; 65,536 times the bytes of a plan's new table, and the steps; not read by
    /// the plain engine.
    pub work: u32,
    /// Bytes of output; of the image room for the chip's image; the number of commands to a live map.
    pub room: u16,
    pub table: Vec<u8>,
    /// What follows the table: a plan's new table, and the steps that are to be checked; the commands to a live map, which has no table.
    pub more: Vec<u8>,
}

impl Case {
    pub fn write(&self, to: &mut Vec<u8>) {
        let choices =
            if self.strict { STRICT } else { 0 } + if self.ranks.is_some() { RANKED } else { 0 } + if self.long { LONG } else { 0 };
        to.extend([self.call + choices, self.mode, self.default, self.query_length]);
        // The upper half alone where it is all; else these bytes are not read.
        to.extend(((self.query >> 32) as u32 ^ if self.long { u32::MAX } else { 0 }).to_be_bytes());
        to.extend(self.work.to_be_bytes());
        to.extend(self.room.to_be_bytes());
        to.extend((self.table.len() as u16).to_be_bytes());
        if self.long {
            to.extend(self.query.to_be_bytes());
        }
        if let Some(ranks) = &self.ranks {
            to.push(ranks.len() as u8);
            to.extend(ranks);
        }
        to.extend(&self.table);
        to.extend(&self.more);
    }

    /// The first case of `from` and the bytes after it; or the line that ends a run there.
    pub fn read(from: &[u8]) -> Result<(Case, &[u8]), &'static str> {
        if from.len() < 16 {
            return Err("case cut short");
        }
        let (head, rest) = from.split_at(16);
        let word = |at: usize| u32::from_be_bytes([head[at], head[at + 1], head[at + 2], head[at + 3]]);
        let call = head[0] % LONG;
        let long = head[0] & LONG != 0;
        let (query, rest) = match (long, rest) {
            (false, _) => ((word(4) as u64) << 32, rest),
            (true, _) if rest.len() < 8 => return Err("case cut short"),
            (true, _) => (u64::from_be_bytes(rest[..8].try_into().unwrap()), &rest[8..]),
        };
        let (ranks, rest) = match (head[0] & RANKED != 0, rest) {
            (false, _) => (None, rest),
            (true, [count, rest @ ..]) if rest.len() >= *count as usize => {
                let (ranks, rest) = rest.split_at(*count as usize);
                (Some(ranks.to_vec()), rest)
            }
            _ => return Err("case cut short"),
        };
        if call == LIVE && word(12) >> 16 > MOST_COMMANDS {
            return Err("too many commands");
        }
        if call == CHECK && word(8) & 0xFFFF > MOST_STEPS {
            return Err("too many steps");
        }
        let length = if call == LIVE { 0 } else { (word(12) & 0xFFFF) as usize };
        let more = match call {
            _ if long && call != LIVE => 0,
            CHECK => (word(8) >> 16) as usize + 8 * (word(8) & 0xFFFF) as usize,
            PLAN => (word(8) >> 16) as usize,
            LIVE => 8 * (word(12) >> 16) as usize,
            _ => 0,
        };
        if rest.len() < length + more {
            return Err("case cut short");
        }
        let case = Case {
            call,
            strict: head[0] >= STRICT,
            long,
            ranks,
            mode: head[1],
            default: head[2],
            query_length: head[3],
            query,
            work: word(8),
            room: (word(12) >> 16) as u16,
            table: rest[..length].to_vec(),
            more: rest[length..length + more].to_vec(),
        };
        if case.call > LIVE || long && ![REWRITE, COVER, LOOKUP, UNROUTED, PLAIN].contains(&case.call) {
            return Err("no such call");
        }
        if case.call == UNROUTED && case.work > most_list(long) {
            return Err("output too large");
        }
        if case.call < UNROUTED && case.work > most_work(long) || case.call == LIVE && case.work > MOST_LIVE {
            return Err("work room too large");
        }
        Ok((case, &rest[length + more..]))
    }

    /// The bytes of a record, and the bits of an address.
    pub fn size(&self) -> usize {
        if self.long {
            16
        } else {
            8
        }
    }

    pub fn width(&self) -> u8 {
        4 * self.size() as u8
    }

    /// The edition that a case of special use names.
    pub fn edition(&self) -> u32 {
        (self.query >> 32) as u32
    }

    /// An address as answers have it.
    pub fn shown(&self, address: u64) -> String {
        if self.long {
            format!("{address:016x}")
        } else {
            dotted((address >> 32) as u32)
        }
    }

    /// The case in words, its table a record a line.
    pub fn describe(&self) -> String {
        let mut text = match self.call {
            REWRITE if self.mode == 5 => format!("rewrite, mode 5, default {}", self.default),
            REWRITE => format!("rewrite, mode {}", self.mode),
            PLAIN if self.mode == 5 => format!("plain rewrite, mode 5, default {}", self.default),
            PLAIN => format!("plain rewrite, mode {}", self.mode),
            COVER => format!("cover query of {}/{}", self.shown(self.query), self.query_length),
            LOOKUP => format!("lookup of {}", self.shown(self.query)),
            HELD => "addresses held".to_string(),
            CHIP => "chip image".to_string(),
            SPECIAL => format!("special use by RFC {}", self.edition()),
            CHECK => "check of a plan".to_string(),
            PLAN => "plan".to_string(),
            LIVE => "live map".to_string(),
            _ => "list of what has no route".to_string(),
        };
        if self.long {
            text.push_str(", 64 bits");
        }
        if self.strict {
            text.push_str(", strict");
        }
        if let Some(ranks) = &self.ranks {
            let _ = write!(text, ", ranks {ranks:?}");
        }
        let _ = match self.call {
            UNROUTED => writeln!(text, "; {} bytes of output, {} bytes of table", self.work, self.table.len()),
            PLAIN => writeln!(text, "; {} bytes of output, {} bytes of table", self.room, self.table.len()),
            CHIP => writeln!(text, "; {} bytes of image, {} bytes of table", self.room, self.table.len()),
            SPECIAL => writeln!(text, "; {} bytes of table", self.table.len()),
            LIVE => writeln!(text, "; {} words of room, {} commands", self.work, self.room),
            CHECK | PLAN => {
                let (installed, new, _) = plans::parts(self);
                writeln!(text, "; {} bytes installed, {} bytes new, {} steps", installed.len(), new.len(), self.work & 0xFFFF)
            }
            _ => writeln!(
                text,
                "; {} words of work room, {} bytes of output, {} bytes of table",
                self.work,
                self.room,
                self.table.len()
            ),
        };
        list_records(&mut text, &self.table, self.long);
        if self.call == LIVE {
            for command in live::commands(self) {
                let _ = writeln!(text, "  {}", live::in_words(command));
            }
        }
        if self.call == CHECK || self.call == PLAN {
            let (_, new, steps) = plans::parts(self);
            text.push_str("  new:\n");
            list_records(&mut text, new, false);
            for [a, b, c, d, length, hop, put, _] in steps {
                let _ = match put {
                    0 => writeln!(text, "  take {a}.{b}.{c}.{d}/{length}"),
                    _ => writeln!(text, "  put {a}.{b}.{c}.{d}/{length} {hop}"),
                };
            }
        }
        text
    }
}

/// The records of a table, a line each.
fn list_records(text: &mut String, table: &[u8], long: bool) {
    for record in table.chunks(if long { 16 } else { 8 }) {
        let _ = match record {
            [a, b, c, d, length, hop, 0, 0] if !long => writeln!(text, "  {a}.{b}.{c}.{d}/{length} {hop}"),
            [a, b, c, d, e, f, g, h, length, hop, 0, 0, 0, 0, 0, 0] => {
                writeln!(text, "  {:016x}/{length} {hop}", u64::from_be_bytes([*a, *b, *c, *d, *e, *f, *g, *h]))
            }
            _ => writeln!(text, "  bytes {}", hex(record)),
        };
    }
}

pub enum Answer {
    /// Records and change of a rewrite.
    Rewritten(Vec<Route>, i64),
    Refused(u8, usize),
    Covered(bool),
    Match(Option<(u8, u8)>),
    Addresses(u64),
    /// The prefixes without a route.
    Unrouted(Vec<Route>),
    /// The used slots of the chip's image, in slot order.
    Slots(Vec<Route>),
    /// The first record in a special-use range.
    Special(Option<usize>),
    /// Is the plan good?
    Judged(bool),
    /// A plan's steps, or none where the planner gives up.
    Planned(Option<Vec<Step>>),
    /// A word for each command to a live map.
    Lived(Vec<Said>),
}

impl Answer {
    pub fn text(&self, case: &Case) -> String {
        let dotted = |address: u64| case.shown(address);
        let mode = case.mode;
        let mut text = String::new();
        let _ = match self {
            Answer::Rewritten(routes, change) => {
                for &(address, length, hop) in routes {
                    let _ = match mode {
                        1 => writeln!(text, "{}/{length}", dotted(address)),
                        _ => writeln!(text, "{}/{length} {hop}", dotted(address)),
                    };
                }
                writeln!(text, "change {change}")
            }
            Answer::Refused(number, at) => writeln!(text, "refused {number} at {at}"),
            Answer::Covered(true) => writeln!(text, "covered"),
            Answer::Covered(false) => writeln!(text, "uncovered"),
            Answer::Match(Some((hop, length))) => writeln!(text, "hop {hop} length {length}"),
            Answer::Match(None) => writeln!(text, "no route"),
            Answer::Addresses(n) => writeln!(text, "addresses {n}"),
            Answer::Unrouted(list) => {
                for &(address, length, _) in list {
                    let _ = writeln!(text, "{}/{length}", dotted(address));
                }
                writeln!(text, "unrouted {}", list.len())
            }
            Answer::Slots(slots) => {
                for &(address, length, hop) in slots {
                    let _ = writeln!(text, "{}/{length} {hop}", dotted(address));
                }
                writeln!(text, "slots {}", slots.len())
            }
            Answer::Special(Some(at)) => writeln!(text, "special at {at}"),
            Answer::Special(None) => writeln!(text, "none special"),
            Answer::Judged(good) => writeln!(text, "{}", if *good { "yes" } else { "no" }),
            Answer::Lived(said) => {
                for said in said {
                    let _ = match said {
                        Said::Done => writeln!(text, "done"),
                        Said::Absent => writeln!(text, "absent"),
                        Said::Match(Some((hop, length))) => writeln!(text, "hop {hop} length {length}"),
                        Said::Match(None) => writeln!(text, "no route"),
                        Said::Refused(number) => writeln!(text, "refused {number} at 0"),
                        Said::Flipped => writeln!(text, "flipped"),
                        Said::NoCommand => writeln!(text, "no such command"),
                    };
                }
                Ok(())
            }
            Answer::Planned(None) => writeln!(text, "gave up"),
            Answer::Planned(Some(steps)) => {
                for step in steps {
                    let _ = match *step {
                        Step::Put((address, length, hop)) => writeln!(text, "put {}/{length} {hop}", self::dotted(address)),
                        Step::Take(address, length) => writeln!(text, "take {}/{length}", self::dotted(address)),
                    };
                }
                writeln!(text, "steps {}", steps.len())
            }
        };
        text
    }
}

pub fn table_of(routes: &[Route], long: bool) -> Vec<u8> {
    let octets = if long { 8 } else { 4 };
    let mut table = Vec::new();
    for &(address, length, hop) in routes {
        table.extend(&address.to_be_bytes()[..octets]);
        table.extend([length, hop]);
        table.extend(&[0; 6][..octets - 2]);
    }
    table
}

/// The address of a record's bytes as they stand.
pub fn address_of(record: &[u8]) -> u64 {
    let octets = record.len() / 2;
    record[..octets].iter().fold(0, |number, &octet| number << 8 | octet as u64) << (64 - 8 * octets)
}

/// A record's length and hop.
pub fn length_of(record: &[u8]) -> u8 {
    record[record.len() / 2]
}

pub fn hop_of(record: &[u8]) -> u8 {
    record[record.len() / 2 + 1]
}

pub fn dotted(address: u32) -> String {
    let [a, b, c, d] = address.to_be_bytes();
    format!("{a}.{b}.{c}.{d}")
}

pub fn hex(bytes: &[u8]) -> String {
    bytes.iter().map(|b| format!("{b:02X}")).collect::<Vec<_>>().join(" ")
}
