//! A plain model of document 01, written from its text by recursion on the bits of an address. It shares no code with the oracle
//! and knows no nodes but in the count of the work room.
//!
//! A call of the model can be given a fault, a planted mistake: `tools/compare --self-test` shows with them that the comparison
//! finds mistakes. `Fault::None` is the model itself.

use crate::case::{
    self, hop_of, length_of, Answer, Case, Route, CHECK, CHIP, COVER, HELD, LIVE, LOOKUP, PLAIN, PLAN, REWRITE, SPECIAL, UNROUTED,
};
use crate::{live, plans};

#[derive(Clone, Copy, PartialEq, Eq, Debug)]
pub enum Fault {
    None,
    LargestHop,
    HoleIsEmptySet,
    AlwaysSmallest,
    AlwaysUnion,
    NodeEdgeInherits,
    DefaultIsZero,
    AnyAncestor,
    MergeUnaligned,
    NoMerge,
    ChangeBackwards,
    QueryTailCounts,
    CoverWithoutMerge,
    ShortestMatch,
    AddressesTwice,
    AddressesWrap,
    NodeShortOfFive,
    NodesNotShared,
    HostBitsMasked,
    EqualRecordsTaken,
    OrderBeforeHop,
    LastBadRecord,
    OutputBeforeWork,
    RecordBeforeCount,
    DefaultAlwaysRead,
    SetTakesHops,
    OctetsBackwards,
    HoleOverRecord,
    HoleNotWidest,
    HolesByLength,
    PlainTakesMode3,
    PlainNeedsWork,
    HostBitsRefused,
    OrderUnmasked,
    RoutesUnmasked,
    SlotsByRisingLength,
    SlotsByFallingAddress,
    ImageMayBeLonger,
    WiderIsSpecial,
    LastSpecial,
    EditionsAlike,
    OnlyTheEnd,
    LengthsCompared,
    OnlyStepStarts,
    OnlyTheNew,
    AbsentTaken,
    CountUnwatched,
    TakeHopRead,
    StepsUnmasked,
    NewAsInstalled,
    PutsByRisingLength,
    TakesByFallingLength,
    TakesFirst,
    UnchangedPut,
    NeverTooMany,
    HighestRank,
    RankAsHop,
    RanksIgnored,
    RanksReadInMode3,
    RankTwiceTaken,
    FewRanksTaken,
    RetiredIsUnknown,
    RetiredAnswers,
    MarkUnread,
    OrderUnread,
    LiveHostBitsRefused,
    AbsentDone,
    ReplaceForgets,
    NodesBeforePut,
    NodesNeverGivenUp,
    NodesBeforeRecords,
}

/// Each planted mistake and what it does wrong.
pub const FAULTS: [(Fault, &str); 70] = [
    (Fault::LargestHop, "modes 4, 5: the largest hop of a set instead of the smallest"),
    (Fault::HoleIsEmptySet, "mode 4: a hole taken as an empty set"),
    (Fault::AlwaysSmallest, "modes 4, 5: the smallest hop even where the hop above is in the set"),
    (Fault::AlwaysUnion, "modes 4, 5: the union of two sets even where they have a hop in common"),
    (Fault::NodeEdgeInherits, "modes 4, 5: a node's position 0 assumed equal to the position above it"),
    (Fault::DefaultIsZero, "mode 5: the default read as 0"),
    (Fault::AnyAncestor, "mode 3: compared with any entry above instead of the nearest"),
    (Fault::MergeUnaligned, "mode 1: neighbours merged without alignment"),
    (Fault::NoMerge, "mode 1: neighbours not merged"),
    (Fault::ChangeBackwards, "every mode: the change with the other sign"),
    (Fault::QueryTailCounts, "cover query: query bits past the length are read"),
    (Fault::CoverWithoutMerge, "cover query: only a member at or above the query covers it"),
    (Fault::ShortestMatch, "lookup: the shortest match"),
    (Fault::AddressesTwice, "addresses held: nested records counted too"),
    (Fault::AddressesWrap, "addresses held: counted in 32 bits"),
    (Fault::NodeShortOfFive, "work room: no node at the depth that equals a record's length"),
    (Fault::NodesNotShared, "work room: records share no node"),
    (Fault::HostBitsMasked, "number 6: not given under the strict choice"),
    (Fault::EqualRecordsTaken, "number 8: a record equal to the one before is taken"),
    (Fault::OrderBeforeHop, "numbers 7 and 8: checked in the other order"),
    (Fault::LastBadRecord, "numbers 5 to 8: the last bad record named"),
    (Fault::OutputBeforeWork, "numbers 10 and 11: checked in the other order"),
    (Fault::RecordBeforeCount, "numbers 4 and 5 to 8: the records checked first"),
    (Fault::DefaultAlwaysRead, "number 2: given in every mode"),
    (Fault::SetTakesHops, "number 7: a set may have hops"),
    (Fault::OctetsBackwards, "the wire: the octets of an address read backwards"),
    (Fault::HoleOverRecord, "list of what has no route: a /32 overlooked"),
    (Fault::HoleNotWidest, "list of what has no route: a prefix listed as its halves"),
    (Fault::HolesByLength, "list of what has no route: in the order of the lengths"),
    (Fault::PlainTakesMode3, "plain engine: mode 3 answered"),
    (Fault::PlainNeedsWork, "plain engine: number 10 given"),
    (Fault::HostBitsRefused, "number 6: given without the strict choice"),
    (Fault::OrderUnmasked, "number 8: judged on the address as it stands"),
    (Fault::RoutesUnmasked, "the wire: host bits taken into the route"),
    (Fault::SlotsByRisingLength, "chip image: the shortest prefixes first"),
    (Fault::SlotsByFallingAddress, "chip image: within a length the last address first"),
    (Fault::ImageMayBeLonger, "number 12: not given to an image room of more than 8,192 bytes"),
    (Fault::WiderIsSpecial, "special use: a record wider than the range named"),
    (Fault::LastSpecial, "special use: the last such record named"),
    (Fault::EditionsAlike, "special use: RFC 6890 read as RFC 5735"),
    (Fault::OnlyTheEnd, "check of a plan: only the table at the end looked at"),
    (Fault::LengthsCompared, "check of a plan: the length of an answer compared, too"),
    (Fault::OnlyStepStarts, "check of a plan: only the addresses looked at where steps begin"),
    (Fault::OnlyTheNew, "check of a plan: the old answer refused"),
    (Fault::AbsentTaken, "check of a plan: an absent prefix may be taken"),
    (Fault::CountUnwatched, "check of a plan: more than 1,024 records allowed on the way"),
    (Fault::TakeHopRead, "number 13: a take's hop read"),
    (Fault::StepsUnmasked, "check of a plan: host bits of a step not masked"),
    (Fault::NewAsInstalled, "numbers 23 to 28: given as 3 to 8"),
    (Fault::PutsByRisingLength, "plan: the shortest prefixes put first"),
    (Fault::TakesByFallingLength, "plan: the longest prefixes taken first"),
    (Fault::TakesFirst, "plan: takes before puts"),
    (Fault::UnchangedPut, "plan: a record put that does not change"),
    (Fault::NeverTooMany, "plan: given where the prefixes are more than 1,024"),
    (Fault::HighestRank, "ranks: the hop of highest rank chosen"),
    (Fault::RankAsHop, "ranks: read as the hops in the order of their ranks"),
    (Fault::RanksIgnored, "ranks: the smallest hop chosen all the same"),
    (Fault::RanksReadInMode3, "number 15: given in mode 3"),
    (Fault::RankTwiceTaken, "number 15: not given where a number is there twice"),
    (Fault::FewRanksTaken, "number 15: not given where there are fewer than 64"),
    (Fault::RetiredIsUnknown, "number 16: mode 2 given 1, as an unknown mode"),
    (Fault::RetiredAnswers, "number 16: mode 2 answered as mode 1"),
    (Fault::MarkUnread, "live map: a room without the mark taken"),
    (Fault::OrderUnread, "live map: a room with records out of order taken"),
    (Fault::LiveHostBitsRefused, "live map: 6 given without the strict choice"),
    (Fault::AbsentDone, "live map: an absent prefix taken and done said"),
    (Fault::ReplaceForgets, "live map: a record forgotten where it is put again"),
    (Fault::NodesBeforePut, "live map: 10 by the nodes before the put"),
    (Fault::NodesNeverGivenUp, "live map: nodes that empty not given up"),
    (Fault::NodesBeforeRecords, "live map: 10 before 17"),
];

/// The first `length` bits set.
fn mask(length: u32) -> u64 {
    u64::MAX.checked_shl(64 - length).unwrap_or(0)
}

/// A record's address, whose first octet comes first.
fn address_of(record: &[u8], fault: Fault) -> u64 {
    let octets = record.len() / 2;
    match fault {
        Fault::OctetsBackwards => (0..octets).map(|at| (record[at] as u64) << (64 - 8 * octets + 8 * at)).sum(),
        _ => case::address_of(record),
    }
}

/// A record's address without the bits past its length.
fn masked(record: &[u8], fault: Fault) -> u64 {
    address_of(record, fault) & mask((length_of(record) as u32).min(64))
}

/// The lowest number against a record, whose index is not 0 where there is one before it.
fn bad_record(record: &[u8], before: Option<&[u8]>, is_map: bool, strict: bool, fault: Fault) -> Option<u8> {
    let address = |r: &[u8]| if fault == Fault::OrderUnmasked { address_of(r, fault) } else { masked(r, fault) };
    let (here, length, hop) = (address(record), length_of(record), hop_of(record));
    if length as usize > 4 * record.len() {
        return Some(5);
    }
    let host_bits = address_of(record, fault) & !mask(length as u32) != 0;
    if host_bits && (strict || fault == Fault::HostBitsRefused) && fault != Fault::HostBitsMasked {
        return Some(6);
    }
    let most = if is_map || fault == Fault::SetTakesHops { 63 } else { 0 };
    let bytes_bad = hop > most || record[record.len() / 2 + 2..].iter().any(|&byte| byte != 0);
    let order_bad = before.is_some_and(|b| match fault {
        Fault::EqualRecordsTaken => (here, length) < (address(b), length_of(b)),
        _ => (here, length) <= (address(b), length_of(b)),
    });
    if fault == Fault::OrderBeforeHop && order_bad {
        return Some(8);
    }
    if bytes_bad {
        return Some(7);
    }
    if order_bad {
        return Some(8);
    }
    None
}

/// Ranks as they may be lent: none, or the numbers 0 to 63 each once.
fn lawful(ranks: &[u8], fault: Fault) -> bool {
    let mut sorted = ranks.to_vec();
    sorted.sort();
    match fault {
        Fault::RankTwiceTaken => ranks.is_empty() || ranks.len() == 64 && sorted[63] < 64,
        Fault::FewRanksTaken => {
            ranks.len() <= 64 && sorted.iter().all(|&rank| rank < 64) && sorted.windows(2).all(|two| two[0] < two[1])
        }
        _ => ranks.is_empty() || sorted.into_iter().eq(0..64),
    }
}

/// The hop of a set that is chosen: the one of lowest rank, and the smallest where no ranks are lent.
fn chosen(set: u64, ranks: &[u8], fault: Fault) -> u8 {
    let hops = (0..64u8).filter(|&hop| set >> hop & 1 == 1);
    let rank = |&hop: &u8| match fault {
        Fault::RanksIgnored => hop,
        Fault::RankAsHop => ranks.iter().position(|&rank| rank == hop).map_or(hop, |at| at as u8),
        _ => ranks.get(hop as usize).copied().unwrap_or(hop),
    };
    let hop = match fault {
        Fault::LargestHop => hops.last(),
        Fault::HighestRank if !ranks.is_empty() => hops.max_by_key(rank),
        _ => hops.min_by_key(rank),
    };
    hop.expect("a set has a hop")
}

/// The routes of an accepted call's table, or the refusal by a number of 1 to 9 or 14 to 16.
pub fn accepted(case: &Case, fault: Fault) -> Result<Vec<Route>, (u8, usize)> {
    if case.call == REWRITE || case.call == PLAIN {
        let known = match case.call {
            _ if case.mode == 2 && fault == Fault::RetiredAnswers => true,
            _ if case.mode == 2 && fault != Fault::RetiredIsUnknown => return Err((16, 0)),
            PLAIN => [1, 4, 5].contains(&case.mode) || case.mode == 3 && fault == Fault::PlainTakesMode3,
            _ => [1, 3, 4, 5].contains(&case.mode),
        };
        if !known {
            return Err((1, 0));
        }
        if (case.mode == 5 || fault == Fault::DefaultAlwaysRead) && case.default > 63 {
            return Err((2, 0));
        }
        let read = case.mode >= 4 || case.mode == 3 && fault == Fault::RanksReadInMode3;
        if read && !lawful(case.ranks.as_deref().unwrap_or(&[]), fault) {
            return Err((15, 0));
        }
    }
    if case.call == SPECIAL && ranges(case.edition(), fault).is_none() {
        return Err((14, 0));
    }
    let is_map = match case.call {
        REWRITE | PLAIN => case.mode >= 3,
        COVER => false,
        _ => true,
    };
    let routes = routes_of(&case.table, case.size(), is_map, case.strict, fault)?;
    if case.call == COVER && case.query_length > case.width() {
        return Err((9, 0));
    }
    Ok(routes)
}

/// The routes of an accepted table, or the refusal by a number of 3 to 8.
pub fn routes_of(table: &[u8], size: usize, is_map: bool, strict: bool, fault: Fault) -> Result<Vec<Route>, (u8, usize)> {
    if table.len() % size != 0 {
        return Err((3, 0));
    }
    let too_many = table.len() / size > 1024;
    if too_many && fault != Fault::RecordBeforeCount {
        return Err((4, 0));
    }
    let mut bad = None;
    for (i, record) in table.chunks(size).enumerate() {
        let before = if i == 0 { None } else { Some(&table[size * i - size..size * i]) };
        if let Some(number) = bad_record(record, before, is_map, strict, fault) {
            if bad.is_none() || fault == Fault::LastBadRecord {
                bad = Some((number, i));
            }
        }
    }
    if let Some(refusal) = bad {
        return Err(refusal);
    }
    if too_many {
        return Err((4, 0));
    }
    let address = |r: &[u8]| if fault == Fault::RoutesUnmasked { address_of(r, fault) } else { masked(r, fault) };
    Ok(table.chunks(size).map(|r| (address(r), length_of(r), hop_of(r))).collect())
}

/// The root and, for each record of length L, a node at each of the depths 5, 10, up to 5 * floor(L/5).
pub fn nodes(routes: &[Route], fault: Fault) -> usize {
    let mut nodes = vec![(0, 0, 0)];
    for (i, &(address, length, _)) in routes.iter().enumerate() {
        let mut depth = 5;
        while depth <= length as u32 && !(fault == Fault::NodeShortOfFive && depth == length as u32) {
            nodes.push((depth, address & mask(depth), if fault == Fault::NodesNotShared { i } else { 0 }));
            depth += 5;
        }
    }
    nodes.sort();
    nodes.dedup();
    nodes.len()
}

/// A position of the full binary tree: its address and length, the routes that lie at or below it, in order, and the hop of the
/// nearest entry at or above it.
#[derive(Clone, Copy)]
struct Position<'a> {
    /// The bits of an address.
    width: u32,
    address: u64,
    length: u32,
    routes: &'a [Route],
    hop: Option<u8>,
}

impl<'a> Position<'a> {
    fn root(width: u32, routes: &'a [Route]) -> Self {
        Position { width, address: 0, length: 0, routes, hop: None }.entered()
    }

    /// The entry that stands exactly here comes first among the routes below.
    fn entry(&self) -> Option<Route> {
        self.routes.first().copied().filter(|route| route.1 as u32 == self.length)
    }

    fn entered(mut self) -> Self {
        if let Some((_, _, hop)) = self.entry() {
            self.hop = Some(hop);
        }
        self
    }

    fn below(&self) -> &'a [Route] {
        &self.routes[self.entry().is_some() as usize..]
    }

    /// The two halves, or none where no route lies below: there every address has the hop of this position.
    fn halves(&self) -> Option<(Self, Self)> {
        let below = self.below();
        // Below a whole address there is nothing; only a planted fault leaves routes there.
        if below.is_empty() || self.length == self.width {
            return None;
        }
        let upper = self.address | 1 << (63 - self.length);
        let (zero, one) = below.split_at(below.partition_point(|route| route.0 < upper));
        let half = |address, routes| Position { address, length: self.length + 1, routes, ..*self }.entered();
        Some((half(self.address, zero), half(upper, one)))
    }

    /// Is each address of the position under some member?
    fn covered(&self) -> bool {
        self.hop.is_some() || self.halves().is_some_and(|(zero, one)| zero.covered() && one.covered())
    }

    /// How many addresses of the position are under some member?
    fn held(&self) -> u64 {
        match self.halves() {
            _ if self.hop.is_some() => 1 << (self.width - self.length),
            Some((zero, one)) => zero.held() + one.held(),
            None => 0,
        }
    }

    fn maximal_covered(&self, out: &mut Vec<Route>) {
        if self.covered() {
            out.push((self.address, self.length as u8, 0));
        } else if let Some((zero, one)) = self.halves() {
            zero.maximal_covered(out);
            one.maximal_covered(out);
        }
    }
}

/// A set of hops, none for a hole. Bit h is hop h.
type Set = Option<u64>;

fn combine(zero: Set, one: Set, fault: Fault) -> Set {
    match (zero, one) {
        (Some(l), Some(r)) if l & r != 0 && fault != Fault::AlwaysUnion => Some(l & r),
        (Some(l), Some(r)) => Some(l | r),
        (l, r) if fault == Fault::HoleIsEmptySet => l.or(r),
        _ => None,
    }
}

/// The sets of a position and of those below it. Where there are no halves all positions below have this set.
struct Sets {
    set: Set,
    halves: Option<Box<(Sets, Sets)>>,
}

fn sets(position: Position, default: Option<u8>, fault: Fault) -> Sets {
    match position.halves() {
        None => Sets { set: position.hop.or(default).map(|hop| 1 << hop), halves: None },
        Some((zero, one)) => {
            let halves = (sets(zero, default, fault), sets(one, default, fault));
            Sets { set: combine(halves.0.set, halves.1.set, fault), halves: Some(Box::new(halves)) }
        }
    }
}

fn assign(sets: &Sets, address: u64, length: u32, above: Option<u8>, ranks: &[u8], fault: Fault, out: &mut Vec<Route>) {
    let here = match (sets.set, above) {
        (None, _) => None,
        (Some(_), Some(hop)) if fault == Fault::NodeEdgeInherits && length % 5 == 0 => Some(hop),
        (Some(set), Some(hop)) if set >> hop & 1 == 1 && (fault != Fault::AlwaysSmallest || set.trailing_zeros() == hop as u32) => {
            Some(hop)
        }
        (Some(set), _) => {
            let hop = chosen(set, ranks, fault);
            out.push((address, length as u8, hop));
            Some(hop)
        }
    };
    if let Some(halves) = &sets.halves {
        assign(&halves.0, address, length + 1, here, ranks, fault, out);
        assign(&halves.1, address | 1 << (63 - length), length + 1, here, ranks, fault, out);
    }
}

fn lies_in(inner: &Route, outer: &Route) -> bool {
    outer.1 < inner.1 && inner.0 & mask(outer.1 as u32) == outer.0
}

/// The nearest entry above a record is the longest of those above it.
fn nearest_above<'a>(routes: &'a [Route], route: &Route) -> Option<&'a Route> {
    routes.iter().filter(|other| lies_in(route, other)).max_by_key(|other| other.1)
}

/// The records that lie in no other.
fn outermost(routes: &[Route]) -> Vec<Route> {
    routes.iter().copied().filter(|route| nearest_above(routes, route).is_none()).collect()
}

fn rewritten(case: &Case, routes: &[Route], fault: Fault) -> Vec<Route> {
    let (mode, ranks, width) = (case.mode, case.ranks.as_deref().unwrap_or(&[]), case.width() as u32);
    let mut out = Vec::new();
    match mode {
        1 if fault == Fault::NoMerge => return outermost(routes),
        1 | 2 => {
            Position::root(width, routes).maximal_covered(&mut out);
            if fault == Fault::MergeUnaligned {
                let mut merged: Vec<Route> = Vec::new();
                for route in out {
                    match merged.last_mut() {
                        Some(last) if last.1 == route.1 && route.1 > 0 && route.0 - last.0 == 1 << (64 - route.1) => last.1 -= 1,
                        _ => merged.push(route),
                    }
                }
                return merged;
            }
        }
        3 => {
            for route in routes {
                let same = match fault {
                    Fault::AnyAncestor => routes.iter().any(|other| lies_in(route, other) && other.2 == route.2),
                    _ => nearest_above(routes, route).is_some_and(|above| above.2 == route.2),
                };
                if !same {
                    out.push(*route);
                }
            }
        }
        _ => {
            let default = if fault == Fault::DefaultIsZero { 0 } else { case.default };
            let sets = sets(Position::root(width, routes), if mode == 5 { Some(default) } else { None }, fault);
            assign(&sets, 0, 0, None, ranks, fault, &mut out);
        }
    }
    out
}

fn covers(case: &Case, routes: &[Route], fault: Fault) -> bool {
    let (query, length) = (case.query, case.query_length as u32);
    let first = if fault == Fault::QueryTailCounts { query } else { query & mask(length) };
    if routes.iter().any(|route| route.1 as u32 <= length && first & mask(route.1 as u32) == route.0) {
        return true;
    }
    let within: Vec<Route> = routes.iter().copied().filter(|route| route.0 & mask(length) == first).collect();
    fault != Fault::CoverWithoutMerge
        && Position { width: case.width() as u32, address: first, length, routes: &within, hop: None }.covered()
}

fn lookup(routes: &[Route], address: u64, fault: Fault) -> Option<(u8, u8)> {
    let matches = routes.iter().filter(|route| address & mask(route.1 as u32) == route.0);
    let best = match fault {
        Fault::ShortestMatch => matches.min_by_key(|route| route.1),
        _ => matches.max_by_key(|route| route.1),
    };
    best.map(|route| (route.2, route.1))
}

fn addresses(routes: &[Route], fault: Fault) -> u64 {
    match fault {
        Fault::AddressesTwice => routes.iter().map(|route| 1 << (32 - route.1 as u64)).sum(),
        Fault::AddressesWrap => Position::root(32, routes).held() as u32 as u64,
        _ => Position::root(32, routes).held(),
    }
}

/// The widest prefixes without a route: what lies between the records, cut into blocks as large as their first address and the gap allow.
fn unrouted(width: u8, routes: &[Route], fault: Fault) -> Vec<Route> {
    let mut list = Vec::new();
    let mut from = 0u128;
    let gap = |list: &mut Vec<Route>, mut from: u128, to: u128| {
        while from < to {
            let aligned = from.trailing_zeros().min(64);
            let size = aligned.min((to - from).ilog2());
            list.push((from as u64, 64 - size as u8, 0));
            from += 1 << size;
        }
    };
    for &(address, length, _) in routes {
        if fault == Fault::HoleOverRecord && length == width {
            continue;
        }
        gap(&mut list, from, address as u128);
        from = from.max(address as u128 + (1 << (64 - length as u32)));
    }
    gap(&mut list, from, 1 << 64);
    match fault {
        Fault::HoleNotWidest => {
            let halves = |&(address, length, hop): &Route| match length {
                _ if length == width => vec![(address, length, hop)],
                _ => vec![(address, length + 1, hop), (address | 1 << (63 - length), length + 1, hop)],
            };
            list.iter().flat_map(halves).collect()
        }
        Fault::HolesByLength => {
            list.sort_by_key(|route| route.1);
            list
        }
        _ => list,
    }
}

/// The records as the chip has them: by falling length, within a length by rising address.
fn slots(mut routes: Vec<Route>, fault: Fault) -> Vec<Route> {
    match fault {
        Fault::SlotsByRisingLength => routes.sort_by_key(|route| (route.1, route.0)),
        Fault::SlotsByFallingAddress => routes.sort_by_key(|route| (64 - route.1, !route.0)),
        _ => routes.sort_by_key(|route| (64 - route.1, route.0)),
    }
    routes
}

/// RFC 5735, section 4.
const RFC_5735: [(&str, u8); 15] = [
    ("0.0.0.0", 8),
    ("10.0.0.0", 8),
    ("127.0.0.0", 8),
    ("169.254.0.0", 16),
    ("172.16.0.0", 12),
    ("192.0.0.0", 24),
    ("192.0.2.0", 24),
    ("192.88.99.0", 24),
    ("192.168.0.0", 16),
    ("198.18.0.0", 15),
    ("198.51.100.0", 24),
    ("203.0.113.0", 24),
    ("224.0.0.0", 4),
    ("240.0.0.0", 4),
    ("255.255.255.255", 32),
];

/// RFC 6890, section 2.2.2.
const RFC_6890: [(&str, u8); 16] = [
    ("0.0.0.0", 8),
    ("10.0.0.0", 8),
    ("100.64.0.0", 10),
    ("127.0.0.0", 8),
    ("169.254.0.0", 16),
    ("172.16.0.0", 12),
    ("192.0.0.0", 24),
    ("192.0.0.0", 29),
    ("192.0.2.0", 24),
    ("192.88.99.0", 24),
    ("192.168.0.0", 16),
    ("198.18.0.0", 15),
    ("198.51.100.0", 24),
    ("203.0.113.0", 24),
    ("240.0.0.0", 4),
    ("255.255.255.255", 32),
];

/// The ranges of an edition.
pub fn ranges(edition: u32, fault: Fault) -> Option<Vec<Route>> {
    let list: &[(&str, u8)] = match edition {
        5735 => &RFC_5735,
        6890 if fault == Fault::EditionsAlike => &RFC_5735,
        6890 => &RFC_6890,
        _ => return None,
    };
    let range =
        |&(address, length): &(&str, u8)| ((u32::from(address.parse::<std::net::Ipv4Addr>().unwrap()) as u64) << 32, length, 0);
    Some(list.iter().map(range).collect())
}

/// The first record all of whose addresses lie in one of the ranges.
fn special(routes: &[Route], ranges: &[Route], fault: Fault) -> Option<usize> {
    let inside = |route: &Route, range: &Route| route.0 & mask(range.1 as u32) == range.0 && route.1 >= range.1;
    let overlaps = |route: &Route, range: &Route| inside(route, range) || inside(range, route);
    let named = |route: &Route| match fault {
        Fault::WiderIsSpecial => ranges.iter().any(|range| overlaps(route, range)),
        _ => ranges.iter().any(|range| inside(route, range)),
    };
    match fault {
        Fault::LastSpecial => routes.iter().rposition(named),
        _ => routes.iter().position(named),
    }
}

/// The model's answer to a case.
pub fn answer(case: &Case, fault: Fault) -> Answer {
    if case.call == CHECK || case.call == PLAN {
        return plans::answer(case, fault);
    }
    if case.call == LIVE {
        return live::answer(case, fault);
    }
    let routes = match accepted(case, fault) {
        Err((number, at)) => return Answer::Refused(number, at),
        Ok(routes) => routes,
    };
    let work_short = || (case.work as usize) < 160 * nodes(&routes, fault);
    match case.call {
        REWRITE | PLAIN => {
            let out = rewritten(case, &routes, fault);
            let output_short = (case.room as usize) < case.size() * out.len();
            if fault == Fault::OutputBeforeWork && output_short {
                return Answer::Refused(11, 0);
            }
            if (case.call == REWRITE || fault == Fault::PlainNeedsWork) && work_short() {
                return Answer::Refused(10, 0);
            }
            if output_short {
                return Answer::Refused(11, 0);
            }
            let change = out.len() as i64 - routes.len() as i64;
            Answer::Rewritten(out, if fault == Fault::ChangeBackwards { -change } else { change })
        }
        COVER if work_short() => Answer::Refused(10, 0),
        COVER => Answer::Covered(covers(case, &routes, fault)),
        LOOKUP => Answer::Match(lookup(&routes, case.query, fault)),
        HELD => Answer::Addresses(addresses(&routes, fault)),
        UNROUTED => {
            let list = unrouted(case.width(), &routes, fault);
            if (case.work as usize) < case.size() * list.len() {
                return Answer::Refused(11, 0);
            }
            Answer::Unrouted(list)
        }
        CHIP if case.room < 8192 || case.room > 8192 && fault != Fault::ImageMayBeLonger => Answer::Refused(12, 0),
        CHIP => Answer::Slots(slots(routes, fault)),
        SPECIAL => Answer::Special(special(&routes, &ranges(case.edition(), fault).unwrap_or_default(), fault)),
        _ => unreachable!("a case names a call"),
    }
}
