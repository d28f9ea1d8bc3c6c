//! The oracle: drives the crate's own table. The five modules are files of the crate prefix-trie, unchanged; tools/oracle/build lays
//! them beside this file under target/ and compiles the whole. The crate's map and set front ends are not at hand, so this file does
//! what they would: it fills a `Table`, calls the table's method, and reads the trie back.

mod aggregate;
mod allocator;
mod node;
mod prefix;
mod table;

// The crate's files name this item at the crate's root.
pub use prefix::Prefix;

use std::mem::size_of;

use aggregate::Aggregation;
use allocator::Loc;
use node::LexIterElem;
use table::{reconstruct_prefix, DataIdx, Table, K};

/// A route: the address with its first bit on top, so that one of 32 bits is the upper half; the length; the hop. Sets have hop 0.
pub type Route = (u64, u8, u8);

/// The widths at which the crate is run: its keys are the crate's own numbers, u32 and u64.
trait Width: node::Key + std::fmt::Debug {
    /// The key of an address.
    fn key(address: u64) -> Self;
    fn address(self) -> u64;
}

impl Width for u32 {
    fn key(address: u64) -> u32 {
        (address >> 32) as u32
    }

    fn address(self) -> u64 {
        (self as u64) << 32
    }
}

impl Width for u64 {
    fn key(address: u64) -> u64 {
        address
    }

    fn address(self) -> u64 {
        self
    }
}

/// Calls a function at 32 bits, or at 64 where the table is long.
macro_rules! at_width {
    ($long:expr, $call:ident($($given:expr),*)) => {
        if $long { $call::<u64>($($given),*) } else { $call::<u32>($($given),*) }
    };
}

fn filled<R: Width, T>(routes: impl IntoIterator<Item = Route>, value: impl Fn(u8) -> T) -> Table<T> {
    let mut table = Table::default();
    for (address, length, hop) in routes {
        match table.find_or_insert_mut(R::key(address), length as u32) {
            Ok(present) => {
                present.replace(value(hop));
            }
            Err(empty) => {
                empty.insert(value(hop));
            }
        }
    }
    table
}

/// Every node of the trie below `loc`, with the entries that it holds. The address of a node is had from the child slots above it.
fn walk<R: Width, T>(table: &Table<T>, loc: Loc, depth: u32, key: R, see: &mut impl FnMut(u64, u8, Option<&T>)) {
    let node = *table.node(loc);
    see(key.address(), depth as u8, None);
    for data in node.data_locs() {
        let (key, length): (R, u8) = reconstruct_prefix(key, depth, data.bit as usize);
        let index = DataIdx { node: loc, bit: data.bit, depth };
        // SAFETY: the table is not changed during the walk, and `loc` is a live node of it.
        let present = unsafe { index.resolve(table) }.expect("the bit is set");
        see(key.address(), length, Some(present.get()));
    }
    for child in node.child_locs() {
        walk(table, child, depth + K, node::extend_repr(key, depth, child.bit), see);
    }
}

fn entries<R: Width, T>(table: &Table<T>, hop: impl Fn(&T) -> u8) -> Vec<Route> {
    let mut routes = Vec::new();
    walk(table, Loc::root(), 0, R::key(0), &mut |address, length, value| {
        if let Some(value) = value {
            routes.push((address, length, hop(value)));
        }
    });
    routes.sort();
    routes
}

/// The number of nodes of the trie that holds `routes`.
pub fn nodes(long: bool, routes: &[Route]) -> usize {
    at_width!(long, nodes_of(routes))
}

fn nodes_of<R: Width>(routes: &[Route]) -> usize {
    let mut count = 0;
    walk(&filled::<R, u8>(routes.iter().copied(), |hop| hop), Loc::root(), 0, R::key(0), &mut |_, _, value| {
        if value.is_none() {
            count += 1;
        }
    });
    count
}

/// Modes 1 and 3 to 5: the entries afterwards, sorted, and the change that the crate's method answers.
pub fn rewrite(long: bool, mode: u8, default: u8, routes: &[Route]) -> (Vec<Route>, i64) {
    at_width!(long, rewrite_of(mode, default, routes))
}

fn rewrite_of<R: Width>(mode: u8, default: u8, routes: &[Route]) -> (Vec<Route>, i64) {
    let set = || filled::<R, ()>(routes.iter().copied(), |_| ());
    let map = || filled::<R, u8>(routes.iter().copied(), |hop| hop);
    // SAFETY: the root is always a live node.
    match mode {
        1 => {
            let mut table = set();
            let (_, change) = unsafe { table.aggregate_set(Loc::root(), 0) };
            (entries::<R, ()>(&table, |_| 0), change)
        }
        3 => {
            let mut table = map();
            let (_, change) = unsafe { table.aggregate_consistent_map(Loc::root(), 0, None) };
            (entries::<R, u8>(&table, |hop| *hop), change)
        }
        4 => {
            let mut table = map();
            let change = table.aggregate_map::<R, fn() -> u8>(Aggregation::Drop);
            (entries::<R, u8>(&table, |hop| *hop), change)
        }
        5 => {
            let mut table = map();
            let change = table.aggregate_map::<R, _>(Aggregation::Fill(|| default));
            (entries::<R, u8>(&table, |hop| *hop), change)
        }
        _ => panic!("mode {mode} is not asked of the crate"),
    }
}

/// The crate's mode that the library has not: the records that lie in no other.
pub fn consistent_set(long: bool, routes: &[Route]) -> Vec<Route> {
    at_width!(long, consistent_set_of(routes))
}

fn consistent_set_of<R: Width>(routes: &[Route]) -> Vec<Route> {
    let mut table = filled::<R, ()>(routes.iter().copied(), |_| ());
    // SAFETY: the root is always a live node.
    unsafe { table.aggregate_consistent_set(Loc::root(), 0) };
    entries::<R, ()>(&table, |_| 0)
}

/// How far `rewrite_records` goes.
#[derive(Clone, Copy, PartialEq)]
pub enum Stage {
    Filled,
    Aggregated,
    Written,
}

/// The record of an entry (docs/WIRE.md), in its place of the output.
fn write_record(output: &mut [u8], size: usize, at: usize, (address, length, hop): Route) {
    let record = &mut output[size * at..size * at + size];
    let octets = size / 2;
    record[..octets].copy_from_slice(&address.to_be_bytes()[..octets]);
    record[octets..].fill(0);
    (record[octets], record[octets + 1]) = (length, hop);
}

/// Writes the entries in table order, by the crate's own iterator over a node and its children, and says how many they are.
fn write_entries<R: Width, T>(table: &Table<T>, hop: impl Fn(&T) -> u8, output: &mut [u8]) -> usize {
    let size = 2 * size_of::<R>();
    let mut count = 0;
    // SAFETY: the table is not changed while it is read, and the iterators hand out live nodes of it.
    let mut open = vec![unsafe { table.lex_iter(Loc::root(), 0, R::key(0)) }];
    while let Some(node) = open.last_mut() {
        let key = *node.key();
        match node.next() {
            None => {
                open.pop();
            }
            Some(LexIterElem::Child(child, depth, key)) => open.push(unsafe { table.lex_iter(child, depth, key) }),
            Some(LexIterElem::Data(index)) => {
                let (key, length): (R, u8) = reconstruct_prefix(key, index.depth, index.bit as usize);
                let present = unsafe { index.resolve(table) }.expect("the bit is set");
                write_record(output, size, count, (key.address(), length, hop(present.get())));
                count += 1;
            }
        }
    }
    count
}

/// Modes 1 and 3 to 5 from records to records: fills a table, aggregates it, and writes its entries. Says how many there are, 0 where it stops
/// at an earlier stage.
pub fn rewrite_records(long: bool, mode: u8, default: u8, records: &[u8], output: &mut [u8], stage: Stage) -> usize {
    at_width!(long, rewrite_records_of(mode, default, records, output, stage))
}

fn rewrite_records_of<R: Width>(mode: u8, default: u8, records: &[u8], output: &mut [u8], stage: Stage) -> usize {
    if mode == 1 {
        // SAFETY: the root is always a live node.
        rewrite_in::<R, ()>(records, |_| (), |_| 0, output, stage, |table| unsafe { table.aggregate_set(Loc::root(), 0) }.1)
    } else {
        rewrite_in::<R, u8>(
            records,
            |hop| hop,
            |hop| *hop,
            output,
            stage,
            |table| match mode {
                // SAFETY: the root is always a live node.
                3 => unsafe { table.aggregate_consistent_map(Loc::root(), 0, None) }.1,
                4 => table.aggregate_map::<R, fn() -> u8>(Aggregation::Drop),
                _ => table.aggregate_map::<R, _>(Aggregation::Fill(|| default)),
            },
        )
    }
}

fn rewrite_in<R: Width, T>(
    records: &[u8],
    value: impl Fn(u8) -> T,
    hop: impl Fn(&T) -> u8,
    output: &mut [u8],
    stage: Stage,
    aggregate: impl Fn(&mut Table<T>) -> i64,
) -> usize {
    let octets = size_of::<R>();
    let address = |r: &[u8]| r[..octets].iter().fold(0, |number, &octet| number << 8 | octet as u64) << (64 - 8 * octets);
    let routes = records.chunks_exact(2 * octets).map(|r| (address(r), r[octets], r[octets + 1]));
    let mut table = filled::<R, T>(routes, value);
    if stage != Stage::Filled {
        std::hint::black_box(aggregate(&mut table));
    }
    if stage != Stage::Written {
        std::hint::black_box(&table);
        return 0;
    }
    write_entries::<R, T>(&table, hop, output)
}

/// Does the set cover every address of the prefix? The crate passes over address bits past the length.
pub fn covers(long: bool, routes: &[Route], address: u64, length: u8) -> bool {
    at_width!(long, covers_of(routes, address, length))
}

fn covers_of<R: Width>(routes: &[Route], address: u64, length: u8) -> bool {
    filled::<R, ()>(routes.iter().copied(), |_| ()).covers_in_aggregate(R::key(address), length as u32)
}

/// The crate's longest match of an address: hop and length.
pub fn lookup(long: bool, routes: &[Route], address: u64) -> Option<(u8, u8)> {
    lookups(long, routes, &[address])[0]
}

/// The same of several addresses.
pub fn lookups(long: bool, routes: &[Route], addresses: &[u64]) -> Vec<Option<(u8, u8)>> {
    at_width!(long, lookups_of(routes, addresses))
}

fn lookups_of<R: Width>(routes: &[Route], addresses: &[u64]) -> Vec<Option<(u8, u8)>> {
    let table = filled::<R, u8>(routes.iter().copied(), |hop| hop);
    let longest = |&address: &u64| {
        let key = R::key(address);
        let present = table.find_lpm(key, R::zero().count_zeros())?;
        let (_, length): (R, u8) = present.prefix(key);
        Some((*present.get(), length))
    };
    addresses.iter().map(longest).collect()
}

/// Which of these prefixes lie in one of the ranges: the crate's longest match of a prefix, which has an entry at or above it.
pub fn within(ranges: &[Route], prefixes: &[Route]) -> Vec<bool> {
    let table = filled::<u32, ()>(ranges.iter().copied(), |_| ());
    prefixes.iter().map(|&(address, length, _)| table.find_lpm(u32::key(address), length as u32).is_some()).collect()
}

/// The crate's own map, to which prefixes are put and from which they are taken, one by one.
pub struct Map {
    table: Table<u8>,
    len: usize,
}

impl Map {
    pub fn of(routes: &[Route]) -> Self {
        Map { table: filled::<u32, u8>(routes.iter().copied(), |hop| hop), len: routes.len() }
    }

    /// Puts a prefix, and says the hop that it had.
    pub fn insert(&mut self, address: u64, length: u8, hop: u8) -> Option<u8> {
        match self.table.find_or_insert_mut(u32::key(address), length as u32) {
            Ok(present) => Some(present.replace(hop)),
            Err(empty) => {
                empty.insert(hop);
                self.len += 1;
                None
            }
        }
    }

    /// Takes a prefix away, and the nodes that are empty then; says whether it was there.
    pub fn remove(&mut self, address: u64, length: u8) -> bool {
        let Some((location, mut path)) = self.table.find_mut_with_path(u32::key(address), length as u32) else { return false };
        let node = location.node_loc();
        let Some(present) = location.present() else { return false };
        present.take();
        self.len -= 1;
        // SAFETY: the value was taken out of a live node, and the path to it was had from the table as it is.
        unsafe { self.table.cleanup_tree(node, &mut path) };
        true
    }

    pub fn lookup(&self, address: u64) -> Option<(u8, u8)> {
        let present = self.table.find_lpm(u32::key(address), 32)?;
        let (_, length): (u32, u8) = present.prefix(u32::key(address));
        Some((*present.get(), length))
    }

    pub fn len(&self) -> usize {
        self.len
    }

    pub fn nodes(&self) -> usize {
        let mut count = 0;
        walk(&self.table, Loc::root(), 0, 0u32, &mut |_, _, value| count += value.is_none() as usize);
        count
    }
}

/// The crate's count of the addresses that the prefixes cover. It gives none where they are all 2^32: a /0, or a sum that 32 bits do not hold.
pub fn addresses(routes: &[Route]) -> Option<u32> {
    filled::<u32, u8>(routes.iter().copied(), |hop| hop).address_count::<(u32, u8)>()
}

/// The crate's folds and pushes of a word, in the order in which the program `ladders` writes them.
pub fn ladders(word: u32) -> [u32; 10] {
    use aggregate::*;
    [
        fold_children(word),
        fold_l4(word),
        fold_l3(word),
        fold_l2(word),
        fold_l1(word),
        push_l0(word),
        push_l1(word),
        push_l2(word),
        push_l3(word),
        push_l4(word),
    ]
}
