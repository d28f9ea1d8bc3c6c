//! The crate's side of tools/bench: rewrites one table again and again. Reads what the program `bench` reads (crates/bench/src/main.rt),
//! passes over the words of work room, and prints the same line. Its argument names the stage at which each rewrite ends: `filled`,
//! `aggregated` or `written`. Built with the cfg word `counted` it prints instead the most bytes that it held on the heap at one time.

use std::hint::black_box;
use std::io::Read;

use oracle::Stage;

#[cfg(counted)]
mod counted {
    use std::alloc::{GlobalAlloc, Layout, System};
    use std::sync::atomic::{AtomicUsize, Ordering::Relaxed};

    static HELD: AtomicUsize = AtomicUsize::new(0);
    static MOST: AtomicUsize = AtomicUsize::new(0);

    struct Counting;

    // SAFETY: every call is passed on to the system's allocator.
    unsafe impl GlobalAlloc for Counting {
        unsafe fn alloc(&self, layout: Layout) -> *mut u8 {
            MOST.fetch_max(HELD.fetch_add(layout.size(), Relaxed) + layout.size(), Relaxed);
            System.alloc(layout)
        }
        unsafe fn dealloc(&self, at: *mut u8, layout: Layout) {
            HELD.fetch_sub(layout.size(), Relaxed);
            System.dealloc(at, layout)
        }
    }

    #[global_allocator]
    static COUNTING: Counting = Counting;

    /// Counts anew from here.
    pub fn begin() {
        HELD.store(0, Relaxed);
        MOST.store(0, Relaxed);
    }

    pub fn print() {
        println!("bytes {}", MOST.load(Relaxed));
    }
}

fn main() {
    let stage = match std::env::args().nth(1).as_deref() {
        Some("filled") => Stage::Filled,
        Some("aggregated") => Stage::Aggregated,
        _ => Stage::Written,
    };
    let mut input = Vec::new();
    std::io::stdin().take(8 + 16_400).read_to_end(&mut input).expect("standard input can be read");
    let (head, records) = input.split_at(8);
    let times = u32::from_be_bytes([0, head[0], head[1], head[2]]);
    let (long, mode) = (head[3] & 32 != 0, head[3] % 32);
    let mut output = [0u8; 16_400];
    let mut count = 0;
    #[cfg(counted)]
    counted::begin();
    for _ in 0..times {
        count = oracle::rewrite_records(long, mode, head[4], black_box(records), &mut output, stage);
        black_box(&output);
    }
    #[cfg(counted)]
    counted::print();
    #[cfg(not(counted))]
    match times {
        0 => println!("not run"),
        _ => println!("records {count} change {}", count as i64 - (records.len() / if long { 16 } else { 8 }) as i64),
    }
    let _ = count;
}
