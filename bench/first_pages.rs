//! What a page of memory costs that is written to for the first time, and again, in nanoseconds by the clock.
//!
//! usage: rustc --edition 2021 -O -o first_pages first_pages.rs && ./first_pages MEGABYTES..
//!
//! Memory is taken for each size anew, and given back. A page that the system has ready is cheaper than one that the
//! machine's host has to give first, as on virtual machines that give free memory back to it.

use std::hint::black_box;
use std::time::Instant;

const PAGE: usize = 4096;

fn nanoseconds_a_page(memory: &mut [u8]) -> f64 {
    let began = Instant::now();
    for page in memory.chunks_mut(PAGE) {
        page[0] = black_box(page[0].wrapping_add(1));
    }
    began.elapsed().as_nanos() as f64 / (memory.len() / PAGE) as f64
}

fn main() {
    for word in std::env::args().skip(1) {
        let megabytes: usize = word.parse().expect("a number of megabytes");
        let mut memory = vec![0u8; megabytes << 20];
        let first = nanoseconds_a_page(&mut memory);
        let again = nanoseconds_a_page(&mut memory);
        println!("{megabytes:>6} MB: {first:6.0} ns a page, again {again:4.0}");
    }
}
