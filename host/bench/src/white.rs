//! Times converting, tallying and mapping of a page with a white point beside the same page without one.

use crate::clock::Clock;
use crate::page::{self, Page};
use crate::{ACCEPTED, SEED};
use dofnihet::Source;
use std::hint::black_box;

/// The white point, in tenths.
const WHITE: u64 = 100;

#[derive(Default)]
struct Clocks {
    convert: Clock,
    tally: Clock,
    map: Clock,
}

/// What the calls write, all of it touched beforehand.
struct Buffers {
    strip: Vec<u32>,
    levels: Vec<u8>,
}

pub fn run(width: usize, height: usize, rounds: usize) {
    let page = page::made(width, height, SEED);
    let mut buffers = Buffers {
        strip: vec![1; page.header(Some(WHITE)).strip_length()],
        levels: vec![1; 3 * page.pixels()],
    };
    println!("{width} x {height}, without a white point and with {WHITE}, {rounds} rounds; nanoseconds a pixel, and map's ratio\n");
    print_table(&measured(&page, &mut buffers, rounds), page.pixels());
}

/// The times without a white point, and those with one.
fn measured(page: &Page, buffers: &mut Buffers, rounds: usize) -> [Clocks; 2] {
    // One round to warm up, whose times are dropped.
    round(page, buffers, &mut Default::default());
    let mut clocks = Default::default();
    for _ in 0..rounds {
        round(page, buffers, &mut clocks);
    }
    clocks
}

fn round(page: &Page, buffers: &mut Buffers, clocks: &mut [Clocks; 2]) {
    for (white, clocks) in [None, Some(WHITE)].into_iter().zip(clocks) {
        let header = page.header(white);
        let (strip, levels) = (&mut buffers.strip[..header.strip_length()], &mut buffers.levels);
        clocks
            .convert
            .time(|| dofnihet::convert(Source::Half(&page.halves), header, strip).expect(ACCEPTED));
        clocks.tally.time(|| black_box(dofnihet::tally(strip).expect(ACCEPTED)));
        clocks.map.time(|| dofnihet::map(strip, levels).expect(ACCEPTED));
    }
}

fn print_table([without, with]: &[Clocks; 2], pixels: usize) {
    println!("| white point | convert | tally | map | ratio |");
    println!("|---|---:|---:|---:|---:|");
    for (name, clocks) in [("without", without), ("with", with)] {
        let [convert, tally, map] = [&clocks.convert, &clocks.tally, &clocks.map].map(|clock| clock.nanoseconds() / pixels as f64);
        let ratio = clocks.map.nanoseconds() / without.map.nanoseconds();
        println!("| {name} | {convert:.2} | {tally:.2} | {map:.2} | {ratio:.2} |");
    }
    println!();
}
