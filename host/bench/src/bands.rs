//! Times mapping and tallying of bands beside the tall strip that they are cut from.

use crate::clock::Clock;
use crate::page::{self, Page};
use crate::{ACCEPTED, SEED};
use dofnihet::{Header, Refusal, Source, Tally};
use std::hint::black_box;

/// A way to lay the page out in words, with the calls for it.
struct Layout {
    name: &'static str,
    words: Vec<u32>,
    tally: fn(&[u32]) -> Result<Tally, Refusal>,
    map: fn(&[u32], &mut [u8]) -> Result<(), Refusal>,
}

impl Layout {
    fn strip(page: &Page) -> Layout {
        Layout {
            name: "tall strip",
            words: words(page, page.height),
            tally: dofnihet::tally,
            map: dofnihet::map,
        }
    }

    fn bands(name: &'static str, page: &Page, rows: usize) -> Layout {
        Layout {
            name,
            words: words(page, rows),
            tally: dofnihet::tally_of_bands,
            map: dofnihet::map_bands,
        }
    }

    fn levels(&self, count: usize) -> Vec<u8> {
        let mut levels = vec![1; count];
        (self.map)(&self.words, &mut levels).expect(ACCEPTED);
        levels
    }
}

/// The page's bands of so many rows, one behind another.
fn words(page: &Page, rows: usize) -> Vec<u32> {
    let mut words = Vec::new();
    for halves in page.halves.chunks(3 * page.width * rows) {
        let height = (halves.len() / 3 / page.width) as u64;
        let band = Header {
            height,
            ..page.header(None)
        };
        let start = words.len();
        words.resize(start + band.strip_length(), 0);
        dofnihet::convert(Source::Half(halves), band, &mut words[start..]).expect(ACCEPTED);
    }
    words
}

#[derive(Default)]
struct Clocks {
    map: Clock,
    tally: Clock,
}

pub fn run(width: usize, height: usize, rounds: usize) {
    let layouts = layouts(width, height);
    let mut levels = layouts[0].levels(3 * width * height);
    for bands in &layouts[1..] {
        assert!(bands.levels(levels.len()) == levels, "{}: the tall strip's levels", bands.name);
    }
    println!("{width} x {height}, tall strip and bands, {rounds} rounds; milliseconds, and times the tall strip's\n");
    print_table(&layouts, &measured(&layouts, &mut levels, rounds));
}

fn layouts(width: usize, height: usize) -> [Layout; 3] {
    let page = page::made(width, height, SEED);
    [
        Layout::strip(&page),
        Layout::bands("bands of 64 rows", &page, 64),
        Layout::bands("bands of one row", &page, 1),
    ]
}

fn measured(layouts: &[Layout; 3], levels: &mut [u8], rounds: usize) -> [Clocks; 3] {
    // One round to warm up, whose times are dropped.
    round(layouts, levels, &mut Default::default());
    let mut clocks = Default::default();
    for _ in 0..rounds {
        round(layouts, levels, &mut clocks);
    }
    clocks
}

fn round(layouts: &[Layout; 3], levels: &mut [u8], clocks: &mut [Clocks; 3]) {
    for (layout, clocks) in layouts.iter().zip(clocks) {
        clocks.tally.time(|| black_box((layout.tally)(&layout.words).expect(ACCEPTED)));
        clocks.map.time(|| (layout.map)(&layout.words, levels).expect(ACCEPTED));
    }
}

fn print_table(layouts: &[Layout; 3], clocks: &[Clocks; 3]) {
    println!("| page | map | ratio | tally | ratio |");
    println!("|---|---:|---:|---:|---:|");
    for (layout, clock) in layouts.iter().zip(clocks) {
        let map = times(&clock.map, &clocks[0].map);
        let tally = times(&clock.tally, &clocks[0].tally);
        println!("| {} | {map} | {tally} |", layout.name);
    }
    println!();
}

/// Milliseconds, and their ratio to the tall strip's.
fn times(clock: &Clock, tall: &Clock) -> String {
    let (time, tall) = (clock.nanoseconds(), tall.nanoseconds());
    format!("{:.1} | {:.2}", time / 1e6, time / tall)
}
