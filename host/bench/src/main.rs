//! Times the library beside the conventional method in double precision, on one thread and on the same pages, bands beside a strip, and a
//! page with a white point beside the one without.

mod bands;
mod clock;
mod double;
mod machine;
mod page;
mod white;

use clock::Clock;
use dofnihet::Source;
use page::{Page, KEY};
use std::hint::black_box;

const SEED: u64 = 20140906;
/// What is expected of every call.
const ACCEPTED: &str = "the page is accepted";

fn main() {
    println!("machine: {}", machine::model());
    println!("pages of halves, seed {SEED}, key {KEY}; best of the rounds, nanoseconds a pixel\n");
    run(8192, 2048, 8);
    run(100, 50, 2000);
    bands::run(2048, 8192, 8);
    white::run(8192, 2048, 8);
    white::run(100, 50, 2000);
    println!("peak memory of the run (VmHWM): {} MiB", machine::peak_memory() >> 20);
}

fn run(width: usize, height: usize, rounds: usize) {
    let page = page::made(width, height, SEED);
    println!(
        "{width} x {height}, {} pixels, {} of them black, {rounds} rounds\n",
        page.pixels(),
        page.black()
    );
    let mut buffers = Buffers::touched(page.pixels());
    let clocks = measured(&page, &mut buffers, rounds);
    print_table(&clocks, page.pixels());
    println!("\nlargest difference between the levels of both: {}", buffers.largest_difference());
    buffers.print_sizes(&page);
}

/// What the calls of both methods write, all of it touched beforehand.
struct Buffers {
    strip: Vec<u32>,
    levels: Vec<u8>,
    double_channels: Vec<f64>,
    double_levels: Vec<u8>,
}

impl Buffers {
    fn touched(pixels: usize) -> Buffers {
        Buffers {
            strip: vec![1; dofnihet::strip_length(pixels)],
            levels: vec![1; 3 * pixels],
            double_channels: vec![1.0; 3 * pixels],
            double_levels: vec![1; 3 * pixels],
        }
    }

    fn largest_difference(&self) -> u8 {
        let differences = self.levels.iter().zip(&self.double_levels).map(|(a, b)| a.abs_diff(*b));
        differences.max().unwrap_or(0)
    }

    fn print_sizes(&self, page: &Page) {
        println!(
            "bytes: source {}; library: strip {}, levels {}; double: channels {}, levels {}\n",
            size_of_val(&page.halves[..]),
            size_of_val(&self.strip[..]),
            size_of_val(&self.levels[..]),
            size_of_val(&self.double_channels[..]),
            size_of_val(&self.double_levels[..]),
        );
    }
}

/// The best times of the library's calls and of the double method's passes.
#[derive(Default)]
struct Clocks {
    convert: Clock,
    check: Clock,
    tally: Clock,
    map: Clock,
    tone: Clock,
    double_convert: Clock,
    double_mean: Clock,
    double_tone: Clock,
}

fn measured(page: &Page, buffers: &mut Buffers, rounds: usize) -> Clocks {
    // One round to warm up, whose times are dropped.
    round(page, buffers, &mut Clocks::default());
    let mut clocks = Clocks::default();
    for _ in 0..rounds {
        round(page, buffers, &mut clocks);
    }
    clocks
}

fn round(page: &Page, buffers: &mut Buffers, clocks: &mut Clocks) {
    library_round(page, &mut buffers.strip, &mut buffers.levels, clocks);
    double_round(page, &mut buffers.double_channels, &mut buffers.double_levels, clocks);
}

fn library_round(page: &Page, strip: &mut [u32], levels: &mut [u8], clocks: &mut Clocks) {
    let header = page.header(None);
    clocks
        .convert
        .time(|| dofnihet::convert(Source::Half(&page.halves), header, strip).expect(ACCEPTED));
    clocks.check.time(|| dofnihet::check(strip).expect(ACCEPTED));
    clocks.tally.time(|| black_box(dofnihet::tally(strip).expect(ACCEPTED)));
    clocks.map.time(|| dofnihet::map(strip, levels).expect(ACCEPTED));
    clocks.tone.time(|| {
        dofnihet::check(strip).expect(ACCEPTED);
        black_box(dofnihet::tally(strip).expect(ACCEPTED));
        dofnihet::map(strip, levels).expect(ACCEPTED);
    });
}

fn double_round(page: &Page, channels: &mut [f64], levels: &mut [u8], clocks: &mut Clocks) {
    let key = KEY as f64 / 1000.0;
    clocks
        .double_convert
        .time(|| double::convert(black_box(&page.halves), black_box(&mut *channels)));
    clocks.double_mean.time(|| black_box(double::mean(black_box(channels))));
    clocks
        .double_tone
        .time(|| double::tone(black_box(channels), black_box(key), black_box(&mut *levels)));
}

fn print_table(clocks: &Clocks, pixels: usize) {
    println!("| step | library | double | double / library |");
    println!("|---|---:|---:|---:|");
    print_row("convert", &clocks.convert, Some(&clocks.double_convert), pixels);
    print_row("check", &clocks.check, None, pixels);
    print_row("tally", &clocks.tally, Some(&clocks.double_mean), pixels);
    print_row("map", &clocks.map, Some(&clocks.double_tone), pixels);
    print_row(
        "check, tally and map, one after another",
        &clocks.tone,
        Some(&clocks.double_tone),
        pixels,
    );
}

fn print_row(name: &str, library: &Clock, double: Option<&Clock>, pixels: usize) {
    let ours = library.nanoseconds() / pixels as f64;
    let Some(double) = double else {
        println!("| {name} | {ours:.2} | | |");
        return;
    };
    let theirs = double.nanoseconds() / pixels as f64;
    println!("| {name} | {ours:.2} | {theirs:.2} | {:.2} |", theirs / ours);
}
