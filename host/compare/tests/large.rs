//! One page of 16,777,216 pixels: converted, unpacked, tallied, mapped and read at its end on both sides, and the second half of demand 3
//! on all of it; tallied and mapped in bands too. The largest dark pages and their neighbours, with a white point too. Pages of 1,048,576
//! pixels from the other sources.

use compare::compare::{raw_header, raw_step, raw_tally, second_header};
use compare::lent::Lent;
use compare::light::{self, Light, DARK};
use compare::pages::{self, Look, Page};
use compare::rounds::converted;
use compare::{bands, damage, same, values, Calls, Compare, Kind, Library, Random, Told};
use dofnihet::raw::{Header, Outcome, Step, Tally};
use dofnihet::Source;
use second::{LevelDistances, Rules, SecondStep};
use std::thread;

const SEED: u64 = 1101;
const WIDTH: u64 = 8192;
const HEIGHT: u64 = 2048;
/// The last pixel, and the first step behind it.
const STEPS: [u64; 2] = [WIDTH * HEIGHT - 1, WIDTH * HEIGHT];
const ACCEPTED: Outcome = Outcome { number: 0, place: 0 };

/// Rows of different looks, so that exponents 72 to 184 stand side by side; the brightest pixel in the middle, the darkest last.
fn large() -> Page {
    let random = &mut Random::new(SEED);
    let looks = [Look::Wide, Look::Near, Look::Far, Look::Mixed, Look::Powers, Look::Grey];
    let mut channels = Vec::with_capacity(3 * (WIDTH * HEIGHT) as usize);
    for y in 0..HEIGHT {
        channels.extend(pages::page(random, looks[y as usize % looks.len()], WIDTH, 1).channels);
    }
    let (middle, last) = (channels.len() / 6 * 3, channels.len() - 3);
    channels[middle..middle + 3].fill(pages::BRIGHT);
    channels[last..].copy_from_slice(&[0, 0, pages::DIM]);
    Page::new(pages::header(WIDTH, HEIGHT, 180), channels)
}

/// The page in bands of 1 to 63 rows and the rest.
fn in_bands(page: &Page) -> Vec<u32> {
    let heights: Vec<u64> = (1..=63).chain([HEIGHT - 2016]).collect();
    bands::row(page, &heights)
}

/// What the library left in lent memory, longer than needed by five elements, and how far its levels lie from the exact values.
struct ByLibrary {
    outcomes: [Outcome; 4],
    strip: Lent<u32>,
    channels: Lent<u16>,
    levels: Lent<u8>,
    levels_of_bands: Lent<u8>,
    steps: [Step; 2],
    tally: Tally,
    of_bands: (Header, Tally),
    distances: LevelDistances,
}

fn by_library(step: &SecondStep, page: &Page, strip: &[u32], row: &[u32]) -> ByLibrary {
    let count = page.channels.len();
    let (mut made, mut channels) = (Lent::new(count + 8, 1), Lent::new(count + 5, 2));
    let (mut levels, mut levels_of_bands) = (Lent::new(count + 5, 3), Lent::new(count + 5, 4));
    let outcomes = [
        Library.convert(Source::Stored(&page.channels), page.header(), made.output()),
        Library.unpack(strip, channels.output()),
        Library.map(strip, levels.output()),
        Library.map_bands(row, levels_of_bands.output()),
    ];
    let of_bands = (Library.header_of_bands(row), Library.tally_of_bands(row));
    let steps = STEPS.map(|n| Library.step(strip, n));
    let tally = Library.tally(strip);
    let average = second::Average {
        steps: tally.average,
        exponent: tally.exponent as u8,
        mantissa: tally.mantissa as u8,
    };
    let distances = step.level_distances(strip, average, levels.front(count));
    ByLibrary {
        outcomes,
        strip: made,
        channels,
        levels,
        levels_of_bands,
        steps,
        tally,
        of_bands,
        distances,
    }
}

struct BySecond {
    strip: Vec<u32>,
    levels: Vec<u8>,
    steps: [Step; 2],
    tally: Tally,
}

fn by_second(step: &SecondStep, page: &Page) -> BySecond {
    let header = second_header(page.header());
    let strip = step
        .convert(second::Source::Stored(&page.channels), header, page.channels.len() + 8)
        .unwrap_or_default();
    let levels = step.levels(&strip, page.channels.len()).unwrap_or_default();
    let steps = STEPS.map(|n| raw_step(&step.reader_step(&strip, n)));
    let tally = raw_tally(&step.tally(&strip));
    BySecond {
        strip,
        levels,
        steps,
        tally,
    }
}

/// What the second step tells of the bands; their levels must be those of its tall page.
fn of_bands_by_second(step: &SecondStep, row: &[u32]) -> (Header, Tally) {
    (raw_header(&step.header_of_bands(row)), raw_tally(&step.tally_of_bands(row)))
}

/// Both sides at once; the second step's tall page takes longest.
fn by_both(step: &SecondStep, page: &Page, strip: &[u32], row: &[u32]) -> (ByLibrary, BySecond, (Header, Tally)) {
    thread::scope(|scope| {
        let library = scope.spawn(|| (by_library(step, page, strip, row), of_bands_by_second(step, row)));
        let second = by_second(step, page);
        let (library, of_bands) = library.join().unwrap();
        (library, second, of_bands)
    })
}

#[test]
fn a_page_of_all_pixels() {
    let (page, step) = (large(), SecondStep::new(Rules::BUILT));
    let (strip, row, kept) = (page.strip(), in_bands(&page), page.clone());
    let (library, second, of_bands) = by_both(&step, &page, &strip, &row);
    assert_eq!(library.outcomes, [ACCEPTED; 4]);
    assert!(second.strip == strip, "the second step converted it otherwise");
    assert_eq!(second.levels.len(), page.channels.len());
    library.strip.holds(&second.strip).unwrap();
    library.channels.holds(&page.channels).unwrap();
    library.levels.holds(&second.levels).unwrap();
    library.levels_of_bands.holds(&second.levels).unwrap();
    assert_eq!(library.steps, second.steps);
    assert_eq!(library.tally, second.tally);
    assert_eq!(library.of_bands, of_bands);
    assert_eq!(library.of_bands, (Library.header(&strip), library.tally));
    assert!(
        page.channels == kept.channels && page.strip() == strip && in_bands(&page) == row,
        "memory to be read was changed"
    );
    let LevelDistances {
        compared,
        worst,
        first_failure,
    } = library.distances;
    assert_eq!((first_failure, compared), (None, 3 * library.tally.lit));
    let tally = library.tally;
    assert_eq!((tally.darkest_exponent, tally.darkest_mantissa), (67, 246));
    assert_eq!((tally.brightest_exponent, tally.brightest_mantissa), (184, 255));
    let Tally { lit, average, .. } = tally;
    let pixels = WIDTH * HEIGHT;
    println!("large page, seed {SEED}: {pixels} pixels, {lit} lit, average {average}, {compared} levels within {worst:.4}");
}

/// A page with the paper's grey 1.0 in so many pixels at its front, the others black.
fn grey_front((width, height): (u64, u64), lit: u64) -> Page {
    let mut channels = vec![0; 3 * (width * height) as usize];
    channels[..3 * lit as usize].fill(0x80FF);
    Page::new(pages::header(width, height, 180), channels)
}

/// Tally and map of such a page: refused as dark and the output as it was, or the paper's average -1 and level 39. With w = 1 display
/// luminance is L, 0.18 stored as 184.5/1024, and the level 45.94 to the nearest.
fn told_light(page: &Page, expected: Told, tally: Tally, map: impl Fn(&mut [u8]) -> Outcome) {
    let mut output = Lent::new(page.channels.len(), 5);
    let outcome = map(output.output());
    assert_eq!([(tally.number, tally.place), (outcome.number, outcome.place)], [expected; 2]);
    if expected == DARK {
        return output.holds(&[]).unwrap();
    }
    let level = if page.white == Some(10) { 46 } else { 39 };
    let levels: Vec<u8> = page.channels.iter().map(|&channel| if channel > 0 { level } else { 0 }).collect();
    assert_eq!((tally.lit, tally.average), (Light::of(&page.channels).lit, -1));
    output.holds(&levels).unwrap();
}

/// The largest pages with a pixel more and a pixel fewer than sixteen times the lit ones, taken by check, unlike by tally and map.
#[test]
fn dark_pages() {
    for shape in [(2823, 5943), (4095, 4097)] {
        let (lit, expected) = light::edge(shape);
        let page = grey_front(shape, lit);
        let strip = page.strip();
        assert_eq!(Library.check(&strip), ACCEPTED);
        told_light(&page, expected, Library.tally(&strip), |output| Library.map(&strip, output));
        println!("large page at the edge: {lit} lit, told {expected:?}");
    }
}

/// The page of all pixels with a white point and just enough light, all of it in the first bands, and the same without its first pixel. Its
/// strip is the longest one.
#[test]
fn dark_bands() {
    let page = grey_front((WIDTH, HEIGHT), WIDTH * HEIGHT / 16).with_white(Some(10));
    let (mut strip, mut row) = (page.strip(), in_bands(&page));
    for expected in [(0, 0), DARK] {
        assert_eq!((Library.check(&strip), Library.header_of_bands(&row).number), (ACCEPTED, 0));
        told_light(&page, expected, Library.tally(&strip), |output| Library.map(&strip, output));
        told_light(&page, expected, Library.tally_of_bands(&row), |output| {
            Library.map_bands(&row, output)
        });
        damage::blacken(&mut strip[3..6]);
        damage::blacken(&mut row[3..6]);
    }
    println!("large page in bands at the edge: with its first pixel and without");
}

/// A page of 2^20 pixels and its strip through every call.
fn source(compare: &mut Compare, kind: Kind, width: u64, white: Option<u64>) {
    let seed = SEED + width;
    let elements = values::accepted(&mut Random::new(seed), kind, 1 << 20);
    let header = pages::header_with(width, (1 << 20) / width, 180, white);
    assert_eq!(same(seed, converted(compare, &elements, header)), (0, 0));
    println!("long source of {kind:?}, seed {seed}");
}

#[test]
fn long_sources() {
    let mut compare = Compare::new(&Library);
    for (kind, width, white) in [
        (Kind::Single, 8192, Some(30)),
        (Kind::Half, 128, None),
        (Kind::Rgbe, 1024, Some(1000)),
    ] {
        source(&mut compare, kind, width, white);
    }
    println!("long sources: {}", compare.counts);
}
