//! Darkest and brightest where they are easily missed: at the ends of blocks, among black pixels, against the order of mantissas, and at
//! the limits of luminance.

use compare::pages::{self, stored, Page, BRIGHT, DIM, LOOKS};
use compare::{powers, same, Compare, Library, Random};

const SEED: u64 = 1301;

/// The least and the greatest luminance.
const LEAST: [u16; 3] = [0, 0, DIM];
const GREATEST: [u16; 3] = [BRIGHT; 3];

/// Page lengths and places around blocks of 16 pixels.
const COUNTS: [usize; 12] = [1, 2, 15, 16, 17, 31, 32, 33, 47, 48, 50, 64];
const PLACES: [usize; 9] = [0, 1, 15, 16, 17, 31, 32, 47, 48];

/// Those of the places that a page has, its middle and its last.
fn places(count: usize) -> Vec<usize> {
    let mut list: Vec<usize> = PLACES.into_iter().filter(|&place| place < count).collect();
    list.extend([count / 2, count - 1]);
    list.sort_unstable();
    list.dedup();
    list
}

/// Each two of a list, in either order, and each with itself.
fn pairs<T: Copy>(list: &[T]) -> Vec<(T, T)> {
    list.iter().flat_map(|&one| list.iter().map(move |&other| (one, other))).collect()
}

/// The tally of a page as one row and as one column: accepted, or refused with this number.
#[track_caller]
fn tallied(compare: &mut Compare, seed: u64, pixels: &[[u16; 3]], number: u64) {
    for page in [Page::row(180, pixels), Page::column(180, pixels)] {
        assert_eq!(same(seed, compare.tally(&page.strip())).number, number);
    }
}

/// A page and the same backwards, through every call.
#[track_caller]
fn both_ways(compare: &mut Compare, pixels: &[[u16; 3]]) {
    let backwards: Vec<[u16; 3]> = pixels.iter().rev().copied().collect();
    for pixels in [pixels, &backwards] {
        assert_eq!(compare.strip(&Page::row(180, pixels).strip()).unwrap(), (0, 0));
    }
}

fn grey(exponent: u64, mantissa: u64) -> [u16; 3] {
    [stored(exponent, mantissa); 3]
}

/// One lit pixel in each sixteen or fewer, the others black, of least, greatest and ordinary luminance, and with one channel lit. One lit
/// pixel fewer is too few.
#[test]
fn one_lit_pixel() {
    let mut compare = Compare::new(&Library);
    let lit = [LEAST, GREATEST, grey(128, 255), [stored(136, 200), 0, 0], [0, stored(100, 128), 0]];
    for (count, pixel) in COUNTS.iter().flat_map(|&count| lit.map(|pixel| (count, pixel))) {
        for place in places(count) {
            let mut pixels = vec![[0; 3]; count];
            (place..place + count).step_by(16).for_each(|i| pixels[i % count] = pixel);
            tallied(&mut compare, SEED, &pixels, 0);
            pixels[place] = [0; 3];
            tallied(&mut compare, SEED, &pixels, 9);
        }
    }
    println!("one lit pixel: {}", compare.counts);
}

/// A pixel between the two that are placed below, or a black one.
fn between(random: &mut Random) -> [u16; 3] {
    match random.one_in(3) {
        true => [0; 3],
        false => grey(random.between(121, 129), random.between(128, 255)),
    }
}

/// Darkest and brightest at each two places.
#[test]
fn two_places() {
    let seed = SEED + 1;
    let (random, mut compare) = (&mut Random::new(seed), Compare::new(&Library));
    for count in COUNTS {
        for (dark, bright) in pairs(&places(count)) {
            let mut pixels: Vec<[u16; 3]> = (0..count).map(|_| between(random)).collect();
            pixels[dark] = grey(120, 255);
            pixels[bright] = grey(130, 128);
            tallied(&mut compare, seed, &pixels, 0);
        }
    }
    println!("darkest and brightest at two places, seed {seed}: {}", compare.counts);
}

/// Pages of each look and of every length up to four blocks and a part.
#[test]
fn every_length() {
    let seed = SEED + 2;
    let (random, mut compare) = (&mut Random::new(seed), Compare::new(&Library));
    for (look, count) in LOOKS.iter().flat_map(|look| (1..=70).map(move |count| (*look, count))) {
        let page = pages::page(random, look, count, 1);
        assert_eq!(same(seed, compare.tally(&page.strip())).number, page.told().0);
    }
    println!("every length, seed {seed}: {}", compare.counts);
}

/// The greater mantissa with the smaller exponent: of neighbouring exponents all, and farther apart.
#[test]
fn mantissas_against_exponents() {
    let mut compare = Compare::new(&Library);
    for exponent in 72..184 {
        both_ways(&mut compare, &[grey(exponent, 255), grey(exponent + 1, 128)]);
        both_ways(&mut compare, &[grey(exponent, 201), grey(exponent + 1, 200), grey(exponent, 202)]);
        both_ways(&mut compare, &[grey(72, 129 + exponent % 127), grey(exponent + 1, 128)]);
    }
    println!("mantissas against exponents: {}", compare.counts);
}

/// Neighbouring mantissas of one exponent, and one luminance alone: several times, and from several colours.
#[test]
fn near_and_equal_worths() {
    let mut compare = Compare::new(&Library);
    for mantissa in 128..255 {
        let (low, high) = (stored(136, mantissa), stored(136, mantissa + 1));
        both_ways(&mut compare, &[[low; 3], [high; 3]]);
        both_ways(&mut compare, &[[low; 3], [low; 3], [low, low, high], [high, low, low]]);
        both_ways(&mut compare, &[[high; 3], [low; 3], [high; 3], [0; 3], [low; 3], [high, high, low]]);
    }
    println!("near and equal worths: {}", compare.counts);
}

/// The least and the greatest luminance, their neighbours, and the least and greatest channel alone in each place.
#[test]
fn limits() {
    let mut compare = Compare::new(&Library);
    let mut list = vec![
        LEAST,
        GREATEST,
        [0, 0, stored(72, 129)],
        [0, 0, stored(72, 255)],
        [BRIGHT, BRIGHT, BRIGHT - 1],
        [BRIGHT - 1; 3],
        [DIM; 3],
    ];
    list.extend((0..3).flat_map(|place| [DIM, BRIGHT].map(|channel| alone(place, channel))));
    for (one, other) in pairs(&list) {
        both_ways(&mut compare, &[one, other]);
        both_ways(&mut compare, &[grey(128, 255), one, other]);
    }
    println!("least and greatest luminances: {}", compare.counts);
}

fn alone(place: usize, channel: u16) -> [u16; 3] {
    let mut pixel = [0; 3];
    pixel[place] = channel;
    pixel
}

/// Channels of one pixel 0 to 112 exponents apart, beside a pixel that lacks the smaller one.
#[test]
fn channels_far_apart() {
    let mut compare = Compare::new(&Library);
    for (apart, place) in (0..=112).flat_map(|apart| (0..3).map(move |place| (apart, place))) {
        for (small, large) in [(128, 255), (255, 128), (200, 200)] {
            let with = |channel| {
                let mut pixel = [stored(72 + apart, large); 3];
                pixel[place] = channel;
                pixel
            };
            both_ways(&mut compare, &[with(stored(72, small)), with(0)]);
            both_ways(&mut compare, &[alone(place, stored(72, small)), with(stored(72, small))]);
        }
    }
    println!("channels far apart: {}", compare.counts);
}

/// Luminances at a power of two, with mantissa 255, and just above it, with mantissa 128: a third channel decides.
#[test]
fn luminances_at_powers_of_two() {
    let mut compare = Compare::new(&Library);
    for (pair, base) in powers::pairs().iter().flat_map(|pair| [128, 170].map(|base| (pair, base))) {
        let pixels: Vec<[u16; 3]> = pair.thirds(base).iter().map(|&third| pair.pixel(base, third)).collect();
        let tally = compare.tally(&Page::row(180, &pixels).strip()).unwrap();
        assert_eq!(tally.brightest_exponent, tally.darkest_exponent + 1);
        assert_eq!((tally.darkest_mantissa, tally.brightest_mantissa), (255, 128));
    }
    println!("luminances at powers of two: {}", compare.counts);
}
