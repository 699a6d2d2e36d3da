//! Request 2026-05, "A white point". Pages whose scaled luminances have all exponents from 76 to 234, with white points at the limits, and
//! mistakes in the operator planted on such pages; white points given in converting and read back; strips whose white word is dropped,
//! doubled or moved. The least and the greatest scaled luminance are with demand 3.

use compare::compare::ACCEPTED;
use compare::elements::KINDS;
use compare::pages::{self, header_with, stored, Look, Page, WHITES, WHITE_KIND};
use compare::scaled::{self, numbers, telling_page};
use compare::{planted, same, source_faults, values, Calls, Compare, Difference, Elements, Library, Random};
use dofnihet::raw::Outcome;
use dofnihet::Header;
use std::collections::{BTreeMap, BTreeSet};

const SEED: u64 = 1901;

/// White points between the limits.
const OTHERS: [Option<u64>; 3] = [Some(20), Some(90), Some(360)];

/// With this key, pages whose scaled luminances lie around 1, and pages whose average is drawn down by dim pixels.
fn telling_pages(random: &mut Random, key: u64, white: Option<u64>) -> [Page; 2] {
    let (all, some) = (numbers(72..=184), numbers(72..=184).step_by(3));
    [(all.collect::<Vec<u16>>(), 113, 128), (some.collect(), 4822, 13)]
        .map(|(numbers, width, height)| telling_page(random, &numbers, header_with(width, height, key, white)))
}

/// Of the exponents 76 to 234 each occurs, with at least 20 mantissas.
fn reaches_every_exponent(reached: &BTreeSet<u16>) {
    let mut mantissas = BTreeMap::new();
    for number in reached {
        *mantissas.entry(number >> 8).or_insert(0) += 1;
    }
    let rare: Vec<u16> = (76..=234)
        .filter(|exponent| mantissas.get(exponent).is_none_or(|count| *count < 20))
        .collect();
    assert_eq!(rare, []);
}

/// Every exponent with each of these white points and with none. On most pixels whose display luminance is above 1, a level is neither 0
/// nor clipped.
#[test]
fn every_scaled_exponent() {
    let seed = SEED;
    let (random, mut compare) = (&mut Random::new(seed), Compare::new(&Library));
    for (white, key) in WHITES.iter().chain(&OTHERS).flat_map(|white| [180, 1000].map(|key| (*white, key))) {
        let mut reached = BTreeSet::new();
        let (mut above, mut telling) = (0, 0);
        for page in telling_pages(random, key, white) {
            let strip = page.strip();
            assert_eq!(same(seed, compare.strip(&strip)), ACCEPTED);
            let mut levels = vec![0; page.channels.len()];
            Library.map(&strip, &mut levels);
            for (number, pixel) in scaled::pixels(&strip) {
                reached.insert(pixel.scaled);
                if is_above(pixel.scaled, white) {
                    above += 1;
                    telling += levels[3 * number..][..3].iter().any(|level| (1..255).contains(level)) as u64;
                }
            }
        }
        reaches_every_exponent(&reached);
        assert!(white.is_none() || 4 * telling > 3 * above, "{white:?}: {telling} of {above}");
    }
    println!("display luminances with a white point, seed {seed}: {}", compare.counts);
}

/// Whether the scaled luminance is above the white point: 10(2M+1) · 2^(E-137) above W.
fn is_above(scaled: u16, white: Option<u64>) -> bool {
    white.is_some_and(|white| 10.0 * values::worth(scaled) > white as f64)
}

/// Each white point with every scaled luminance around it.
#[test]
fn every_white_point() {
    let seed = SEED + 1;
    let (random, mut compare) = (&mut Random::new(seed), Compare::new(&Library));
    let near: Vec<u16> = numbers(120..=140).step_by(5).collect();
    for white in 10..=1000 {
        let header = header_with(near.len() as u64, 1, pages::key(random), Some(white));
        let strip = telling_page(random, &near, header).strip();
        let tally = same(seed, compare.tally(&strip));
        let (told, levels) = same(seed, compare.map(&strip, 3 * near.len()));
        assert_eq!(told, ACCEPTED);
        same(seed, compare.distances(&strip, &tally, &levels));
        let header = same(seed, compare.header(&strip));
        assert_eq!((header.white_present, header.white), (1, white));
    }
    println!("every white point, seed {seed}: {}", compare.counts);
}

/// White points given in converting: none, at both limits, and outside, for each kind; what is accepted is read back, unpacked and
/// converted again.
#[test]
fn converting() {
    let seed = SEED + 2;
    let (random, mut compare) = (&mut Random::new(seed), Compare::new(&Library));
    let outside = [0, 1, 9, 1001, 65_535, 65_536 + 30, 1 << 32, (1 << 32) + 30, 1 << 63, u64::MAX];
    for kind in KINDS {
        for white in WHITES.into_iter().chain(outside.map(Some)) {
            let (width, height) = pages::small_size(random);
            let elements = values::accepted(random, kind, width * height);
            let header = header_with(width, height, pages::key(random), white);
            let (told, strip) = same(seed, compare.convert(elements.source(), header));
            if white.is_some_and(|white| outside.contains(&white)) {
                assert_eq!(told, (10, 0), "{white:?}");
                continue;
            }
            assert_eq!((told, strip.len()), (ACCEPTED, header.strip_length()));
            assert_eq!(strip, Page::new(header, values::channels(&elements)).strip());
            read_back(&mut compare, seed, header, &strip);
        }
    }
    println!("converting with white points, seed {seed}: {}", compare.counts);
}

/// The strip's header, and the strip again from its unpacked channels.
#[track_caller]
fn read_back(compare: &mut Compare, seed: u64, header: Header, strip: &[u32]) {
    assert_eq!(dofnihet::header(strip), Ok(header));
    let mut channels = vec![0; 3 * (header.width * header.height) as usize];
    dofnihet::unpack(strip, &mut channels).unwrap();
    let again = same(seed, compare.convert(Elements::Stored(channels).source(), header));
    assert_eq!(again, (ACCEPTED, strip.to_vec()));
    same(seed, compare.strip(strip));
}

/// The same page with and without a white point has the same tally, rows and pixels, and another strip only in the third word.
#[test]
fn with_and_without() {
    let seed = SEED + 3;
    let (random, mut compare) = (&mut Random::new(seed), Compare::new(&Library));
    for look in pages::LOOKS {
        let (width, height) = pages::small_size(random);
        let without = pages::page(random, look, width, height).with_white(None);
        for white in WHITES[1..].iter() {
            let (strip, mut longer) = (without.strip(), without.clone().with_white(*white).strip());
            for y in 0..height {
                assert_eq!(dofnihet::row(&strip, y), dofnihet::row(&longer, y));
            }
            for n in 0..width * height + 2 {
                assert_eq!(Library.step(&strip, n), Library.step(&longer, n));
            }
            assert_eq!(Library.tally(&strip), Library.tally(&longer));
            assert_eq!(same(seed, compare.strip(&longer)), same(seed, compare.strip(&strip)));
            assert_eq!(longer.remove(2), WHITE_KIND | white.unwrap() as u32);
            assert_eq!(longer, strip);
        }
    }
    println!("with and without a white point, seed {seed}: {}", compare.counts);
}

/// A white word dropped leaves a sound strip; doubled or moved it is wrong, and so is a word of another kind in its place.
#[test]
fn moved_words() {
    let seed = SEED + 4;
    let (random, mut compare) = (&mut Random::new(seed), Compare::new(&Library));
    for (width, height) in [(1, 1), (2, 1), (1, 3), (3, 2)] {
        let page = pages::page(random, Look::Wide, width, height).with_white(Some(random.between(10, 1000)));
        let strip = page.strip();
        let mut told = |change: &dyn Fn(&mut Vec<u32>)| {
            let mut changed = strip.clone();
            change(&mut changed);
            same(seed, compare.strip(&changed))
        };
        assert_eq!(told(&|_| ()), ACCEPTED);
        assert_eq!(told(&|strip| strip.retain(|word| word >> 28 != 3)), ACCEPTED);
        assert_eq!(told(&|strip| strip.insert(2, strip[2])), (3, 0));
        for place in 3..strip.len() {
            assert_eq!(told(&|strip| strip[place] = strip[2]), (7, place as u64));
            assert_eq!(
                told(&|strip| {
                    let white = strip.remove(2);
                    strip.insert(place, white);
                }),
                (3, 0)
            );
        }
        assert_eq!(told(&|strip| strip.swap(1, 2)), (7, 1));
        assert_eq!(told(&|strip| strip.swap(0, 2)), (7, 0));
        for kind in (0..16).filter(|kind| *kind != 3) {
            assert_eq!(told(&|strip| strip[2] = strip[2] & 0x0FFF_FFFF | kind << 28), (3, 0));
        }
    }
    println!("white words dropped, doubled and moved, seed {seed}: {}", compare.counts);
}

/// The first red word of a strip without the word becomes a white one, good or bad: the strip is then a word too short for its size.
#[test]
fn red_as_white() {
    let seed = SEED + 5;
    let (random, mut compare) = (&mut Random::new(seed), Compare::new(&Library));
    for (width, height) in [(1, 1), (2, 1), (3, 2)] {
        let strip = pages::page(random, Look::Wide, width, height).with_white(None).strip();
        for white in 0..=1100 {
            let mut changed = strip.clone();
            changed[2] = WHITE_KIND | white;
            let expected = if (10..=1000).contains(&white) { (3, 0) } else { (10, 0) };
            assert_eq!(same(seed, compare.strip(&changed)), expected);
            changed.push(0);
            let expected = if expected.0 == 3 { (7, 3) } else { expected };
            assert_eq!(same(seed, compare.strip(&changed)), expected);
            changed[2] |= 1 << random.between(16, 27);
            assert_eq!(same(seed, compare.strip(&changed)), (7, 2));
        }
    }
    println!("red words as white words, seed {seed}: {}", compare.counts);
}

/// Each two white points, or one and none, in two bands: 21 unless they are equal.
#[test]
fn two_bands() {
    let seed = SEED + 6;
    let (random, mut compare) = (&mut Random::new(seed), Compare::new(&Library));
    let list: Vec<Option<u64>> = WHITES.into_iter().chain([Some(266), Some(12)]).collect();
    for (upper, lower) in list.iter().flat_map(|upper| list.iter().map(move |lower| (*upper, *lower))) {
        let page = pages::page(random, Look::Wide, 2, 3);
        let [upper_band, lower_band] = [upper, lower].map(|white| page.clone().with_white(white).strip());
        let told = same(seed, compare.bands(&[upper_band, lower_band].concat()));
        assert_eq!(told, if upper == lower { ACCEPTED } else { (21, 0) }, "{upper:?} {lower:?}");
    }
    println!("white points of two bands, seed {seed}: {}", compare.counts);
}

// The operator with one mistake.
planted! {
    WhiteUnasked WhiteAlways SquareAsPoint PointTenfold PointOfLowByte
    FullAbove152 FullAboveWhite ItselfAt120 ItselfBelowWhite
}

use Planted::*;

impl Planted {
    /// The white point that is taken in place of this one. w² read as w is another white point where 10W is a square: W'²/100 is W/10.
    fn white(self, white: Option<u64>) -> Option<u64> {
        match (self, white) {
            (WhiteUnasked, _) => None,
            (WhiteAlways, None) => Some(1000),
            (SquareAsPoint, Some(white)) if (10 * white).isqrt().pow(2) == 10 * white => Some((10 * white).isqrt()),
            (PointTenfold, Some(white @ ..=100)) => Some(10 * white),
            (PointOfLowByte, Some(white)) if white % 256 >= 10 => Some(white % 256),
            _ => white,
        }
    }

    /// The display luminance that is taken in place of step 5's.
    fn display(self, scaled: u16, white: Option<u64>) -> Option<u16> {
        let full = Some(stored(128, 255));
        match (self, scaled >> 8) {
            (FullAbove152, 153..) => full,
            (FullAboveWhite, _) if is_above(scaled, white) => full,
            (ItselfAt120, 120) => Some(scaled),
            (ItselfBelowWhite, ..=128) if !is_above(scaled, white) => Some(scaled),
            _ => None,
        }
    }
}

impl Calls for Planted {
    fn map(&self, strip: &[u32], output: &mut [u8]) -> Outcome {
        let Ok(header) = dofnihet::header(strip) else {
            return Library.map(strip, output);
        };
        let channels = pages::channel_words(strip).iter().map(|word| *word as u16).collect();
        let page = Page::new(header, channels).with_white(self.white(header.white));
        let outcome = Library.map(&page.strip(), output);
        if outcome.number == 0 && header.white.is_some() {
            for (number, pixel) in scaled::pixels(strip) {
                if let Some(display) = self.display(pixel.scaled, header.white) {
                    output.as_chunks_mut().0[number] = pixel.levels(display);
                }
            }
        }
        outcome
    }
}

/// Pages that tell, and blue ones, whose levels are the highest where display luminance is low.
fn compared(calls: &dyn Calls) -> Result<(), Difference> {
    let (random, mut compare) = (&mut Random::new(SEED), Compare::new(calls));
    let blue: Vec<[u16; 3]> = numbers(98..=158).map(|number| [0, 0, number]).collect();
    for white in WHITES {
        let blue = Page::row(180, &blue).with_white(white);
        for page in telling_pages(random, 1000, white).iter().chain([&blue]) {
            compare.map(&page.strip(), page.channels.len())?;
        }
    }
    Ok(())
}

#[test]
fn planted_operators() {
    let count = planted::each_noticed(Nothing, PLANTED, compared);
    println!("planted operators with a white point: {count} noticed");
}

/// W is given where `white_present` is any number but 0; where it is 0, `white` is not looked at.
#[test]
fn presence() {
    extern "C" {
        fn dofnihet_convert_stored(
            source: *const u16,
            source_len: usize,
            page: dofnihet::raw::Page,
            output: *mut u32,
            output_len: usize,
        ) -> Outcome;
    }
    let case = source_faults::Case::sound(compare::Kind::Stored, None);
    let Elements::Stored(source) = case.elements else {
        panic!("not of this kind")
    };
    let converted = |white_present: u64, white: u64| {
        let page = dofnihet::raw::Page {
            width: 2,
            height: 2,
            key: 180,
            white_present,
            white,
        };
        let mut output = [7; 16];
        // SAFETY: both slices are live, and the output is borrowed alone.
        let outcome = unsafe { dofnihet_convert_stored(source.as_ptr(), 12, page, output.as_mut_ptr(), 16) };
        (outcome.number, output)
    };
    let page = Page::new(case.header, source.clone());
    let (without, with) = (page.strip(), page.with_white(Some(30)).strip());
    for white in [0, 30, 1001, u64::MAX] {
        assert_eq!(converted(0, white), (0, [&without[..], &[7]].concat().try_into().unwrap()));
    }
    for present in [1, 2, 3, 256, 1 << 32, 1 << 63, u64::MAX] {
        assert_eq!(converted(present, 30), (0, with.clone().try_into().unwrap()));
        for white in [0, 9, 1001, 1 << 32, (1 << 32) + 30] {
            assert_eq!(converted(present, white), (10, [7; 16]));
        }
    }
    println!("presence of a white point: 39");
}
