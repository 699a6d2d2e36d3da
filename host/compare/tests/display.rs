//! Request 2026-04, "Display luminance by the published cases": "E below 114, E above 152, and between." Pages whose scaled luminances are
//! every stored number around both limits and between them, and mistakes in the cases planted on such pages.

use compare::light::COLOURS;
use compare::pages::{self, stored, Page};
use compare::scaled::{self, numbers};
use compare::{planted, same, Calls, Compare, Difference, Library, Random};
use dofnihet::raw::Outcome;
use std::collections::BTreeSet;
use std::ops::RangeInclusive;

const SEED: u64 = 1801;

/// Exponents of the scaled luminances that must occur, each with every mantissa: from two below the first case's limit to two above the
/// second's.
const WANTED: RangeInclusive<u64> = 112..=154;

/// Exponents on a page. The average lies in their middle, and the scaled luminances within some 30 exponents of K/1000.
const EXPONENTS: RangeInclusive<u64> = 98..=158;

/// The usual key, and keys over an octave: a mantissa that one leaves out is another's.
const KEYS: [u64; 9] = [180, 500, 552, 610, 673, 743, 820, 906, 1000];

/// A page with a pixel for each stored number.
fn page(key: u64, pixel: impl FnMut(u16) -> [u16; 3]) -> Page {
    let pixels: Vec<[u16; 3]> = numbers(EXPONENTS).map(pixel).collect();
    Page::row(key, &pixels)
}

/// The number in each channel of the colour, the others black.
fn plain_page(key: u64, colour: [u16; 3]) -> Page {
    page(key, |number| colour.map(|on| on * number))
}

/// The number in one channel, the others up to eight exponents below it.
fn mixed_page(random: &mut Random, key: u64, place: usize) -> Page {
    page(key, |number| {
        let mut pixel = [0; 3].map(|_| pages::lit(random, (number as u64 >> 8) - 4, 4));
        pixel[place] = number;
        pixel
    })
}

/// Compares these pages, on which every number that is wanted must be a scaled luminance.
#[track_caller]
fn every_scaled_luminance(compare: &mut Compare, pages: impl Iterator<Item = Page>) -> Result<(), Difference> {
    let mut reached = BTreeSet::new();
    for page in pages {
        let strip = page.strip();
        assert_eq!(compare.strip(&strip)?, (0, 0));
        reached.extend(scaled::pixels(&strip).iter().map(|(_, pixel)| pixel.scaled));
    }
    let missing: Vec<u16> = numbers(WANTED).filter(|number| !reached.contains(number)).collect();
    assert_eq!(missing, []);
    Ok(())
}

/// Each channel alone, and all three alike: every scaled luminance in each of these colours.
#[test]
fn plain_colours() {
    let mut compare = Compare::new(&Library);
    for colour in COLOURS {
        every_scaled_luminance(&mut compare, KEYS.iter().map(|&key| plain_page(key, colour))).unwrap();
    }
    println!("display luminances of plain colours: {}", compare.counts);
}

#[test]
fn mixed_colours() {
    let seed = SEED;
    let (random, mut compare) = (&mut Random::new(seed), Compare::new(&Library));
    let pages = KEYS.iter().flat_map(|&key| [0, 1, 2].map(|place| (key, place)));
    let pages = pages.map(|(key, place)| mixed_page(random, key, place));
    same(seed, every_scaled_luminance(&mut compare, pages));
    println!("display luminances of mixed colours, seed {seed}: {}", compare.counts);
}

// The cases with one mistake.
planted! {
    ItselfAt120 FullAt136
    FourfoldBelow MoreAbove LessAbove
}

use Planted::*;

impl Planted {
    /// The outcome of a case; none between them. Without a mistake they reach as far as step 5's own rule has their outcomes for every
    /// mantissa: "the stored scaled luminance itself" where E is below 120, and (128,255) where it is above 136. From the published limits
    /// up to these, no page shows where a limit stands.
    ///
    /// Mistaken outcomes within the published cases: above 152 the next stored number up or down; below 114 levels are at most
    /// 255 · 17 · 2^-15 = 0.13, that is, 0, and so they are of twice the outcome, but not of four times the outcome in a saturated blue.
    fn display(self, scaled: u16) -> Option<u16> {
        let (below, above) = match self {
            ItselfAt120 => (121, 136),
            FullAt136 => (120, 135),
            _ => (120, 136),
        };
        match (self, scaled >> 8) {
            (FourfoldBelow, ..114) => Some(scaled + stored(2, 0)),
            (MoreAbove, 153..) => Some(stored(129, 128)),
            (LessAbove, 153..) => Some(stored(128, 254)),
            (_, exponent) if exponent < below => Some(scaled),
            (_, exponent) if exponent > above => Some(stored(128, 255)),
            _ => None,
        }
    }
}

impl Calls for Planted {
    fn map(&self, strip: &[u32], output: &mut [u8]) -> Outcome {
        let outcome = Library.map(strip, output);
        if outcome.number > 0 {
            return outcome;
        }
        for (number, pixel) in scaled::pixels(strip) {
            if let Some(display) = self.display(pixel.scaled) {
                output.as_chunks_mut().0[number] = pixel.levels(display);
            }
        }
        outcome
    }
}

/// A page of each plain and each mixed colour, with the usual key.
fn compared(calls: &dyn Calls) -> Result<(), Difference> {
    let (random, mut compare) = (&mut Random::new(SEED), Compare::new(calls));
    for colour in COLOURS {
        compare.strip(&plain_page(180, colour).strip())?;
    }
    for place in 0..3 {
        compare.strip(&mixed_page(random, 180, place).strip())?;
    }
    Ok(())
}

#[test]
fn planted_cases() {
    let count = planted::each_noticed(Nothing, PLANTED, compared);
    println!("planted cases of display luminance: {count} noticed");
}
