//! The comparisons of request 2026-06, "Logarithms to the nearest step", can fail: a T with a mistake, or an average off by one, is put
//! over the library, in one call, and must be noticed. Then the bound on the mean alone, which takes some averages that only the equation
//! with the second step rules out, beside the bound that was.

use compare::compare::raw_tally;
use compare::pages::{stored, Page};
use compare::{bands, planted, Calls, Compare, Difference, Library};
use dofnihet::raw::{Outcome, Tally};
use second::{Rules, SecondStep};
use std::sync::OnceLock;

#[derive(Clone, Copy, Debug)]
enum Mistake {
    Nothing,
    /// T rounded down, as in document 01, and up.
    Down,
    Up,
    /// One entry of T off by so much.
    Entry(u64, i64),
    /// A off by so much.
    Average(i64),
}

use Mistake::*;

#[derive(Clone, Copy, Debug)]
enum Call {
    Tally,
    Map,
    TallyOfBands,
    MapBands,
}

/// A mistake in one call.
#[derive(Clone, Copy, Debug)]
struct In(Mistake, Call);

/// Document 01's T and its bound on the mean.
fn before() -> &'static SecondStep {
    static STEP: OnceLock<SecondStep> = OnceLock::new();
    STEP.get_or_init(|| {
        SecondStep::new(Rules {
            nearest_steps: false,
            ..Rules::BUILT
        })
    })
}

/// The tally with so much more in its sum.
fn with_more(tally: Tally, more: i64) -> Tally {
    let sum = tally.sum + more;
    Tally {
        sum,
        average: sum.div_euclid(tally.lit as i64),
        ..tally
    }
}

/// Red words with this mantissa: of greys, whose luminance is the channel itself.
fn greys(words: &[u32], mantissa: u64) -> i64 {
    let is_grey = |word: &&u32| **word >> 28 == 4 && **word as u64 & 0xFF == mantissa;
    words.iter().filter(is_grey).count() as i64
}

impl In {
    /// The tally of these greys, where the library tells one and T rounded down another. T rounded up is one more for every grey.
    fn retold(self, words: &[u32], told: Tally, down: Tally) -> Tally {
        match self.0 {
            Nothing => told,
            Down => down,
            Up => with_more(down, down.lit as i64),
            Entry(mantissa, more) => with_more(told, more * greys(words, mantissa)),
            Average(more) => Tally {
                average: told.average + more,
                ..told
            },
        }
    }
}

impl Calls for In {
    fn tally(&self, strip: &[u32]) -> Tally {
        let told = Library.tally(strip);
        match self.1 {
            Call::Tally => self.retold(strip, told, raw_tally(&before().tally(strip))),
            _ => told,
        }
    }

    fn tally_of_bands(&self, row: &[u32]) -> Tally {
        let told = Library.tally_of_bands(row);
        match self.1 {
            Call::TallyOfBands => self.retold(row, told, raw_tally(&before().tally_of_bands(row))),
            _ => told,
        }
    }

    fn map(&self, strip: &[u32], output: &mut [u8]) -> Outcome {
        match self {
            In(Down, Call::Map) => planted::mapped(&before().levels(strip, output.len()), output),
            _ => Library.map(strip, output),
        }
    }

    fn map_bands(&self, row: &[u32], output: &mut [u8]) -> Outcome {
        match self {
            In(Down, Call::MapBands) => planted::mapped(&before().levels_of_bands(row, output.len()), output),
            _ => Library.map_bands(row, output),
        }
    }
}

/// For each mantissa a grey, and a black pixel below it. With K 1,000 the grey's level is 127 or 128, on which one step may decide.
fn pages() -> impl Iterator<Item = Page> {
    (128..=255).map(|mantissa| Page::column(1000, &[[stored(136, mantissa); 3], [0; 3]]))
}

/// Each such page and its two bands.
fn compared(calls: &dyn Calls) -> Result<(), Difference> {
    let mut compare = Compare::new(calls);
    for page in pages() {
        compare.tally(&page.strip())?;
        compare.tally_of_bands(&bands::row(&page, &[1, 1]))?;
    }
    for page in pages() {
        compare.map(&page.strip(), 6)?;
        compare.map_bands(&bands::row(&page, &[1, 1]), 6)?;
    }
    Ok(())
}

#[test]
fn planted_mistakes() {
    let entries = (128..=255).flat_map(|mantissa| [Entry(mantissa, 1), Entry(mantissa, -1)]);
    let mistakes = entries.chain([Down, Up, Average(1), Average(-1)]);
    let mut list: Vec<In> = mistakes
        .flat_map(|mistake| [In(mistake, Call::Tally), In(mistake, Call::TallyOfBands)])
        .collect();
    list.extend([In(Down, Call::Map), In(Down, Call::MapBands)]);
    let count = planted::each_noticed(In(Nothing, Call::Tally), &list, compared);
    println!("planted mistakes with steps: {count} noticed");
}

/// Whether these steps are within the bound on the mean, and whether they are within document 01's.
fn bounds<const COUNT: usize>(compare: &mut Compare, page: &Page, steps: [i64; COUNT]) -> ([bool; COUNT], [bool; COUNT]) {
    let strip = page.strip();
    (
        steps.map(|steps| compare.mean(&strip, steps).is_ok()),
        steps.map(|steps| before().mean_holds(&strip, steps)),
    )
}

/// One grey, whose mean lies less than half a step below or above A. The bound rules out A + 1 and A - 2 and takes A - 1. Document 01's
/// takes A only where the mean is not below it, that is, where T is rounded down, and A - 2 where it is below.
#[test]
fn planted_averages() {
    let mut compare = Compare::new(&Library);
    let mut below = 0;
    for page in pages() {
        let strip = page.strip();
        let (average, before) = (Library.tally(&strip).average, raw_tally(&before().tally(&strip)).average);
        let is_below = average > before;
        let taken = bounds(&mut compare, &page, [-2, -1, 0, 1].map(|more| average + more));
        assert_eq!(taken, ([false, true, true, false], [is_below, true, !is_below, false]));
        below += is_below as u64;
    }
    assert!(0 < below && below < 128);
    println!("planted averages of one grey: 256 ruled out, 128 not; document 01's bound rules out {below} that are right");
}

/// Averages that the division cuts, alone and of bands. The bound rules out A - 1, which was within document 01's, and takes A + 1, which
/// only the equation rules out.
///
/// The logarithms of 128.5 and 137.5 are 1793.44 and 1818.44 steps, and T is 1793 and 1818: 3611 is 2 · 1805 + 1, and the mean 1805.94.
///
/// That of 187.5 is 1932.99 steps, and T 1933, which was 1932. Thrice, the third two exponents above, its sum is 5799 + 512, that is,
/// 3 · 2103 + 2, and the mean 2103.66. With T rounded down it is 5796 + 512 = 3 · 2102 + 2, and A - 1 is document 01's average.
#[test]
fn planted_averages_of_several() {
    let mut compare = Compare::new(&Library);
    let two = Page::column(180, &[[stored(136, 128); 3], [stored(136, 137); 3]]);
    let three = Page::column(180, &[[stored(136, 187); 3], [stored(136, 187); 3], [stored(138, 187); 3]]);
    for (page, average) in [(two, 1805), (three, 2103)] {
        let row = bands::row(&page, &bands::single_rows(page.height));
        assert_eq!(
            [Library.tally(&page.strip()).average, Library.tally_of_bands(&row).average],
            [average; 2]
        );
        let taken = bounds(&mut compare, &page, [-1, 0, 1].map(|more| average + more));
        assert_eq!(taken, ([false, true, true], [true, true, false]));
    }
    println!("planted averages of several greys: 2 ruled out, 2 not");
}
