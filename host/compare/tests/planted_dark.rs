//! The comparisons of dark pages can fail: the rule is put here over a step that takes them, one mistake at a time, and every mistake must be
//! noticed.

use compare::band_faults::Fault as BandFault;
use compare::compare::{raw_header, raw_step, raw_tally};
use compare::light::{self, Where, EDGES};
use compare::pages::{has_white, Page};
use compare::rounds::{band_fault_case, strip_fault_case};
use compare::strip_faults::Fault;
use compare::{bands, planted, Calls, Compare, Difference, Elements, Library, Told};
use dofnihet::raw::{Header as RawHeader, Outcome, Row, Step, Tally};
use dofnihet::{Header, Source};
use second::{Refusal, Rules, SecondStep};
use std::sync::OnceLock;

// The rule with one mistake.
planted! {
    Unasked EqualDark Fifteen Seventeen SixteenthCut BlackOnly
    ChannelsCounted ThriceThePixels WholePixelsCounted LastLeftOut
    BeforeWords BeforeEnd BeforeRoom PlaceToldOfDark LitToldOfDark TallyToldOfDark LevelsOfDark BlackOfDark
    Converted Checked HeaderAsked RowAsked StepAsked UnpackAsked
    EachBand FirstBand LastBand OneBrightBand BeforeUnlike BehindRoom HeaderOfBandsAsked
    BandsUnasked TallyOfDarkBands LevelsOfDarkBands
}

use Planted::*;

const DARK: Refusal = Refusal { number: 9, place: 0 };

/// Document 01's answers, with bands: dark pages are taken.
fn taking() -> &'static SecondStep {
    static STEP: OnceLock<SecondStep> = OnceLock::new();
    STEP.get_or_init(|| {
        SecondStep::new(Rules {
            dark_page: false,
            ..Rules::BUILT
        })
    })
}

fn outcome(told: Told) -> Outcome {
    let (number, place) = told;
    Outcome { number, place }
}

fn told<T>(answer: &Result<T, Refusal>) -> Told {
    answer.as_ref().err().map_or((0, 0), |refusal| (refusal.number, refusal.place))
}

/// The words of a strip between header and end.
fn channels(strip: &[u32]) -> &[u32] {
    let front = 2 + has_white(strip) as usize;
    strip.get(front..strip.len() - 1).unwrap_or_default()
}

/// The channel words of all strips in a row.
fn joined(row: &[u32]) -> Vec<u32> {
    let is_channel = |word: &u32| (4..=6).contains(&(word >> 28));
    row.iter().copied().filter(is_channel).collect()
}

/// Lit channels among these words.
fn lit_channels(words: &[u32]) -> usize {
    words.iter().filter(|word| **word as u16 > 0).count()
}

/// Pixels with so many lit channels or more.
fn lit(words: &[u32], least: usize) -> usize {
    words.chunks_exact(3).filter(|pixel| lit_channels(pixel) >= least).count()
}

impl Planted {
    /// Whether these channel words make a dark page.
    fn dark(self, words: &[u32]) -> bool {
        let pixels = words.len() / 3;
        match self {
            Unasked => false,
            EqualDark => 16 * lit(words, 1) <= pixels,
            Fifteen => 15 * lit(words, 1) < pixels,
            Seventeen => 17 * lit(words, 1) < pixels,
            SixteenthCut => lit(words, 1) < pixels / 16,
            BlackOnly => lit(words, 1) == 0,
            ChannelsCounted => 16 * lit_channels(words) < pixels,
            ThriceThePixels => 16 * lit_channels(words) < 3 * pixels,
            WholePixelsCounted => 16 * lit(words, 3) < pixels,
            LastLeftOut => 16 * lit(&words[..words.len().saturating_sub(3)], 1) < pixels,
            _ => 16 * lit(words, 1) < pixels,
        }
    }

    /// Whether a strip is refused as dark of which the other checks tell this.
    fn refuses(self, strip: &[u32], told: Told) -> bool {
        let asked = match (self, told) {
            (_, (0, _)) => true,
            (BeforeWords, (7 | 8, place)) => place > 1,
            (BeforeEnd, (7, place)) => place as usize == strip.len() - 1,
            (BeforeRoom, (4, _)) => taking().check(strip).is_ok(),
            _ => false,
        };
        asked && self.dark(channels(strip))
    }

    /// The same of a row of bands.
    fn refuses_bands(self, row: &[u32], told: Told) -> bool {
        let asked = match (self, told.0) {
            (BandsUnasked, _) => false,
            (BehindRoom, number) => number == 0,
            (BeforeUnlike, number) => matches!(number, 0 | 4 | 21),
            (_, number) => matches!(number, 0 | 4),
        };
        asked && self.dark_bands(row)
    }

    fn dark_bands(self, row: &[u32]) -> bool {
        let alone = |strip: &&[u32]| self.dark(channels(strip));
        match self {
            EachBand => bands::strips(row).iter().any(alone),
            FirstBand => bands::strips(row).first().is_some_and(alone),
            LastBand => bands::strips(row).last().is_some_and(alone),
            OneBrightBand => bands::strips(row).iter().all(alone),
            _ => self.dark(&joined(row)),
        }
    }

    /// Whether a call that should take these words, and does, refuses them as dark.
    fn also(self, planted: Planted, words: &[u32], number: u64) -> bool {
        self == planted && number == 0 && self.dark(&joined(words))
    }

    /// What is told of a dark strip with this tally.
    fn refused(self, tally: Tally) -> Tally {
        let refused = raw_tally(&Err(DARK));
        match self {
            PlaceToldOfDark => Tally { place: 2, ..refused },
            LitToldOfDark => Tally { lit: tally.lit, ..refused },
            TallyToldOfDark => Tally { number: 9, ..tally },
            _ => refused,
        }
    }
}

impl Calls for Planted {
    fn tally(&self, strip: &[u32]) -> Tally {
        let answer = taking().tally(strip);
        match self.refuses(strip, told(&answer)) {
            true => self.refused(raw_tally(&answer)),
            false => raw_tally(&answer),
        }
    }

    fn map(&self, strip: &[u32], output: &mut [u8]) -> Outcome {
        let answer = taking().levels(strip, output.len());
        if !self.refuses(strip, told(&answer)) {
            return planted::mapped(&answer, output);
        }
        match self {
            LevelsOfDark => drop(planted::mapped(&answer, output)),
            BlackOfDark => output.fill(0),
            _ => (),
        }
        outcome((9, 0))
    }

    fn tally_of_bands(&self, row: &[u32]) -> Tally {
        let answer = taking().tally_of_bands(row);
        match self.refuses_bands(row, told(&answer)) {
            true if *self == TallyOfDarkBands => Tally {
                number: 9,
                ..raw_tally(&answer)
            },
            true => raw_tally(&Err(DARK)),
            false => raw_tally(&answer),
        }
    }

    fn map_bands(&self, row: &[u32], output: &mut [u8]) -> Outcome {
        let answer = taking().levels_of_bands(row, output.len());
        if !self.refuses_bands(row, told(&answer)) {
            return planted::mapped(&answer, output);
        }
        if *self == LevelsOfDarkBands {
            planted::mapped(&answer, output);
        }
        outcome((9, 0))
    }

    fn convert(&self, source: Source, header: Header, output: &mut [u32]) -> Outcome {
        let told = Library.convert(source, header, output);
        let length = header.strip_length().min(output.len());
        match self.also(Converted, &output[..length], told.number) {
            true => outcome((9, 0)),
            false => told,
        }
    }

    fn check(&self, strip: &[u32]) -> Outcome {
        let told = Library.check(strip);
        match self.also(Checked, strip, told.number) {
            true => outcome((9, 0)),
            false => told,
        }
    }

    fn header(&self, strip: &[u32]) -> RawHeader {
        let told = Library.header(strip);
        match self.also(HeaderAsked, strip, told.number) {
            true => raw_header(&Err(DARK)),
            false => told,
        }
    }

    fn row(&self, strip: &[u32], y: u64) -> Row {
        let told = Library.row(strip, y);
        match self.also(RowAsked, strip, told.number) {
            true => Row {
                number: 9,
                ..Library.row(&[], 0)
            },
            false => told,
        }
    }

    fn step(&self, strip: &[u32], n: u64) -> Step {
        let told = Library.step(strip, n);
        match self.also(StepAsked, strip, told.number) {
            true => raw_step(&Err(DARK)),
            false => told,
        }
    }

    fn unpack(&self, strip: &[u32], output: &mut [u16]) -> Outcome {
        let told = Library.check(strip);
        match self.also(UnpackAsked, strip, told.number) {
            true => outcome((9, 0)),
            false => Library.unpack(strip, output),
        }
    }

    fn header_of_bands(&self, row: &[u32]) -> RawHeader {
        let told = Library.header_of_bands(row);
        match self.also(HeaderOfBandsAsked, row, told.number) {
            true => raw_header(&Err(DARK)),
            false => told,
        }
    }
}

/// Pages at the edge: of the smallest shapes, with lit pixels at either end, of one channel and of all.
fn pages() -> Vec<Page> {
    let random = &mut compare::Random::new(1);
    let ways = [(Where::Front, [1; 3]), (Where::End, [1; 3]), (Where::End, [1, 0, 0])];
    let all = EDGES[..7].iter().flat_map(|shape| ways.map(|way| (*shape, way)));
    all.map(|(shape, (lie, colour))| light::page_at_edge(random, shape, lie, colour).0)
        .collect()
}

/// The pages alone and in single rows; a dark page with another fault, and dark bands with one.
fn compared(calls: &dyn Calls) -> Result<(), Difference> {
    let mut compare = Compare::new(calls);
    for page in pages() {
        compare.convert(Elements::Stored(page.channels.clone()).source(), page.header())?;
        compare.strip(&page.strip())?;
        compare.cutting(&page, &bands::single_rows(page.height))?;
    }
    for fault in [Fault::Foreign(4, 1 << 16), Fault::End(1), Fault::Room(1)] {
        strip_fault_case(&mut compare, &[Fault::Dark, fault], None)?;
    }
    for fault in [BandFault::Key(1, 181), BandFault::Room(1)] {
        band_fault_case(&mut compare, &[BandFault::Black(0, 3), fault], None)?;
    }
    Ok(())
}

#[test]
fn planted_mistakes() {
    let count = planted::each_noticed(Nothing, PLANTED, compared);
    println!("planted mistakes with dark pages: {count} noticed");
}
