//! A second tone step: the page strip, its tally and its mapping, by the papers' rules in exact whole numbers.
//! It is simple rather than fast, and stands beside another implementation for comparison.

mod bands;
pub mod fixed;
mod nearness;
mod number;
mod picture;
mod refusal;
mod sources;
mod strip;
mod tables;
mod tone;
pub mod whole;

pub use nearness::LevelDistances;
pub use number::Number;
pub use refusal::Refusal;
pub use sources::Source;
pub use strip::Header;
pub use tone::{Average, Extremes, Tally};

use bands::Bands;
use refusal::{require, DARK_PAGE};
use std::ops::Range;

/// Which of the later changes hold; 2026-01, darkest and brightest in the tally, and 2026-02, bands, always do. 2026-04,
/// display luminance by the published cases, changes no answer and has no switch.
#[derive(Clone, Copy, Debug)]
pub struct Rules {
    /// 2026-03: tallying and mapping refuse a page when sixteen times its lit pixels is below its pixel count.
    pub dark_page: bool,
    /// 2026-05: a strip may carry a white point.
    pub white_word: bool,
    /// 2026-06: T is rounded to the nearest step, and the bound on the mean follows.
    pub nearest_steps: bool,
    /// 2026-07: the picture program prints through the screen curve.
    pub screen_curve: bool,
}

impl Rules {
    /// What is built now: document 01 with 2026-01 to 2026-06, the fourth of which changes no answer.
    pub const BUILT: Rules = Rules {
        dark_page: true,
        white_word: true,
        nearest_steps: true,
        screen_curve: false,
    };
}

/// The rules and the tables worked out from them.
pub struct SecondStep {
    rules: Rules,
    /// T[128] to T[255].
    steps_table: Vec<i64>,
    /// X[1] to X[255].
    mantissa_table: Vec<u8>,
    /// The printed sample of each level.
    samples: Vec<u8>,
}

impl SecondStep {
    pub fn new(rules: Rules) -> SecondStep {
        SecondStep {
            rules,
            steps_table: tables::steps_table(rules.nearest_steps),
            mantissa_table: tables::mantissa_table(),
            samples: if rules.screen_curve {
                tables::curve_table()
            } else {
                (0..=255).collect()
            },
        }
    }

    /// A source picture as a whole strip; `room` is the length of the lent output in words.
    pub fn convert(&self, source: Source, header: Header, room: usize) -> Result<Vec<u32>, Refusal> {
        strip::convert(&self.rules, source, header, room)
    }

    /// All checks of a strip that no row is asked of and that no output is lent with.
    pub fn check(&self, strip: &[u32]) -> Result<(), Refusal> {
        self.header(strip).map(|_| ())
    }

    /// The header of an accepted strip.
    pub fn header(&self, strip: &[u32]) -> Result<Header, Refusal> {
        strip::accept(&self.rules, strip, None)
    }

    /// The word indices of row y of an accepted strip.
    pub fn row(&self, strip: &[u32], y: u64) -> Result<Range<usize>, Refusal> {
        strip::row(&self.rules, strip, y)
    }

    /// Step n, counted from 0, of a reader opened over the strip: a pixel's numbers 256E + M, or None where the page is over.
    pub fn reader_step(&self, strip: &[u32], n: u64) -> Result<Option<[u16; 3]>, Refusal> {
        let pixel = strip::reader_step(&self.rules, strip, n)?;
        Ok(pixel.map(|pixel| pixel.map(|channel| channel.bits())))
    }

    /// An accepted strip as a stored row; `room` is in its 16-bit numbers.
    pub fn unpack(&self, strip: &[u32], room: usize) -> Result<Vec<u16>, Refusal> {
        let header = strip::accept(&self.rules, strip, Some(room))?;
        Ok(strip::stored_row(strip, &header))
    }

    /// The tally of a page; where dark pages are refused, an accepted one has an average: "The all-black answer of document
    /// 01 no longer occurs there."
    pub fn tally(&self, strip: &[u32]) -> Result<Tally, Refusal> {
        let header = self.page(strip, None)?;
        Ok(self.tally_of(strip, &header))
    }

    /// Mapping: three level bytes a pixel; `room` is in bytes, and checked before the words and so before 9.
    pub fn levels(&self, strip: &[u32], room: usize) -> Result<Vec<u8>, Refusal> {
        let header = self.page(strip, Some(room))?;
        let average = self.tally_of(strip, &header).average;
        Ok(tone::levels(strip::pixels(strip, &header), &header, average))
    }

    /// The header of the tall page of an accepted row of bands.
    pub fn header_of_bands(&self, row: &[u32]) -> Result<Header, Refusal> {
        Bands::accept(&self.rules, row).map(|bands| bands.page)
    }

    /// The joined tally.
    pub fn tally_of_bands(&self, row: &[u32]) -> Result<Tally, Refusal> {
        self.joined(row).map(|(_, tally)| tally)
    }

    /// Mapping under the joined average: the levels of the bands one after another; `room` is in bytes, "the tray is
    /// checked last", after 9.
    pub fn levels_of_bands(&self, row: &[u32], room: usize) -> Result<Vec<u8>, Refusal> {
        let (bands, tally) = self.joined(row)?;
        bands.page.check_room(room)?;
        Ok(tone::levels(bands.pixels(), &bands.page, tally.average))
    }

    /// "the one tall strip" of an accepted row of bands.
    pub fn tall_strip(&self, row: &[u32]) -> Result<Vec<u32>, Refusal> {
        Bands::accept(&self.rules, row).map(|bands| bands.tall_strip())
    }

    /// The row of bands of an accepted strip cut into these heights; it panics unless each is at least 1 and they sum to
    /// the strip's height.
    pub fn cut(&self, strip: &[u32], heights: &[u64]) -> Vec<u32> {
        let header = self.header(strip).expect("an accepted strip");
        bands::cut(strip, &header, heights)
    }

    /// The whole output of the picture program for this standard input.
    pub fn picture(&self, input: &[u8]) -> Vec<u8> {
        picture::print(self, input)
    }

    /// Whether the first half of demand 3 holds of the reported steps. It does not where the tally refuses the strip
    /// or has no steps to report. Exact; the time grows fast with the number of lit pixels.
    pub fn mean_holds(&self, strip: &[u32], reported_steps: i64) -> bool {
        match self.page(strip, None) {
            Ok(header) => nearness::mean_holds(strip::pixels(strip, &header), reported_steps, self.rules.nearest_steps),
            Err(_) => false,
        }
    }

    /// How many steps the true mean lies above the reported one, for printing; no number where there is no mean.
    pub fn mean_above(&self, strip: &[u32], reported_steps: i64) -> f64 {
        match self.page(strip, None) {
            Ok(header) => nearness::mean_above(strip::pixels(strip, &header), reported_steps),
            Err(_) => f64::NAN,
        }
    }

    /// The second half of demand 3 on every lit pixel and channel; nothing is compared where mapping refuses the strip.
    pub fn level_distances(&self, strip: &[u32], average: Average, levels: &[u8]) -> LevelDistances {
        match self.page(strip, None) {
            Ok(header) => nearness::level_distances(strip::pixels(strip, &header), &header, average, levels),
            Err(_) => LevelDistances::NONE,
        }
    }

    /// The checks of tallying and mapping: those of a strip, then "9 dark page, place 0, after every word has passed".
    fn page(&self, strip: &[u32], room: Option<usize>) -> Result<Header, Refusal> {
        let header = strip::accept(&self.rules, strip, room)?;
        let lit = strip::pixels(strip, &header).filter(tone::is_lit).count();
        self.check_light(lit as u64, &header)?;
        Ok(header)
    }

    /// An accepted row of bands and their joined tally; "For bands the rule looks at the joined tally only."
    fn joined<'a>(&self, row: &'a [u32]) -> Result<(Bands<'a>, Tally), Refusal> {
        let bands = Bands::accept(&self.rules, row)?;
        let tallies = bands.iter().map(|(header, strip)| self.tally_of(strip, header));
        let tally = tone::join(tallies, &self.mantissa_table);
        self.check_light(tally.lit, &bands.page)?;
        Ok((bands, tally))
    }

    /// Dark page: "sixteen times its lit pixels is below its pixel count"; equality passes.
    fn check_light(&self, lit: u64, page: &Header) -> Result<(), Refusal> {
        let dark = 16 * lit < page.pixels() as u64;
        require(!(self.rules.dark_page && dark), DARK_PAGE)
    }

    /// The tally of an accepted page.
    fn tally_of(&self, strip: &[u32], header: &Header) -> Tally {
        tone::tally(strip::pixels(strip, header), &self.steps_table, &self.mantissa_table)
    }

    /// What the picture program prints for a level.
    fn sample(&self, level: u8) -> u8 {
        self.samples[level as usize]
    }
}
