//! Dofnihet for Rust: the proved library's calls with slices and results. The contracts stand in crates/dofnihet/src; this package
//! lends memory and computes nothing.

pub mod raw;

use std::fmt;

/// Why a call turns its input away, by the list of documents 01 and 02.
#[derive(Clone, Copy, Debug, PartialEq, Eq)]
pub struct Refusal {
    pub number: u64,
    pub place: u64,
}

impl Refusal {
    /// The list's word for the number.
    pub fn word(&self) -> &'static str {
        match self.number {
            1 => "bad size",
            2 => "bad key",
            3 => "wrong length",
            4 => "small tray",
            5 => "no number",
            6 => "too bright",
            7 => "foreign word",
            8 => "wild channel",
            9 => "dark page",
            10 => "bad white",
            20 => "no such row",
            21 => "unlike bands",
            _ => "unlisted",
        }
    }

    /// Whether the place is an element's or a word's; else it is 0.
    pub fn has_place(&self) -> bool {
        matches!(self.number, 5..=8)
    }
}

impl fmt::Display for Refusal {
    fn fmt(&self, f: &mut fmt::Formatter) -> fmt::Result {
        write!(f, "refused {} {}", self.number, self.place)
    }
}

impl std::error::Error for Refusal {}

/// What a page is converted with, and what its strip tells back.
#[derive(Clone, Copy, Debug, PartialEq, Eq)]
pub struct Header {
    pub width: u64,
    pub height: u64,
    pub key: u64,
    /// The white point in tenths, if there is one: ten times the scaled luminance from which on a grey is white.
    pub white: Option<u64>,
}

impl Header {
    /// The number of words of the strip of a page whose size is accepted.
    pub fn strip_length(&self) -> usize {
        strip_length((self.width * self.height) as usize) + usize::from(self.white.is_some())
    }

    /// The struct that C takes in its place.
    fn page(self) -> raw::Page {
        raw::Page {
            width: self.width,
            height: self.height,
            key: self.key,
            white_present: u64::from(self.white.is_some()),
            white: self.white.unwrap_or(0),
        }
    }
}

/// The average of the lit pixels: in steps, 256 to a power of two, and as a stored number. Each pixel's steps are taken to the nearest and
/// their average is rounded down, so that the true mean lies at most half a step below `steps` and less than one and a half above.
#[derive(Clone, Copy, Debug, PartialEq, Eq)]
pub struct Average {
    pub steps: i64,
    pub exponent: u8,
    pub mantissa: u8,
}

/// A stored number, worth (mantissa + 1/2) * 2^(exponent - 136).
#[derive(Clone, Copy, Debug, PartialEq, Eq)]
pub struct Stored {
    pub exponent: u8,
    pub mantissa: u8,
}

/// The smallest and the largest stored luminance among the lit pixels, compared by worth.
#[derive(Clone, Copy, Debug, PartialEq, Eq)]
pub struct Extremes {
    pub darkest: Stored,
    pub brightest: Stored,
}

/// The number of lit pixels, the sum of their steps, and what is absent where no pixel is lit: average and extremes. The tally of an
/// accepted page always has both, since a page without a lit pixel is dark.
#[derive(Clone, Copy, Debug, PartialEq, Eq)]
pub struct Tally {
    pub lit: u64,
    pub sum: i64,
    pub average: Option<Average>,
    pub extremes: Option<Extremes>,
}

/// A source picture's elements: left to right, top row first.
#[derive(Clone, Copy, Debug)]
pub enum Source<'a> {
    Rgbe(&'a [u8]),
    Half(&'a [u16]),
    Single(&'a [u32]),
    Stored(&'a [u16]),
}

/// The largest width and height.
pub const MAX_SIDE: usize = 8192;
/// The most pixels.
pub const MAX_PIXELS: usize = 16_777_216;

/// The number of words of the strip of a page without a white point; with one there is one more, as [`Header::strip_length`] tells.
pub fn strip_length(pixels: usize) -> usize {
    3 * pixels + 3
}

fn accepted<T>(number: u64, place: u64, answer: T) -> Result<T, Refusal> {
    if number == 0 {
        Ok(answer)
    } else {
        Err(Refusal { number, place })
    }
}

fn done(outcome: raw::Outcome) -> Result<(), Refusal> {
    accepted(outcome.number, outcome.place, ())
}

/// Leaves the strip of a source picture in the output's front.
pub fn convert(source: Source, header: Header, output: &mut [u32]) -> Result<(), Refusal> {
    done(raw::convert(source, header, output))
}

/// Checks a strip.
pub fn check(strip: &[u32]) -> Result<(), Refusal> {
    done(raw::check(strip))
}

/// Leaves the channels of a strip, 16-bit numbers, in the output's front.
pub fn unpack(strip: &[u32], output: &mut [u16]) -> Result<(), Refusal> {
    done(raw::unpack(strip, output))
}

/// Leaves the levels of a strip, three bytes a pixel, in the output's front. Levels are linear; for a screen see [`screen_table`]. A dark
/// page is refused, as [`tally`] refuses it.
pub fn map(strip: &[u32], output: &mut [u8]) -> Result<(), Refusal> {
    done(raw::map(strip, output))
}

/// The header of a strip.
pub fn header(strip: &[u32]) -> Result<Header, Refusal> {
    header_told(raw::header(strip))
}

fn header_told(told: raw::Header) -> Result<Header, Refusal> {
    let header = Header {
        width: told.width,
        height: told.height,
        key: told.key,
        white: (told.white_present == 1).then_some(told.white),
    };
    accepted(told.number, told.place, header)
}

/// The words of row y of a strip.
pub fn row(strip: &[u32], y: u64) -> Result<&[u32], Refusal> {
    let told = raw::row(strip, y);
    let start = told.start as usize;
    accepted(told.number, told.place, &strip[start..start + told.length as usize])
}

/// Step n of a walk over a strip's pixels: the channels of pixel n, 16-bit numbers, or `None` where the page is over.
pub fn step(strip: &[u32], n: u64) -> Result<Option<[u16; 3]>, Refusal> {
    let told = raw::step(strip, n);
    let channels = [told.red as u16, told.green as u16, told.blue as u16];
    accepted(told.number, told.place, (told.over == 0).then_some(channels))
}

/// The tally of a strip. A dark page, where fewer than one pixel in sixteen is lit, is refused.
pub fn tally(strip: &[u32]) -> Result<Tally, Refusal> {
    tally_told(raw::tally(strip))
}

fn tally_told(told: raw::Tally) -> Result<Tally, Refusal> {
    let average = Average {
        steps: told.average,
        exponent: told.exponent as u8,
        mantissa: told.mantissa as u8,
    };
    let extremes = Extremes {
        darkest: Stored {
            exponent: told.darkest_exponent as u8,
            mantissa: told.darkest_mantissa as u8,
        },
        brightest: Stored {
            exponent: told.brightest_exponent as u8,
            mantissa: told.brightest_mantissa as u8,
        },
    };
    let tally = Tally {
        lit: told.lit,
        sum: told.sum,
        average: (told.present == 1).then_some(average),
        extremes: (told.present == 1).then_some(extremes),
    };
    accepted(told.number, told.place, tally)
}

/// The header of the one tall page that bands are: strips of one width, key and white point or none, one behind another in one slice, the
/// top one first. A refusal's place counts from the slice's start.
pub fn header_of_bands(bands: &[u32]) -> Result<Header, Refusal> {
    header_told(raw::header_of_bands(bands))
}

/// The tally of the tall page that bands are ([`header_of_bands`]). It is refused as dark by the pixels of all bands.
pub fn tally_of_bands(bands: &[u32]) -> Result<Tally, Refusal> {
    tally_told(raw::tally_of_bands(bands))
}

/// Leaves the levels of the tall page that bands are ([`header_of_bands`]), three bytes a pixel, in the output's front. A dark page is
/// refused, as [`tally_of_bands`] refuses it.
pub fn map_bands(bands: &[u32], output: &mut [u8]) -> Result<(), Refusal> {
    done(raw::map_bands(bands, output))
}

/// What stands before the levels in a P6 picture.
pub fn front(width: u64, height: u64) -> Vec<u8> {
    let mut text = [0; 50];
    let count = raw::front(width, height, &mut text);
    text[..count as usize].to_vec()
}

/// The sample of each level: 255 times the transfer curve of ITU-R BT.709 at level / 255, to the nearest, halves up. P6 samples follow that
/// curve, as Netpbm says; an embosser gets the levels as [`map`] leaves them.
pub fn screen_table() -> [u8; 256] {
    let mut samples = [0; 256];
    raw::screen_table(&mut samples);
    samples
}
