//! The four kinds of source, element by element.

use crate::number::{Channel, Fraction};
use crate::refusal::{Refusal, NO_NUMBER, TOO_BRIGHT, WILD_CHANNEL};

/// A source picture, left to right, top row first.
#[derive(Clone, Copy, Debug)]
pub enum Source<'a> {
    /// Four bytes a pixel: R, G, B, e.
    Rgbe(&'a [u8]),
    /// Three IEEE 754 halves a pixel.
    Half(&'a [u16]),
    /// Three IEEE 754 singles a pixel.
    Single(&'a [u32]),
    /// Three numbers 256E + M a pixel.
    Stored(&'a [u16]),
}

impl Source<'_> {
    /// The number of elements; an RGBE element is a byte.
    pub(crate) fn length(&self) -> u64 {
        let length = match self {
            Source::Rgbe(bytes) => bytes.len(),
            Source::Half(row) | Source::Stored(row) => row.len(),
            Source::Single(row) => row.len(),
        };
        length as u64
    }

    pub(crate) fn elements_per_pixel(&self) -> u64 {
        match self {
            Source::Rgbe(_) => 4,
            _ => 3,
        }
    }

    /// Channel 0, 1 or 2 of a pixel inside the source, or the refusal of its element.
    pub(crate) fn channel(&self, pixel: usize, channel: usize) -> Result<Channel, Refusal> {
        let place = pixel * self.elements_per_pixel() as usize + channel;
        let answer = match self {
            Source::Rgbe(bytes) => rgbe(bytes[place], bytes[4 * pixel + 3]),
            Source::Half(row) => half(row[place]),
            Source::Single(row) => single(row[place]),
            Source::Stored(row) => Channel::from_bits(row[place]).ok_or(WILD_CHANNEL),
        };
        answer.map_err(|number| Refusal {
            number,
            place: place as u64,
        })
    }
}

/// "byte m is worth (m + 1/2) · 2^(e−136); e = 0 makes the pixel black."
fn rgbe(byte: u8, exponent: u8) -> Result<Channel, u64> {
    if exponent == 0 {
        return Ok(Channel::Black);
    }
    binary(2 * byte as u64 + 1, exponent as i32 - 137)
}

fn half(bits: u16) -> Result<Channel, u64> {
    ieee(bits as u32, 5, 10)
}

fn single(bits: u32) -> Result<Channel, u64> {
    ieee(bits, 8, 23)
}

/// An IEEE 754 number with the given widths of its exponent and fraction fields.
/// Infinities and NaNs are refused with either sign; zero and finite negative values are black.
fn ieee(bits: u32, exponent_width: u32, fraction_width: u32) -> Result<Channel, u64> {
    let fraction = bits % (1 << fraction_width);
    let exponent = (bits >> fraction_width) % (1 << exponent_width);
    let negative = bits >> (fraction_width + exponent_width) == 1;
    if exponent == (1 << exponent_width) - 1 {
        return Err(NO_NUMBER);
    }
    if negative || (exponent == 0 && fraction == 0) {
        return Ok(Channel::Black);
    }
    // A subnormal has the least normal exponent and no leading one.
    let significand = if exponent == 0 {
        fraction
    } else {
        fraction + (1 << fraction_width)
    };
    let bias = (1 << (exponent_width - 1)) - 1;
    binary(significand as u64, exponent.max(1) as i32 - bias - fraction_width as i32)
}

/// Stores the positive value significand · 2^power. Powers are −149 to 118, so both sides fit.
fn binary(significand: u64, power: i32) -> Result<Channel, u64> {
    Channel::store(Fraction::new(significand, 1, power)).ok_or(TOO_BRIGHT)
}
