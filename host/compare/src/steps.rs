//! Steps 1, 4 and 6 of document 01 once more, in 128 bits: the scaled luminances of a page's pixels, and levels under any display
//! luminance. A stored number is 256E + M here, as channels are.

use crate::pages::stored;

/// The weights of R, G and B in a hundred times the luminance.
pub const WEIGHTS: [u64; 3] = [27, 67, 6];

fn exponent(number: u16) -> i32 {
    (number >> 8) as i32
}

/// 2M + 1: the worth is this times 2^(E-137).
fn significand(number: u16) -> u128 {
    2 * (number as u128 & 0xFF) + 1
}

/// A hundred times the luminance, in units of 2^(72-137): at most 16 + 112 binary digits.
pub fn hundredfold(pixel: [u16; 3]) -> u128 {
    let part = |i: usize| match pixel[i] {
        0 => 0,
        channel => (WEIGHTS[i] as u128 * significand(channel)) << (exponent(channel) - 72),
    };
    part(0) + part(1) + part(2)
}

/// n/d · 2^power stored, with n at least d: 2^(E-129) < F ≤ 2^(E-128), and M is F · 2^(136-E) rounded down, "and 255 where that gives
/// 256".
fn store(n: u128, d: u128, power: i32) -> u16 {
    let digits = n.div_ceil(d).next_power_of_two().ilog2();
    let mantissa = match digits {
        ..8 => (n << (8 - digits)) / d,
        8.. => n / (d << (digits - 8)),
    };
    stored((digits as i32 + power + 128) as u64, mantissa.min(255) as u64)
}

/// Step 1 of a lit pixel.
pub fn luminance(pixel: [u16; 3]) -> u16 {
    store(hundredfold(pixel), 100, 72 - 137)
}

/// Step 4: "K/1000 times luminance over average (both decoded), stored." 2^11 times the luminance's 2M + 1 is at least a thousand times the
/// average's.
pub fn scaled_luminance(luminance: u16, average: u16, key: u64) -> u16 {
    let (n, d) = (key as u128 * significand(luminance), 1000 * significand(average));
    store(n << 11, d, exponent(luminance) - exponent(average) - 11)
}

/// Step 6: "255 × display luminance × channel / luminance, all decoded, to the nearest whole number, halves up, at most 255. Black gives
/// 0." The display luminance is about 1 at most, and the channel at most 17 times the luminance: a power of two is left below. From 2^100
/// on the level is 0.
pub fn level(channel: u16, display: u16, luminance: u16) -> u8 {
    if channel == 0 {
        return 0;
    }
    let n = 255 * significand(display) * significand(channel);
    let power = 137 + exponent(luminance) - exponent(display) - exponent(channel);
    let d = significand(luminance) << power.min(100);
    ((2 * n + d) / (2 * d)).min(255) as u8
}

#[cfg(test)]
mod tests {
    use super::*;
    use crate::pages::{BRIGHT, DIM};

    const ONE: u16 = stored(128, 255);

    /// Greys have their channels' luminance, "Red 1.0 alone: luminance (127,137)"; the least blue is worth 7.71 · 2^-64, which is
    /// 246.72 · 2^(67-136).
    #[test]
    fn luminances() {
        for grey in [DIM, ONE, BRIGHT] {
            assert_eq!(luminance([grey; 3]), grey);
        }
        assert_eq!(luminance([ONE, 0, 0]), stored(127, 137));
        assert_eq!(luminance([0, 0, DIM]), stored(67, 246));
    }

    /// A luminance over itself: 0.18 is 184.32 · 2^-10, 1 is stored as (128,255), and 0.001 is 131.072 · 2^-17. The limits, "E is 1 to
    /// 246": 246.5 · 2^-69 over 255.5 · 2^48 is 0.96477 · 2^-117, and a thousandth of that 252.91 · 2^-135; the inverse is
    /// 132.67 · 2^110.
    #[test]
    fn scaled_luminances() {
        for (key, expected) in [(180, stored(126, 184)), (1000, ONE), (1, stored(119, 131))] {
            assert_eq!(scaled_luminance(ONE, ONE, key), expected);
        }
        assert_eq!(scaled_luminance(stored(67, 246), BRIGHT, 1), stored(1, 252));
        assert_eq!(scaled_luminance(BRIGHT, stored(67, 246), 1000), stored(246, 132));
    }

    /// Document 01's 39 and 145, of grey 1.0 and red 1.0 with K 180: 184.5/1024 over one more than it is 156.33/1024. At most 255, and
    /// nothing of a channel far below the luminance.
    #[test]
    fn levels() {
        let display = stored(126, 156);
        assert_eq!([ONE; 3].map(|channel| level(channel, display, ONE)), [39; 3]);
        assert_eq!([ONE, 0, 0].map(|channel| level(channel, display, stored(127, 137))), [145, 0, 0]);
        assert_eq!([BRIGHT, DIM].map(|channel| level(channel, ONE, stored(182, 200))), [255, 0]);
    }
}
