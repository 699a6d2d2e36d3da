//! "The steps", on the pixels of an accepted strip.

use crate::number::{Channel, Fraction, Number, Pixel, Side};
use crate::strip::Header;

/// The weights of R, G and B in a hundred times the luminance.
pub const WEIGHTS: [u64; 3] = [27, 67, 6];

/// The steps A of step 3 and the stored average.
#[derive(Clone, Copy, Debug, PartialEq, Eq)]
pub struct Average {
    pub steps: i64,
    pub exponent: u8,
    pub mantissa: u8,
}

/// "the smallest and the largest stored luminance among lit pixels, compared by worth"; "the invariant of the record
/// is that both occur on the page."
#[derive(Clone, Copy, Debug, PartialEq, Eq)]
pub struct Extremes {
    pub darkest: Number,
    pub brightest: Number,
}

impl Extremes {
    /// Those of one lit pixel.
    fn of(luminance: Number) -> Extremes {
        Extremes {
            darkest: luminance,
            brightest: luminance,
        }
    }

    /// Those of the lit pixels of two parts, either of which may have none. Numbers of equal worth are the same number,
    /// as 2M + 1 is odd.
    fn join(first: Option<Extremes>, second: Option<Extremes>) -> Option<Extremes> {
        let (Some(first), Some(second)) = (first, second) else {
            return first.or(second);
        };
        Some(Extremes {
            darkest: if second.darkest.by_worth(&first.darkest).is_lt() {
                second.darkest
            } else {
                first.darkest
            },
            brightest: if second.brightest.by_worth(&first.brightest).is_gt() {
                second.brightest
            } else {
                first.brightest
            },
        })
    }
}

/// N, the sum of steps, the average, absent if N = 0, and the darkest and brightest of change 2026-01: "On a page with no
/// lit pixel both are absent." A single band may be such a page.
#[derive(Clone, Copy, Debug, PartialEq, Eq)]
pub struct Tally {
    pub lit: u64,
    pub sum: i64,
    pub average: Option<Average>,
    pub extremes: Option<Extremes>,
}

impl Tally {
    fn new(lit: u64, sum: i64, extremes: Option<Extremes>, mantissa_table: &[u8]) -> Tally {
        let average = if lit == 0 { None } else { Some(average(sum, lit, mantissa_table)) };
        Tally {
            lit,
            sum,
            average,
            extremes,
        }
    }
}

/// "A pixel is lit if any of its three channel words is".
pub fn is_lit(pixel: &Pixel) -> bool {
    pixel.iter().any(Channel::is_lit)
}

/// Step 1: (27R + 67G + 6B)/100, stored; None if all are black. Channels are counted in units of 2^(72−137), so
/// that the numerator has at most 16 + 112 digits.
pub fn luminance(pixel: &Pixel) -> Option<Number> {
    let mut hundredfold = Side::ZERO;
    for (channel, weight) in pixel.iter().zip(WEIGHTS) {
        if let Channel::Lit(number) = channel {
            hundredfold = hundredfold + (Side::from(weight * number.significand()) << (number.exponent - 72) as u32);
        }
    }
    if hundredfold == Side::ZERO {
        return None;
    }
    let value = Fraction {
        numerator: hundredfold,
        denominator: Side::from(100),
    };
    Some(Number::store(value.times_power_of_two(72 - 137)))
}

/// Step 2: 256(E−136) + T[M].
fn steps(luminance: Number, steps_table: &[i64]) -> i64 {
    256 * (luminance.exponent as i64 - 136) + steps_table[luminance.mantissa as usize - 128]
}

/// Steps 2 and 3 over a page, with its darkest and brightest.
pub fn tally(pixels: impl Iterator<Item = Pixel>, steps_table: &[i64], mantissa_table: &[u8]) -> Tally {
    let (mut lit, mut sum, mut extremes) = (0, 0, None);
    for luminance in pixels.filter_map(|pixel| luminance(&pixel)) {
        lit += 1;
        sum += steps(luminance, steps_table);
        extremes = Extremes::join(extremes, Some(Extremes::of(luminance)));
    }
    Tally::new(lit, sum, extremes, mantissa_table)
}

/// "Band tallies are joined": lit pixels and sums are added, and step 3 is taken of the joined sum.
pub fn join(tallies: impl Iterator<Item = Tally>, mantissa_table: &[u8]) -> Tally {
    let (mut lit, mut sum, mut extremes) = (0, 0, None);
    for tally in tallies {
        lit += tally.lit;
        sum += tally.sum;
        extremes = Extremes::join(extremes, tally.extremes);
    }
    Tally::new(lit, sum, extremes, mantissa_table)
}

/// Step 3: "the sum of steps over the N lit pixels, divided by N, rounded toward minus infinity. Write A = 256q + f,
/// f 0 to 255. The stored average is (q+128, 255) if f = 0, else (q+129, X[f])". As E is 67 to 184, so is the
/// average's exponent.
fn average(sum: i64, lit: u64, mantissa_table: &[u8]) -> Average {
    let steps = sum.div_euclid(lit as i64);
    let (q, f) = (steps.div_euclid(256), steps.rem_euclid(256));
    match f {
        0 => Average {
            steps,
            exponent: (q + 128) as u8,
            mantissa: 255,
        },
        _ => Average {
            steps,
            exponent: (q + 129) as u8,
            mantissa: mantissa_table[f as usize - 1],
        },
    }
}

/// Step 4: K/1000 times luminance over average, stored.
fn scaled_luminance(luminance: Number, average: Number, key: u64) -> Number {
    let (above, below) = (key * luminance.significand(), 1000 * average.significand());
    Number::store(Fraction::new(above, below, luminance.exponent - average.exponent))
}

/// Step 5: L/(1+L), stored; with a white point w = W/10, L(1 + L/w²)/(1+L). With L = p/q these are p/(q + p) and
/// p(W²q + 100p) / (W²q(q + p)). E of L is 1 to 246, so p and q have at most 118 and 137 digits.
fn display_luminance(scaled: Number, white: Option<u64>) -> Number {
    let Fraction {
        numerator: p,
        denominator: q,
    } = Fraction::new(scaled.significand(), 1, scaled.exponent - 137);
    let value = match white {
        None => Fraction {
            numerator: p,
            denominator: q + p,
        },
        Some(white) => {
            let squared = q * (white * white);
            Fraction {
                numerator: p * (squared + p * 100),
                denominator: squared * (q + p),
            }
        }
    };
    Number::store(value)
}

/// Step 6: 255 × display luminance × channel / luminance. "Black gives 0."
fn level(channel: Channel, display: Number, luminance: Number) -> u8 {
    match channel {
        Channel::Black => 0,
        Channel::Lit(number) => {
            let above = 255 * display.significand() * number.significand();
            let power = display.exponent + number.exponent - luminance.exponent - 137;
            Fraction::new(above, luminance.significand(), power).nearest_level()
        }
    }
}

/// Display luminances of one page, each worked out once for its stored luminance.
struct Displays {
    average: Number,
    key: u64,
    white: Option<u64>,
    known: Vec<Option<Number>>,
}

impl Displays {
    fn new(average: Average, header: &Header) -> Displays {
        let average = Number {
            exponent: average.exponent as i32,
            mantissa: average.mantissa as u32,
        };
        Displays {
            average,
            key: header.key,
            white: header.white,
            known: vec![None; 1 << 16],
        }
    }

    fn of(&mut self, luminance: Number) -> Number {
        let (average, key, white) = (self.average, self.key, self.white);
        let place = luminance.exponent as usize * 256 + luminance.mantissa as usize;
        *self.known[place].get_or_insert_with(|| display_luminance(scaled_luminance(luminance, average, key), white))
    }
}

/// Steps 4 to 6 over a page: three levels a pixel. "If N = 0 .. all levels are 0", where dark pages are accepted.
pub fn levels(pixels: impl Iterator<Item = Pixel>, header: &Header, average: Option<Average>) -> Vec<u8> {
    let Some(average) = average else {
        return vec![0; 3 * header.pixels()];
    };
    let mut displays = Displays::new(average, header);
    let mut levels = Vec::with_capacity(3 * header.pixels());
    for pixel in pixels {
        match luminance(&pixel) {
            None => levels.extend([0; 3]),
            Some(luminance) => {
                let display = displays.of(luminance);
                levels.extend(pixel.map(|channel| level(channel, display, luminance)));
            }
        }
    }
    levels
}

#[cfg(test)]
mod tests {
    use super::*;
    use crate::whole::Whole;
    use std::ops::RangeInclusive;

    /// 1 as it is stored.
    const FULL: Number = Number {
        exponent: 128,
        mantissa: 255,
    };

    /// Around the limits 10 and 1,000 and the powers of ten.
    const WHITES: [u64; 6] = [10, 11, 99, 100, 999, 1000];

    /// Every stored number with one of these exponents, and its display luminance by step 5's own rule.
    fn displays_of(exponents: RangeInclusive<i32>, white: Option<u64>) -> impl Iterator<Item = (Number, Number)> {
        let scaled = exponents.flat_map(|exponent| (128..=255).map(move |mantissa| Number { exponent, mantissa }));
        scaled.map(move |scaled| (scaled, display_luminance(scaled, white)))
    }

    /// Every stored number that a scaled luminance can be, "E is 1 to 246", on a strip without a white word.
    fn displays() -> impl Iterator<Item = (Number, Number)> {
        displays_of(1..=246, None)
    }

    /// Change 2026-04: "E below 114, E above 152, and between. Below, the outcome is the stored scaled luminance itself;
    /// above, it is (128,255)".
    #[test]
    fn published_cases() {
        for (scaled, display) in displays() {
            match scaled.exponent {
                ..114 => assert_eq!(display, scaled),
                114..=152 => (),
                153.. => assert_eq!(display, FULL, "{scaled:?}"),
            }
        }
    }

    /// The outcome is the scaled luminance itself where L/(1+L) · 2^(136−E) = (M + 1/2)/(1+L) lies above M, that is, where
    /// M(2M+1) < 2^(136−E); they are never equal, as 2M + 1 is odd. With 255 · 511 < 2^17, 180 · 361 < 2^16 < 181 · 363
    /// and 2^15 < 128 · 257, it is so for all M up to E 119, for M up to 180 at E 120, and nowhere above.
    #[test]
    fn reach_of_the_scaled_luminance() {
        for (scaled, display) in displays() {
            let itself = match scaled.exponent {
                ..120 => true,
                120 => scaled.mantissa <= 180,
                121.. => false,
            };
            assert_eq!(display == scaled, itself, "{scaled:?}");
        }
    }

    /// The outcome is (128,255) where 256 · L/(1+L) is not below 255, that is, where L = (2M+1) · 2^(E−137) ≥ 255. As
    /// 2M + 1 is 257 to 511, it is so for all M from E 137 on, for M = 255 alone at E 136, and nowhere below.
    #[test]
    fn reach_of_full_display() {
        for (scaled, display) in displays() {
            let full = match scaled.exponent {
                ..136 => false,
                136 => scaled.mantissa == 255,
                137.. => true,
            };
            assert_eq!(display == FULL, full, "{scaled:?}");
        }
    }

    /// w = 1: L(1 + L)/(1 + L) is L.
    #[test]
    fn white_point_of_one() {
        for (scaled, display) in displays_of(1..=246, Some(10)) {
            assert_eq!(display, scaled);
        }
    }

    /// The dark case for every W: as w is at least 1, the outcome lies between L/(1+L) and L, which are stored alike there.
    #[test]
    fn dark_case_with_white() {
        for white in WHITES {
            assert!(displays_of(1..=119, Some(white)).all(|(scaled, display)| display == scaled));
        }
        for white in 10..=1000 {
            assert!(displays_of(112..=113, Some(white)).all(|(scaled, display)| display == scaled));
        }
    }

    /// L(1 + L/w²)/(1 + L) is below 1 where L is below w, and above 1 where L is above: the exponent of the outcome is above 128
    /// exactly if 10(2M+1) · 2^(E−137) is above W. They are never equal, as 10(2M+1) is above 2 · 1,000 and has one factor of two.
    #[test]
    fn white_burns_out() {
        for white in 10..=1000 {
            let above_white = |scaled: &Number| match scaled.exponent - 137 {
                power @ 0.. => (10 * scaled.significand()) << power > white,
                power => 10 * scaled.significand() > white << -power,
            };
            for (scaled, display) in displays_of(127..=136, Some(white)) {
                assert_eq!(display.exponent > 128, above_white(&scaled), "W {white}, {scaled:?}");
            }
        }
    }

    /// Above E 152, where L/(1+L) is nearly 1 and the outcome L/w² + (1 − 1/w²) · L/(1+L).
    ///
    /// (153,128) is 257 · 2^16 = 16,842,752. Over 1.21, with 0.17 more: 13,919,629.9 = 212.4 · 2^16. Over 98.01, with 0.99 more:
    /// 171,848.3 = 167.8 · 2^10; over 100: 168,428.5 = 164.5 · 2^10. Over 9,980.01, with 1 more: 1,688.65 = 211.1 · 2^3; over
    /// 10,000: 1,685.28 = 210.7 · 2^3.
    ///
    /// (246,132) is 265 · 2^109. Over 1.21 it is 219.008 · 2^109, over 98.01 173.04 · 2^103, over 100 169.6 · 2^103, over 9,980.01
    /// 217.52 · 2^96, over 10,000 217.09 · 2^96.
    #[test]
    fn bright_case_with_white() {
        let outcomes = |exponent, mantissa| {
            let scaled = Number { exponent, mantissa };
            WHITES.map(|white| {
                let display = display_luminance(scaled, Some(white));
                (display.exponent, display.mantissa)
            })
        };
        assert_eq!(
            outcomes(153, 128),
            [(153, 128), (152, 212), (146, 167), (146, 164), (139, 211), (139, 210)]
        );
        assert_eq!(
            outcomes(246, 132),
            [(246, 132), (245, 219), (239, 173), (239, 169), (232, 217), (232, 217)]
        );
    }

    /// The storing rule on L/w² + (1 − 1/w²) · L/(1+L) in whole numbers of any size. With L = p/q and w² = W²/100, that is
    /// (100p(q + p) + (W² − 100)pq) / (W²q(q + p)) = n/d, and "2^(E−129) < F ≤ 2^(E−128)", "M is F · 2^(136−E) rounded down,
    /// and 255 where that gives 256".
    #[test]
    fn stored_with_white() {
        let times = |factors: &[&Whole]| factors.iter().fold(Whole::one(), |product, factor| product.times(factor));
        for (white, exponents) in WHITES.into_iter().flat_map(|white| EXPONENTS.map(|exponents| (white, exponents))) {
            for (scaled, display) in displays_of(exponents.0..=exponents.1, Some(white)).step_by(7) {
                let power = scaled.exponent - 137;
                let p = Whole::from(scaled.significand()).shifted_left(power.max(0) as usize);
                let q = Whole::power_of_two((-power).max(0) as usize);
                let (sum, squared) = (p.plus(&q), white * white);
                let n = times(&[&Whole::from(100), &p, &sum]).plus(&times(&[&Whole::from(squared - 100), &p, &q]));
                let d = times(&[&Whole::from(squared), &q, &sum]);
                // F · 2^(136−E) against M and M + 1, both sides times a power of two.
                let shift = 136 - display.exponent;
                let above = n.shifted_left(shift.max(0) as usize);
                let below = d.shifted_left((-shift).max(0) as usize);
                let part = |mantissa: u32| below.times_small(mantissa as u64);
                let mantissa = display.mantissa;
                assert!(part(128) < above && above <= part(256), "W {white}, {scaled:?}");
                assert!(part(mantissa) <= above && (above < part(mantissa + 1) || mantissa == 255));
            }
        }
    }

    /// The exponents around the limits of the cases, of every case, and those that a page hardly reaches.
    const EXPONENTS: [(i32, i32); 5] = [(1, 4), (110, 124), (126, 140), (148, 172), (182, 246)];
}
