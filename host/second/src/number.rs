//! "A stored number": exponent E and mantissa M, worth (M + 1/2) · 2^(E−136), and the rule of storing.

use crate::fixed::Fixed;
use std::cmp::Ordering;

/// Wide enough for both sides of every fraction of the steps; the longest one is that of the display
/// luminance under a white point, some 300 bits.
pub type Side = Fixed<6>;

/// A positive rational.
#[derive(Clone, Copy, Debug)]
pub struct Fraction {
    pub numerator: Side,
    pub denominator: Side,
}

impl Fraction {
    /// numerator / denominator · 2^power.
    pub fn new(numerator: u64, denominator: u64, power: i32) -> Fraction {
        Fraction {
            numerator: Side::from(numerator),
            denominator: Side::from(denominator),
        }
        .times_power_of_two(power)
    }

    pub fn times_power_of_two(self, power: i32) -> Fraction {
        let by = power.unsigned_abs();
        if power >= 0 {
            Fraction {
                numerator: self.numerator << by,
                ..self
            }
        } else {
            Fraction {
                denominator: self.denominator << by,
                ..self
            }
        }
    }

    /// Rounded down; the value must be below 2^digits.
    fn whole_part(self, digits: u32) -> u32 {
        let mut rest = self.numerator;
        let mut part = self.denominator << digits;
        let mut quotient = 0;
        for _ in 0..digits {
            part = part.halved();
            quotient *= 2;
            if part <= rest {
                rest = rest - part;
                quotient += 1;
            }
        }
        quotient
    }

    /// "to the nearest whole number, halves up, at most 255": (2n + d) / 2d rounded down.
    pub fn nearest_level(self) -> u8 {
        let numerator = self.numerator * 2 + self.denominator;
        let denominator = self.denominator * 2;
        if numerator >= denominator * 255 {
            return 255;
        }
        Fraction { numerator, denominator }.whole_part(8) as u8
    }
}

/// A stored number that is lit.
#[derive(Clone, Copy, Debug, PartialEq, Eq)]
pub struct Number {
    pub exponent: i32,
    pub mantissa: u32,
}

impl Number {
    /// "E is the only whole number with 2^(E−129) < F ≤ 2^(E−128); M is F · 2^(136−E) rounded down,
    /// and 255 where that gives 256."
    pub(crate) fn store(value: Fraction) -> Number {
        // With n digits above and d below, 2^(n−d−1) < F < 2^(n−d+1): E−128 is n−d or n−d+1.
        let guess = value.numerator.bit_length() as i32 - value.denominator.bit_length() as i32;
        let scaled = value.times_power_of_two(-guess);
        let power = if scaled.numerator <= scaled.denominator { guess } else { guess + 1 };
        let mantissa = value.times_power_of_two(8 - power).whole_part(9);
        Number {
            exponent: power + 128,
            mantissa: mantissa.min(255),
        }
    }

    /// 2M + 1: the worth is this times 2^(E−137).
    pub fn significand(&self) -> u64 {
        2 * self.mantissa as u64 + 1
    }

    /// "compared by worth": the quotient of the two worths, (2M+1)/(2m+1) · 2^(E−e), against 1. Exponents of
    /// luminances differ by at most 184 − 67, so that its sides have at most 9 + 117 binary digits.
    pub(crate) fn by_worth(&self, other: &Number) -> Ordering {
        let power = self.exponent - other.exponent;
        let quotient = Fraction::new(self.significand(), other.significand(), power);
        quotient.numerator.cmp(&quotient.denominator)
    }

    /// The worth; for printing only.
    pub fn to_f64(self) -> f64 {
        self.significand() as f64 * 2f64.powi(self.exponent - 137)
    }
}

/// "A channel is black, stored as (0,0), or lit, stored as exponent E and mantissa M".
#[derive(Clone, Copy, Debug, PartialEq, Eq)]
pub enum Channel {
    Black,
    Lit(Number),
}

/// Red, green and blue.
pub type Pixel = [Channel; 3];

impl Channel {
    /// "F at or below 2^-57 becomes black; F above 2^56 is refused. So lit channels have E 72 to 184."
    /// F ≤ 2^-57 is E ≤ 71, and F > 2^56 is E ≥ 185; None is the refusal.
    pub fn store(value: Fraction) -> Option<Channel> {
        let number = Number::store(value);
        match number.exponent {
            ..=71 => Some(Channel::Black),
            72..=184 => Some(Channel::Lit(number)),
            _ => None,
        }
    }

    /// The 16 bits 256E + M; None unless (0,0) or E 72..184 with M 128..255.
    pub fn from_bits(bits: u16) -> Option<Channel> {
        let (exponent, mantissa) = (bits as i32 / 256, bits as u32 % 256);
        match (exponent, mantissa) {
            (0, 0) => Some(Channel::Black),
            (72..=184, 128..=255) => Some(Channel::Lit(Number { exponent, mantissa })),
            _ => None,
        }
    }

    pub fn bits(&self) -> u16 {
        match self {
            Channel::Black => 0,
            Channel::Lit(number) => number.exponent as u16 * 256 + number.mantissa as u16,
        }
    }

    pub fn is_lit(&self) -> bool {
        *self != Channel::Black
    }
}

#[cfg(test)]
mod tests {
    use super::*;
    use crate::whole::Whole;

    /// Whether n/d · 2^power ≤ 2^bound, in whole numbers of any size.
    fn at_most(n: u64, d: u64, power: i32, bound: i32) -> bool {
        let up = |by: i32| by.max(0) as usize;
        Whole::from(n).shifted_left(up(power - bound)) <= Whole::from(d).shifted_left(up(bound - power))
    }

    fn check_rule(n: u64, d: u64, power: i32) {
        let Number { exponent, mantissa } = Number::store(Fraction::new(n, d, power));
        assert!(!at_most(n, d, power, exponent - 129) && at_most(n, d, power, exponent - 128));
        let shift = power + 136 - exponent;
        let above = Whole::from(n).shifted_left(shift.max(0) as usize);
        let below = Whole::from(d).shifted_left((-shift).max(0) as usize);
        let quotient = above.divided_by(&below).0;
        assert_eq!(Whole::from(mantissa as u64), quotient.min(Whole::from(255)));
        assert!((128..=255).contains(&mantissa));
    }

    /// The rule of storing for small fractions and their powers of two, and for long numerators.
    #[test]
    fn storing() {
        for n in 1..=80 {
            for d in 1..=80 {
                check_rule(n, d, 0);
                check_rule(n, d, 120);
                check_rule(n, d, -200);
            }
        }
        let mut n = 1u64;
        for d in 1..=3000 {
            n = n.wrapping_mul(6_364_136_223_846_793_005).wrapping_add(1);
            check_rule(n, d, d as i32 % 200 - 100);
            check_rule(d, n, d as i32 % 200 - 100);
        }
    }

    /// Powers of two have mantissa 255 and the lower exponent.
    #[test]
    fn storing_powers_of_two() {
        for power in -200..=120 {
            let stored = Number::store(Fraction::new(1, 1, power));
            assert_eq!(
                stored,
                Number {
                    exponent: power + 128,
                    mantissa: 255
                }
            );
        }
    }

    /// A stored number stores as itself.
    #[test]
    fn storing_again() {
        for mantissa in 128..=255 {
            let number = Number { exponent: 150, mantissa };
            assert_eq!(Number::store(Fraction::new(number.significand(), 1, 150 - 137)), number);
        }
    }

    /// Worths against each other as whole numbers in units of 2^(67−137).
    #[test]
    fn comparing() {
        let mut numbers = Vec::new();
        for exponent in [67, 68, 69, 127, 128, 183, 184] {
            numbers.extend([128, 129, 191, 192, 254, 255].map(|mantissa| Number { exponent, mantissa }));
        }
        let worth = |number: &Number| Whole::from(number.significand()).shifted_left(number.exponent as usize - 67);
        for left in &numbers {
            for right in &numbers {
                assert_eq!(left.by_worth(right), worth(left).cmp(&worth(right)));
                assert_eq!(left.by_worth(right).is_eq(), left == right);
            }
        }
    }

    /// Halves go up, and 255 is the greatest.
    #[test]
    fn levels() {
        for n in 0..=3000 {
            for d in 1..=8 {
                let expected = ((2 * n + d) / (2 * d)).min(255) as u8;
                assert_eq!(Fraction::new(n, d, 0).nearest_level(), expected);
                assert_eq!(Fraction::new(n, d, 200).times_power_of_two(-200).nearest_level(), expected);
            }
        }
    }

    #[test]
    fn channel_limits() {
        assert_eq!(Channel::store(Fraction::new(1, 1, -57)), Some(Channel::Black));
        assert_eq!(
            Channel::store(Fraction::new(1, 1, 56)),
            Some(Channel::Lit(Number {
                exponent: 184,
                mantissa: 255
            }))
        );
        assert_eq!(Channel::store(Fraction::new((1 << 60) + 1, 1, -4)), None);
        let above = Channel::store(Fraction::new((1 << 60) + 1, 1, -117));
        assert_eq!(
            above,
            Some(Channel::Lit(Number {
                exponent: 72,
                mantissa: 128
            }))
        );
    }
}
