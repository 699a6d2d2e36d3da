//! Demand 3 for answers of any tone step: the reported steps against the true mean, the levels against the exact operator.

use crate::fixed::Fixed;
use crate::number::{Channel, Number, Pixel};
use crate::strip::Header;
use crate::tone::{is_lit, luminance, Average, WEIGHTS};
use crate::whole::Whole;

/// The second half on one page.
#[derive(Clone, Copy, Debug, PartialEq)]
pub struct LevelDistances {
    /// How many levels of lit pixels were compared.
    pub compared: u64,
    /// The greatest distance, for printing.
    pub worst: f64,
    /// The index of the first level that is 5/2 or more away from the exact value clipped at 255.
    pub first_failure: Option<usize>,
}

impl LevelDistances {
    pub const NONE: LevelDistances = LevelDistances {
        compared: 0,
        worst: 0.0,
        first_failure: None,
    };
}

/// The first half: "The true logarithm of the mean now lies at most half a step below the reported steps and less than
/// one and a half above", that is, with "both sides squared", 2^((2A−1)·N) ≤ P^512 < 2^((2A+3)·N). With T rounded down it
/// is document 01's: "2^(A·N) is at most P^256, and P^256 is below 2^((A+2)·N)".
///
/// P is Q · 2^S with Q the product of the significands 2M+1 and S the sum of the E−137; the power of two is moved
/// across. Without a lit pixel there is no mean, and nothing holds of it.
pub fn mean_holds(pixels: impl Iterator<Item = Pixel>, reported_steps: i64, nearest: bool) -> bool {
    let (mut lit, mut shift, mut significands) = (0i128, 0i128, Whole::one());
    for number in pixels.filter_map(|pixel| luminance(&pixel)) {
        lit += 1;
        shift += number.exponent as i128 - 137;
        significands = significands.times_small(number.significand());
    }
    let steps = reported_steps as i128;
    let (power, lower, upper) = if nearest {
        (512, 2 * steps - 1, 2 * steps + 3)
    } else {
        (256, steps, steps + 2)
    };
    let product = significands.pow(power);
    let moved = power as i128 * shift;
    lit > 0 && product.reaches_power_of_two(lower * lit - moved) && !product.reaches_power_of_two(upper * lit - moved)
}

/// How many steps the true mean lies above the reported one, for printing; no number without a lit pixel.
pub fn mean_above(pixels: impl Iterator<Item = Pixel>, reported_steps: i64) -> f64 {
    let (mut lit, mut sum) = (0.0, 0.0);
    for number in pixels.filter_map(|pixel| luminance(&pixel)) {
        lit += 1.0;
        sum += 256.0 * number.to_f64().log2();
    }
    sum / lit - reported_steps as f64
}

/// With the unit below, a channel has at most 193 digits and both sides of a comparison at most 450, for an average
/// of any exponent 0 to 255.
type Side = Fixed<8>;

/// What the exact operator takes from the page.
struct Operator {
    key: u64,
    white_squared: Option<u64>,
    /// Worths are counted in units of 2^(unit−137).
    unit: i32,
    /// 100,000 a.
    average: Side,
}

/// An exact value: numerator / denominator, before the clip at 255.
struct Exact {
    numerator: Side,
    denominator: Side,
}

impl Operator {
    fn new(header: &Header, average: Average) -> Operator {
        let average = Number {
            exponent: average.exponent as i32,
            mantissa: average.mantissa as u32,
        };
        let unit = average.exponent.min(72);
        Operator {
            key: header.key,
            white_squared: header.white.map(|white| white * white),
            unit,
            average: worth(average, unit) * 100_000,
        }
    }

    /// The exact values of a lit pixel's channels. With s = K·100Y and t = 100,000·a, L is s/t, and
    /// 255 · L/(1+L) · C/Y is 25500·K·C / (s + t). A white point w = W/10 puts the factor 1 + L/w² beside it,
    /// (W²t + 100s) / (W²t).
    fn exact(&self, pixel: &Pixel) -> [Exact; 3] {
        let channels = pixel.map(|channel| match channel {
            Channel::Black => Side::ZERO,
            Channel::Lit(number) => worth(number, self.unit),
        });
        let hundredfold = channels[0] * WEIGHTS[0] + channels[1] * WEIGHTS[1] + channels[2] * WEIGHTS[2];
        let (s, t) = (hundredfold * self.key, self.average);
        let white = self.white_squared.map(|squared| (t * squared + s * 100, t * squared));
        let denominator = white.map_or(s + t, |(_, below)| below * (s + t));
        channels.map(|channel| {
            let numerator = channel * (25_500 * self.key);
            Exact {
                numerator: white.map_or(numerator, |(above, _)| above * numerator),
                denominator,
            }
        })
    }
}

fn worth(number: Number, unit: i32) -> Side {
    Side::from(number.significand()) << (number.exponent - unit) as u32
}

impl Exact {
    /// The distance of a level from the value clipped at 255, times the denominator.
    fn distance(&self, level: u8) -> Side {
        let clipped = self.numerator.min(self.denominator * 255);
        clipped.distance(self.denominator * level as u64)
    }
}

/// The second half: "The level byte of that channel is less than 5/2 away from it, above or below", for all three
/// channels of each lit pixel. A level that is missing fails.
pub fn level_distances(pixels: impl Iterator<Item = Pixel>, header: &Header, average: Average, levels: &[u8]) -> LevelDistances {
    let operator = Operator::new(header, average);
    let mut found = LevelDistances::NONE;
    for (number, pixel) in pixels.enumerate().filter(|(_, pixel)| is_lit(pixel)) {
        for (channel, exact) in operator.exact(&pixel).iter().enumerate() {
            let index = 3 * number + channel;
            let near = levels.get(index).is_some_and(|&level| found.compare(exact, level));
            if !near && found.first_failure.is_none() {
                found.first_failure = Some(index);
            }
        }
    }
    found
}

impl LevelDistances {
    /// Counts one level; whether it is near.
    fn compare(&mut self, exact: &Exact, level: u8) -> bool {
        let distance = exact.distance(level);
        self.compared += 1;
        self.worst = self.worst.max(distance.to_f64() / exact.denominator.to_f64());
        distance * 2 < exact.denominator * 5
    }
}
