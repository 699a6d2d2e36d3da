//! Pixels whose luminance is a power of two or lies just beside one, so that a third, small channel decides the exponent. In units of
//! 2^(exponent - 149) of the second channel, two channels of weights v and w give v · (2m+1) · 2^shift + w · (2n+1) · 2^12; a hundredth
//! of that is a power of two where it is 25 times one.

use crate::pages::stored;
use crate::random::Random;
use crate::steps::WEIGHTS;
use std::sync::OnceLock;

const SHIFT: u64 = 12;
/// Fractions of a unit that the third channel is worked out in.
const FINE: i64 = 40;

/// Two channels of a pixel, by index, that sum to a power of two or a little less.
#[derive(Clone, Copy, Debug)]
pub struct Pair {
    pub first: usize,
    pub second: usize,
    pub mantissas: [u64; 2],
    /// The first's exponent is `shift` - 12 above the second's.
    pub shift: u64,
    /// The greatest third channel that still fits below the power, as exponent above the second's and mantissa; None where the sum is
    /// the power itself.
    pub fit: Option<(i64, u64)>,
}

/// Every pair of channels, up to a distance of 12 exponents, that sums to a power of two or misses it by less than 1/4096 of it.
pub fn pairs() -> &'static [Pair] {
    static PAIRS: OnceLock<Vec<Pair>> = OnceLock::new();
    PAIRS.get_or_init(|| {
        let sides = [(0, 1), (0, 2), (1, 2)];
        let shifts = sides
            .iter()
            .flat_map(|&(first, second)| (0..=2 * SHIFT).map(move |shift| (first, second, shift)));
        let mantissas = || (128..256).flat_map(|m| (128..256).map(move |n| [m, n]));
        shifts
            .flat_map(|(first, second, shift)| mantissas().filter_map(move |m| pair(first, second, shift, m)))
            .collect()
    })
}

fn pair(first: usize, second: usize, shift: u64, mantissas: [u64; 2]) -> Option<Pair> {
    let [one, other] = mantissas.map(|m| 2 * m + 1);
    let sum = ((WEIGHTS[first] * one) << shift) + ((WEIGHTS[second] * other) << SHIFT);
    let power = 25 * sum.div_ceil(25).next_power_of_two();
    let gap = power - sum;
    (gap * 4096 < power).then(|| Pair {
        first,
        second,
        mantissas,
        shift,
        fit: fit(WEIGHTS[3 - first - second], gap),
    })
}

/// The greatest channel of this weight within the gap.
fn fit(weight: u64, gap: u64) -> Option<(i64, u64)> {
    let within = |exponent: i64, mantissa: u64| ((weight * (2 * mantissa + 1)) as u128) << (exponent + FINE) <= (gap as u128) << FINE;
    let exponent = (-FINE..FINE).rev().find(|&exponent| within(exponent, 128))?;
    let mantissa = (128..256).rev().find(|&mantissa| within(exponent, mantissa))?;
    Some((exponent - SHIFT as i64, mantissa))
}

/// The next greater channel.
fn above(channel: u16) -> u16 {
    match channel & 0xFF {
        255 => channel + 129,
        _ => channel + 1,
    }
}

impl Pair {
    /// The pixel with the second channel's exponent at the base, and a third channel.
    pub fn pixel(&self, base: u64, third: u16) -> [u16; 3] {
        let mut pixel = [third; 3];
        pixel[self.first] = stored(base + self.shift - SHIFT, self.mantissas[0]);
        pixel[self.second] = stored(base, self.mantissas[1]);
        pixel
    }

    /// Third channels: black, the least, and those that just fit and just do not.
    pub fn thirds(&self, base: u64) -> Vec<u16> {
        let mut list = vec![0, crate::pages::DIM];
        if let Some((exponent, mantissa)) = self.fit {
            let fit = stored((base as i64 + exponent).max(72) as u64, mantissa);
            list.extend([fit, above(fit)]);
        }
        list
    }
}

/// A pair at some exponents, with one of its third channels or any.
pub fn pixel(random: &mut Random) -> [u16; 3] {
    let pair = random.pick(pairs());
    let base = random.between(72 + SHIFT, 184 - SHIFT);
    let third = match random.one_in(5) {
        true => stored(random.between(72, base), random.between(128, 255)),
        false => random.pick(&pair.thirds(base)),
    };
    pair.pixel(base, third)
}

#[cfg(test)]
mod tests {
    use super::*;
    use crate::steps::hundredfold;

    /// Alone a pair is at or below the power; the third that fits leaves it there, and the next one does not.
    #[test]
    fn thirds_decide() {
        let power = |pixel| hundredfold(pixel).div_ceil(25).next_power_of_two();
        for pair in pairs() {
            let thirds = pair.thirds(128);
            let alone = power(pair.pixel(128, 0));
            match thirds[..] {
                [black, least] => {
                    assert_eq!(hundredfold(pair.pixel(128, black)), 25 * alone);
                    assert_eq!(power(pair.pixel(128, least)), 2 * alone);
                }
                [_, _, fit, above] => {
                    assert_eq!(power(pair.pixel(128, fit)), alone);
                    assert_eq!(power(pair.pixel(128, above)), 2 * alone);
                }
                _ => panic!("{pair:?}"),
            }
        }
    }
}
