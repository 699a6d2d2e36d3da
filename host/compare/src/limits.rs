//! Grey pages whose true mean lies as near as can be to half a step below the reported average, or to one and a half steps above it.
//! Floating point only chooses them.

use crate::pages::{key, stored, Page};
use crate::random::Random;

/// 256 · log2(M + 1/2): the whole number nearest to it is T[M].
fn steps(mantissa: u64) -> f64 {
    256.0 * (mantissa as f64 + 0.5).log2()
}

/// How far it lies above T[M], or below where this is negative.
fn above(mantissa: u64) -> f64 {
    steps(mantissa) - steps(mantissa).round()
}

/// Mantissas whose T is rounded by nearly half a step: down, or up.
fn mantissas(far: bool) -> Vec<u64> {
    (128..256)
        .filter(|&m| if far { above(m) > 0.49 } else { above(m) < -0.49 })
        .collect()
}

/// As many greys as asked; the last one, of any mantissa, is chosen so that the division cuts nearly a whole step too, or nothing.
pub fn page(random: &mut Random, count: u64, far: bool) -> Page {
    let list = mantissas(far);
    let mut greys: Vec<(u64, u64)> = (1..count).map(|_| (random.between(72, 184), random.pick(&list))).collect();
    let steps_of = |(e, m): (u64, u64)| 256 * (e as i64 - 136) + steps(m).round() as i64;
    let sum: i64 = greys.iter().map(|&grey| steps_of(grey)).sum();
    let cut = |last: (u64, u64)| {
        let left = (sum + steps_of(last)).rem_euclid(count as i64) as f64 + above(last.1);
        if far {
            -left
        } else {
            left
        }
    };
    let lasts = (72..=184).flat_map(|e| (128..256).map(move |m| (e, m)));
    greys.push(lasts.min_by(|&one, &other| cut(one).total_cmp(&cut(other))).unwrap());
    let pixels: Vec<[u16; 3]> = greys.iter().map(|&(e, m)| [stored(e, m); 3]).collect();
    Page::row(key(random), &pixels)
}
