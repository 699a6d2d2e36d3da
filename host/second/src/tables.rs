//! The tables T, X and, of change 2026-07, the screen curve, each from its rule in whole numbers.

use crate::whole::Whole;

/// T[M] for M 128 to 255, entry 0 being T[128].
pub fn steps_table(nearest: bool) -> Vec<i64> {
    (128..=255)
        .map(|mantissa| if nearest { nearest_steps(mantissa) } else { lower_steps(mantissa) })
        .collect()
}

/// Document 01's rule: "rounded down, that is, the greatest t with 2^(t+256) ≤ (2M+1)^256".
fn lower_steps(mantissa: u64) -> i64 {
    greatest_power(&Whole::from(2 * mantissa + 1).pow(256)) - 256
}

/// Change 2026-06: "the whole number nearest to 256 · log2(M + 1/2); no entry is a tie", that is, the greatest t with
/// t − 1/2 ≤ 256 · log2(M + 1/2), or 2^(2t−1+512) ≤ (2M+1)^512.
fn nearest_steps(mantissa: u64) -> i64 {
    let twice = greatest_power(&Whole::from(2 * mantissa + 1).pow(512)) - 512;
    (twice + 1).div_euclid(2)
}

/// The greatest k with 2^k ≤ value, for a value above 0.
fn greatest_power(value: &Whole) -> i64 {
    value.bit_length() as i64 - 1
}

/// X[f] for f 1 to 255, entry 0 being X[1]: "the greatest m with m^256 ≤ 2^(1792+f)".
pub fn mantissa_table() -> Vec<u8> {
    let powers: Vec<Whole> = (0..=256).map(|mantissa: u64| Whole::from(mantissa).pow(256)).collect();
    let greatest = |bound: Whole| powers.iter().rposition(|power| *power <= bound);
    (1..=255)
        .map(|f| greatest(Whole::power_of_two(1792 + f)).expect("0 is small enough") as u8)
        .collect()
}

/// The printed sample of each level.
pub fn curve_table() -> Vec<u8> {
    (0..=255)
        .map(|level| {
            if 1000 * level < 18 * 255 {
                straight_sample(level)
            } else {
                curved_sample(level)
            }
        })
        .collect()
}

/// 4.5 · level, halves up.
fn straight_sample(level: u64) -> u8 {
    (9 * level).div_ceil(2) as u8
}

/// The greatest s with s − 1/2 ≤ 255 · (1.099 · v^(9/20) − 0.099), v = level/255. Times 1,000 and raised to the
/// twentieth power: (1000s − 500 + 99 · 255)^20 · 255^9 ≤ (1099 · 255)^20 · level^9.
fn curved_sample(level: u64) -> u8 {
    let bound = Whole::from(1099 * 255).pow(20).times(&Whole::from(level).pow(9));
    let scale = Whole::from(255).pow(9);
    let fits = |sample: &u64| Whole::from(1000 * sample + 99 * 255 - 500).pow(20).times(&scale) <= bound;
    (0..=255).rev().find(fits).expect("0 is small enough") as u8
}

#[cfg(test)]
mod tests {
    use super::*;

    /// Both sides of document 01's rule for every entry: 2^(t+256) ≤ (2M+1)^256 < 2^(t+257).
    #[test]
    fn every_entry_of_t_rounded_down() {
        for (mantissa, &t) in (128..=255).zip(&steps_table(false)) {
            let power = Whole::from(2 * mantissa + 1).pow(256);
            assert!(Whole::power_of_two(t as usize + 256) <= power && power < Whole::power_of_two(t as usize + 257));
        }
    }

    /// 2^(2t−1) < (M + 1/2)^512 < 2^(2t+1): never a tie.
    #[test]
    fn every_entry_of_t() {
        let table = steps_table(true);
        for (mantissa, &t) in (128..=255).zip(&table) {
            let power = Whole::from(2 * mantissa + 1).pow(512);
            let twice = 2 * t as usize + 512;
            assert!(Whole::power_of_two(twice - 1) < power && power < Whole::power_of_two(twice + 1));
        }
        assert_eq!((table[0], table[64]), (1793, 1943));
    }

    /// m^256 ≤ 2^(1792+f) < (m+1)^256.
    #[test]
    fn every_entry_of_x() {
        let table = mantissa_table();
        assert_eq!((table.len(), table[127]), (255, 181));
        for (f, &m) in (1..=255).zip(&table) {
            let bound = Whole::power_of_two(1792 + f);
            assert!(Whole::from(m as u64).pow(256) <= bound && bound < Whole::from(m as u64 + 1).pow(256));
        }
    }

    /// The figures of change 2026-07, the straight part by hand, and the curve near its f64 value.
    #[test]
    fn every_entry_of_the_curve() {
        let table = curve_table();
        assert_eq!(table[..5], [0, 5, 9, 14, 18]);
        assert_eq!((table[29], table[39], table[52], table[255]), (0x50, 95, 0x70, 255));
        for (level, &sample) in table.iter().enumerate().skip(5) {
            let exact = 255.0 * (1.099 * (level as f64 / 255.0).powf(0.45) - 0.099);
            assert!((exact - sample as f64).abs() < 0.5 + 1e-9);
        }
    }
}
