//! Change 2026-06: "Logarithms to the nearest step."

use crate::helpers::*;
use second::SecondStep;

/// The steps of one pixel.
fn steps(step: &SecondStep, pixel: [u16; 3]) -> i64 {
    step.tally(&stored_strip(step, &pixel, 180, None)).unwrap().sum
}

/// T[128] to T[255]: the steps of a grey pixel of exponent 136.
fn table(step: &SecondStep) -> Vec<i64> {
    (128..=255).map(|mantissa| steps(step, [stored(136, mantissa); 3])).collect()
}

/// The natural logarithm of n/256, n 256 to 512, in units of 2^-100: 2(z + z^3/3 + z^5/5 + ...) with z = (n − 256)/(n + 256), at
/// most 1/3. A power is at most a ninth of the one before, so that there are at most 32 terms; each of them is at most 3 units
/// too small, and the logarithm less than 2^8.
fn logarithm(n: i128) -> i128 {
    let (above, below) = (n - 256, n + 256);
    let (mut power, mut odd, mut sum) = ((above << 100) / below, 1, 0);
    while power > 0 {
        sum += power / odd;
        power = power * above * above / (below * below);
        odd += 2;
    }
    2 * sum
}

/// "the whole number nearest to 256 · log2(M + 1/2); no entry is a tie": 256 · log2(M + 1/2), which is
/// 1792 + 256 · ln((2M+1)/256) / ln 2, lies less than 0.499 from it. The farthest is that of 218: 1989.5013 from 1990.
#[test]
fn every_entry() {
    let ln_2 = logarithm(512);
    assert!((ln_2 as f64 / 2f64.powi(100) - std::f64::consts::LN_2).abs() < 1e-15);
    for (mantissa, steps) in (128..=255).zip(table(&built())) {
        let distance = 256 * logarithm(2 * mantissa + 1) - (steps as i128 - 1792) * ln_2;
        assert!(1000 * distance.abs() < 499 * ln_2, "T[{mantissa}] = {steps}");
    }
}

/// An entry is one more than rounded down where the fraction is above one half, as 66 of the 128 are.
#[test]
fn entries_that_differ() {
    let more: Vec<i64> = table(&built())
        .iter()
        .zip(table(&rounded_down()))
        .map(|(nearest, lower)| nearest - lower)
        .collect();
    assert!(more.iter().all(|more| [0, 1].contains(more)));
    assert_eq!(more.iter().sum::<i64>(), 66);
}

/// Steps grow with worth: 256 · log2((M + 3/2)/(M + 1/2)) is at least 256 · log2(255.5/254.5) = 1.45, above 1, and
/// T[128] + 256 = 2049 is above T[255] = 2047.
#[test]
fn steps_grow_with_worth() {
    let table = table(&built());
    assert!(table.windows(2).all(|pair| pair[0] < pair[1]) && table[127] < table[0] + 256);
}

/// So the least and the greatest steps, and with them A, are those of the smallest and the largest luminance: −15,630 and 14,335
/// (change 2026-12). The darkest blue alone is 128.5 · 6/100 · 2^-64, stored as (67,246), and 256 · log2(246.5) is 2034.03:
/// −69 · 256 + 2034. The brightest grey is (184,255), and 256 · log2(255.5) is 2047.28: 48 · 256 + 2047.
#[test]
fn range_of_steps() {
    let step = built();
    assert_eq!(steps(&step, [BLACK, BLACK, stored(72, 128)]), -15_630);
    assert_eq!(steps(&step, [stored(184, 255); 3]), 14_335);
    let channels = [BLACK, stored(72, 128), stored(72, 255), stored(184, 128), stored(184, 255)];
    for place in 1..125 {
        let pixel = [place / 25, place / 5 % 5, place % 5].map(|index| channels[index]);
        assert!((-15_630..=14_335).contains(&steps(&step, pixel)), "{pixel:?}");
    }
}

/// Greys of exponent 136 with their A and the mantissa of the stored average, rounded down and now. By 256 · log2, T[128] is 1793
/// (.44), T[192] 1942 and now 1943 (1942.71), T[193] 1944 and 1945 (1944.62), T[254] 2045 and 2046 (2045.83), T[255] 2047 (.28).
/// The sums of the others are 3735 and 3736, 3886 and 3888, 5782 and 5783. 2^(A/256) is 192.1 and 192.7, 253.9 and 254.6, 156.8
/// and 157.2, 192.7 and 193.2, 184.5.
#[test]
fn averages() {
    for (mantissas, before, now) in [
        (&[192][..], (1942, 192), (1943, 192)),
        (&[254], (2045, 253), (2046, 254)),
        (&[128, 192], (1867, 156), (1868, 157)),
        (&[192, 193], (1943, 192), (1944, 193)),
        (&[128, 192, 255], (1927, 184), (1927, 184)),
    ] {
        let greys: Vec<u16> = mantissas.iter().map(|&mantissa| stored(136, mantissa)).collect();
        let row = grey_bands(&greys);
        let strip = built().tall_strip(&row).unwrap();
        for (step, expected) in [(rounded_down(), before), (built(), now)] {
            for tally in [step.tally(&strip), step.tally_of_bands(&row)] {
                let average = tally.unwrap().average.unwrap();
                assert_eq!((average.steps, average.exponent, average.mantissa), (expected.0, 136, expected.1));
            }
        }
    }
}

/// Mapping follows. At K 1,000 the scaled luminance of a grey (136,254) alone is now 1, stored as 255.5/256: 0.99805/1.99805 =
/// 0.49951, stored as 255.5/512, and 255 times that is 127.25. Under the average (136,253) it was 254.5/253.5, stored as
/// 128.5/128: 1.00391/2.00391 = 0.50097, stored as 128.5/256, and 255 times that is 127.998.
#[test]
fn mapping() {
    let strip = stored_strip(&built(), &[stored(136, 254); 3], 1000, None);
    assert_eq!(levels(&built(), &strip), [127; 3]);
    assert_eq!(levels(&rounded_down(), &strip), [128; 3]);
    assert_eq!(built().levels_of_bands(&strip, 3), Ok(vec![127; 3]));
}
