//! Demand 3: the two checks accept what lies inside the bounds and nothing outside.

use crate::helpers::*;
use second::{Average, SecondStep};

/// The steps that hold of a page, among those near the given ones.
fn holding(step: &SecondStep, strip: &[u32], near: i64) -> Vec<i64> {
    (near - 3..=near + 3).filter(|&steps| step.mean_holds(strip, steps)).collect()
}

/// One grey of (128,255): 256 · log2(255.5/256) = −0.722.
#[test]
fn mean_bounds() {
    let strip = half_strip(&built(), &grey(&[ONE]), 180);
    for step in [built(), rounded_down()] {
        assert_eq!(holding(&step, &strip, -1), [-2, -1]);
    }
    assert!((built().mean_above(&strip, -1) - 0.278).abs() < 0.001);
}

/// One grey of (136,192): 256 · log2(192.5) = 1942.71. It lies 1.71 above 1941 and 0.29 below 1943.
#[test]
fn mean_bounds_differ() {
    let strip = stored_strip(&built(), &grey(&[stored(136, 192)]), 180, None);
    assert_eq!(holding(&rounded_down(), &strip, 1942), [1941, 1942]);
    assert_eq!(holding(&built(), &strip, 1942), [1942, 1943]);
}

/// Pages and rows of bands near the limits, "at most half a step below the reported steps and less than one and a half above".
/// 256 · log2 of 218.5 and of 154.5 is 1989.5013 and 1861.4945, so T[218] is 1990 and T[154] is 1861. Where one of 255 such greys
/// is half as bright, the sum of steps is 255T − 256 = 255(T − 1) − 1, and A is T − 2; the true mean is 256/255 = 1.0039 below
/// that of one grey, 1988.4974 and 1860.4906.
#[test]
fn mean_bounds_at_the_limits() {
    let step = built();
    let one_dimmer = |mantissa| [vec![stored(136, mantissa); 254], vec![stored(135, mantissa)]].concat();
    for (greys, reported, above, bounds) in [
        (vec![stored(136, 218)], 1990, -0.4987, [1989, 1990]),
        (vec![stored(136, 154)], 1861, 0.4945, [1860, 1861]),
        (one_dimmer(218), 1988, 0.4974, [1987, 1988]),
        (one_dimmer(154), 1859, 1.4906, [1859, 1860]),
    ] {
        let row = grey_bands(&greys);
        let strip = step.tall_strip(&row).unwrap();
        for tally in [step.tally(&strip), step.tally_of_bands(&row)] {
            assert_eq!(tally.unwrap().average.unwrap().steps, reported);
        }
        assert!((step.mean_above(&strip, reported) - above).abs() < 0.0001);
        assert_eq!(holding(&step, &strip, reported), bounds);
    }
}

#[test]
fn mean_of_wild_reports() {
    let strip = half_strip(&built(), &grey(&[ONE]), 180);
    for steps in [i64::MIN, i64::MAX] {
        assert!(!built().mean_holds(&strip, steps) && !rounded_down().mean_holds(&strip, steps));
    }
    let unlit = half_strip(&built(), &grey(&[BLACK]), 180);
    for step in [built(), taking_dark_pages()] {
        assert!(!step.mean_holds(&unlit, 0) && step.mean_above(&unlit, 0).is_nan());
        assert!(!step.mean_holds(&[], 0) && step.mean_above(&[], 0).is_nan());
    }
}

/// "the first half holds wherever the tally accepts, the second wherever mapping does": one grey 1.0 among 16 pixels, and
/// among 17, which is a dark page.
#[test]
fn dark_pages() {
    let found = |step: SecondStep, pixels: u64| {
        let strip = partly_lit(1, pixels, 1);
        let compared = step.level_distances(&strip, ONE_AVERAGE, &[39; 3]).compared;
        (step.mean_holds(&strip, -1), step.mean_above(&strip, -1).is_nan(), compared)
    };
    for accepted in [found(built(), 16), found(taking_dark_pages(), 16), found(taking_dark_pages(), 17)] {
        assert_eq!(accepted, (true, false, 3));
    }
    assert_eq!(found(built(), 17), (false, true, 0));
}

/// The tally's own steps hold, and the exact bounds agree with the printed distance.
#[test]
fn means_of_generated_pages() {
    let mut generator = Generator::new(7);
    for (step, least, limit) in [(rounded_down(), 0.0, 2.0), (built(), -0.5, 1.5)] {
        for pixels in [1, 2, 3, 10, 40, 150] {
            let strip = stored_strip(&step, &generator.page(pixels), 180, None);
            let Ok(tally) = step.tally(&strip) else {
                continue;
            };
            let average = tally.average.unwrap();
            assert!(step.mean_holds(&strip, average.steps));
            for steps in average.steps - 4..average.steps + 5 {
                let above = step.mean_above(&strip, steps);
                if (above - least).abs() > 1e-6 && (above - limit).abs() > 1e-6 {
                    assert_eq!(step.mean_holds(&strip, steps), least <= above && above < limit);
                }
            }
        }
    }
}

/// The average (128,255).
const ONE_AVERAGE: Average = Average {
    steps: -1,
    exponent: 128,
    mantissa: 255,
};

/// The levels that pass for all three channels of one grey pixel under an average of its own worth.
fn passing(key: u64, white: Option<u64>) -> Vec<u8> {
    let strip = stored_strip(&built(), &[stored(128, 255); 3], key, white);
    (0..=255)
        .filter(|&level| built().level_distances(&strip, ONE_AVERAGE, &[level; 3]).first_failure.is_none())
        .collect()
}

/// L = 0.18: 255 · 0.18/1.18 = 38.898. L = 1: exactly 127.5, and 125 and 130 are exactly 5/2 away.
#[test]
fn level_bounds() {
    assert_eq!(passing(180, None), [37, 38, 39, 40, 41]);
    assert_eq!(passing(1000, None), [126, 127, 128, 129]);
}

/// L = 1: w = 1 gives 255; w = 2 gives 255 · 1.25/2 = 159.375.
#[test]
fn level_bounds_with_white() {
    assert_eq!(passing(1000, Some(10)), [253, 254, 255]);
    assert_eq!(passing(1000, Some(20)), [157, 158, 159, 160, 161]);
}

/// Red (154,255) is 2^21 times green (133,255): Y is 0.27 · 2^21 + 0.67 = 566,231.7 times the green, and L 32 times that,
/// 18,119,415. With w = 10 the operator is 181,194.1 + 0.99, and the green's exact value 255 · 181,195.1/566,231.7 = 81.6; with
/// w = 100 it is 255 · 1,812.94/566,231.7 = 0.816, and without the white point nearly nothing. The red's is clipped.
#[test]
fn level_bounds_far_above_white() {
    let source = [stored(154, 255), stored(133, 255), BLACK];
    let passing = |white| {
        let strip = stored_strip(&built(), &source, 1000, white);
        let near = |green: &u8| {
            built()
                .level_distances(&strip, ONE_AVERAGE, &[255, *green, 0])
                .first_failure
                .is_none()
        };
        (0..=255).filter(near).collect::<Vec<u8>>()
    };
    assert_eq!(passing(Some(100)), [80, 81, 82, 83, 84]);
    assert_eq!(passing(Some(1000)), [0, 1, 2, 3]);
    assert_eq!(passing(None), [0, 1, 2]);
}

#[test]
fn reported_failures() {
    let strip = half_strip(&built(), &grey(&[BLACK, ONE]), 180);
    let found = built().level_distances(&strip, ONE_AVERAGE, &[9, 9, 9, 39, 36, 42]);
    assert_eq!((found.compared, found.first_failure), (3, Some(4)));
    assert!((found.worst - 3.102).abs() < 0.001);
    let found = built().level_distances(&strip, ONE_AVERAGE, &[9, 9, 9, 39, 39]);
    assert_eq!((found.compared, found.first_failure), (2, Some(5)));
    let found = built().level_distances(&EXAMPLE[..8], ONE_AVERAGE, &[]);
    assert_eq!((found.compared, found.first_failure), (0, None));
}

/// Red alone at K 1,000 is some 472, clipped at 255; its black channels are 0.
#[test]
fn clipped_values() {
    let strip = half_strip(&built(), &[ONE, BLACK, BLACK], 1000);
    let average = built().tally(&strip).unwrap().average.unwrap();
    let failure = |levels: [u8; 3]| built().level_distances(&strip, average, &levels).first_failure;
    assert_eq!(failure([255, 0, 0]), None);
    assert_eq!(failure([253, 2, 2]), None);
    assert_eq!(failure([252, 0, 0]), Some(0));
    assert_eq!(failure([255, 0, 3]), Some(2));
}

#[test]
fn levels_of_generated_pages() {
    let mut generator = Generator::new(8);
    for round in 0..300 {
        let step = if round % 2 == 0 { built() } else { rounded_down() };
        let white = if round % 3 == 0 { None } else { Some(10 + generator.below(991)) };
        let strip = stored_strip(&step, &generator.page(30), 1 + generator.below(1000), white);
        let tally = step.tally(&strip).unwrap();
        let found = step.level_distances(&strip, tally.average.unwrap(), &levels(&step, &strip));
        assert_eq!((found.compared, found.first_failure), (3 * tally.lit, None));
        assert!(found.worst < 2.5);
    }
}

/// Any average, key, white point and channel fit in the numbers' width.
#[test]
fn wild_averages() {
    let channels = [BLACK, stored(72, 128), stored(72, 255), stored(184, 255)];
    let source: Vec<u16> = (0..192)
        .map(|place| channels[[place / 3 % 4, place / 12 % 4, place / 48][place % 3]])
        .collect();
    for (key, white) in [
        (1, None),
        (1000, None),
        (1, Some(10)),
        (1000, Some(1000)),
        (1000, Some(10)),
        (1, Some(1000)),
    ] {
        let strip = stored_strip(&built(), &source, key, white);
        for exponent in 0..=255 {
            for mantissa in [0, 128, 255] {
                let average = Average {
                    steps: 0,
                    exponent,
                    mantissa,
                };
                assert_eq!(built().level_distances(&strip, average, &[0; 192]).compared, 189);
            }
        }
    }
}

/// The widest numbers of mapping: the least and the greatest scaled luminance, with and without a white point.
#[test]
fn extreme_pages() {
    let dark = [BLACK, BLACK, stored(72, 128)];
    let bright = [stored(184, 255); 3];
    for (few, many) in [(dark, bright), (bright, dark)] {
        for (key, white) in [
            (1, None),
            (1000, None),
            (1, Some(10)),
            (1000, Some(1000)),
            (1000, Some(10)),
            (1, Some(1000)),
        ] {
            let source = [vec![few; 1], vec![many; 8000]].concat().concat();
            let strip = stored_strip(&built(), &source, key, white);
            let average = built().tally(&strip).unwrap().average.unwrap();
            let found = built().level_distances(&strip, average, &levels(&built(), &strip));
            assert_eq!((found.compared, found.first_failure), (24_003, None));
        }
    }
}
