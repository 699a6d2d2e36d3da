//! Change 2026-01: "Darkest and brightest in the tally."

use crate::helpers::*;
use second::{Extremes, Number, SecondStep, Source};

/// The extremes of one row of stored pixels.
fn of(step: &SecondStep, source: &[u16]) -> Option<Extremes> {
    step.tally(&stored_strip(step, source, 180, None)).unwrap().extremes
}

/// The smallest luminance that exists is that of the darkest blue alone: 128.5 · 6/100 · 2^-64 = 7.71 · 2^-64 lies
/// above 2^-62 and not above 2^-61, so E is 67; 7.71 · 2^5 = 246.72.
const DARKEST: [u16; 3] = [BLACK, BLACK, 256 * 72 + 128];
/// The largest is that of the brightest grey, (184,255).
const BRIGHTEST: [u16; 3] = [256 * 184 + 255; 3];

/// A grey has the luminance of its channels, as 27 + 67 + 6 = 100. Red 1.0 alone has (127,137) (document 01), and so
/// on for the other two: 255.5/256 · 67/100 = 0.66869 has E 128, and times 2^8 it is 171.18; 255.5/256 · 6/100 =
/// 0.059883 lies above 2^-5, E is 124, and times 2^12 it is 245.28.
#[test]
fn one_pixel_twice() {
    for (exponent, mantissa) in [(72, 128), (72, 255), (128, 255), (136, 192), (184, 128), (184, 255)] {
        let found = of(&built(), &[stored(exponent, mantissa); 3]);
        let expected = (exponent as i32, mantissa as u32);
        assert_eq!(found, dark_and_bright(expected, expected));
    }
    let one = stored(128, 255);
    assert_eq!(of(&built(), &[one, BLACK, BLACK]), dark_and_bright((127, 137), (127, 137)));
    assert_eq!(of(&built(), &[BLACK, one, BLACK]), dark_and_bright((128, 171), (128, 171)));
    assert_eq!(of(&built(), &[BLACK, BLACK, one]), dark_and_bright((124, 245), (124, 245)));
}

/// The larger mantissa has the smaller exponent: 255.5 · 2^-1 = 127.75 is below 128.5, 200.5 · 2^-3 = 25.06 below
/// 129.5, and 255.5 · 2^-112 below 128.5.
#[test]
fn worth_decides() {
    for (dark, bright) in [((135, 255), (136, 128)), ((133, 200), (136, 129)), ((72, 255), (184, 128))] {
        let (low, high) = (stored(dark.0, dark.1), stored(bright.0, bright.1));
        let expected = dark_and_bright((dark.0 as i32, dark.1 as u32), (bright.0 as i32, bright.1 as u32));
        assert_eq!(of(&built(), &grey(&[low, high])), expected);
        assert_eq!(of(&built(), &grey(&[high, low])), expected);
    }
}

/// Within one exponent the mantissas decide: 128.5 is below 129.5, and so on up to 255.5.
#[test]
fn neighbouring_mantissas() {
    let step = built();
    for mantissa in 128..255 {
        let expected = dark_and_bright((140, mantissa), (140, mantissa + 1));
        let (low, high) = (stored(140, mantissa as u16), stored(140, mantissa as u16 + 1));
        assert_eq!(of(&step, &grey(&[low, high])), expected);
        assert_eq!(of(&step, &grey(&[high, low])), expected);
    }
}

/// "On a page with no lit pixel both are absent", where such a page is accepted.
#[test]
fn unlit_pages() {
    for pixels in [1, 2, 7, 300] {
        assert_eq!(of(&taking_dark_pages(), &vec![BLACK; 3 * pixels]), None);
    }
}

/// "among lit pixels": black ones in front, between and behind do not count.
#[test]
fn black_pixels_do_not_count() {
    let (dark, bright) = (stored(120, 150), stored(130, 140));
    for page in [
        [BLACK, dark, bright],
        [dark, BLACK, bright],
        [dark, bright, BLACK],
        [BLACK, bright, dark],
        [bright, BLACK, dark],
        [bright, dark, BLACK],
    ] {
        assert_eq!(of(&built(), &grey(&page)), dark_and_bright((120, 150), (130, 140)));
    }
    for page in [[dark, BLACK, BLACK], [BLACK, dark, BLACK], [BLACK, BLACK, dark]] {
        assert_eq!(of(&built(), &grey(&page)), dark_and_bright((120, 150), (120, 150)));
    }
}

/// A pixel with one channel lit is lit: 128.5 · 67/100 = 86.095 at green (100,128), times 2, is (99,172).
#[test]
fn partly_black_pixels_count() {
    let page = [[BLACK; 3], [BLACK, stored(100, 128), BLACK], [stored(136, 192); 3]].concat();
    assert_eq!(of(&built(), &page), dark_and_bright((99, 172), (136, 192)));
}

/// The darkest and the brightest at every two of six places, the others between them in worth: 199.5 · 2^-16 is below
/// 255.5 · 2^-10, 128.5 · 2^-8, 254.5 · 2^-7 and 130.5 · 2^-5, and those are below 129.5 · 2^-4.
#[test]
fn places_do_not_matter() {
    let step = built();
    let between = [stored(126, 255), stored(128, 128), stored(129, 254), stored(131, 130)];
    for dark in 0..6 {
        for bright in (0..6).filter(|&bright| bright != dark) {
            let mut others = between.iter();
            let page: Vec<u16> = (0..6)
                .map(|place| match place {
                    _ if place == dark => stored(120, 199),
                    _ if place == bright => stored(132, 129),
                    _ => *others.next().unwrap(),
                })
                .collect();
            assert_eq!(of(&step, &grey(&page)), dark_and_bright((120, 199), (132, 129)));
        }
    }
}

/// The same in three rows of two: every row counts.
#[test]
fn rows_do_not_matter() {
    let (dark, middle, bright) = (stored(127, 255), stored(128, 200), stored(129, 128));
    for page in [
        [dark, bright, middle, middle, BLACK, middle],
        [middle, middle, bright, dark, middle, BLACK],
        [BLACK, middle, middle, middle, dark, bright],
        [bright, BLACK, middle, middle, middle, dark],
    ] {
        let strip = built().convert(Source::Stored(&grey(&page)), header(2, 3, 180), 21).unwrap();
        assert_eq!(built().tally(&strip).unwrap().extremes, dark_and_bright((127, 255), (129, 128)));
    }
}

#[test]
fn equal_pixels() {
    let pixel = stored(133, 177);
    for pixels in 1..10 {
        assert_eq!(of(&built(), &grey(&vec![pixel; pixels])), dark_and_bright((133, 177), (133, 177)));
    }
    let page = [pixel, stored(134, 130), pixel, stored(134, 130), pixel];
    assert_eq!(of(&built(), &grey(&page)), dark_and_bright((133, 177), (134, 130)));
}

/// "stored luminance": 200.5, 200.5 + 6/100 and 200.5 + 27/100 are all stored as (136,200), and 200.5 + 27/100 + 67/100
/// = 201.44 as (136,201), as 201.5 is.
#[test]
fn luminances_are_the_stored_ones() {
    let (low, high) = (stored(136, 200), stored(136, 201));
    let page = [[low; 3], [low, low, high], [high, low, low]].concat();
    assert_eq!(of(&built(), &page), dark_and_bright((136, 200), (136, 200)));
    let page = [[high, high, low], [high; 3]].concat();
    assert_eq!(of(&built(), &page), dark_and_bright((136, 201), (136, 201)));
}

/// The luminance decides, and no channel: blue (130,200) alone, the greatest channel of the page, has
/// 200.5 · 6/100 · 2^-6 = 12.03 · 2^-6, above 2^-3 and not above 2^-2, so E is 126, and 12.03 · 2^4 = 192.48. That is
/// below the grey (127,128).
#[test]
fn channels_do_not_decide() {
    let page = [[BLACK, BLACK, stored(130, 200)], [stored(127, 128); 3]].concat();
    assert_eq!(of(&built(), &page), dark_and_bright((126, 192), (127, 128)));
}

#[test]
fn whole_range() {
    let middle = [stored(128, 255); 3];
    for page in [
        [DARKEST, middle, BRIGHTEST],
        [BRIGHTEST, middle, DARKEST],
        [middle, BRIGHTEST, DARKEST],
        [DARKEST, BRIGHTEST, middle],
    ] {
        assert_eq!(of(&built(), &page.concat()), dark_and_bright((67, 246), (184, 255)));
    }
    assert_eq!(of(&built(), &DARKEST), dark_and_bright((67, 246), (67, 246)));
    assert_eq!(of(&built(), &BRIGHTEST), dark_and_bright((184, 255), (184, 255)));
}

/// "Every call that makes, passes or reports a tally carries them", under every switch; 223.5 · 2^-1 is below 222.5.
#[test]
fn every_rule_reports_them() {
    let page = grey(&[BLACK, stored(90, 222), BLACK, stored(89, 223), BLACK]);
    let strip = stored_strip(&built(), &page, 180, None);
    for step in every_rule() {
        assert_eq!(step.tally(&strip).unwrap().extremes, dark_and_bright((89, 223), (90, 222)));
    }
}

/// Step 1 once more, in 128-bit numbers. The sum of weights times 2M + 1, counted in units of 2^(72−137), is at most
/// 100 · 511 · 2^112, below 2^128. F is that over 100; F ≤ 2^(E−128) is sum · 2^-65 ≤ 100 · 2^(E−128), and
/// F · 2^(136−E) is sum · 2^(71−E) over 100.
fn luminance(pixel: &[u16]) -> Option<Number> {
    let mut sum = 0u128;
    for (&channel, weight) in pixel.iter().zip([27, 67, 6]) {
        if channel != BLACK {
            sum += (weight * (2 * (channel as u128 % 256) + 1)) << (channel / 256 - 72);
        }
    }
    if sum == 0 {
        return None;
    }
    let exponent = (67..=184).find(|&exponent| sum <= 100u128 << (exponent - 63)).unwrap();
    let mantissa = if exponent < 71 {
        (sum << (71 - exponent)) / 100
    } else {
        sum / (100 << (exponent - 71))
    };
    Some(number(exponent, mantissa.min(255) as u32))
}

/// The worth in units of 2^(67−137): at most 511 · 2^117.
fn worth(number: Number) -> u128 {
    (2 * number.mantissa as u128 + 1) << (number.exponent - 67)
}

/// Both occur on the page, and every luminance of it lies between them in worth; a dark page has no tally.
fn check_page(step: &SecondStep, page: &[u16]) {
    let luminances: Vec<Number> = page.chunks_exact(3).filter_map(luminance).collect();
    if 16 * luminances.len() < page.len() / 3 {
        assert_eq!(step.tally(&stored_strip(step, page, 180, None)), refused(9, 0));
        return;
    }
    let Extremes { darkest, brightest } = of(step, page).unwrap();
    assert!(luminances.contains(&darkest) && luminances.contains(&brightest));
    for luminance in luminances {
        assert!(worth(darkest) <= worth(luminance) && worth(luminance) <= worth(brightest));
    }
}

/// The figures of document 01 and of the range, for the luminance of the tests below.
#[test]
fn luminances_by_hand() {
    assert_eq!(luminance(&[BLACK; 3]), None);
    assert_eq!(luminance(&[stored(128, 255), BLACK, BLACK]), Some(number(127, 137)));
    assert_eq!(luminance(&DARKEST), Some(number(67, 246)));
    assert_eq!(luminance(&BRIGHTEST), Some(number(184, 255)));
    assert_eq!(luminance(&[BLACK, stored(136, 180), stored(135, 235)]), Some(number(135, 255)));
    assert_eq!(
        luminance(&[stored(72, 128), stored(136, 180), stored(135, 235)]),
        Some(number(136, 128))
    );
}

#[test]
fn generated_pages() {
    let (step, mut generator) = (built(), Generator::new(9));
    for round in 0..600 {
        check_page(&step, &generator.page(1 + round % 50));
    }
    check_page(&step, &generator.page(8000));
}

/// Pages whose exponents lie close together, with many equal channels and many black pixels.
#[test]
fn generated_pages_of_near_luminances() {
    let (step, mut generator) = (built(), Generator::new(10));
    for round in 0..600 {
        let first = 72 + generator.below(112) as u16;
        let page: Vec<u16> = (0..1 + round % 40)
            .flat_map(|_| {
                let mantissas = [128, 129, 254, 255, 128 + generator.below(128) as u16];
                let mut channel = || match generator.below(6) {
                    0 => BLACK,
                    _ => stored(first + generator.below(2) as u16, mantissas[generator.below(5) as usize]),
                };
                let pixel = [channel(), channel(), channel()];
                [pixel, [pixel[0]; 3], [BLACK; 3]][generator.below(3) as usize]
            })
            .collect();
        check_page(&step, &page);
    }
}
