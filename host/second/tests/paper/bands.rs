//! Change 2026-02: "Fold-out maps in bands."

use crate::helpers::*;
use second::{Average, Header, SecondStep, Source, Tally};

/// The grey halves 1.0 and 0.5 as bands of one pixel.
const ONE_BAND: [u32; 6] = [0x10004001, 0x200000B4, 0x400080FF, 0x500080FF, 0x600080FF, 0x70000001];
const HALF_BAND: [u32; 6] = [0x10004001, 0x200000B4, 0x40007FFF, 0x50007FFF, 0x60007FFF, 0x70000001];
/// 7BFF, which is (144,255), and black.
const BRIGHT_BAND: [u32; 6] = [0x10004001, 0x200000B4, 0x400090FF, 0x500090FF, 0x600090FF, 0x70000001];
const BLACK_BAND: [u32; 6] = [0x10004001, 0x200000B4, 0x40000000, 0x50000000, 0x60000000, 0x70000001];

fn average(steps: i64, exponent: u8, mantissa: u8) -> Option<Average> {
    Some(Average { steps, exponent, mantissa })
}

/// A black strip of the key 180.
fn black(width: u64, height: u64) -> Vec<u32> {
    let source = vec![BLACK; 3 * (width * height) as usize];
    built()
        .convert(Source::Stored(&source), header(width, height, 180), NO_ROOM_LIMIT)
        .unwrap()
}

/// Greys 1.0 and 0.5 have -1 and -257 steps: the sum is -258, "A = −129, average (128,180), levels 52 and 29".
#[test]
fn two_greys() {
    let row = [ONE_BAND, HALF_BAND].concat();
    let tall = [
        0x10004002, 0x200000B4, 0x400080FF, 0x500080FF, 0x600080FF, 0x40007FFF, 0x50007FFF, 0x60007FFF, 0x70000002,
    ];
    let tally = Tally {
        lit: 2,
        sum: -258,
        average: average(-129, 128, 180),
        extremes: dark_and_bright((127, 255), (128, 255)),
    };
    assert_eq!(built().header_of_bands(&row), Ok(header(1, 2, 180)));
    assert_eq!(built().tally_of_bands(&row), Ok(tally));
    assert_eq!(built().levels_of_bands(&row, 6), Ok(vec![52, 52, 52, 29, 29, 29]));
    assert_eq!(built().tall_strip(&row), Ok(tall.to_vec()));
    assert_eq!(built().cut(&tall, &[1, 1]), row);
    assert_eq!(built().cut(&tall, &[2]), tall);
    let upside_down = [HALF_BAND, ONE_BAND].concat();
    assert_eq!(built().tally_of_bands(&upside_down), Ok(tally));
    assert_eq!(built().levels_of_bands(&upside_down, 6), Ok(vec![29, 29, 29, 52, 52, 52]));
}

/// "Greys 1.0, 1.0, 0.5: A = −87": the joined sum -259 is divided, and not the averages -1, -1 and -257.
#[test]
fn three_greys() {
    for row in [
        [ONE_BAND, ONE_BAND, HALF_BAND],
        [ONE_BAND, HALF_BAND, ONE_BAND],
        [HALF_BAND, ONE_BAND, ONE_BAND],
    ] {
        let row = row.concat();
        let tally = built().tally_of_bands(&row).unwrap();
        assert_eq!((tally.lit, tally.sum, tally.average.unwrap().steps), (3, -259, -87));
        assert_eq!(tally.extremes, dark_and_bright((127, 255), (128, 255)));
        assert_eq!(built().header_of_bands(&row), Ok(header(1, 3, 180)));
    }
}

/// Bands of unequal heights count by their pixels: 1.0 and 1.0 above 0.5.
#[test]
fn unequal_heights() {
    let two_ones = [
        0x10004002, 0x200000B4, 0x400080FF, 0x500080FF, 0x600080FF, 0x400080FF, 0x500080FF, 0x600080FF, 0x70000002,
    ];
    for row in [[&two_ones[..], &HALF_BAND], [&HALF_BAND, &two_ones]] {
        let row = row.concat();
        assert_eq!(built().header_of_bands(&row), Ok(header(1, 3, 180)));
        assert_eq!(built().tally_of_bands(&row).unwrap().average.unwrap().steps, -87);
    }
}

/// "Grey 7BFF and a black pixel: A = 4095, levels 39 and 0"; 4095 = 15 · 256 + 255, X[255] = 255 as 2^(2047/256) =
/// 255.3, and the average is (144,255).
#[test]
fn black_bands() {
    let tally = Tally {
        lit: 1,
        sum: 4095,
        average: average(4095, 144, 255),
        extremes: dark_and_bright((144, 255), (144, 255)),
    };
    let row = [BRIGHT_BAND, BLACK_BAND].concat();
    assert_eq!(built().tally_of_bands(&row), Ok(tally));
    assert_eq!(built().levels_of_bands(&row, 6), Ok(vec![39, 39, 39, 0, 0, 0]));
    let row = [BLACK_BAND, BRIGHT_BAND, BLACK_BAND].concat();
    assert_eq!(built().tally_of_bands(&row), Ok(tally));
    assert_eq!(built().levels_of_bands(&row, 9), Ok(vec![0, 0, 0, 39, 39, 39, 0, 0, 0]));
}

/// "The all-black answer of document 01 no longer occurs there"; it was this one.
#[test]
fn no_lit_pixel() {
    let absent = Tally {
        lit: 0,
        sum: 0,
        average: None,
        extremes: None,
    };
    for bands in 1..4 {
        let row = BLACK_BAND.repeat(bands);
        assert_eq!(built().tally_of_bands(&row), refused(9, 0));
        assert_eq!(built().levels_of_bands(&row, 3 * bands), refused(9, 0));
        assert_eq!(taking_dark_pages().tally_of_bands(&row), Ok(absent));
        assert_eq!(taking_dark_pages().levels_of_bands(&row, 3 * bands), Ok(vec![0; 3 * bands]));
    }
}

/// The extremes are compared by worth: 255.5 · 2^-1 = 127.75 is below 128.5. They may lie in one band or in two.
#[test]
fn extremes_of_bands() {
    let (dark, bright, middle) = (stored(135, 255), stored(137, 128), stored(136, 128));
    for page in [
        [dark, middle, bright, middle],
        [dark, bright, middle, middle],
        [middle, middle, bright, dark],
        [middle, bright, dark, BLACK],
        [BLACK, BLACK, dark, bright],
        [bright, dark, BLACK, BLACK],
    ] {
        let [upper, lower] = [&page[..2], &page[2..]].map(|band| stored_strip(&built(), &grey(band), 180, None));
        let tally = built().tally_of_bands(&[upper, lower].concat()).unwrap();
        assert_eq!(tally.extremes, dark_and_bright((135, 255), (137, 128)));
    }
}

/// A row of one band is a strip, and "the tray is checked last".
#[test]
fn one_band() {
    assert_eq!(built().header_of_bands(&EXAMPLE), built().header(&EXAMPLE));
    assert_eq!(built().tally_of_bands(&EXAMPLE), built().tally(&EXAMPLE));
    assert_eq!(built().levels_of_bands(&EXAMPLE, 6), built().levels(&EXAMPLE, 6));
    assert_eq!(built().tall_strip(&EXAMPLE), Ok(EXAMPLE.to_vec()));
    let mut wild = EXAMPLE;
    wild[5] = 0x40008000;
    assert_eq!(built().levels(&wild, 5), refused(4, 0));
    assert_eq!(built().levels_of_bands(&wild, 5), refused(8, 5));
}

fn three_bands() -> Vec<u32> {
    EXAMPLE.repeat(3)
}

#[test]
fn faults() {
    assert_eq!(on_row(&built(), &three_bands()), Ok(()));
    for start in STARTS {
        for fault in &FAULTS {
            let mut row = three_bands();
            set(&mut row, start, fault);
            assert_eq!(on_row(&built(), &row), fault.refusal(start));
        }
    }
}

/// Two faults of one band: the one checked first.
#[test]
fn pairs_in_a_band() {
    for start in STARTS {
        for (index, first) in FAULTS.iter().enumerate() {
            for second in FAULTS[index + 1..].iter().filter(|second| second.word.0 != first.word.0) {
                let mut row = three_bands();
                set(&mut row, start, first);
                set(&mut row, start, second);
                assert_eq!(on_row(&built(), &row), first.refusal(start));
            }
        }
    }
}

/// Faults of two bands: the upper band's.
#[test]
fn pairs_in_two_bands() {
    for (upper, lower) in [(0, 9), (0, 18), (9, 18)] {
        for first in &FAULTS {
            for second in &FAULTS {
                let mut row = three_bands();
                set(&mut row, upper, first);
                set(&mut row, lower, second);
                assert_eq!(on_row(&built(), &row), first.refusal(upper));
            }
        }
    }
}

/// "7 before 8": a word of the wrong kind and no channel.
#[test]
fn foreign_before_wild() {
    for start in STARTS {
        let mut row = three_bands();
        row[start + 3] = 0x40000001;
        assert_eq!(on_row(&built(), &row), refused(7, start as u64 + 3));
    }
}

/// "an empty row or a cut last band is 3".
#[test]
fn cut_rows() {
    let row = three_bands();
    for length in 0..=row.len() {
        let expected = if [9, 18, 27].contains(&length) { Ok(()) } else { refused(3, 0) };
        assert_eq!(on_row(&built(), &row[..length]), expected);
    }
}

/// A cut band with a fault: what is checked before the length counts, where its word is there.
#[test]
fn cut_bands_with_faults() {
    for start in STARTS {
        for (index, fault) in FAULTS.iter().enumerate() {
            for length in 1..9 {
                let mut row = three_bands();
                set(&mut row, start, fault);
                let counts = length >= 2 && index < BEFORE_THE_LENGTH;
                let expected = if counts { fault.refusal(start) } else { refused(3, 0) };
                assert_eq!(on_row(&built(), &row[..start + length]), expected);
            }
        }
    }
}

/// One word left over is 3, whatever it is; two are looked at as a band.
#[test]
fn words_left_over() {
    for bands in 1..4 {
        let with = |words: &[u32]| on_row(&built(), &[&EXAMPLE.repeat(bands), words].concat());
        let start = 9 * bands as u64;
        for word in [0, 0x10008001, 0x200000B4, 0x70000002, u32::MAX] {
            assert_eq!(with(&[word]), refused(3, 0));
        }
        assert_eq!(with(&[0, 0]), refused(7, start));
        assert_eq!(with(&[0x10000001, 0]), refused(1, 0));
        assert_eq!(with(&[0x10008001, 0]), refused(7, start + 1));
        assert_eq!(with(&[0x10008001, 0x20000000]), refused(2, 0));
        assert_eq!(with(&[0x10008001, 0x200000B4]), refused(3, 0));
    }
}

/// "each size word telling where the next begins": a height too small or too great is not set right by the end word.
#[test]
fn wrong_heights() {
    let mut row = three_bands();
    row[0] = 0x10008002;
    assert_eq!(on_row(&built(), &row), refused(7, 8));
    row[0] = 0x10008005;
    assert_eq!(on_row(&built(), &row), refused(3, 0));
    let mut row = [ONE_BAND.to_vec(), EXAMPLE.to_vec()].concat();
    row[6] = 0x10004001;
    assert_eq!(on_row(&built(), &row), refused(7, 11));
}

#[test]
fn unlike_bands() {
    for unlike in &UNLIKE {
        for start in [9, 18] {
            let mut row = three_bands();
            set(&mut row, start, unlike);
            assert_eq!(on_row(&built(), &row), refused(21, 0));
            assert_eq!(on_row(&built(), &[&row[..], &[0]].concat()), refused(21, 0));
        }
        let mut row = three_bands();
        set(&mut row, 0, unlike);
        assert_eq!(on_row(&built(), &row), refused(21, 0));
        set(&mut row, 9, unlike);
        assert_eq!(on_row(&built(), &row), refused(21, 0));
        set(&mut row, 18, unlike);
        assert_eq!(on_row(&built(), &row), Ok(()));
    }
}

/// "after that band's own checks": a fault of the band or above it comes first, one below it does not.
#[test]
fn unlike_bands_with_faults() {
    for unlike in &UNLIKE {
        for fault in &FAULTS {
            for start in STARTS {
                let mut row = three_bands();
                set(&mut row, 9, unlike);
                set(&mut row, start, fault);
                let hidden = start == 9 && fault.word.0 == unlike.word.0;
                let expected = if start <= 9 { fault.refusal(start) } else { refused(21, 0) };
                assert!(hidden || on_row(&built(), &row) == expected);
            }
        }
    }
}

/// A cut band of another width or key is 3.
#[test]
fn unlike_bands_cut() {
    for unlike in &UNLIKE {
        let mut row = three_bands();
        set(&mut row, 9, unlike);
        for length in 10..18 {
            assert_eq!(on_row(&built(), &row[..length]), refused(3, 0));
        }
        for length in 18..=27 {
            assert_eq!(on_row(&built(), &row[..length]), refused(21, 0));
        }
    }
    let longer = [&EXAMPLE[..], &[0x1000C001], &EXAMPLE[1..]].concat();
    assert_eq!(on_row(&built(), &longer), refused(3, 0));
}

/// Heights may differ.
#[test]
fn other_heights() {
    let row = [black(3, 1), black(3, 4), black(3, 2)].concat();
    assert_eq!(built().header_of_bands(&row), Ok(header(3, 7, 180)));
    assert_eq!(built().tall_strip(&row), Ok(black(3, 7)));
}

/// "a joined size over the limits of 1": a height above 8,192.
#[test]
fn joined_heights() {
    for (heights, expected) in [
        (&[8191, 1][..], Ok(())),
        (&[1, 8191], Ok(())),
        (&[4096, 4096], Ok(())),
        (&[8192, 1], refused(21, 0)),
        (&[1, 8192], refused(21, 0)),
        (&[8191, 2], refused(21, 0)),
        (&[4096, 4096, 1], refused(21, 0)),
        (&[8192, 8192], refused(21, 0)),
    ] {
        let bands: Vec<Vec<u32>> = heights.iter().map(|&height| partly_lit(height, 1, height)).collect();
        assert_eq!(on_row(&built(), &bands.concat()), expected);
    }
}

/// The same with faults in the band that is too much: they come first, and 21 before one below it.
#[test]
fn joined_heights_with_faults() {
    let full = black(1, 8192);
    let start = full.len();
    let row = [&full[..], &BLACK_BAND, &BLACK_BAND].concat();
    let with = |place: usize, word: u32| {
        let mut row = row.clone();
        row[start + place] = word;
        on_row(&built(), &row)
    };
    assert_eq!(with(3, 0x50000001), refused(8, start as u64 + 3));
    assert_eq!(with(5, 0x70000002), refused(7, start as u64 + 5));
    assert_eq!(with(0, 0x10004000), refused(1, 0));
    assert_eq!(with(6, 0), refused(21, 0));
    assert_eq!(on_row(&built(), &row[..start + 5]), refused(3, 0));
    assert_eq!(on_row(&built(), &row[..start + 7]), refused(21, 0));
}

/// More than 16,777,216 pixels: at width 8,192 the height may be 2,048.
#[test]
fn joined_pixels() {
    let (tall, low) = (black(8192, 2047), black(8192, 1));
    let end = tall.len() + low.len();
    let mut row = tall;
    row.extend([&low[..], &low].concat());
    assert_eq!(built().header_of_bands(&row[..end]), Ok(header(8192, 2048, 180)));
    assert_eq!(built().header_of_bands(&row), refused(21, 0));
    assert_eq!(built().tally_of_bands(&row), refused(21, 0));
    assert_eq!(built().levels_of_bands(&row, 0), refused(21, 0));
    row[end + 2] = 0x40000001;
    assert_eq!(built().header_of_bands(&row), refused(8, end as u64 + 2));
}

/// "the tray is checked last", and needs three bytes a pixel of all bands.
#[test]
fn trays() {
    for bands in 1..4 {
        let row = EXAMPLE.repeat(bands);
        for room in [0, 1, 6 * bands - 1] {
            assert_eq!(built().levels_of_bands(&row, room), refused(4, 0));
        }
        for room in [6 * bands, 6 * bands + 1] {
            assert_eq!(built().levels_of_bands(&row, room).unwrap().len(), 6 * bands);
        }
        assert_eq!(built().levels_of_bands(&[&row[..], &[0]].concat(), 0), refused(3, 0));
    }
    for fault in FAULTS.iter().chain(&UNLIKE) {
        let mut row = three_bands();
        set(&mut row, 18, fault);
        assert_eq!(built().levels_of_bands(&row, 0).map(|_| ()), fault.refusal(18));
    }
    assert_eq!(built().levels_of_bands(&[], 0), refused(3, 0));
}

#[test]
fn cutting_by_hand() {
    let rows = [
        [0x400080FF, 0x50000000, 0x60007FFF],
        [0x40000000, 0x50004880, 0x6000B8FF],
        [0x400081C0, 0x500081C0, 0x60000000],
    ];
    let [top, middle, bottom] = rows;
    let band = |height: u32, rows: &[[u32; 3]]| [&[0x10004000 + height, 0x200003E8], rows.as_flattened(), &[0x70000000 + height]].concat();
    let strip = band(3, &rows);
    for (heights, expected) in [
        (&[3][..], strip.clone()),
        (&[1, 2], [band(1, &[top]), band(2, &[middle, bottom])].concat()),
        (&[2, 1], [band(2, &[top, middle]), band(1, &[bottom])].concat()),
        (&[1, 1, 1], [band(1, &[top]), band(1, &[middle]), band(1, &[bottom])].concat()),
    ] {
        assert_eq!(built().cut(&strip, heights), expected);
        assert_eq!(built().tall_strip(&expected), Ok(strip.clone()));
    }
}

#[test]
#[should_panic]
fn cutting_no_row() {
    built().cut(&black(1, 2), &[1, 0, 1]);
}

#[test]
#[should_panic]
fn cutting_too_few_rows() {
    built().cut(&black(1, 2), &[1]);
}

#[test]
#[should_panic]
fn cutting_too_many_rows() {
    built().cut(&black(1, 2), &[1, 2]);
}

#[test]
#[should_panic]
fn cutting_rows_that_wrap() {
    built().cut(&black(1, 2), &[3, u64::MAX]);
}

fn strip(step: &SecondStep, source: &[u16], page: Header) -> Vec<u32> {
    step.convert(Source::Stored(source), page, NO_ROOM_LIMIT).unwrap()
}

/// The number of cuttings of h rows is 2^(h-1).
#[test]
fn cuttings_are_all() {
    let cuttings: Vec<Vec<u64>> = all_cuttings(3).collect();
    assert_eq!(cuttings, [vec![3], vec![1, 2], vec![2, 1], vec![1, 1, 1]]);
}

#[test]
fn every_cutting_of_small_pages() {
    let (step, mut generator) = (built(), Generator::new(11));
    for width in 1..=3 {
        for height in 1..=7 {
            let page = header(width, height, 1 + generator.below(1000));
            let strip = strip(&step, &generator.page((width * height) as usize), page);
            for heights in all_cuttings(height) {
                check_cutting(&step, &strip, &heights);
            }
        }
    }
}

/// Pages of one column whose pixels are black, bright or dark, all of them, in every cutting.
#[test]
fn every_cutting_of_few_greys() {
    let step = built();
    let greys = [BLACK, stored(184, 255), stored(72, 128)];
    for choice in 0..81 {
        let page = [choice % 3, choice / 3 % 3, choice / 9 % 3, choice / 27].map(|index: usize| greys[index]);
        let strip = strip(&step, &grey(&page), header(1, 4, 180));
        for heights in all_cuttings(4) {
            check_cutting(&step, &strip, &heights);
        }
    }
}

/// The greatest number of bands, of one row each; the sums are exact over all of them.
#[test]
fn thousands_of_bands() {
    let (step, mut generator) = (built(), Generator::new(12));
    let strip = strip(&step, &generator.page(2 * 8192), header(2, 8192, 700));
    check_cutting(&step, &strip, &[1; 8192]);
    check_cutting(&step, &strip, &[2; 4096]);
    let row = BRIGHT_BAND.repeat(8192);
    let tally = step.tally_of_bands(&row).unwrap();
    assert_eq!((tally.lit, tally.sum, tally.average), (8192, 8192 * 4095, average(4095, 144, 255)));
    assert_eq!(step.levels_of_bands(&row, 3 * 8192), Ok(vec![39; 3 * 8192]));
    assert_eq!(on_row(&step, &BRIGHT_BAND.repeat(8193)), refused(21, 0));
}
