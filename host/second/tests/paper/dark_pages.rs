//! Change 2026-03: "Turn away a covered lens."

use crate::helpers::*;
use second::{Average, Refusal, SecondStep, Source, Tally};

/// Lit pixels and pixels of dark pages. Sixteen times the first is one below the second: 0 and 1, 16 and 17, 32 and 33; or
/// further below: 0 and 15, 0 and 16, 16 and 31, 16 and 32.
const DARK: [(u64, u64); 7] = [(0, 1), (1, 17), (2, 33), (0, 15), (0, 16), (1, 31), (1, 32)];
/// The same pages with one more lit pixel. It is equal: 16 and 16, 32 and 32; one above: 16 and 15, 32 and 31; or further
/// above: 16 and 1, 32 and 17, 48 and 33.
const LIGHT: [(u64, u64); 7] = [(1, 16), (2, 32), (1, 15), (2, 31), (1, 1), (2, 17), (3, 33)];

/// What tallying and mapping answer, the room lent being good, and what the program prints of it.
fn on_page(step: &SecondStep, strip: &[u32]) -> Result<(), Refusal> {
    let answer = step.tally(strip).map(|_| ());
    assert_eq!(step.levels(strip, NO_ROOM_LIMIT).map(|_| ()), answer);
    let printed = step.picture(&bytes(strip));
    match answer {
        Ok(()) => assert!(printed.starts_with(b"P6\n")),
        Err(Refusal { number, place }) => assert_eq!(printed, format!("refused {number} {place}\n").as_bytes()),
    }
    answer
}

/// Every width and height of so many pixels.
fn shapes(pixels: u64) -> impl Iterator<Item = (u64, u64)> {
    (1..=pixels)
        .filter(move |width| pixels.is_multiple_of(*width))
        .map(move |width| (width, pixels / width))
}

/// One row of so many black pixels, with some of their channels set.
fn with_channels(pixels: usize, channels: &[(usize, u16)]) -> Vec<u32> {
    let mut source = vec![BLACK; 3 * pixels];
    for &(place, channel) in channels {
        source[place] = channel;
    }
    stored_strip(&built(), &source, 180, None)
}

/// "sixteen times its lit pixels is below its pixel count", whatever the shape of the page.
#[test]
fn boundaries() {
    let step = built();
    for (pages, answer) in [(DARK, refused(9, 0)), (LIGHT, Ok(()))] {
        for (lit, pixels) in pages {
            for (width, height) in shapes(pixels) {
                assert_eq!(on_page(&step, &partly_lit(lit, width, height)), answer);
            }
        }
    }
}

/// The fewest lit pixels that pass are a sixteenth of all, rounded up.
#[test]
fn every_count() {
    let step = built();
    for pixels in 1..=130u64 {
        for lit in 0..=pixels.min(10) {
            let accepted = lit >= pixels.div_ceil(16);
            let answer = if accepted { Ok(()) } else { refused(9, 0) };
            assert_eq!(step.tally(&partly_lit(lit, pixels, 1)).map(|_| ()), answer);
        }
    }
}

/// At the greatest size, 16 · 1,048,576 = 16,777,216.
#[test]
fn greatest_page() {
    let step = built();
    let mut strip = partly_lit(1_048_576, 8192, 2048);
    assert_eq!(step.tally(&strip).unwrap().lit, 1_048_576);
    strip[2..5].copy_from_slice(&BLACK_EXAMPLE[2..5]);
    assert_eq!(step.tally(&strip), refused(9, 0));
}

/// Greys 1.0 have −1 step each, the average (128,255) and level 39 (document 01); black pixels do not count.
#[test]
fn accepted_answers() {
    for (lit, pixels) in LIGHT {
        let strip = partly_lit(lit, pixels, 1);
        let tally = Tally {
            lit,
            sum: -(lit as i64),
            average: Some(Average {
                steps: -1,
                exponent: 128,
                mantissa: 255,
            }),
            extremes: dark_and_bright((128, 255), (128, 255)),
        };
        let mut expected = vec![39; 3 * lit as usize];
        expected.resize(3 * pixels as usize, 0);
        assert_eq!(built().tally(&strip), Ok(tally));
        assert_eq!(levels(&built(), &strip), expected);
        assert_eq!(built().tally_of_bands(&strip), Ok(tally));
        assert_eq!(built().levels_of_bands(&strip, 3 * pixels as usize), Ok(expected));
    }
}

/// Pages on both sides of the boundary: an accepted tally is that of before, and has an average and extremes.
#[test]
fn accepted_as_before() {
    let (step, before, mut generator) = (built(), taking_dark_pages(), Generator::new(14));
    let mut counts = [0, 0];
    for _ in 0..400 {
        let pixels = 1 + generator.below(60) as usize;
        let lit: Vec<(usize, u16)> = (0..generator.below(5))
            .map(|_| (generator.below(3 * pixels as u64) as usize, generator.channel()))
            .collect();
        let strip = with_channels(pixels, &lit);
        let tally = before.tally(&strip).unwrap();
        let dark = 16 * tally.lit < pixels as u64;
        counts[dark as usize] += 1;
        if dark {
            assert_eq!(on_page(&step, &strip), refused(9, 0));
        } else {
            assert!(tally.average.is_some() && tally.extremes.is_some());
            assert_eq!(step.tally(&strip), Ok(tally));
            assert_eq!(levels(&step, &strip), levels(&before, &strip));
        }
    }
    assert!(counts[0] > 100 && counts[1] > 100);
}

/// "A pixel is lit if any of its three channel words is", wherever it stands and however little it is worth.
#[test]
fn one_channel_lights_a_pixel() {
    let step = built();
    for channel in [stored(72, 128), stored(128, 255), stored(184, 255)] {
        for place in 0..48 {
            assert_eq!(on_page(&step, &with_channels(16, &[(place, channel)])), Ok(()));
            assert_eq!(on_page(&step, &with_channels(17, &[(place, channel)])), refused(9, 0));
        }
    }
}

/// Pixels are counted and not channels: two lit channels of one pixel and of two.
#[test]
fn channels_of_a_pixel_count_once() {
    let (step, one) = (built(), stored(128, 255));
    for (first, second) in [(0, 1), (1, 2), (0, 2), (48, 50)] {
        assert_eq!(on_page(&step, &with_channels(17, &[(first, one), (second, one)])), refused(9, 0));
    }
    for (first, second) in [(2, 3), (0, 50), (47, 48)] {
        assert_eq!(on_page(&step, &with_channels(17, &[(first, one), (second, one)])), Ok(()));
    }
}

/// "converting, rows and the page reader still take such pages", and so do the calls beside them.
#[test]
fn calls_that_take_dark_pages() {
    let step = built();
    for (lit, pixels) in DARK {
        for (width, height) in shapes(pixels) {
            let strip = partly_lit(lit, width, height);
            let pixel = |n: u64| [if n < lit { stored(128, 255) } else { BLACK }; 3];
            assert_eq!(step.check(&strip), Ok(()));
            assert_eq!(step.header(&strip), Ok(header(width, height, 180)));
            assert_eq!(
                step.unpack(&strip, 3 * pixels as usize),
                Ok((0..pixels).flat_map(pixel).collect::<Vec<u16>>())
            );
            for y in 0..height {
                let (start, end) = (2 + 3 * width * y, 2 + 3 * width * (y + 1));
                assert_eq!(step.row(&strip, y), Ok(start as usize..end as usize));
            }
            assert_eq!(step.row(&strip, height), refused(20, 0));
            for n in 0..pixels {
                assert_eq!(step.reader_step(&strip, n), Ok(Some(pixel(n))));
            }
            assert_eq!(step.reader_step(&strip, pixels), Ok(None));
        }
    }
}

/// Black pictures of all four kinds.
#[test]
fn converting_black_pictures() {
    for source in [
        Source::Rgbe(&[0; 8]),
        Source::Half(&[0x8000; 6]),
        Source::Single(&[0x23000000; 6]),
        Source::Stored(&[0; 6]),
    ] {
        assert_eq!(built().convert(source, header(2, 1, 180), 9), Ok(BLACK_EXAMPLE.to_vec()));
    }
}

/// For one strip 4 stands before the words, and 9 "after every word has passed".
#[test]
fn small_tray_before_dark_page() {
    for (lit, pixels) in DARK {
        let strip = partly_lit(lit, pixels, 1);
        let needed = 3 * pixels as usize;
        for room in [0, needed - 1] {
            assert_eq!(built().levels(&strip, room), refused(4, 0));
        }
        for room in [needed, needed + 1] {
            assert_eq!(built().levels(&strip, room), refused(9, 0));
        }
        assert_eq!(built().unpack(&strip, needed - 1), refused(4, 0));
    }
}

/// Every fault comes before 9, and 4 stands between those of the front and those of the words.
#[test]
fn faults_before_dark_page() {
    let step = built();
    for (index, fault) in FAULTS.iter().enumerate() {
        let mut strip = BLACK_EXAMPLE;
        set(&mut strip, 0, fault);
        assert_eq!(on_page(&step, &strip), fault.refusal(0));
        let expected = if index < BEFORE_THE_LENGTH {
            fault.refusal(0)
        } else {
            refused(4, 0)
        };
        assert_eq!(step.levels(&strip, 5), expected);
    }
}

/// A damaged word at every place of a dark page, before its lit pixel, in it or behind it.
#[test]
fn damaged_words_before_dark_page() {
    let step = built();
    let dark = with_channels(17, &[(25, stored(128, 255))]);
    for place in 2..53 {
        let kind = dark[place] & 0xF000_0000;
        for (word, number) in [
            (dark[place] ^ 0x8000_0000, 7),
            (dark[place] | 0x0001_0000, 7),
            (kind | 0x0001, 8),
            (kind | 0x807F, 8),
            (kind | 0xB9FF, 8),
        ] {
            let mut strip = dark.clone();
            strip[place] = word;
            assert_eq!(on_page(&step, &strip), refused(number, place as u64));
        }
    }
}

/// "last the end word", and then 9: a wrong kind, spare bits, the lit pixels, one pixel too few and one too many.
#[test]
fn end_word_before_dark_page() {
    let step = built();
    let mut strip = partly_lit(1, 17, 1);
    for end in [0x60000011, 0x78000011, 0x70000001, 0x70000010, 0x70000012] {
        strip[53] = end;
        assert_eq!(on_page(&step, &strip), refused(7, 53));
    }
    strip[53] = 0x70000011;
    assert_eq!(on_page(&step, &strip), refused(9, 0));
}

#[test]
fn wrong_length_before_dark_page() {
    let longer = [&BLACK_EXAMPLE[..], &[0]].concat();
    for strip in [&BLACK_EXAMPLE[..2], &BLACK_EXAMPLE[..8], &longer] {
        assert_eq!(on_page(&built(), strip), refused(3, 0));
        assert_eq!(built().levels(strip, 0), refused(3, 0));
    }
}

/// A row of bands of one column, each given by its lit pixels and its height.
fn columns(bands: &[(u64, u64)]) -> Vec<u32> {
    bands.iter().flat_map(|&(lit, height)| partly_lit(lit, 1, height)).collect()
}

/// Whether each band passes as a strip alone.
fn alone(step: &SecondStep, bands: &[(u64, u64)]) -> Vec<bool> {
    bands
        .iter()
        .map(|&(lit, height)| on_page(step, &partly_lit(lit, 1, height)).is_ok())
        .collect()
}

/// "For bands the rule looks at the joined tally only": bands that pass alone, and sixteen times the lit pixels against
/// the joined height. 16 and 16, 16 and 16, 16 and 16, 32 and 32, 32 and 32, 32 and 32, 256 and 256, 64 and 49.
#[test]
fn light_rows_of_bands() {
    let step = built();
    for (bands, passing) in [
        (&[(1, 1), (0, 15)][..], &[true, false][..]),
        (&[(0, 15), (1, 1)], &[false, true]),
        (&[(0, 5), (1, 1), (0, 10)], &[false, true, false]),
        (&[(1, 17), (1, 15)], &[false, true]),
        (&[(1, 8), (1, 24)], &[true, false]),
        (&[(1, 16), (1, 16)], &[true, true]),
        (&[(16, 16), (0, 240)], &[true, false]),
        (&[(1, 17), (1, 17), (2, 15)], &[false, false, true]),
    ] {
        assert_eq!(alone(&step, bands), passing);
        assert_eq!(on_row(&step, &columns(bands)), Ok(()));
    }
}

/// The other way round, where at least one band is dark. 16 and 17, 16 and 17, 16 and 17, 16 and 17, 32 and 33, 32 and 34,
/// 256 and 257, 0 and 2.
#[test]
fn dark_rows_of_bands() {
    let step = built();
    for (bands, passing) in [
        (&[(1, 1), (0, 16)][..], &[true, false][..]),
        (&[(0, 16), (1, 1)], &[false, true]),
        (&[(1, 16), (0, 1)], &[true, false]),
        (&[(0, 5), (1, 1), (0, 11)], &[false, true, false]),
        (&[(1, 8), (1, 25)], &[true, false]),
        (&[(1, 17), (1, 17)], &[false, false]),
        (&[(16, 16), (0, 241)], &[true, false]),
        (&[(0, 1), (0, 1)], &[false, false]),
    ] {
        let (row, height) = (columns(bands), bands.iter().map(|band| band.1).sum());
        assert_eq!(alone(&step, bands), passing);
        assert_eq!(step.tally_of_bands(&row), refused(9, 0));
        assert_eq!(step.levels_of_bands(&row, NO_ROOM_LIMIT), refused(9, 0));
        assert_eq!(step.header_of_bands(&row), Ok(header(1, height, 180)));
        assert!(step.tall_strip(&row).is_ok() && taking_dark_pages().tally_of_bands(&row).is_ok());
    }
}

/// Pages at the boundary in every cutting: 16 and 16, 0 and 16, 32 and 32, 16 and 32, 48 and 33, 32 and 33.
#[test]
fn every_cutting_at_the_boundary() {
    let step = built();
    for (lit, width, height) in [(1, 2, 8), (0, 2, 8), (2, 4, 8), (1, 4, 8), (3, 3, 11), (2, 3, 11)] {
        let strip = partly_lit(lit, width, height);
        for heights in all_cuttings(height) {
            check_cutting(&step, &strip, &heights);
        }
    }
}

/// "the tray is checked last": for bands 9 comes before 4, for one band too.
#[test]
fn dark_page_before_the_tray_of_bands() {
    for bands in [&[(0, 1)][..], &[(1, 17)], &[(1, 1), (0, 16)]] {
        for room in [0, 50, 51] {
            assert_eq!(built().levels_of_bands(&columns(bands), room), refused(9, 0));
        }
    }
    let light = columns(&[(1, 1), (0, 15)]);
    assert_eq!(built().levels_of_bands(&light, 47), refused(4, 0));
    assert!(built().levels_of_bands(&light, 48).is_ok());
}

/// "after every word has passed": 9 comes behind the faults of all bands and behind 21, with no tray as well.
#[test]
fn faults_of_bands_before_dark_page() {
    let step = built();
    for start in STARTS {
        for fault in FAULTS.iter().chain(&UNLIKE) {
            let mut row = BLACK_EXAMPLE.repeat(3);
            set(&mut row, start, fault);
            assert_eq!(on_row(&step, &row), fault.refusal(start));
            assert_eq!(step.levels_of_bands(&row, 0), fault.refusal(start));
        }
    }
}

/// "an empty row or a cut last band is 3".
#[test]
fn cut_bands_before_dark_page() {
    let (step, row) = (built(), BLACK_EXAMPLE.repeat(3));
    for length in 0..=row.len() {
        let number = if [9, 18, 27].contains(&length) { 9 } else { 3 };
        assert_eq!(step.tally_of_bands(&row[..length]), refused(number, 0));
        assert_eq!(step.levels_of_bands(&row[..length], 0), refused(number, 0));
    }
}
