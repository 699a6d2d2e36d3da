//! Change 2026-05: "A white point."

use crate::helpers::*;
use second::{Header, Source};

/// One grey pixel of (128,255) with K 1,000 and W 20.
const WHITE_EXAMPLE: [u32; 7] = [0x10004001, 0x200003E8, 0x30000014, 0x400080FF, 0x500080FF, 0x600080FF, 0x70000001];

/// Around the limits 10 and 1,000 and the powers of ten.
const WHITES: [u64; 6] = [10, 11, 99, 100, 999, 1000];

fn white_header(white: Option<u64>) -> Header {
    Header {
        width: 1,
        height: 1,
        key: 1000,
        white,
    }
}

fn white_page(white: Option<u64>) -> Vec<u32> {
    stored_strip(&built(), &[stored(128, 255); 3], 1000, white)
}

/// The example with another word at the place.
fn with(place: usize, word: u32) -> Vec<u32> {
    let mut strip = WHITE_EXAMPLE.to_vec();
    strip[place] = word;
    strip
}

#[test]
fn form() {
    assert_eq!(white_page(Some(20)), WHITE_EXAMPLE);
    assert_eq!(built().header(&WHITE_EXAMPLE), Ok(white_header(Some(20))));
    assert_eq!(built().header(&white_page(None)), Ok(white_header(None)));
    assert_eq!(built().row(&WHITE_EXAMPLE, 0), Ok(3..6));
    assert_eq!(built().row(&white_page(None), 0), Ok(2..5));
    assert_eq!(built().reader_step(&WHITE_EXAMPLE, 0), Ok(Some([stored(128, 255); 3])));
    assert_eq!(built().reader_step(&WHITE_EXAMPLE, 1), Ok(None));
    assert_eq!(built().unpack(&WHITE_EXAMPLE, 3), Ok(vec![stored(128, 255); 3]));
    assert_eq!(built().unpack(&WHITE_EXAMPLE, 2), refused(4, 0));
    assert_eq!(built().tally(&WHITE_EXAMPLE), built().tally(&white_page(None)));
}

/// "a strip read back yields its W, or that it has none".
#[test]
fn reading_back() {
    for (white, word) in WHITES
        .into_iter()
        .zip([0x3000_000A, 0x3000_000B, 0x3000_0063, 0x3000_0064, 0x3000_03E7, 0x3000_03E8])
    {
        assert_eq!(white_page(Some(white)), with(2, word));
        assert_eq!(built().header(&with(2, word)), Ok(white_header(Some(white))));
    }
}

/// Rows and pixels of a strip of several rows begin one word later, and converting what was unpacked gives the strip again.
#[test]
fn several_rows() {
    let source = Generator::new(16).page(6);
    for white in WHITES.map(Some) {
        let page = Header {
            white,
            ..header(2, 3, 180)
        };
        let strip = built().convert(Source::Stored(&source), page, 22).unwrap();
        assert_eq!(strip.len(), 22);
        assert_eq!([0, 1, 2].map(|y| built().row(&strip, y)), [Ok(3..9), Ok(9..15), Ok(15..21)]);
        for (n, pixel) in source.as_chunks().0.iter().enumerate() {
            assert_eq!(built().reader_step(&strip, n as u64), Ok(Some(*pixel)));
        }
        assert_eq!(built().reader_step(&strip, 6), Ok(None));
        assert_eq!(built().unpack(&strip, 18), Ok(source.clone()));
        let again = built().convert(Source::Stored(&source), built().header(&strip).unwrap(), 22);
        assert_eq!(again, Ok(strip));
    }
}

/// L is 1 before storing and 255.5/256 = 0.998 after it, and C/Y is 1. Without a white point 0.998/1.998 is stored as
/// 255.5/512, and 255 times that is 127.2. With w = 1 display luminance is L again: 254.502. With w = 2 it is
/// 0.998 · 1.2495/1.998 = 0.62414, stored as 159.5/256, giving 158.88.
#[test]
fn one_grey() {
    assert_eq!(levels(&built(), &white_page(None)), [127; 3]);
    assert_eq!(levels(&built(), &white_page(Some(10))), [255; 3]);
    assert_eq!(levels(&built(), &white_page(Some(20))), [159; 3]);
}

/// Greys 8 and 1/8 have 767 and −769 steps, the average −1 of (128,255), and at K 1,000 the scaled luminances (131,255) and
/// (125,255): L is 7.984375 and 0.12475586, and L/(1+L) is 0.888695 and 0.110918. L(1 + L/w²)/(1+L) is
/// L/w² + (1 − 1/w²) · L/(1+L). For w 8 that is 0.999565 and 0.111134, for w 10 0.959652 and 0.111056, for w 100 0.889405 and
/// 0.110919, each stored and 255 times it to the nearest: 255.5/256 gives 254.502, 245.5/256 gives 244.54, 227.5/256 gives
/// 226.61 and 227.5/2048 gives 28.33. For w 2 it is 2.66 and 0.114378, stored as 234.5/2048, giving 29.2; for w 1 it is L, giving
/// 31.8.
#[test]
fn two_greys() {
    let source = grey(&[stored(131, 255), stored(125, 255)]);
    for (white, bright, dim) in [
        (None, 227, 28),
        (Some(10), 255, 32),
        (Some(20), 255, 29),
        (Some(80), 255, 28),
        (Some(100), 245, 28),
        (Some(1000), 227, 28),
    ] {
        let strip = stored_strip(&built(), &source, 1000, white);
        assert_eq!(levels(&built(), &strip), [bright, bright, bright, dim, dim, dim], "{white:?}");
    }
}

/// "clipped only at the level". A red (154,255) with a dim blue has the luminance 68.985 · 2^18, stored as (153,137), and
/// 256 · 17 + 1818 = 6170 steps, as 256 · log2(137.5) is 1818.4; a grey (104,237) has −256 · 32 + 2020, as 256 · log2(237.5)
/// is 2020.3. The average of both is −1, (128,255). At K 1,000 the first pixel's scaled luminance is
/// 137.5 · 2^25/255.5 = 137.77 · 2^17, stored as (153,137) again: L is 18,022,400. At w = 10 display luminance is
/// 180,224 + 0.99, stored as 176.5 · 2^10. Of a blue (138,255), which is 255.5 · 2^2, the level would be
/// 255 · 176.5 · 255.5 · 2^12 / (137.5 · 2^17) = 2,613.5, and of (134,255) it is a sixteenth of that, 163.3. Without the white
/// point display luminance is (128,255), and nothing is left of the blue.
#[test]
fn clipped_at_the_level() {
    let levels_of = |blue: u16, white| {
        let source = [[stored(154, 255), BLACK, stored(blue, 255)], [stored(104, 237); 3]].concat();
        levels(&built(), &stored_strip(&built(), &source, 1000, white))
    };
    assert_eq!(levels_of(138, Some(100))[..3], [255, 0, 255]);
    assert_eq!(levels_of(134, Some(100))[..3], [255, 0, 163]);
    assert_eq!(levels_of(134, None)[..3], [255, 0, 0]);
}

/// Converting: 1, 2, 10, 3, 4, then elements; W = 0 is a bad white and not none.
#[test]
fn converting() {
    let nan = Source::Half(&[0x7E00; 3]);
    for white in [0, 9, 1001, 65_535, 65_536 + 20, 1 << 32, (1 << 32) + 20, u64::MAX] {
        let page = white_header(Some(white));
        assert_eq!(built().convert(nan, Header { width: 0, key: 0, ..page }, 0), refused(1, 0));
        assert_eq!(built().convert(nan, Header { key: 0, ..page }, 0), refused(2, 0));
        assert_eq!(built().convert(Source::Half(&[]), page, 0), refused(10, 0));
        assert_eq!(built().convert(nan, page, 0), refused(10, 0));
        assert_eq!(built().convert(nan, page, 7), refused(10, 0));
    }
    for white in WHITES {
        let page = white_header(Some(white));
        assert_eq!(built().convert(Source::Half(&[]), page, 0), refused(3, 0));
        assert_eq!(built().convert(nan, page, 6), refused(4, 0));
        assert_eq!(built().convert(nan, page, 7), refused(5, 0));
    }
}

/// In the order of the checks; a cut strip is 3 between the sixth and the seventh.
const WHITE_FAULTS: [Fault; 12] = [
    fault((0, 0x20004001), 7, Some(0)),
    fault((0, 0x10004000), 1, None),
    fault((1, 0x200103E8), 7, Some(1)),
    fault((1, 0x200003E9), 2, None),
    fault((2, 0x300103E9), 7, Some(2)),
    fault((2, 0x300003E9), 10, None),
    fault((3, 0x500080FF), 7, Some(3)),
    fault((3, 0x4000807F), 8, Some(3)),
    fault((4, 0x510080FF), 7, Some(4)),
    fault((4, 0x50000001), 8, Some(4)),
    fault((5, 0x6000B980), 8, Some(5)),
    fault((6, 0x70000002), 7, Some(6)),
];
const BEFORE_WHITE_LENGTH: usize = 6;

#[test]
fn faults() {
    assert_eq!(on_strip(&built(), &WHITE_EXAMPLE), Ok(()));
    for (index, first) in WHITE_FAULTS.iter().enumerate() {
        let mut strip = WHITE_EXAMPLE;
        set(&mut strip, 0, first);
        assert_eq!(on_strip(&built(), &strip), first.refusal(0));
        let of_length = if index < BEFORE_WHITE_LENGTH {
            first.refusal(0)
        } else {
            refused(3, 0)
        };
        assert_eq!(on_strip(&built(), &strip[..6]), of_length);
        assert_eq!(on_strip(&built(), &[&strip[..], &[0]].concat()), of_length);
        for second in WHITE_FAULTS[index + 1..].iter().filter(|second| second.word.0 != first.word.0) {
            let mut strip = strip;
            set(&mut strip, 0, second);
            assert_eq!(on_strip(&built(), &strip), first.refusal(0));
        }
    }
}

/// The third word is looked at before the length, and a row of two words has none.
#[test]
fn short_strips() {
    assert_eq!(on_strip(&built(), &WHITE_EXAMPLE[..2]), refused(3, 0));
    assert_eq!(on_strip(&built(), &WHITE_EXAMPLE[..3]), refused(3, 0));
    for bad in [0x30000000, 0x30000009, 0x300003E9, 0x3000FFFF] {
        assert_eq!(on_strip(&built(), &with(2, bad)), refused(10, 0));
        assert_eq!(on_strip(&built(), &with(2, bad)[..3]), refused(10, 0));
    }
    for spare in [0x30010014, 0x38000014, 0x30010000, 0x3FFF03E9, 0x30400014] {
        assert_eq!(on_strip(&built(), &with(2, spare)), refused(7, 2));
        assert_eq!(on_strip(&built(), &with(2, spare)[..3]), refused(7, 2));
    }
}

#[test]
fn row_and_room_before_words() {
    for strip in [with(3, 0), WHITE_EXAMPLE.to_vec()] {
        assert_eq!(built().row(&strip, 1), refused(20, 0));
        assert_eq!(built().levels(&strip, 2), refused(4, 0));
        assert_eq!(built().unpack(&strip, 2), refused(4, 0));
    }
    for (third, number, place) in [(0x30010014, 7, 2), (0x30000009, 10, 0), (0x20000014, 3, 0)] {
        assert_eq!(built().row(&with(2, third), 1), refused(number, place));
        assert_eq!(built().levels(&with(2, third), 2), refused(number, place));
    }
}

/// A third word of another kind: a strip without the word, which the example is too long for; cut by a word, it is foreign there.
#[test]
fn other_kinds() {
    for kind in (0..16).filter(|&kind| kind != 3) {
        let strip = with(2, kind << 28 | 20);
        assert_eq!(on_strip(&built(), &strip), refused(3, 0));
        let told = if kind == 4 { refused(8, 2) } else { refused(7, 2) };
        assert_eq!(on_strip(&built(), &[&strip[..3], &strip[4..]].concat()), told);
    }
}

/// A strip without the word whose first red word becomes one: one word is missing then.
#[test]
fn red_word_of_kind_3() {
    for (third, told) in [
        (0x300080FF, refused(10, 0)),
        (0x30000014, refused(3, 0)),
        (0x30000000, refused(10, 0)),
        (0x301080FF, refused(7, 2)),
    ] {
        let mut strip = EXAMPLE;
        strip[2] = third;
        assert_eq!(on_strip(&built(), &strip), told);
    }
}

/// A word of kind 3 elsewhere is foreign, and a strip has no two of them.
#[test]
fn second_white_word() {
    for place in 3..7 {
        assert_eq!(on_strip(&built(), &with(place, 0x30000014)), refused(7, place as u64));
    }
    let doubled = [&WHITE_EXAMPLE[..3], &WHITE_EXAMPLE[2..]].concat();
    assert_eq!(on_strip(&built(), &doubled), refused(3, 0));
}

/// "Joined bands must agree in W, or in having none, else 21; the word counts in where the next band begins." The average
/// of two greys 1.0 is that of one, and so are the levels.
#[test]
fn bands() {
    let joined = Header {
        height: 2,
        ..white_header(Some(20))
    };
    let row = WHITE_EXAMPLE.repeat(2);
    let tall = [&[0x10004002], &WHITE_EXAMPLE[1..6], &WHITE_EXAMPLE[3..6], &[0x70000002]].concat();
    assert_eq!(built().header_of_bands(&row), Ok(joined));
    assert_eq!(built().levels_of_bands(&row, 6), Ok(vec![159; 6]));
    assert_eq!(built().levels_of_bands(&row, 5), refused(4, 0));
    assert_eq!(built().tall_strip(&row), Ok(tall.clone()));
    assert_eq!(built().cut(&tall, &[1, 1]), row);
    assert!(built().header_of_bands(&white_page(None).repeat(2)).is_ok());
}

/// The third band is held against the first as the second is.
#[test]
fn unlike_bands() {
    for (first, second) in [
        (Some(20), Some(21)),
        (Some(20), None),
        (None, Some(20)),
        (Some(1000), Some(10)),
        (Some(276), Some(20)),
    ] {
        let [first, second] = [first, second].map(white_page);
        for row in [vec![&first, &second], vec![&first, &first, &second], vec![&first, &second, &first]] {
            let row: Vec<u32> = row.into_iter().flatten().copied().collect();
            assert_eq!(on_row(&built(), &row), refused(21, 0));
            assert_eq!(built().levels_of_bands(&row, 0), refused(21, 0));
        }
    }
}

/// Each fault of a strip in each band, its place counted from the row's start, before 21 for the band.
#[test]
fn bands_in_order() {
    for start in [0, 7, 14] {
        for fault in &WHITE_FAULTS {
            let mut row = WHITE_EXAMPLE.repeat(3);
            set(&mut row, start, fault);
            assert_eq!(on_row(&built(), &row), fault.refusal(start));
        }
        for length in 1..7 {
            assert_eq!(on_row(&built(), &WHITE_EXAMPLE.repeat(3)[..start + length]), refused(3, 0));
        }
    }
    for fault in &WHITE_FAULTS[4..] {
        let mut row = [white_page(Some(21)), WHITE_EXAMPLE.to_vec()].concat();
        assert_eq!(on_row(&built(), &row), refused(21, 0));
        set(&mut row, 7, fault);
        assert_eq!(on_row(&built(), &row), fault.refusal(7));
    }
}

/// A band without the word before one with it and the other way round: the second begins at 6 and at 7.
#[test]
fn where_bands_begin() {
    for (upper, start) in [(white_page(None), 6), (WHITE_EXAMPLE.to_vec(), 7)] {
        let mut row = [&upper[..], &WHITE_EXAMPLE].concat();
        row[start + 4] = 0x50000001;
        assert_eq!(on_row(&built(), &row), refused(8, start as u64 + 4));
        let mut row = [&upper[..], &white_page(None)].concat();
        row[start + 4] = 0x60000001;
        assert_eq!(on_row(&built(), &row), refused(8, start as u64 + 4));
    }
}

/// With the switch off a given W is not looked at, and the word is a foreign one.
#[test]
fn switched_off() {
    let source = [stored(128, 255); 3];
    for white in [Some(20), Some(0), Some(u64::MAX)] {
        assert_eq!(
            without_white().convert(Source::Stored(&source), white_header(white), 6),
            Ok(white_page(None))
        );
    }
    assert_eq!(without_white().check(&WHITE_EXAMPLE), refused(3, 0));
    let same_length = [&WHITE_EXAMPLE[..3], &WHITE_EXAMPLE[4..]].concat();
    assert_eq!(without_white().check(&same_length), refused(7, 2));
    assert_eq!(without_white().tally_of_bands(&WHITE_EXAMPLE), refused(7, 2));
    assert_eq!(
        without_white().tally_of_bands(&[white_page(None), WHITE_EXAMPLE.to_vec()].concat()),
        refused(7, 8)
    );
}

/// "without it nothing differs".
#[test]
fn without_the_word() {
    let mut generator = Generator::new(6);
    for _ in 0..50 {
        let strip = stored_strip(&built(), &generator.page(20), 1 + generator.below(1000), None);
        assert_eq!(built().tally(&strip), without_white().tally(&strip));
        assert_eq!(built().levels(&strip, 60), without_white().levels(&strip, 60));
        assert_eq!(built().picture(&bytes(&strip)), without_white().picture(&bytes(&strip)));
    }
}

/// Document 01's page with w = 1: the scaled luminances are 0.18 · 255.5/180.5 = 0.25479 and half of it, stored as (127,130) and
/// (126,130), and so are the display luminances: 255 · 130.5/512 = 64.995, and half of it is 32.4976.
#[test]
fn program() {
    let white = [&EXAMPLE[..2], &[0x3000000A], &EXAMPLE[2..]].concat();
    let print = |strip: &[u32]| built().picture(&bytes(strip));
    assert_eq!(print(&white), b"P6\n2 1\n255\n\x41\x41\x41\x20\x20\x20");
    assert_eq!(print(&with(2, 0x30000009)), b"refused 10 0\n");
    assert_eq!(print(&with(2, 0x30010014)), b"refused 7 2\n");
    assert_eq!(print(&WHITE_EXAMPLE[..3]), b"refused 3 0\n");
}

/// The largest page is still of 5,460 pixels: with the word its strip is 65,536 bytes long. Greys 1.0 with K 180 and w = 1 have
/// the display luminance 0.18, stored as 184.5/1024: 255 times that is 45.94. A byte more is too long.
#[test]
fn program_on_its_longest_strip() {
    let page = Header {
        white: Some(10),
        ..header(60, 91, 180)
    };
    let strip = built().convert(Source::Half(&[ONE; 3 * 5460]), page, NO_ROOM_LIMIT).unwrap();
    let input = bytes(&strip);
    assert_eq!(input.len(), 65_536);
    let expected = [&b"P6\n60 91\n255\n"[..], &[46; 3 * 5460]].concat();
    assert_eq!(built().picture(&input), expected);
    assert_eq!(built().picture(&[&input[..], &[0]].concat()), b"long\n");
    assert_eq!(built().picture(&input[..65_532]), b"refused 3 0\n");
}
