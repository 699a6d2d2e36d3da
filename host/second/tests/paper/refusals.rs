//! "Refusal list": every condition, and their order.

use crate::helpers::*;
use second::{Header, Refusal, Rules, SecondStep, Source};

fn convert(source: &[u16], header: Header, room: usize) -> Result<(), Refusal> {
    built().convert(Source::Half(source), header, room).map(|_| ())
}

#[test]
fn sizes() {
    let wide = u64::MAX;
    for (width, height) in [
        (0, 1),
        (1, 0),
        (8193, 1),
        (1, 8193),
        (8192, 2049),
        (wide, wide),
        (1 << 32, 1 << 32),
        (wide, 0),
    ] {
        assert_eq!(convert(&[], header(width, height, 0), 0), refused(1, 0));
    }
    for (width, height) in [(8192, 2048), (2048, 8192), (8192, 1), (1, 8192)] {
        assert_eq!(convert(&[], header(width, height, 1), 0), refused(3, 0));
    }
}

#[test]
fn keys() {
    for key in [0, 1001, 65_536 + 180, u64::MAX] {
        assert_eq!(convert(&[], header(1, 1, key), 0), refused(2, 0));
    }
    for key in [1, 1000] {
        assert_eq!(convert(&[], header(1, 1, key), 0), refused(3, 0));
    }
}

#[test]
fn source_lengths() {
    let page = header(2, 1, 180);
    for length in [0, 5, 7, 8] {
        assert_eq!(built().convert(Source::Half(&vec![0; length]), page, 0), refused(3, 0));
        assert_eq!(built().convert(Source::Stored(&vec![0; length]), page, 0), refused(3, 0));
        assert_eq!(built().convert(Source::Single(&vec![0; length]), page, 0), refused(3, 0));
    }
    for length in [0, 6, 7, 9] {
        assert_eq!(built().convert(Source::Rgbe(&vec![0; length]), page, 0), refused(3, 0));
    }
    assert_eq!(built().convert(Source::Rgbe(&[0; 8]), page, 8), refused(4, 0));
}

#[test]
fn converting_room() {
    let nan = [0x7E00; 3];
    assert_eq!(convert(&nan, header(1, 1, 180), 5), refused(4, 0));
    assert_eq!(convert(&nan, header(1, 1, 180), 6), refused(5, 0));
}

#[test]
fn elements_in_order() {
    let single = |source: &[u32]| built().convert(Source::Single(source), header(1, 1, 180), 6);
    assert_eq!(single(&[0, 0x5B800001, 0x7FC00000]), refused(6, 1));
    assert_eq!(single(&[0, 0x7FC00000, 0x5B800001]), refused(5, 1));
    assert_eq!(single(&[0, 0, 0x7F800000]), refused(5, 2));
    let rgbe = |source: &[u8]| built().convert(Source::Rgbe(source), header(2, 1, 180), 9);
    assert_eq!(rgbe(&[255, 255, 255, 0, 0, 127, 128, 185]), refused(6, 6));
    assert_eq!(rgbe(&[127, 128, 128, 185, 255, 255, 255, 255]), refused(6, 1));
}

#[test]
fn stored_elements() {
    let convert = |bits: u16| built().convert(Source::Stored(&[BLACK, bits, 1]), header(1, 1, 180), 6);
    for (exponent, mantissa) in [(0, 1), (0, 255), (71, 255), (72, 127), (184, 127), (185, 128), (255, 255), (128, 0)] {
        assert_eq!(convert(stored(exponent, mantissa)), refused(8, 1));
    }
    for (exponent, mantissa) in [(0, 0), (72, 128), (72, 255), (184, 128), (184, 255)] {
        assert_eq!(convert(stored(exponent, mantissa)), refused(8, 2));
    }
}

fn with(changes: &[(usize, u32)]) -> Vec<u32> {
    let mut strip = EXAMPLE.to_vec();
    for &(place, word) in changes {
        strip[place] = word;
    }
    strip
}

const BAD_FIRST: (usize, u32) = (0, 0x20008001);
const BAD_SIZE: (usize, u32) = (0, 0x1000_8000);
const BAD_SECOND: (usize, u32) = (1, 0x200100B4);
const BAD_KEY: (usize, u32) = (1, 0x200003E9);
const BAD_SECOND_AND_KEY: (usize, u32) = (1, 0x100003E9);
const FOREIGN: (usize, u32) = (3, 0x400080FF);
const WILD: (usize, u32) = (5, 0x40008000);

#[test]
fn short_strips() {
    assert_eq!(on_strip(&built(), &[]), refused(3, 0));
    assert_eq!(on_strip(&built(), &EXAMPLE[..1]), refused(3, 0));
    assert_eq!(on_strip(&built(), &[0]), refused(3, 0));
    assert_eq!(on_strip(&built(), &[0, 0]), refused(7, 0));
    assert_eq!(on_strip(&built(), &EXAMPLE[..2]), refused(3, 0));
}

#[test]
fn strip_order() {
    assert_eq!(on_strip(&built(), &EXAMPLE), Ok(()));
    assert_eq!(on_strip(&built(), &with(&[BAD_FIRST, BAD_SECOND, FOREIGN])[..8]), refused(7, 0));
    assert_eq!(on_strip(&built(), &with(&[BAD_SIZE, BAD_SECOND, FOREIGN])[..8]), refused(1, 0));
    assert_eq!(on_strip(&built(), &with(&[BAD_SECOND, FOREIGN])[..8]), refused(7, 1));
    assert_eq!(on_strip(&built(), &with(&[BAD_SECOND_AND_KEY, FOREIGN])[..8]), refused(7, 1));
    assert_eq!(on_strip(&built(), &with(&[BAD_KEY, FOREIGN])[..8]), refused(2, 0));
    assert_eq!(on_strip(&built(), &with(&[FOREIGN])[..8]), refused(3, 0));
    let longer = [&with(&[FOREIGN])[..], &[0]].concat();
    assert_eq!(on_strip(&built(), &longer), refused(3, 0));
    assert_eq!(on_strip(&built(), &with(&[FOREIGN, WILD, (8, 0)])), refused(7, 3));
    assert_eq!(on_strip(&built(), &with(&[WILD, (7, 0), (8, 0)])), refused(8, 5));
    assert_eq!(on_strip(&built(), &with(&[(8, 0)])), refused(7, 8));
}

#[test]
fn strip_sizes() {
    let size = |width: u32, height: u32| on_strip(&built(), &with(&[(0, 1 << 28 | width << 14 | height)]));
    for (width, height) in [(0, 1), (1, 0), (8193, 1), (1, 8193), (16383, 16383), (8192, 2049)] {
        assert_eq!(size(width, height), refused(1, 0));
    }
    for (width, height) in [(8192, 2048), (1, 1), (3, 1)] {
        assert_eq!(size(width, height), refused(3, 0));
    }
    assert_eq!(size(1, 2), Ok(()));
}

#[test]
fn strip_keys() {
    let key = |word: u32| on_strip(&built(), &with(&[(1, word)]));
    assert_eq!(key(0x20000000), refused(2, 0));
    assert_eq!(key(0x2000FFFF), refused(2, 0));
    assert_eq!(key(0x200003E8), Ok(()));
    assert_eq!(key(0x28000000), refused(7, 1));
    assert_eq!(key(0x20010000), refused(7, 1));
    assert_eq!(key(0x300000B4), refused(7, 1));
}

#[test]
fn channel_words() {
    let word = |word: u32| on_strip(&built(), &with(&[(3, word)]));
    for good in [0x50000000, 0x50004880, 0x500048FF, 0x5000B880, 0x5000B8FF] {
        assert_eq!(word(good), Ok(()));
    }
    for foreign in [0x00000000, 0x400080FF, 0x600080FF, 0x500180FF, 0x580080FF, 0x50010001, 0x40000001] {
        assert_eq!(word(foreign), refused(7, 3));
    }
    for wild in [
        0x50000001, 0x500000FF, 0x500047FF, 0x5000487F, 0x5000B87F, 0x5000B980, 0x5000FFFF, 0x50008000,
    ] {
        assert_eq!(word(wild), refused(8, 3));
    }
}

#[test]
fn end_words() {
    for foreign in [0x60000002, 0x70000001, 0x70000003, 0x78000002, 0xF0000002] {
        assert_eq!(on_strip(&built(), &with(&[(8, foreign)])), refused(7, 8));
    }
}

#[test]
fn rows_before_words() {
    assert_eq!(built().row(&EXAMPLE, 1), refused(20, 0));
    assert_eq!(built().row(&EXAMPLE, u64::MAX), refused(20, 0));
    assert_eq!(built().row(&with(&[FOREIGN]), 1), refused(20, 0));
    assert_eq!(built().row(&EXAMPLE[..8], 1), refused(3, 0));
    assert_eq!(built().row(&with(&[FOREIGN]), 0), refused(7, 3));
    assert_eq!(built().row(&with(&[(8, 0)]), 0), refused(7, 8));
}

#[test]
fn room_before_words() {
    for strip in [with(&[FOREIGN]), with(&[WILD]), EXAMPLE.to_vec()] {
        assert_eq!(built().unpack(&strip, 5), refused(4, 0));
        assert_eq!(built().levels(&strip, 5), refused(4, 0));
        assert_eq!(built().levels(&strip[..8], 5), refused(3, 0));
    }
    assert_eq!(built().unpack(&with(&[WILD]), 6), refused(8, 5));
    assert_eq!(built().levels(&with(&[WILD]), 6), refused(8, 5));
    assert!(built().unpack(&EXAMPLE, 6).is_ok() && built().levels(&EXAMPLE, 6).is_ok());
}

/// Strips that are nearly right, and random sources: every call answers, with every rule.
#[test]
fn nothing_panics() {
    let all = SecondStep::new(Rules {
        dark_page: true,
        white_word: true,
        nearest_steps: true,
        screen_curve: true,
    });
    let mut generator = Generator::new(5);
    for step in [built(), taking_dark_pages(), all] {
        for _ in 0..2000 {
            let mut strip = EXAMPLE.to_vec();
            if generator.below(2) == 0 {
                strip.insert(2, 0x30000000 | generator.below(1024) as u32);
            }
            strip.truncate(generator.below(13) as usize);
            for _ in 0..generator.below(3) {
                let place = generator.below(10) as usize;
                if let Some(word) = strip.get_mut(place) {
                    *word ^= 1 << generator.below(32);
                }
            }
            let _ = (
                step.picture(&bytes(&strip)),
                step.tally(&strip),
                step.row(&strip, generator.below(3)),
                step.reader_step(&strip, generator.below(3)),
            );
            let _ = (step.mean_holds(&strip, -129), step.mean_above(&strip, -129));
            let row = [&EXAMPLE, &strip[..], &EXAMPLE].concat();
            for row in [&strip[..], &row, &row[..row.len() - 9]] {
                let _ = (step.header_of_bands(row), step.tally_of_bands(row));
                let _ = (step.levels_of_bands(row, generator.below(20) as usize), step.tall_strip(row));
            }
        }
        for _ in 0..2000 {
            let source: Vec<u32> = (0..3).map(|_| generator.next() as u32).collect();
            if let Ok(strip) = step.convert(Source::Single(&source), header(1, 1, 1 + generator.below(1000)), 6) {
                let _ = (step.tally(&strip), step.levels(&strip, 3));
            }
        }
    }
}
