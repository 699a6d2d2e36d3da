//! "Plates on the wall", "Near misses" and the picture program's example.

use crate::helpers::*;
use second::{Average, Refusal, Source, Tally};

/// What a single channel becomes, from a page of one pixel whose other two channels are black.
fn half(bits: u16) -> Result<u16, Refusal> {
    let strip = built().convert(Source::Half(&[bits, 0, 0]), header(1, 1, 180), NO_ROOM_LIMIT)?;
    Ok(built().unpack(&strip, 3).unwrap()[0])
}

fn single(bits: u32) -> Result<u16, Refusal> {
    let strip = built().convert(Source::Single(&[0, bits, 0]), header(1, 1, 180), NO_ROOM_LIMIT)?;
    Ok(built().unpack(&strip, 3).unwrap()[1])
}

fn rgbe(byte: u8, exponent: u8) -> Result<u16, Refusal> {
    let strip = built().convert(Source::Rgbe(&[byte, byte, byte, exponent]), header(1, 1, 180), NO_ROOM_LIMIT)?;
    Ok(built().unpack(&strip, 3).unwrap()[2])
}

#[test]
fn halves() {
    assert_eq!(half(0x3C00), Ok(stored(128, 255)));
    assert_eq!(half(0x3C01), Ok(stored(129, 128)));
    assert_eq!(half(0x0001), Ok(stored(104, 255)));
    assert_eq!(half(0x0003), Ok(stored(106, 192)));
    assert_eq!(half(0x7BFF), Ok(stored(144, 255)));
    assert_eq!(half(0x8000), Ok(BLACK));
    assert_eq!(half(0xFC00), refused(5, 0));
}

/// NaN and infinity with either sign; zero and every finite negative value.
#[test]
fn other_halves() {
    for bits in [0x7C00, 0x7C01, 0x7FFF, 0xFC01, 0xFFFF] {
        assert_eq!(half(bits), refused(5, 0));
    }
    for bits in [0x0000, 0x8001, 0xBC00, 0xFBFF] {
        assert_eq!(half(bits), Ok(BLACK));
    }
}

#[test]
fn rgbe_bytes() {
    assert_eq!(rgbe(1, 136), Ok(stored(129, 192)));
    assert_eq!(rgbe(255, 71), Ok(BLACK));
    assert_eq!(rgbe(127, 185), Ok(stored(184, 255)));
    assert_eq!(rgbe(128, 185), refused(6, 0));
}

/// e = 0 is black whatever the bytes; byte 0 is worth 2^(e−137), black at e = 80 and too bright from e = 194 on.
#[test]
fn other_rgbe_bytes() {
    assert_eq!(rgbe(255, 0), Ok(BLACK));
    assert_eq!(rgbe(0, 80), Ok(BLACK));
    assert_eq!(rgbe(0, 81), Ok(stored(72, 255)));
    assert_eq!(rgbe(0, 193), Ok(stored(184, 255)));
    assert_eq!(rgbe(0, 194), refused(6, 0));
    assert_eq!(rgbe(255, 255), refused(6, 0));
}

#[test]
fn singles() {
    assert_eq!(single(0x23000000), Ok(BLACK));
    assert_eq!(single(0x23000001), Ok(stored(72, 128)));
    assert_eq!(single(0x5B800000), Ok(stored(184, 255)));
    assert_eq!(single(0x5B800001), refused(6, 1));
}

#[test]
fn other_singles() {
    for bits in [0x7F800000, 0xFF800000, 0x7F800001, 0xFFC00000] {
        assert_eq!(single(bits), refused(5, 1));
    }
    for bits in [0x00000000, 0x80000000, 0x00000001, 0x007FFFFF, 0xBF800000, 0xFF7FFFFF] {
        assert_eq!(single(bits), Ok(BLACK));
    }
    assert_eq!(single(0x7F7FFFFF), refused(6, 1));
    assert_eq!(single(0x3F800000), Ok(stored(128, 255)));
}

/// The same value from the four kinds of source.
#[test]
fn all_sources_agree() {
    let page = header(1, 1, 180);
    let strips = [
        built().convert(Source::Half(&[0x3E00; 3]), page, 6),
        built().convert(Source::Single(&[0x3FC00000; 3]), page, 6),
        built().convert(Source::Rgbe(&[1, 1, 1, 136]), page, 6),
        built().convert(Source::Stored(&[stored(129, 192); 3]), page, 6),
    ];
    for strip in strips {
        assert_eq!(
            strip,
            Ok(vec![0x10004001, 0x200000B4, 0x400081C0, 0x500081C0, 0x600081C0, 0x70000001])
        );
    }
}

/// A grey pixel of exponent 136 has T[M] steps: "T[192] becomes 1943, T[128] stays 1793" (change 2026-06). 256 · log2 of 128.5,
/// of 192.5 and of 255.5 is 1793.44, 1942.71 and 2047.28.
#[test]
fn steps_table() {
    for (mantissa, before, steps) in [(128, 1793, 1793), (192, 1942, 1943), (255, 2047, 2047)] {
        let strip = stored_strip(&built(), &grey(&[stored(136, mantissa)]), 180, None);
        assert_eq!(rounded_down().tally(&strip).unwrap().sum, before);
        assert_eq!(built().tally(&strip).unwrap().sum, steps);
    }
}

/// T[128] + T[255] = 1793 + 2047 = 3840; half of it is 1920 = 7 · 256 + 128.
#[test]
fn mantissa_table() {
    let strip = stored_strip(&built(), &grey(&[stored(136, 128), stored(136, 255)]), 180, None);
    let average = Some(Average {
        steps: 1920,
        exponent: 136,
        mantissa: 181,
    });
    assert_eq!(
        built().tally(&strip),
        Ok(Tally {
            lit: 2,
            sum: 3840,
            average,
            extremes: dark_and_bright((136, 128), (136, 255))
        })
    );
}

/// 1793 + 2047 − 256 = 2 · 1792, and 1792 = 7 · 256 + 0: (q+128, 255). The worths are 128.5 and 127.75.
#[test]
fn average_without_rest() {
    let strip = stored_strip(&built(), &grey(&[stored(136, 128), stored(135, 255)]), 180, None);
    let average = Some(Average {
        steps: 1792,
        exponent: 135,
        mantissa: 255,
    });
    assert_eq!(
        built().tally(&strip),
        Ok(Tally {
            lit: 2,
            sum: 3584,
            average,
            extremes: dark_and_bright((135, 255), (136, 128))
        })
    );
}

#[test]
fn one_grey() {
    let strip = half_strip(&built(), &grey(&[ONE]), 180);
    let average = Some(Average {
        steps: -1,
        exponent: 128,
        mantissa: 255,
    });
    assert_eq!(
        built().tally(&strip),
        Ok(Tally {
            lit: 1,
            sum: -1,
            average,
            extremes: dark_and_bright((128, 255), (128, 255))
        })
    );
    assert_eq!(levels(&built(), &strip), [39; 3]);
}

#[test]
fn two_greys() {
    let strip = half_strip(&built(), &grey(&[ONE, HALF]), 180);
    let average = Some(Average {
        steps: -129,
        exponent: 128,
        mantissa: 180,
    });
    assert_eq!(
        built().tally(&strip),
        Ok(Tally {
            lit: 2,
            sum: -258,
            average,
            extremes: dark_and_bright((127, 255), (128, 255))
        })
    );
    assert_eq!(levels(&built(), &strip), [52, 52, 52, 29, 29, 29]);
}

/// Rounded toward zero it would be −86.
#[test]
fn three_greys() {
    let strip = half_strip(&built(), &grey(&[ONE, ONE, HALF]), 180);
    assert_eq!(built().tally(&strip).unwrap().average.unwrap().steps, -87);
}

/// Divided by all pixels it would be 2047.
#[test]
fn grey_and_black() {
    let strip = half_strip(&built(), &grey(&[0x7BFF, BLACK]), 180);
    let tally = built().tally(&strip).unwrap();
    assert_eq!((tally.lit, tally.average.unwrap().steps), (1, 4095));
    assert_eq!(levels(&built(), &strip), [39, 39, 39, 0, 0, 0]);
}

/// The luminance (127,137) has steps 256 · (−9) + T[137], and 256 · log2(137.5) = 1818.44...; a level above 255 is 255.
#[test]
fn red_alone() {
    let strip = half_strip(&built(), &[ONE, BLACK, BLACK], 180);
    assert_eq!(built().tally(&strip).unwrap().sum, 256 * (127 - 136) + 1818);
    assert_eq!(levels(&built(), &strip), [145, 0, 0]);
    let strip = half_strip(&built(), &[ONE, BLACK, BLACK], 1000);
    assert_eq!(levels(&built(), &strip), [255, 0, 0]);
}

/// 67 · 180.5 + 6 · 117.75 = 12,800: a luminance of exactly 2^7, (135,255). The smallest red makes it (136,128).
#[test]
fn tiny_channel_decides_the_exponent() {
    let steps = |red| {
        built()
            .tally(&stored_strip(&built(), &[red, stored(136, 180), stored(135, 235)], 180, None))
            .unwrap()
            .sum
    };
    assert_eq!(steps(BLACK), -256 + 2047);
    assert_eq!(steps(stored(72, 128)), 1793);
}

/// Document 01's answer, and that of 2026-03: "The all-black answer of document 01 no longer occurs there."
#[test]
fn unlit_page() {
    let strip = half_strip(&built(), &grey(&[BLACK, 0xBC00]), 180);
    assert_eq!(
        taking_dark_pages().tally(&strip),
        Ok(Tally {
            lit: 0,
            sum: 0,
            average: None,
            extremes: None
        })
    );
    assert_eq!(levels(&taking_dark_pages(), &strip), [0; 6]);
    assert_eq!(built().tally(&strip), refused(9, 0));
    assert_eq!(built().levels(&strip, 6), refused(9, 0));
}

#[test]
fn strip_form() {
    let strip = half_strip(&built(), &grey(&[ONE, HALF]), 180);
    assert_eq!(strip, EXAMPLE);
    assert_eq!(built().check(&strip), Ok(()));
    assert_eq!(built().header(&strip), Ok(header(2, 1, 180)));
    assert_eq!(built().unpack(&strip, 6), Ok(grey(&[stored(128, 255), stored(127, 255)])));
}

#[test]
fn rows() {
    let source = Generator::new(3).page(6);
    let strip = built().convert(Source::Stored(&source), header(2, 3, 1), 21).unwrap();
    assert_eq!(built().row(&strip, 0), Ok(2..8));
    assert_eq!(built().row(&strip, 1), Ok(8..14));
    assert_eq!(built().row(&strip, 2), Ok(14..20));
}

/// 80FF is 256 · 128 + 255, and 7FFF is 256 · 127 + 255.
#[test]
fn reader_of_two_greys() {
    let read = |n| built().reader_step(&EXAMPLE, n);
    assert_eq!(read(0), Ok(Some([stored(128, 255); 3])));
    assert_eq!(read(1), Ok(Some([stored(127, 255); 3])));
    for over in [2, 3, 1 << 32, (1 << 32) + 1, 1 << 63, u64::MAX] {
        assert_eq!(read(over), Ok(None));
    }
}

/// The example's words with a black red, the half 0003 as green and the single 5B800000 as blue of the first pixel; upright, as two rows.
#[test]
fn reader_of_channels() {
    let mut strip = EXAMPLE;
    strip[..5].copy_from_slice(&[0x10004002, 0x200000B4, 0x40000000, 0x50006AC0, 0x6000B8FF]);
    assert_eq!(
        built().reader_step(&strip, 0),
        Ok(Some([BLACK, stored(106, 192), stored(184, 255)]))
    );
    assert_eq!(built().reader_step(&strip, 1), Ok(Some([stored(127, 255); 3])));
    assert_eq!(built().reader_step(&strip, 2), Ok(None));
}

#[test]
fn unpacking_undoes_converting() {
    let source = Generator::new(4).page(500);
    let strip = stored_strip(&built(), &source, 180, None);
    assert_eq!(built().unpack(&strip, 1500), Ok(source));
}

#[test]
fn program_example() {
    let mut expected = b"P6\n2 1\n255\n".to_vec();
    assert_eq!(expected, [0x50, 0x36, 0x0A, 0x32, 0x20, 0x31, 0x0A, 0x32, 0x35, 0x35, 0x0A]);
    expected.extend([0x34, 0x34, 0x34, 0x1D, 0x1D, 0x1D]);
    assert_eq!(built().picture(&bytes(&EXAMPLE)), expected);
}

#[test]
fn program_lengths() {
    assert_eq!(built().picture(&[]), b"refused 3 0\n");
    assert_eq!(built().picture(&[1, 2, 3]), b"refused 3 0\n");
    assert_eq!(built().picture(&[0; 65_535]), b"refused 3 0\n");
    assert_eq!(built().picture(&[0; 65_536]), b"refused 7 0\n");
    assert_eq!(built().picture(&[0; 65_537]), b"long\n");
    assert_eq!(built().picture(&[0; 65_540]), b"long\n");
}

#[test]
fn program_refusals() {
    let with = |place: usize, word: u32| {
        let mut strip = EXAMPLE;
        strip[place] = word;
        built().picture(&bytes(&strip))
    };
    assert_eq!(with(0, 0x10000001), b"refused 1 0\n");
    assert_eq!(with(1, 0x20000000), b"refused 2 0\n");
    assert_eq!(with(4, 0x60000001), b"refused 8 4\n");
    assert_eq!(with(8, 0x70000003), b"refused 7 8\n");
}

/// The longest strip that the program takes has 5,460 pixels. 16 · 342 = 5,472 is not below that, and 16 · 341 = 5,456 is;
/// greys 1.0 have level 39, however many they are.
#[test]
fn program_on_its_longest_strip() {
    let print = |lit: u64| built().picture(&bytes(&partly_lit(lit, 60, 91)));
    for lit in [342, 5460] {
        let mut expected = b"P6\n60 91\n255\n".to_vec();
        expected.extend(vec![39; 3 * lit as usize]);
        expected.resize(13 + 3 * 5460, 0);
        assert_eq!(print(lit), expected);
    }
    for lit in [0, 341] {
        assert_eq!(print(lit), b"refused 9 0\n");
    }
}
