//! Pages with a white point.

use crate::bands::{refused_words, spoilt, BOTTOM, TOP};
use crate::common::{accepted, bytes16, bytes32, greys, refused, strip, text, with_white, words, Folder, STRIP, TALLY};
use crate::refusals::refused_by_all;
use std::fs;

/// The arguments to convert a flat source on standard input, one row of pixels.
fn row<'a>(kind: &'a str, width: &'a str, key: &'a str, white: &'a str) -> Vec<&'a str> {
    vec![
        "convert", kind, "--width", width, "--height", "1", "--key", key, "--white", white, "-", "-",
    ]
}

/// Kinds, and the bytes of a pixel.
const KINDS: [(&str, usize); 4] = [("rgbe", 4), ("half", 6), ("single", 12), ("stored", 6)];

#[test]
fn the_white_point_is_the_third_word() {
    for (white, word) in [("10", 0x3000000A), ("0180", 0x300000B4), ("1000", 0x300003E8)] {
        let strip = accepted(&row("half", "2", "180", white), &greys(&[0x3C00, 0x3800]));
        assert_eq!(words(&strip), [&STRIP[..2], &[word], &STRIP[2..]].concat());
    }
}

/// One black pixel.
#[test]
fn every_kind_takes_a_white_point() {
    let wanted = [0x10004001, 0x200000B4, 0x3000001E, 0x40000000, 0x50000000, 0x60000000, 0x70000001];
    for (kind, bytes) in KINDS {
        assert_eq!(words(&accepted(&row(kind, "1", "180", "30"), &vec![0; bytes])), wanted, "{kind}");
    }
    let pfm = ["convert", "--white", "30", "pfm", "-", "--key", "180", "-"];
    assert_eq!(words(&accepted(&pfm, b"Pf\n1 1\n-1.0\n\0\0\0\0")), wanted);
}

/// 65546 is 10 in its lowest sixteen bits.
const BAD: [&str; 6] = ["0", "9", "1001", "65535", "65546", "99999999999999999999"];

#[test]
fn a_bad_white_is_refused() {
    for white in BAD {
        for (kind, bytes) in KINDS {
            let line = "refused 10 0 bad white";
            refused(&row(kind, "1", "180", white), &vec![0; bytes], line);
            refused(&row(kind, "1", "180", white), &[], line);
            refused(&row(kind, "0", "180", white), &vec![0; bytes], "refused 1 0 bad size");
            refused(&row(kind, "1", "1001", white), &vec![0; bytes], "refused 2 0 bad key");
        }
        let pfm = ["convert", "pfm", "--key", "180", "--white", white, "-", "-"];
        refused(&pfm, b"Pf\n1 1\n-1.0\n\0\0\0\0", "refused 10 0 bad white");
    }
}

#[test]
fn length_and_elements_come_behind() {
    for (kind, bytes) in KINDS {
        refused(&row(kind, "2", "180", "10"), &vec![0; bytes], "refused 3 0 wrong length");
    }
    let infinite = bytes16(&[0x3C00, 0x7C00, 0]);
    refused(&row("half", "1", "180", "1000"), &infinite, "refused 5 1 no number");
}

#[test]
fn info_prints_the_white_point() {
    for white in [10, 1000] {
        let strip = bytes32(&with_white(&STRIP, white));
        let wanted = format!("width 2\nheight 1\nkey 180\nwhite {white}\npixels 2\n");
        assert_eq!(text(&["info", "-"], &strip), wanted);
    }
}

#[test]
fn tally_and_row_are_as_without() {
    let strip = bytes32(&with_white(&STRIP, 10));
    assert_eq!(text(&["tally", "-"], &strip), TALLY);
    assert_eq!(words(&accepted(&["row", "-", "0", "-"], &strip)), STRIP[2..8]);
    refused(&["row", "-", "1", "-"], &strip, "refused 20 0 no such row");
}

/// The levels of a page of halves in one row.
fn levels(key: &str, white: &str, halves: &[u8]) -> Vec<u8> {
    let width = (halves.len() / 6).to_string();
    let strip = accepted(&row("half", &width, key, white), halves);
    let picture = accepted(&["map", "-", "-"], &strip);
    let front = format!("P6\n{width} 1\n255\n");
    assert_eq!(picture[..front.len()], *front.as_bytes());
    picture[front.len()..].to_vec()
}

/// Document 01's greys 1.0 and 0.5 of average (128,180), scaled to L of (127,130) and (126,130).
/// - w = 1 leaves L(1 + L)/(1 + L) = L: 255 · 130.5 / 512 = 64.99 and half of it, 32.498.
/// - w = 2: 0.25488 · 1.06372 / 1.25488 is stored as (126,221), 55.2; 0.12744 · 1.03186 / 1.12744 as (125,238), 29.7.
/// - w = 100 changes L/(1 + L) by less than a part in 39,000: (126,207) and (125,231), 51.7 and 28.8.
#[test]
fn two_greys() {
    let halves = greys(&[0x3C00, 0x3800]);
    assert_eq!(levels("180", "10", &halves), [65, 65, 65, 32, 32, 32]);
    assert_eq!(levels("180", "20", &halves), [55, 55, 55, 30, 30, 30]);
    assert_eq!(levels("180", "1000", &halves), [52, 52, 52, 29, 29, 29]);
}

/// With key 1000 the same greys are scaled to (129,181) and (128,181), which w = 1 leaves: 255 · 181.5 / 128 is 361.6, clipped, and
/// 255 · 181.5 / 256 is 180.8.
#[test]
fn what_is_brighter_than_white_is_white() {
    assert_eq!(levels("1000", "10", &greys(&[0x3C00, 0x3800])), [255, 255, 255, 181, 181, 181]);
}

/// Red 0.5 and green 1.0 have luminance (128,205), -81 steps, as 256 · log2(205.5) is 1966.85; a grey of 2^-8, (120,255), has -2049. The
/// average is -1065, which is 256 · -5 + 215, and X[215] is 229: (124,229). With key 90 the first is scaled to (129,165), 165.5 / 128, the
/// second to (121,205), and w = 1 leaves both. Display luminance is not clipped: red is 255 · 165.5/128 · 255.5/512 / (205.5/256) = 205.0,
/// and would be 158 or 159 if it were; green, 409.9, is clipped at the level. The grey's levels are 255 · 205.5 / 32768 = 1.6.
#[test]
fn only_the_level_is_clipped() {
    let halves = bytes16(&[0x3800, 0x3C00, 0, 0x1C00, 0x1C00, 0x1C00]);
    assert_eq!(levels("90", "10", &halves), [205, 255, 0, 2, 2, 2]);
}

/// The strip with white point 1.0 and one word changed is refused by every command with this line.
fn spoilt_strip(at: usize, word: u32, line: &str) {
    let mut strip = with_white(&STRIP, 10);
    strip[at] = word;
    refused_by_all(&bytes32(&strip), line);
}

#[test]
fn bad_white_words() {
    for spare in [0x3001000A, 0x3800000A, 0x30010000] {
        spoilt_strip(2, spare, "refused 7 2 foreign word");
    }
    for white in [0x30000000, 0x30000009, 0x300003E9, 0x3000FFFF] {
        spoilt_strip(2, white, "refused 10 0 bad white");
    }
    for (at, word, line) in [
        (1, 0x20000000, "refused 2 0 bad key"),
        (1, 0x200100B4, "refused 7 1 foreign word"),
        (3, 0x3000000A, "refused 7 3 foreign word"),
        (8, 0x60007F7F, "refused 8 8 wild channel"),
        (9, 0x70000003, "refused 7 9 foreign word"),
    ] {
        spoilt_strip(at, word, line);
    }
}

/// Key, then white word, then length, then row.
#[test]
fn the_white_word_is_checked_between_key_and_length() {
    for (key, white, line) in [
        (0x20000000, 0x30010000, "refused 2 0 bad key"),
        (0x200000B4, 0x30010000, "refused 7 2 foreign word"),
        (0x200000B4, 0x30000009, "refused 10 0 bad white"),
        (0x200000B4, 0x3000000A, "refused 3 0 wrong length"),
    ] {
        refused_by_all(&bytes32(&[0x10008001, key, white]), line);
        refused(&["row", "-", "9", "-"], &bytes32(&[0x10008001, key, white]), line);
        refused_by_all(&bytes32(&[&[0x10008001, key, white], &[0; 1000][..]].concat()), line);
    }
}

#[test]
fn a_strip_with_the_word_is_one_longer() {
    let long = [&with_white(&STRIP, 10)[..], &[0x70000002; 3]].concat();
    for count in (2..long.len()).filter(|count| *count != 10) {
        refused_by_all(&bytes32(&long[..count]), "refused 3 0 wrong length");
    }
    accepted(&["info", "-"], &bytes32(&long[..10]));
}

/// Only kind 3 makes the third word a white word: any other is the first red, and the strip has nine words.
#[test]
fn third_words_of_every_kind() {
    for kind in (0..16).filter(|kind| *kind != 3) {
        let mut strip = [&STRIP[..], &STRIP[8..]].concat();
        strip[2] = kind << 28 | 0x80FF;
        refused_by_all(&bytes32(&strip), "refused 3 0 wrong length");
        if kind == 4 {
            assert_eq!(text(&["tally", "-"], &bytes32(&strip[..9])), TALLY);
        } else {
            refused_by_all(&bytes32(&strip[..9]), "refused 7 2 foreign word");
        }
    }
}

#[test]
fn bands_with_a_white_point_are_one_page() {
    let folder = Folder::new("white_bands");
    let (top, bottom) = (bytes32(&with_white(&TOP, 10)), bytes32(&with_white(&BOTTOM, 10)));
    let both = [&top[..], &bottom].concat();
    let (top, bottom) = (folder.file("top", &top), folder.file("bottom", &bottom));
    for files in [&["--bands", &top, &bottom][..], &["--bands", "-"]] {
        assert_eq!(text(&[&["tally"], files].concat(), &both), TALLY);
        let wanted = "width 1\nheight 2\nkey 180\nwhite 10\npixels 2\n";
        assert_eq!(text(&[&["info"], files].concat(), &both), wanted);
        let mapped = accepted(&[&["map"], files, &["-"]].concat(), &both);
        assert_eq!(mapped, b"P6\n1 2\n255\n\x41\x41\x41\x20\x20\x20");
    }
}

#[test]
fn bands_of_unlike_white_points() {
    let white = |white| with_white(&TOP, white);
    let cases = [
        ("white_none", [white(10), TOP.to_vec(), white(10)], "b"),
        ("none_white", [TOP.to_vec(), white(10), TOP.to_vec()], "b"),
        ("white_other", [white(10), white(11), white(10)], "b"),
        ("white_third", [white(10), white(10), white(1000)], "c"),
        ("none_third", [white(10), white(10), BOTTOM.to_vec()], "c"),
    ];
    for (test, files, file) in cases {
        let files: Vec<&[u32]> = files.iter().map(Vec::as_slice).collect();
        refused_words(test, &files, &format!("refused 21 0 unlike bands: {file}"));
    }
}

/// The first band has seven words.
#[test]
fn a_bands_own_faults_come_before_21() {
    let top = with_white(&TOP, 10);
    let bottom = |at: usize, word| {
        let mut bottom = with_white(&BOTTOM, 10);
        bottom[at] = word;
        bottom
    };
    for (test, below, line) in [
        ("white_spare", bottom(2, 0x3001000A), "refused 7 9 foreign word: b word 2"),
        ("white_bad", bottom(2, 0x30000009), "refused 10 0 bad white: b"),
        ("white_wild", bottom(3, 0x40007F7F), "refused 8 10 wild channel: b word 3"),
        ("white_end", bottom(6, 0x70000002), "refused 7 13 foreign word: b word 6"),
        ("none_wild", spoilt(BOTTOM, 2, 0x40007F7F), "refused 8 9 wild channel: b word 2"),
        ("white_cut", bottom(2, 0x3000000B)[..6].to_vec(), "refused 3 0 wrong length: b"),
        ("white_first", with_white(&BOTTOM, 9)[..3].to_vec(), "refused 10 0 bad white: b"),
    ] {
        refused_words(test, &[&top, &below], line);
    }
}

/// Every band of a page is a strip with the page's white point.
#[test]
fn cut_keeps_the_white_point() {
    let folder = Folder::new("white_cut_words");
    let page = strip("half", 2, 3, 180, &greys(&[0x3C00, 0x3800, 0x3400, 0x3000, 0x2C00, 0]));
    accepted(&["cut", "-", "2", &folder.path("")], &bytes32(&with_white(&page, 30)));
    let band = |name| words(&fs::read(folder.path(name)).unwrap());
    let top = [&[0x10008002, 0x200000B4, 0x3000001E], &page[2..14], &[0x70000004]].concat();
    let bottom = [&[0x10008001, 0x200000B4, 0x3000001E], &page[14..20], &[0x70000002]].concat();
    assert_eq!((band("001.strip"), band("002.strip")), (top, bottom));
}
