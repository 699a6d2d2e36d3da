//! Bands in several files: one page, or a refusal with the file's name.

use crate::common::{accepted, bytes32, greys, refused, strip, text, wrong, Folder, STRIP, TALLY};
use std::fs;

/// Grey 1.0 above grey 0.5, two bands of one pixel: the pixels of `STRIP`.
pub const TOP: [u32; 6] = [0x10004001, 0x200000B4, 0x400080FF, 0x500080FF, 0x600080FF, 0x70000001];
pub const BOTTOM: [u32; 6] = [0x10004001, 0x200000B4, 0x40007FFF, 0x50007FFF, 0x60007FFF, 0x70000001];

/// A band with one word changed.
pub fn spoilt(mut band: [u32; 6], at: usize, word: u32) -> Vec<u32> {
    band[at] = word;
    band.to_vec()
}

/// Every command refuses these files, named a, b and so on, with this line, whose file is the folder's.
fn refused_by_all(test: &str, files: &[&[u8]], line: &str) {
    let folder = Folder::new(test);
    let paths: Vec<String> = ('a'..)
        .zip(files)
        .map(|(name, content)| folder.file(&name.to_string(), content))
        .collect();
    let paths: Vec<&str> = paths.iter().map(String::as_str).collect();
    let (refusal, file) = line.split_once(": ").unwrap();
    let line = format!("{refusal}: {}", folder.path(file));
    for command in ["tally", "info"] {
        refused(&[&[command, "--bands"], &paths[..]].concat(), &[], &line);
    }
    let picture = folder.path("picture");
    refused(&[&["map", "--bands"], &paths[..], &[&picture]].concat(), &[], &line);
    assert_eq!(folder.names().len(), files.len());
}

/// The same for words.
pub fn refused_words(test: &str, files: &[&[u32]], line: &str) {
    let files: Vec<Vec<u8>> = files.iter().map(|words| bytes32(words)).collect();
    let files: Vec<&[u8]> = files.iter().map(Vec::as_slice).collect();
    refused_by_all(test, &files, line);
}

#[test]
fn two_bands_are_one_page() {
    let folder = Folder::new("two_bands");
    let (top, bottom) = (folder.file("top", &bytes32(&TOP)), folder.file("bottom", &bytes32(&BOTTOM)));
    assert_eq!(text(&["tally", "--bands", &top, &bottom], &[]), TALLY);
    assert_eq!(
        text(&["info", &top, &bottom, "--bands"], &[]),
        "width 1\nheight 2\nkey 180\nwhite none\npixels 2\n"
    );
    let picture = folder.path("picture");
    accepted(&["map", &top, "--bands", &bottom, &picture], &[]);
    assert_eq!(fs::read(&picture).unwrap(), b"P6\n1 2\n255\n\x34\x34\x34\x1D\x1D\x1D");
    let turned = accepted(&["map", "--bands", &bottom, &top, "-"], &[]);
    assert_eq!(turned, b"P6\n1 2\n255\n\x1D\x1D\x1D\x34\x34\x34");
}

/// A file may have several bands, and one band is a page too.
#[test]
fn files_are_read_into_one_row() {
    let both = bytes32(&[TOP, BOTTOM].concat());
    assert_eq!(text(&["tally", "--bands", "-"], &both), TALLY);
    assert_eq!(text(&["tally", "--bands", "-"], &bytes32(&STRIP)), TALLY);
    assert_eq!(
        text(&["info", "--bands", "-"], &both),
        "width 1\nheight 2\nkey 180\nwhite none\npixels 2\n"
    );
}

/// Standard input among the files. It has nothing more where it is named again.
#[test]
fn one_band_by_a_pipe() {
    let folder = Folder::new("band_pipe");
    let (top, bottom) = (folder.file("top", &bytes32(&TOP)), folder.file("bottom", &bytes32(&BOTTOM)));
    let picture = b"P6\n1 2\n255\n\x34\x34\x34\x1D\x1D\x1D";
    assert_eq!(accepted(&["map", "--bands", &top, "-", "-"], &bytes32(&BOTTOM)), picture);
    assert_eq!(accepted(&["map", "--bands", "-", &bottom, "-"], &bytes32(&TOP)), picture);
    let wild = bytes32(&spoilt(BOTTOM, 2, 0x40007F00));
    refused(&["tally", "--bands", &top, "-"], &wild, "refused 8 8 wild channel: - word 2");
    refused(&["tally", "--bands", "-", "-"], &bytes32(&TOP), "refused 3 0 wrong length: -");
}

#[test]
fn a_word_is_told_by_its_file() {
    let line = "refused 7 0 foreign word: a word 0";
    refused_words("first_word", &[&spoilt(TOP, 0, 0x20004001), &BOTTOM], line);
    let line = "refused 8 4 wild channel: a word 4";
    refused_words("first_file", &[&spoilt(TOP, 4, 0x6000807F), &spoilt(BOTTOM, 2, 0)], line);
    let line = "refused 7 6 foreign word: b word 0";
    refused_words("second_files_first", &[&TOP, &spoilt(BOTTOM, 0, 0x20004001)], line);
    let line = "refused 8 9 wild channel: b word 3";
    refused_words("second_file", &[&TOP, &spoilt(BOTTOM, 3, 0x500047FF)], line);
    let line = "refused 7 17 foreign word: c word 5";
    refused_words("end_word", &[&TOP, &TOP, &spoilt(BOTTOM, 5, 0x70000002)], line);
}

/// Size and key have no place.
#[test]
fn a_file_is_told_without_a_word() {
    refused_words("bad_size", &[&TOP, &BOTTOM, &spoilt(TOP, 0, 0x10004000)], "refused 1 0 bad size: c");
    refused_words("bad_key", &[&spoilt(TOP, 1, 0x20000000), &BOTTOM], "refused 2 0 bad key: a");
}

#[test]
fn unlike_bands() {
    let other_key = spoilt(TOP, 1, 0x200000B5);
    refused_words("unlike_width", &[&TOP, &STRIP], "refused 21 0 unlike bands: b");
    refused_words("unlike_first", &[&STRIP, &TOP, &TOP], "refused 21 0 unlike bands: b");
    for at in 1..9 {
        let mut files = [&TOP[..]; 9];
        files[at] = &other_key;
        files[8] = &STRIP[..];
        let file = ["b", "c", "d", "e", "f", "g", "h", "i"][at - 1];
        refused_words("unlike_key", &files, &format!("refused 21 0 unlike bands: {file}"));
    }
}

/// 8,192 rows are the most.
#[test]
fn too_many_rows_together() {
    let tall = strip("half", 1, 8191, 180, &greys(&[0x3C00; 8191]));
    refused_words("tall", &[&tall, &TOP, &BOTTOM, &TOP], "refused 21 0 unlike bands: c");
}

#[test]
fn the_last_file_is_cut() {
    for count in 1..6 {
        refused_words("cut_last", &[&TOP, &TOP, &BOTTOM[..count]], "refused 3 0 wrong length: c");
    }
    refused_words("cut_only", &[&TOP[..5]], "refused 3 0 wrong length: a");
    refused_words(
        "one_word_over",
        &[&TOP, &[&BOTTOM[..], &TOP[..1]].concat()],
        "refused 3 0 wrong length: b",
    );
}

/// A band goes on in the next file, where its word is foreign, unless all files together are too short for it. The key word is checked
/// before that.
#[test]
fn another_file_is_cut() {
    for count in 1..6 {
        let line = format!("refused 7 {count} foreign word: b word 0");
        refused_words("cut_first", &[&TOP[..count], &BOTTOM], &line);
    }
    refused_words("cut_shorter", &[&STRIP[..3], &TOP], "refused 7 3 foreign word: b word 0");
    refused_words("cut_too_short", &[&STRIP[..2], &TOP], "refused 3 0 wrong length: a");
    refused_words("cut_to_size", &[&STRIP[..1], &TOP], "refused 7 1 foreign word: b word 0");
    let line = "refused 7 12 foreign word: b word 6";
    refused_words("words_over", &[&TOP, &[&BOTTOM[..], &[0, 0]].concat(), &TOP], line);
}

/// A band's own faults come before 21, and its length before its words.
#[test]
fn each_band_by_itself_first() {
    let mut wild = STRIP;
    wild[3] = 0x50008000;
    refused_words("wild_and_unlike", &[&TOP, &wild], "refused 8 9 wild channel: b word 3");
    refused_words("cut_and_unlike", &[&TOP, &wild[..8]], "refused 3 0 wrong length: b");
    let late = spoilt(BOTTOM, 2, 0x40007F00);
    refused_words("unlike_and_wild", &[&TOP, &STRIP, &late], "refused 21 0 unlike bands: b");
}

#[test]
fn byte_counts_are_checked_first() {
    let (top, wild) = (bytes32(&TOP), bytes32(&spoilt(TOP, 2, 0)));
    for count in [1, 2, 3, 5, 23, 25] {
        let odd = [&top[..], &top[..]].concat();
        refused_by_all("odd", &[&wild, &odd[..count], &top], "refused 3 0 wrong length: b");
    }
    refused_by_all("odd_twice", &[&top, &[0; 5], &[0; 6]], "refused 3 0 wrong length: b");
    for (at, name) in ["a", "b", "c"].iter().enumerate() {
        let mut files = [&top[..]; 3];
        files[at] = &[];
        refused_by_all("empty", &files, &format!("refused 3 0 wrong length: {name}"));
    }
    refused_by_all("only_empty", &[&[]], "refused 3 0 wrong length: a");
}

#[test]
fn a_missing_file_is_told() {
    let folder = Folder::new("band_missing");
    let (top, missing) = (folder.file("top", &bytes32(&TOP)), folder.path("missing"));
    wrong(&["tally", "--bands", &top, &missing], &[], &format!("cannot read {missing}: "));
    let picture = folder.path("missing/page.ppm");
    wrong(&["map", "--bands", &top, &picture], &[], &format!("cannot write {picture}: "));
}
