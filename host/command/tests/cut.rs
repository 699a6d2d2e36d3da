//! Strips cut into bands, and the bands as one page again.

use crate::common::{accepted, bytes32, greys, refused, strip, with_white, words, wrong, Folder, STRIP};
use std::fs;

const SAMPLE: &str = concat!(env!("CARGO_MANIFEST_DIR"), "/../../samples/relief.strip");

/// Cuts a strip into a folder of its own; answers the folder and its files, in the order of their names.
fn cut(strip: &str, rows: &str) -> (Folder, Vec<String>) {
    let folder = Folder::new(&format!("cut_{rows}"));
    accepted(&["cut", strip, rows, &folder.path("map-")], &[]);
    let files = folder.names().iter().map(|name| folder.path(name)).collect();
    (folder, files)
}

/// A strip has so many bands of so many rows, and the commands answer for them as for the whole.
fn joined_again(strip: &str, rows: &str, bands: usize) {
    let (folder, files) = cut(strip, rows);
    assert_eq!(files.len(), bands);
    let files: Vec<&str> = files.iter().map(String::as_str).collect();
    for command in ["tally", "info"] {
        let whole = accepted(&[command, strip], &[]);
        assert_eq!(
            accepted(&[&[command, "--bands"], &files[..]].concat(), &[]),
            whole,
            "{command} {rows}"
        );
    }
    let picture = folder.path("joined.ppm");
    accepted(&[&["map", "--bands"], &files[..], &[&picture]].concat(), &[]);
    assert_eq!(fs::read(picture).unwrap(), accepted(&["map", strip, "-"], &[]), "{rows}");
}

/// It has 84 x 65 pixels.
#[test]
fn the_sample_joined_again() {
    joined_again(SAMPLE, "1", 65);
    joined_again(SAMPLE, "7", 10);
    joined_again(SAMPLE, "64", 2);
}

#[test]
fn the_sample_with_a_white_point_joined_again() {
    let folder = Folder::new("cut_white");
    let sample = with_white(&words(&fs::read(SAMPLE).unwrap()), 100);
    let sample = folder.file("white.strip", &bytes32(&sample));
    joined_again(&sample, "2", 33);
    joined_again(&sample, "33", 2);
}

/// Nine bands of 7 rows, 3 * 84 * 7 + 3 words each, and one of 2.
#[test]
fn the_last_band_has_the_rows_that_are_left() {
    let (folder, files) = cut(SAMPLE, "007");
    let names: Vec<String> = (1..=10).map(|number| format!("map-{number:03}.strip")).collect();
    assert_eq!(folder.names(), names);
    for (file, words) in files.iter().zip([1767, 1767, 1767, 1767, 1767, 1767, 1767, 1767, 1767, 507]) {
        assert_eq!(fs::metadata(file).unwrap().len(), 4 * words, "{file}");
    }
}

#[test]
fn more_rows_than_the_page_has() {
    for rows in ["65", "66", "99999999999999999999999"] {
        let (folder, files) = cut(SAMPLE, rows);
        assert_eq!(folder.names(), ["map-001.strip"]);
        assert_eq!(fs::read(&files[0]).unwrap(), fs::read(SAMPLE).unwrap());
    }
}

#[test]
fn bands_have_the_rows_words() {
    let folder = Folder::new("cut_words");
    let page = strip("half", 2, 3, 180, &greys(&[0x3C00, 0x3800, 0x3400, 0x3000, 0x2C00, 0]));
    accepted(&["cut", "-", "2", &folder.path("")], &bytes32(&page));
    let band = |name| words(&fs::read(folder.path(name)).unwrap());
    assert_eq!(band("001.strip"), [&[0x10008002, 0x200000B4], &page[2..14], &[0x70000004]].concat());
    assert_eq!(
        band("002.strip"),
        [&[0x10008001, 0x200000B4], &page[14..20], &[0x70000002]].concat()
    );
    assert_eq!(folder.names(), ["001.strip", "002.strip"]);
}

/// A thousand rows need four digits.
#[test]
fn names_sort_in_order() {
    let page = strip("half", 1, 1000, 180, &greys(&[0x3C00; 1000]));
    let folder = Folder::new("cut_digits");
    accepted(&["cut", "-", "1", &folder.path("map-")], &bytes32(&page));
    let names = folder.names();
    assert_eq!(names.len(), 1000);
    assert_eq!((names[0].as_str(), names[999].as_str()), ("map-0001.strip", "map-1000.strip"));
}

#[test]
fn of_a_refused_strip_nothing_is_written() {
    let folder = Folder::new("cut_refused");
    let mut wild = STRIP;
    wild[7] = 0x60007F7F;
    refused(
        &["cut", "-", "1", &folder.path("map-")],
        &bytes32(&wild),
        "refused 8 7 wild channel",
    );
    refused(&["cut", "-", "1", &folder.path("map-")], &[0; 3], "refused 3 0 wrong length");
    assert!(folder.names().is_empty());
}

/// The second of three files cannot be written: there is a folder of that name.
#[test]
fn files_before_one_that_cannot_be_written_stay() {
    let folder = Folder::new("cut_half_way");
    let second = folder.path("map-002.strip");
    fs::create_dir(&second).unwrap();
    let page = strip("half", 1, 3, 180, &greys(&[0x3C00; 3]));
    wrong(
        &["cut", "-", "1", &folder.path("map-")],
        &bytes32(&page),
        &format!("cannot write {second}: "),
    );
    assert_eq!(folder.names(), ["map-001.strip", "map-002.strip"]);
}
