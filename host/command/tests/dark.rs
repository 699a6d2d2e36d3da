//! Dark pages: fewer than one pixel in sixteen is lit.

use crate::common::{accepted, bytes32, greys, refused, strip, text, words, Folder, DARK};
use std::fs;

/// The words of a page of one row, so many pixels of grey 1.0 and behind them black ones.
fn row(width: usize, lit: usize) -> Vec<u32> {
    let mut halves = vec![0x3C00; lit];
    halves.resize(width, 0);
    strip("half", width as u32, 1, 180, &greys(&halves))
}

/// The tally of so many pixels of grey 1.0, whose step is -1, as document 01 has it for one.
fn tally_of_greys(lit: usize) -> String {
    let luminance = "128 255 worth 0.9980";
    format!("lit {lit}\nsum -{lit}\naverage -1\nstored {luminance}\ndarkest {luminance}\nbrightest {luminance}\nrange 0.0 doublings\n")
}

/// The picture of pixels with these levels, by its front.
fn picture(front: &str, levels: &[u8]) -> Vec<u8> {
    let pixels = levels.iter().flat_map(|level| [*level; 3]);
    front.bytes().chain(pixels).collect()
}

#[test]
fn one_lit_pixel_in_sixteen_is_enough() {
    let page = bytes32(&row(16, 1));
    assert_eq!(text(&["tally", "-"], &page), tally_of_greys(1));
    let levels = [39, 0, 0, 0, 0, 0, 0, 0, 0, 0, 0, 0, 0, 0, 0, 0];
    assert_eq!(accepted(&["map", "-", "-"], &page), picture("P6\n16 1\n255\n", &levels));
    assert_eq!(text(&["tally", "-"], &bytes32(&row(8192, 512))), tally_of_greys(512));
}

#[test]
fn a_dark_page_is_refused() {
    for (width, lit) in [(1, 0), (16, 0), (17, 1), (33, 2), (8192, 511)] {
        let folder = Folder::new("dark");
        let page = folder.file("page.strip", &bytes32(&row(width, lit)));
        let there = folder.file("there.ppm", b"kept");
        refused(&["tally", &page], &[], DARK);
        for picture in [&there, &folder.path("new.ppm"), "-"] {
            refused(&["map", &page, picture], &[], DARK);
        }
        assert_eq!(folder.names(), ["page.strip", "there.ppm"]);
        assert_eq!(fs::read(there).unwrap(), b"kept");
    }
}

#[test]
fn other_commands_take_a_dark_page() {
    let folder = Folder::new("dark_taken");
    let page = row(17, 1);
    let file = folder.file("page.strip", &bytes32(&page));
    assert_eq!(text(&["info", &file], &[]), "width 17\nheight 1\nkey 180\nwhite none\npixels 17\n");
    assert_eq!(words(&accepted(&["row", &file, "0", "-"], &[])), page[2..53]);
    accepted(&["cut", &file, "1", &folder.path("")], &[]);
    assert_eq!(words(&fs::read(folder.path("001.strip")).unwrap()), page);
}

/// Of 17 pixels, the last blue is word 52 and the end word 53.
#[test]
fn every_word_comes_first() {
    for (at, word, line) in [
        (52, 0x60000001, "refused 8 52 wild channel"),
        (53, 0x70000010, "refused 7 53 foreign word"),
    ] {
        let mut page = row(17, 1);
        page[at] = word;
        refused(&["tally", "-"], &bytes32(&page), line);
        refused(&["map", "-", "-"], &bytes32(&page), line);
    }
}

/// The files of two bands, and their folder, which stays as long as it is kept.
fn two_bands(test: &str, top: Vec<u32>, bottom: Vec<u32>) -> (Folder, String, String) {
    let folder = Folder::new(test);
    let (top, bottom) = (folder.file("top", &bytes32(&top)), folder.file("bottom", &bytes32(&bottom)));
    (folder, top, bottom)
}

/// Two lit pixels of 32, all in the second band.
#[test]
fn a_dark_band_of_a_bright_page() {
    let (_folder, top, bottom) = two_bands("dark_band", row(16, 0), row(16, 2));
    refused(&["tally", "--bands", &top], &[], DARK);
    assert_eq!(text(&["tally", "--bands", &top, &bottom], &[]), tally_of_greys(2));
    let mut levels = [0; 32];
    levels[16..18].fill(39);
    let mapped = accepted(&["map", "--bands", &top, &bottom, "-"], &[]);
    assert_eq!(mapped, picture("P6\n16 2\n255\n", &levels));
}

/// One lit pixel of 32, in the first band.
#[test]
fn a_bright_band_of_a_dark_page() {
    let (folder, top, bottom) = two_bands("bright_band", row(16, 1), row(16, 0));
    assert_eq!(text(&["tally", "--bands", &top], &[]), tally_of_greys(1));
    refused(&["tally", "--bands", &top, &bottom], &[], DARK);
    refused(&["map", "--bands", &top, &bottom, &folder.path("page.ppm")], &[], DARK);
    assert_eq!(folder.names(), ["bottom", "top"]);
    let info = text(&["info", "--bands", &top, &bottom], &[]);
    assert_eq!(info, "width 16\nheight 2\nkey 180\nwhite none\npixels 32\n");
}

#[test]
fn every_band_comes_first() {
    let (_folder, top, bottom) = two_bands("dark_unlike", row(16, 0), row(17, 0));
    let line = format!("refused 21 0 unlike bands: {bottom}");
    refused(&["tally", "--bands", &top, &bottom], &[], &line);
    refused(&["map", "--bands", &top, &bottom, "-"], &[], &line);
}

/// No file is told, not even where one ends within a band: the row is refused there, and accepted again behind the next file.
#[test]
fn a_band_split_over_two_files() {
    let (folder, top, _) = two_bands("dark_split", row(16, 1), row(16, 0));
    let bottom = bytes32(&row(16, 0));
    let (first, second) = (folder.file("first", &bottom[..40]), folder.file("second", &bottom[40..]));
    refused(&["tally", "--bands", &top, &first, &second], &[], DARK);
}
