//! Refusals: the line and the status, the library's order, and that nothing is written.

use crate::common::{bytes16, bytes32, greys, refused, Folder, PROGRAM, STRIP, TALLY};
use std::fs;
use std::io::Write;
use std::process::{Command, Stdio};

/// Arguments of a flat source on standard input.
fn flat<'a>(kind: &'a str, width: &'a str, height: &'a str, key: &'a str) -> Vec<&'a str> {
    vec!["convert", kind, "--width", width, "--height", height, "--key", key, "-", "-"]
}

#[test]
fn size_then_key_then_length() {
    let page = greys(&[0x3C00, 0x3800]);
    for kind in ["rgbe", "half", "single", "stored"] {
        for (width, height) in [
            ("0", "1"),
            ("1", "0"),
            ("8193", "1"),
            ("1", "8193"),
            ("8192", "2049"),
            ("99999999999999999999", "1"),
        ] {
            refused(&flat(kind, width, height, "0"), &page, "refused 1 0 bad size");
        }
        for key in ["0", "1001", "99999999999999999999"] {
            refused(&flat(kind, "3", "1", key), &page, "refused 2 0 bad key");
        }
        refused(&flat(kind, "7", "1", "180"), &page, "refused 3 0 wrong length");
        refused(&flat(kind, "8192", "2048", "180"), &page, "refused 3 0 wrong length");
        refused(&flat(kind, "8192", "2048", "180"), &[], "refused 3 0 wrong length");
    }
}

#[test]
fn a_length_is_exact_to_the_byte() {
    for (kind, bytes) in [("rgbe", 8), ("half", 12), ("single", 24), ("stored", 12)] {
        for count in 0..30 {
            if count != bytes {
                refused(&flat(kind, "2", "1", "180"), &vec![0; count], "refused 3 0 wrong length");
            }
        }
        refused(&flat(kind, "2", "1", "180"), &vec![0; 1_000_000], "refused 3 0 wrong length");
    }
}

/// A source that never ends is refused after the elements that are wanted.
#[test]
fn no_more_is_read_than_needed() {
    for key in ["0", "180"] {
        let folder = Folder::new(&format!("endless_{key}"));
        let strip = folder.path("page.strip");
        let line = if key == "0" {
            "refused 2 0 bad key"
        } else {
            "refused 3 0 wrong length"
        };
        refused(
            &[
                "convert",
                "half",
                "--width",
                "500",
                "--height",
                "500",
                "--key",
                key,
                "/dev/zero",
                &strip,
            ],
            &[],
            line,
        );
        assert!(folder.names().is_empty());
    }
}

#[test]
fn elements_in_order() {
    let mut halves = [0x3C00; 6];
    halves[4] = 0x7C00;
    halves[5] = 0xFFFF;
    refused(&flat("half", "2", "1", "180"), &bytes16(&halves), "refused 5 4 no number");
    let singles = [0, 0, 0, 0x5B800001, 0x7FC00000, 0];
    refused(&flat("single", "2", "1", "180"), &bytes32(&singles), "refused 6 3 too bright");
    refused(
        &flat("rgbe", "2", "1", "180"),
        &[1, 2, 3, 136, 1, 1, 200, 185],
        "refused 6 6 too bright",
    );
    refused(
        &flat("stored", "2", "1", "180"),
        &bytes16(&[0, 0, 0, 0, 0, 1]),
        "refused 8 5 wild channel",
    );
}

/// The strip with one word changed is refused by every command with this line.
fn spoilt(at: usize, word: u32, line: &str) {
    let mut words = STRIP;
    words[at] = word;
    refused_by_all(&bytes32(&words), line);
}

pub fn refused_by_all(strip: &[u8], line: &str) {
    for arguments in [&["tally", "-"][..], &["info", "-"], &["map", "-", "-"], &["row", "-", "0", "-"]] {
        refused(arguments, strip, line);
    }
}

#[test]
fn strips() {
    spoilt(0, 0x20008001, "refused 7 0 foreign word");
    spoilt(0, 0x10000001, "refused 1 0 bad size");
    spoilt(0, 0x18000801, "refused 1 0 bad size");
    spoilt(1, 0x200100B4, "refused 7 1 foreign word");
    spoilt(1, 0x20000000, "refused 2 0 bad key");
    spoilt(0, 0x1000C001, "refused 3 0 wrong length");
    spoilt(0, 0x18000800, "refused 3 0 wrong length");
    spoilt(2, 0x500080FF, "refused 7 2 foreign word");
    spoilt(7, 0x60017FFF, "refused 7 7 foreign word");
    spoilt(6, 0x50007F7F, "refused 8 6 wild channel");
    spoilt(8, 0x70000003, "refused 7 8 foreign word");
}

#[test]
fn a_strips_byte_count_is_checked_first() {
    let strip = bytes32(&STRIP);
    let foreign = bytes32(&[0; 12]);
    for count in 0..48 {
        let whole = [&strip[..], &[0; 12]].concat();
        if count != strip.len() {
            refused(&["tally", "-"], &whole[..count], "refused 3 0 wrong length");
        }
        let line = if count % 4 == 0 && count >= 8 {
            "refused 7 0 foreign word"
        } else {
            "refused 3 0 wrong length"
        };
        refused(&["tally", "-"], &foreign[..count], line);
    }
    refused_by_all(&strip[..35], "refused 3 0 wrong length");
    refused_by_all(&[&foreign[..], &[0; 1_000_001]].concat(), "refused 3 0 wrong length");
    refused_by_all(&[&foreign[..], &[0; 1_000_000]].concat(), "refused 7 0 foreign word");
}

/// A missing row is told before a bad word, and after a wrong length.
#[test]
fn rows() {
    let mut words = STRIP;
    words[4] = 0;
    refused(&["row", "-", "0", "-"], &bytes32(&words), "refused 7 4 foreign word");
    refused(&["row", "-", "1", "-"], &bytes32(&words), "refused 20 0 no such row");
    refused(&["row", "-", "1", "-"], &bytes32(&words[..8]), "refused 3 0 wrong length");
}

#[test]
fn nothing_is_written() {
    let folder = Folder::new("nothing_written");
    let source = folder.file("page.half", &greys(&[0x3C00, 0x7C00]));
    let strip = folder.file("page.strip", &bytes32(&STRIP[..8]));
    let there = folder.file("there", b"kept");
    let new = folder.path("new");
    for output in [&there, &new] {
        let convert = ["convert", "half", "--width", "2", "--height", "1", "--key", "180", &source, output];
        refused(&convert, &[], "refused 5 3 no number");
        refused(&["map", &strip, output], &[], "refused 3 0 wrong length");
        refused(&["row", &strip, "0", output], &[], "refused 3 0 wrong length");
    }
    assert_eq!(folder.names(), ["page.half", "page.strip", "there"]);
    assert_eq!(fs::read(there).unwrap(), b"kept");
}

/// An input that comes in pieces is no shorter.
#[test]
fn input_in_pieces() {
    let mut child = Command::new(PROGRAM)
        .args(["tally", "-"])
        .stdin(Stdio::piped())
        .stdout(Stdio::piped())
        .spawn()
        .unwrap();
    let mut input = child.stdin.take().unwrap();
    for piece in bytes32(&STRIP).chunks(5) {
        input.write_all(piece).unwrap();
        input.flush().unwrap();
        std::thread::sleep(std::time::Duration::from_millis(5));
    }
    drop(input);
    assert_eq!(child.wait_with_output().unwrap().stdout, TALLY.as_bytes());
}
