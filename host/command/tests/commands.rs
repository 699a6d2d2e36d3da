//! Every command, with files and with standard input and output.

use crate::common::{accepted, bytes16, bytes32, greys, refused, run, strip, text, words, wrong, Folder, PROGRAM, STRIP};
use std::fs::{self, File, OpenOptions};
use std::os::unix::fs::{symlink, FileTypeExt, PermissionsExt};
use std::path::Path;
use std::process::Command;
use std::thread;

#[test]
fn convert_reads_and_writes_files() {
    let folder = Folder::new("convert_files");
    let source = folder.file("page.half", &greys(&[0x3C00, 0x3800]));
    let output = folder.path("page.strip");
    let answer = accepted(
        &["convert", "half", "--width", "2", "--height", "1", "--key", "180", &source, &output],
        &[],
    );
    assert_eq!(answer, []);
    assert_eq!(words(&fs::read(&output).unwrap()), STRIP);
    assert_eq!(folder.names(), ["page.half", "page.strip"]);
}

#[test]
fn options_stand_anywhere() {
    let halves = greys(&[0x3C00, 0x3800]);
    let strip = bytes32(&STRIP);
    assert_eq!(
        accepted(
            &["convert", "--key", "180", "half", "-", "--height", "1", "-", "--width", "2"],
            &halves
        ),
        strip
    );
    assert_eq!(
        accepted(
            &["convert", "half", "-", "-", "--width", "002", "--height", "1", "--key", "180"],
            &halves
        ),
        strip
    );
}

/// One page by every kind of source: a lit pixel above a black one.
#[test]
fn every_kind_gives_the_same_strip() {
    let floats = [1.5_f32, 6.0, 0.75, 0.0, 0.0, 0.0];
    let singles: Vec<u32> = floats.iter().map(|float| float.to_bits()).collect();
    let halves = [0x3E00, 0x4600, 0x3A00, 0, 0, 0x8000];
    let stored = [256 * 129 + 192, 256 * 131 + 192, 256 * 128 + 192, 0, 0, 0];
    let wanted = strip("single", 1, 2, 500, &bytes32(&singles));
    assert_eq!(wanted[..3], [0x10004002, 0x200001F4, 0x400081C0]);
    assert_eq!(strip("half", 1, 2, 500, &bytes16(&halves)), wanted);
    assert_eq!(strip("stored", 1, 2, 500, &bytes16(&stored)), wanted);
    // Exponent 131 is shared: byte m is worth (m + 1/2) / 32, and red is (48 + 1/2) / 32, stored as 194.
    let rgbe = strip("rgbe", 1, 2, 500, &[48, 192, 24, 131, 9, 9, 9, 0]);
    assert_eq!(rgbe[2..5], [0x400081C2, 0x500083C0, 0x600080C4]);
    assert_eq!((&rgbe[..2], &rgbe[5..]), (&wanted[..2], &wanted[5..]));
}

#[test]
fn info_prints_the_header() {
    let strip = bytes32(&strip("half", 3, 2, 1000, &greys(&[0x3C00; 6])));
    assert_eq!(text(&["info", "-"], &strip), "width 3\nheight 2\nkey 1000\nwhite none\npixels 6\n");
}

#[test]
fn row_writes_its_words() {
    let folder = Folder::new("row");
    let words = strip("half", 2, 3, 180, &greys(&[0x3C00, 0x3800, 0x3400, 0x3000, 0x2C00, 0]));
    let path = folder.file("page.strip", &bytes32(&words));
    for y in 0..3 {
        let row = bytes32(&words[2 + 6 * y..8 + 6 * y]);
        assert_eq!(accepted(&["row", &path, &y.to_string(), "-"], &[]), row);
        let output = folder.path("row");
        accepted(&["row", &path, &y.to_string(), &output], &[]);
        assert_eq!(fs::read(&output).unwrap(), row);
    }
    refused(&["row", &path, "3", "-"], &[], "refused 20 0 no such row");
    refused(&["row", &path, "99999999999999999999999", "-"], &[], "refused 20 0 no such row");
}

#[test]
fn map_replaces_a_file() {
    let folder = Folder::new("map_replaces");
    let strip = folder.file("page.strip", &bytes32(&STRIP));
    let picture = folder.file("page.ppm", &[7; 1000]);
    fs::set_permissions(&picture, fs::Permissions::from_mode(0o640)).unwrap();
    accepted(&["map", &strip, &picture], &[]);
    assert_eq!(fs::read(&picture).unwrap(), b"P6\n2 1\n255\n\x34\x34\x34\x1D\x1D\x1D");
    assert_eq!(fs::metadata(&picture).unwrap().permissions().mode() & 0o777, 0o640);
    assert_eq!(folder.names(), ["page.ppm", "page.strip"]);
}

#[test]
fn an_output_may_be_the_input() {
    let folder = Folder::new("in_place");
    let path = folder.file("page", &greys(&[0x3C00, 0x3800]));
    accepted(
        &["convert", "half", "--width", "2", "--height", "1", "--key", "180", &path, &path],
        &[],
    );
    assert_eq!(words(&fs::read(&path).unwrap()), STRIP);
    accepted(&["map", &path, &path], &[]);
    assert!(fs::read(&path).unwrap().starts_with(b"P6\n2 1\n255\n"));
    assert_eq!(folder.names(), ["page"]);
}

#[test]
fn a_link_stays_a_link() {
    let folder = Folder::new("link");
    let strip = folder.file("page.strip", &bytes32(&STRIP));
    let target = folder.file("target.ppm", b"old");
    let link = folder.path("link.ppm");
    symlink("target.ppm", &link).unwrap();
    accepted(&["map", &strip, &link], &[]);
    assert!(fs::symlink_metadata(&link).unwrap().is_symlink());
    assert!(fs::read(&target).unwrap().starts_with(b"P6"));
}

#[test]
fn a_link_to_nothing_is_left() {
    let folder = Folder::new("dangling");
    let strip = folder.file("page.strip", &bytes32(&STRIP));
    let link = folder.path("link.ppm");
    symlink("missing.ppm", &link).unwrap();
    wrong(&["map", &strip, &link], &[], &format!("cannot write {link}: "));
    assert!(fs::symlink_metadata(&link).unwrap().is_symlink());
    assert_eq!(folder.names(), ["link.ppm", "page.strip"]);
}

/// Runs a script with the program as $0, a strip as $1 and a file as $2; answers what the file holds then, `head` being there before.
fn after(script: &str) -> Vec<u8> {
    let folder = Folder::new("standard_output");
    let strip = folder.file("page.strip", &bytes32(&STRIP));
    let file = folder.file("file", b"head\n");
    let done = Command::new("sh").args(["-c", script, PROGRAM, &strip, &file]).output().unwrap();
    assert!(done.status.success() && done.stderr.is_empty(), "{script}: {done:?}");
    assert_eq!(folder.names(), ["file", "page.strip"], "{script}");
    fs::read(file).unwrap()
}

/// A path that leads to standard output is written there, so that what stands before and behind is kept.
#[test]
fn standard_output_by_another_name() {
    let row = bytes32(&STRIP[2..8]);
    for path in ["/dev/stdout", "/proc/self/fd/1", "\"$2\"", "-"] {
        let appended = after(&format!("\"$0\" row \"$1\" 0 {path} >> \"$2\""));
        assert_eq!(appended, [b"head\n", &row[..]].concat(), "{path}");
        let grouped = after(&format!("{{ echo one; \"$0\" row \"$1\" 0 {path}; echo two; }} > \"$2\""));
        assert_eq!(grouped, [b"one\n", &row[..], b"two\n"].concat(), "{path}");
    }
    assert_eq!(accepted(&["row", "-", "0", "/dev/stdout"], &bytes32(&STRIP)), row);
}

/// Standard output that is open for reading only.
#[test]
fn standard_output_that_cannot_be_written_is_told() {
    let folder = Folder::new("read_only");
    let strip = folder.file("page.strip", &bytes32(&STRIP));
    for path in ["-", &strip] {
        let output = File::open(&strip).unwrap();
        let done = Command::new(PROGRAM).args(["map", &strip, path]).stdout(output).output().unwrap();
        assert_eq!(done.status.code(), Some(2), "{path}");
        assert!(
            done.stderr.starts_with(format!("dofnihet: cannot write {path}: ").as_bytes()),
            "{path}"
        );
    }
    assert_eq!(fs::read(&strip).unwrap(), bytes32(&STRIP));
}

#[test]
fn a_pipe_is_written_and_not_replaced() {
    let folder = Folder::new("pipe");
    let pipe = folder.path("pipe");
    assert!(Command::new("mkfifo").arg(&pipe).status().unwrap().success());
    let reader = thread::spawn({
        let pipe = pipe.clone();
        move || fs::read(pipe).unwrap()
    });
    accepted(&["map", "-", &pipe], &bytes32(&STRIP));
    assert_eq!(reader.join().unwrap(), b"P6\n2 1\n255\n\x34\x34\x34\x1D\x1D\x1D");
    assert!(fs::metadata(&pipe).unwrap().file_type().is_fifo());
}

#[test]
fn a_full_disk_is_told() {
    let folder = Folder::new("full");
    let strip = folder.file("page.strip", &bytes32(&STRIP));
    for arguments in [&["tally", &strip][..], &["map", &strip, "-"], &["row", &strip, "0", "-"]] {
        let full = OpenOptions::new().write(true).open("/dev/full").unwrap();
        let done = Command::new(PROGRAM).args(arguments).stdout(full).output().unwrap();
        assert_eq!(done.status.code(), Some(2), "{arguments:?}");
        assert!(done.stderr.starts_with(b"dofnihet: cannot write -: "), "{arguments:?}");
    }
}

/// A file that cannot be written to its end leaves nothing behind, and what was there stays.
#[test]
fn a_broken_off_file_is_removed() {
    let folder = Folder::new("broken_off");
    let strip = folder.file("page.strip", &bytes32(&strip("half", 100, 100, 180, &greys(&[0x3C00; 10000]))));
    let there = folder.file("there.ppm", b"kept");
    for picture in [&there, &folder.path("new.ppm")] {
        let script = "trap '' XFSZ; ulimit -f 8; exec \"$0\" map \"$1\" \"$2\"";
        let done = Command::new("sh").args(["-c", script, PROGRAM, &strip, picture]).output().unwrap();
        assert_eq!(done.status.code(), Some(2));
        assert!(String::from_utf8(done.stderr)
            .unwrap()
            .starts_with(&format!("dofnihet: cannot write {picture}: ")));
    }
    assert_eq!(folder.names(), ["page.strip", "there.ppm"]);
    assert_eq!(fs::read(there).unwrap(), b"kept");
}

#[test]
fn what_cannot_be_read_or_written_is_told() {
    let folder = Folder::new("unreadable");
    let strip = folder.file("page.strip", &bytes32(&STRIP));
    let missing = folder.path("missing");
    let inside = folder.path("missing/page.ppm");
    let itself = folder.path("");
    for command in ["tally", "info"] {
        wrong(&[command, &missing], &[], &format!("cannot read {missing}: "));
        wrong(&[command, &itself], &[], &format!("cannot read {itself}: "));
    }
    wrong(
        &["convert", "pfm", "--key", "1", &missing, "-"],
        &[],
        &format!("cannot read {missing}: "),
    );
    wrong(&["map", &strip, &inside], &[], &format!("cannot write {inside}: "));
    wrong(&["map", &strip, &itself], &[], &format!("cannot write {itself}: "));
    let no_file = folder.path("page/");
    wrong(&["row", &strip, "0", &no_file], &[], &format!("cannot write {no_file}: "));
    assert_eq!(folder.names(), ["page.strip"]);
}

/// The stored cases of the picture program, which reads at most 65,536 bytes and prints refusals on standard output.
#[test]
fn map_answers_as_the_picture_program() {
    let folder = Path::new(env!("CARGO_MANIFEST_DIR")).join("../../tests/picture");
    let mut cases = 0;
    for entry in fs::read_dir(folder).unwrap() {
        let path = entry.unwrap().path();
        if path.extension().is_none_or(|extension| extension != "stdin") {
            continue;
        }
        let answer = run(&["map", "-", "-"], &fs::read(&path).unwrap());
        let wanted = fs::read(path.with_extension("stdout")).unwrap();
        if wanted.starts_with(b"refused ") {
            let wanted = String::from_utf8(wanted).unwrap();
            assert_eq!((answer.status, answer.output.len()), (1, 0), "{path:?}");
            assert!(
                answer.errors.starts_with(&format!("{} ", wanted.trim_end())),
                "{path:?}: {}",
                answer.errors
            );
        } else if wanted == b"long\n" {
            assert_eq!(answer.errors, "refused 3 0 wrong length\n", "{path:?}");
        } else {
            assert_eq!((answer.status, answer.output), (0, wanted), "{path:?}");
        }
        cases += 1;
    }
    assert_eq!(cases, 16);
}
