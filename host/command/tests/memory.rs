//! The peak memory: source and strip for convert, strip or bands and levels for map.

use crate::common::{accepted, bytes32, Folder, PROGRAM};
use std::fs;
use std::io::Read;
use std::process::{Command, Stdio};

const PIXELS: u64 = 2048 * 2048;
/// The program itself, its buffers, and pages that are given out in larger pieces.
const SLACK: u64 = 8 << 20;

/// Runs the program until its standard output is under way, when all is computed; answers its peak memory in bytes and the output.
fn peak(arguments: &[&str]) -> (u64, Vec<u8>) {
    let mut child = Command::new(PROGRAM).args(arguments).stdout(Stdio::piped()).spawn().unwrap();
    let mut output = vec![0; 1];
    let mut pipe = child.stdout.take().unwrap();
    pipe.read_exact(&mut output).unwrap();
    let status = fs::read_to_string(format!("/proc/{}/status", child.id())).unwrap();
    let line = status.lines().find(|line| line.starts_with("VmHWM:")).unwrap();
    let kib: u64 = line.split_whitespace().nth(1).unwrap().parse().unwrap();
    pipe.read_to_end(&mut output).unwrap();
    assert!(child.wait().unwrap().success());
    (1024 * kib, output)
}

#[test]
fn no_more_than_source_strip_and_levels() {
    let folder = Folder::new("memory");
    let single = 1.5_f32.to_bits();
    let source = folder.file("page.single", &bytes32(&vec![single; 3 * PIXELS as usize]));
    let convert = [
        "convert", "single", "--width", "2048", "--height", "2048", "--key", "180", &source, "-",
    ];
    let (bytes, words) = peak(&convert);
    assert!(bytes < (12 + 12) * PIXELS + SLACK, "convert: {bytes}");
    assert_eq!(words.len() as u64, 12 * PIXELS + 12);
    let strip = folder.file("page.strip", &words);
    let (bytes, picture) = peak(&["map", &strip, "-"]);
    assert!(bytes < (12 + 3) * PIXELS + SLACK, "map: {bytes}");
    assert_eq!(picture.len() as u64, "P6\n2048 2048\n255\n".len() as u64 + 3 * PIXELS);
    accepted(&["cut", &strip, "512", &folder.path("map-")], &[]);
    let bands: Vec<String> = (1..=4).map(|n| folder.path(&format!("map-00{n}.strip"))).collect();
    let (bytes, joined) = peak(&["map", "--bands", &bands[0], &bands[1], &bands[2], &bands[3], "-"]);
    assert!(bytes < (12 + 3) * PIXELS + SLACK, "map --bands: {bytes}");
    assert!(joined == picture);
}
