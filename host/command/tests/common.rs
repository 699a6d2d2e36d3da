//! Runs the built program, and makes its inputs.

use std::fs;
use std::io::Write;
use std::path::PathBuf;
use std::process::{Command, Stdio};

pub const PROGRAM: &str = env!("CARGO_BIN_EXE_dofnihet");

#[derive(Debug, PartialEq)]
pub struct Answer {
    pub status: i32,
    pub output: Vec<u8>,
    pub errors: String,
}

/// Runs the program with these arguments and this standard input.
pub fn run(arguments: &[&str], input: &[u8]) -> Answer {
    let mut child = Command::new(PROGRAM)
        .args(arguments)
        .stdin(Stdio::piped())
        .stdout(Stdio::piped())
        .stderr(Stdio::piped())
        .spawn()
        .unwrap();
    // A program that refuses early leaves its input unread.
    let _ = child.stdin.take().unwrap().write_all(input);
    let done = child.wait_with_output().unwrap();
    Answer {
        status: done.status.code().unwrap(),
        output: done.stdout,
        errors: String::from_utf8(done.stderr).unwrap(),
    }
}

/// Runs the program where it must accept; answers its standard output.
pub fn accepted(arguments: &[&str], input: &[u8]) -> Vec<u8> {
    let answer = run(arguments, input);
    assert_eq!((answer.status, answer.errors.as_str()), (0, ""), "{arguments:?}");
    answer.output
}

/// The same where it prints text.
pub fn text(arguments: &[&str], input: &[u8]) -> String {
    String::from_utf8(accepted(arguments, input)).unwrap()
}

/// Runs the program where it must refuse, with exactly this on standard error and nothing on standard output.
pub fn refused(arguments: &[&str], input: &[u8], line: &str) {
    let wanted = Answer {
        status: 1,
        output: Vec::new(),
        errors: format!("{line}\n"),
    };
    assert_eq!(run(arguments, input), wanted, "{arguments:?}");
}

/// Runs the program where something outside the library is wrong: one line on standard error that begins so.
pub fn wrong(arguments: &[&str], input: &[u8], beginning: &str) {
    let answer = run(arguments, input);
    assert_eq!((answer.status, answer.output.as_slice()), (2, &[][..]), "{arguments:?}");
    assert!(
        answer.errors.starts_with(&format!("dofnihet: {beginning}")),
        "{arguments:?}: {}",
        answer.errors
    );
    assert_eq!(answer.errors.lines().count(), 1, "{arguments:?}: {}", answer.errors);
}

/// Converts a flat source on standard input into a strip on standard output.
pub fn convert(kind: &str, width: u32, height: u32, key: u32, source: &[u8]) -> Answer {
    let (width, height, key) = (width.to_string(), height.to_string(), key.to_string());
    run(
        &["convert", kind, "--width", &width, "--height", &height, "--key", &key, "-", "-"],
        source,
    )
}

/// The words of the strip of a flat source that must be accepted.
pub fn strip(kind: &str, width: u32, height: u32, key: u32, source: &[u8]) -> Vec<u32> {
    let answer = convert(kind, width, height, key, source);
    assert_eq!((answer.status, answer.errors.as_str()), (0, ""), "{kind} {width} {height} {key}");
    words(&answer.output)
}

/// Elements of 16 bits as bytes.
pub fn bytes16(elements: &[u16]) -> Vec<u8> {
    elements.iter().flat_map(|element| element.to_le_bytes()).collect()
}

/// Elements of 32 bits as bytes.
pub fn bytes32(elements: &[u32]) -> Vec<u8> {
    elements.iter().flat_map(|element| element.to_le_bytes()).collect()
}

pub fn words(bytes: &[u8]) -> Vec<u32> {
    assert_eq!(bytes.len() % 4, 0);
    bytes
        .chunks_exact(4)
        .map(|word| u32::from_le_bytes(word.try_into().unwrap()))
        .collect()
}

/// Grey pixels of halves, as bytes.
pub fn greys(halves: &[u16]) -> Vec<u8> {
    halves.iter().flat_map(|half| bytes16(&[*half; 3])).collect()
}

/// Document 01's strip of greys 1.0 and 0.5 with key 180.
pub const STRIP: [u32; 9] = [
    0x10008001, 0x200000B4, 0x400080FF, 0x500080FF, 0x600080FF, 0x40007FFF, 0x50007FFF, 0x60007FFF, 0x70000002,
];

/// Its tally. The worths are 180.5 / 256, 255.5 / 512 and 255.5 / 256.
pub const TALLY: &str = "\
lit 2
sum -258
average -129
stored 128 180 worth 0.7051
darkest 127 255 worth 0.4990
brightest 128 255 worth 0.9980
range 1.0 doublings
";

/// The words of a strip with a white point in place of none.
pub fn with_white(strip: &[u32], tenths: u32) -> Vec<u32> {
    [&strip[..2], &[0x30000000 + tenths], &strip[2..]].concat()
}

/// What is printed for a dark page.
pub const DARK: &str = "refused 9 0 dark page\nfewer than one pixel in sixteen is lit; look for the lens cap";

/// A folder of one test.
pub struct Folder(PathBuf);

impl Folder {
    pub fn new(name: &str) -> Folder {
        let path = PathBuf::from(env!("CARGO_TARGET_TMPDIR")).join(name);
        let _ = fs::remove_dir_all(&path);
        fs::create_dir_all(&path).unwrap();
        Folder(path)
    }

    pub fn path(&self, name: &str) -> String {
        self.0.join(name).to_str().unwrap().to_string()
    }

    /// Writes a file; answers its path.
    pub fn file(&self, name: &str, content: &[u8]) -> String {
        fs::write(self.0.join(name), content).unwrap();
        self.path(name)
    }

    /// The names in the folder, hidden ones too.
    pub fn names(&self) -> Vec<String> {
        let mut names: Vec<_> = fs::read_dir(&self.0)
            .unwrap()
            .map(|entry| entry.unwrap().file_name().into_string().unwrap())
            .collect();
        names.sort();
        names
    }
}

impl Drop for Folder {
    fn drop(&mut self) {
        let _ = fs::remove_dir_all(&self.0);
    }
}
