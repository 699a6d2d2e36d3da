//! The picture program at the repository's top, run on bytes.

use crate::compare::Difference;
use second::{Rules, SecondStep};
use std::fs::File;
use std::io::Write;
use std::path::PathBuf;
use std::process::{Child, Command, Stdio};
use std::thread;
use std::time::Duration;

pub fn path() -> PathBuf {
    PathBuf::from(concat!(env!("CARGO_MANIFEST_DIR"), "/../../target/bin/picture"))
}

fn start(input: Stdio) -> Child {
    let mut command = Command::new(path());
    command.stdin(input).stdout(Stdio::piped());
    command
        .spawn()
        .unwrap_or_else(|why| panic!("{} does not start ({why}): build it first", path().display()))
}

fn printed(child: Child) -> Vec<u8> {
    child.wait_with_output().expect("the picture program's output").stdout
}

/// What the program prints for bytes that come all at once.
pub fn run(input: &[u8]) -> Vec<u8> {
    run_in_pieces(&[input], Duration::ZERO)
}

/// What it prints for bytes that come in pieces, with a pause behind each. It may end before it has read a long input, so a broken pipe
/// is no fault.
pub fn run_in_pieces(pieces: &[&[u8]], pause: Duration) -> Vec<u8> {
    let mut child = start(Stdio::piped());
    let mut pipe = child.stdin.take().unwrap();
    let mut write = move || -> std::io::Result<()> {
        for piece in pieces {
            pipe.write_all(piece)?;
            thread::sleep(pause);
        }
        Ok(())
    };
    thread::scope(|scope| {
        scope.spawn(move || write().ok());
        printed(child)
    })
}

/// What it prints for a file.
pub fn run_file(file: File) -> Vec<u8> {
    printed(start(file.into()))
}

/// Words as a file has them.
pub fn bytes(strip: &[u32]) -> Vec<u8> {
    strip.iter().flat_map(|word| word.to_le_bytes()).collect()
}

/// The program beside the second step, and how many inputs both were given.
pub struct Printed {
    second: SecondStep,
    pub inputs: u64,
    pub refused: u64,
}

impl Default for Printed {
    fn default() -> Printed {
        assert!(path().exists(), "the picture program is not built: {} is missing", path().display());
        Printed {
            second: SecondStep::new(Rules::BUILT),
            inputs: 0,
            refused: 0,
        }
    }
}

impl Printed {
    /// What both print for bytes that come all at once.
    pub fn same(&mut self, input: &[u8]) -> Result<Vec<u8>, Difference> {
        self.same_as(input, run(input))
    }

    /// Whether this is what the second step prints.
    pub fn same_as(&mut self, input: &[u8], printed: Vec<u8>) -> Result<Vec<u8>, Difference> {
        let second = self.second.picture(input);
        self.inputs += 1;
        self.refused += printed.starts_with(b"refused") as u64;
        equal(input, &second, &printed)?;
        Ok(printed)
    }
}

/// Compares two outputs byte for byte.
pub fn equal(input: &[u8], second: &[u8], printed: &[u8]) -> Result<(), Difference> {
    if second == printed {
        return Ok(());
    }
    let first = (0..).find(|&i| second.get(i) != printed.get(i)).unwrap();
    let [input_start, printed_start, second_start] = [input, printed, second].map(|bytes| &bytes[..bytes.len().min(40)]);
    Err(Difference(format!(
        "picture of {} bytes {input_start:02X?}: byte {first} differs; the program prints {} bytes {printed_start:02X?}, the second step {} \
         bytes {second_start:02X?}",
        input.len(),
        printed.len(),
        second.len()
    )))
}
