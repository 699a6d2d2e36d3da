//! Numbers in files, little-endian: read and written in blocks, without a second copy of the whole.

use std::io::{self, ErrorKind, Read, Write};

/// Bytes of a block: a multiple of every element's size.
pub const BLOCK: usize = 64 * 1024;

pub trait Element: Copy {
    const BYTES: usize;
    fn from_bytes(bytes: &[u8]) -> Self;
}

impl Element for u8 {
    const BYTES: usize = 1;
    fn from_bytes(bytes: &[u8]) -> u8 {
        bytes[0]
    }
}

impl Element for u16 {
    const BYTES: usize = 2;
    fn from_bytes(bytes: &[u8]) -> u16 {
        u16::from_le_bytes([bytes[0], bytes[1]])
    }
}

impl Element for u32 {
    const BYTES: usize = 4;
    fn from_bytes(bytes: &[u8]) -> u32 {
        u32::from_le_bytes([bytes[0], bytes[1], bytes[2], bytes[3]])
    }
}

/// Reads until the buffer is full or the input ends; answers how many bytes were read.
pub fn fill(input: &mut dyn Read, buffer: &mut [u8]) -> io::Result<usize> {
    let mut filled = 0;
    while filled < buffer.len() {
        match input.read(&mut buffer[filled..]) {
            Ok(0) => break,
            Ok(count) => filled += count,
            Err(error) if error.kind() == ErrorKind::Interrupted => {}
            Err(error) => return Err(error),
        }
    }
    Ok(filled)
}

/// Appends elements until there are `count` or the input ends; answers how many bytes of a last, partial element were read.
pub fn append<T: Element>(input: &mut dyn Read, elements: &mut Vec<T>, count: usize) -> io::Result<usize> {
    let mut block = [0; BLOCK];
    while elements.len() < count {
        let wanted = BLOCK.min((count - elements.len()) * T::BYTES);
        let filled = fill(input, &mut block[..wanted])?;
        elements.extend(block[..filled].chunks_exact(T::BYTES).map(T::from_bytes));
        if filled < wanted {
            return Ok(filled % T::BYTES);
        }
    }
    Ok(0)
}

/// Whether the input has no byte more.
pub fn at_end(input: &mut dyn Read) -> io::Result<bool> {
    Ok(fill(input, &mut [0])? == 0)
}

pub fn write_words(output: &mut dyn Write, words: &[u32]) -> io::Result<()> {
    let mut block = [0; BLOCK];
    for part in words.chunks(BLOCK / 4) {
        for (bytes, word) in block.chunks_exact_mut(4).zip(part) {
            bytes.copy_from_slice(&word.to_le_bytes());
        }
        output.write_all(&block[..4 * part.len()])?;
    }
    Ok(())
}
