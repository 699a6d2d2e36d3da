//! Strips read from files: as many words as the library has to see.

use crate::elements::append;
use crate::failure::Failure;
use crate::files;
use std::ffi::OsStr;
use std::io::{self, Read};

/// The words of a strip file. It is read to its end, since its byte count decides first: where that is no multiple of four, no word is
/// kept, and every call refuses with 3, place 0. Of a strip that is longer than its first words say, one word too many is kept, so that its
/// length is still wrong.
pub fn read(path: &OsStr) -> Result<Vec<u32>, Failure> {
    let mut input = files::open(path)?;
    words(&mut input).map_err(|error| Failure::file("read", path, error))
}

fn words(input: &mut dyn Read) -> io::Result<Vec<u32>> {
    let mut words = Vec::new();
    let mut left_over = append(input, &mut words, 3)? as u64;
    let kept = kept(&words);
    words.reserve_exact(kept - words.len());
    left_over += append(input, &mut words, kept)? as u64;
    left_over += io::copy(input, &mut io::sink())?;
    if !left_over.is_multiple_of(4) {
        return Ok(Vec::new());
    }
    Ok(words)
}

/// How many words to keep of a strip that begins with these three, size, key and perhaps a white word. The library looks at them before the
/// length: where it finds only that wrong, size, key and white point are accepted; else it refuses every strip that begins so.
fn kept(first: &[u32]) -> usize {
    match dofnihet::check(first) {
        Err(refusal) if refusal.number == 3 && first.len() == 3 => {
            dofnihet::strip_length(pixels(first[0])) + usize::from(is_white(first[2])) + 1
        }
        _ => first.len(),
    }
}

/// Whether a third word is a white word, of kind 3 in bits 31..28.
fn is_white(third: u32) -> bool {
    third >> 28 == 3
}

/// The pixels by a size word: width in bits 27..14, height in 13..0.
fn pixels(size: u32) -> usize {
    ((size >> 14 & 0x3FFF) * (size & 0x3FFF)) as usize
}

#[cfg(test)]
mod tests {
    use super::words;

    /// A 2 x 1 page of greys 1.0 and 0.5.
    const STRIP: [u32; 9] = [
        0x10008001, 0x200000B4, 0x400080FF, 0x500080FF, 0x600080FF, 0x40007FFF, 0x50007FFF, 0x60007FFF, 0x70000002,
    ];

    fn read(words_in: &[u32], tail: &[u8]) -> Vec<u32> {
        let mut bytes: Vec<u8> = words_in.iter().flat_map(|word| word.to_le_bytes()).collect();
        bytes.extend(tail);
        words(&mut &bytes[..]).unwrap()
    }

    /// The same with a white point.
    fn white_strip() -> Vec<u32> {
        [&STRIP[..2], &[0x3000000A], &STRIP[2..]].concat()
    }

    #[test]
    fn a_whole_strip_is_kept() {
        assert_eq!(read(&STRIP, &[]), STRIP);
        assert_eq!(read(&white_strip(), &[]), white_strip());
    }

    #[test]
    fn one_word_too_many_is_kept() {
        for strip in [STRIP.to_vec(), white_strip()] {
            let long = [&strip[..], &[1, 2, 3, 4]].concat();
            assert_eq!(read(&long, &[]), long[..strip.len() + 1]);
            assert_eq!(read(&strip[..7], &[]), strip[..7]);
        }
    }

    #[test]
    fn of_a_refused_header_three_words_are_kept() {
        assert_eq!(read(&[0x1FFFFFFF, 0x200000B4, 5, 6], &[]), [0x1FFFFFFF, 0x200000B4, 5]);
        assert_eq!(read(&[0x10008001, 0x20000000, 5, 6], &[]), [0x10008001, 0x20000000, 5]);
        assert_eq!(
            read(&[0x10008001, 0x200000B4, 0x30000009, 6], &[]),
            [0x10008001, 0x200000B4, 0x30000009]
        );
        assert_eq!(read(&STRIP[..2], &[]), STRIP[..2]);
        assert_eq!(read(&STRIP[..1], &[]), STRIP[..1]);
        assert_eq!(read(&[], &[]), []);
    }

    #[test]
    fn of_an_odd_byte_count_no_word_is_kept() {
        for count in 0..12 {
            for tail in 1..4 {
                assert_eq!(read(&[&STRIP[..], &[0; 3]].concat()[..count], &[0; 3][..tail]), []);
            }
        }
    }
}
