//! Netpbm's float maps: "PF" or "Pf", width, height and scale as text, then the floats, the bottom row first.

use crate::arguments::whole;
use crate::elements::{at_end, fill};
use std::io::{self, Read};

/// More bytes than any number of the text needs.
const LONGEST: usize = 100;

#[derive(Debug, PartialEq)]
pub struct Front {
    pub width: u64,
    pub height: u64,
    /// Floats a pixel: 3 in colour, 1 in grey.
    floats: usize,
    little_endian: bool,
}

/// Reads what stands before the floats; none where that is no PFM file's.
pub fn front(input: &mut dyn Read) -> io::Result<Option<Front>> {
    let mut kind = [0; 3];
    fill(input, &mut kind)?;
    let floats = match &kind[..2] {
        b"PF" => 3,
        b"Pf" => 1,
        _ => return Ok(None),
    };
    if !kind[2].is_ascii_whitespace() {
        return Ok(None);
    }
    let (width, height, scale) = (word(input)?, word(input)?, word(input)?);
    Ok(front_of(floats, &width, &height, &scale))
}

fn front_of(floats: usize, width: &str, height: &str, scale: &str) -> Option<Front> {
    let scale: f64 = scale.parse().ok()?;
    if !scale.is_finite() || scale == 0.0 {
        return None;
    }
    Some(Front {
        width: whole(width)?,
        height: whole(height)?,
        floats,
        little_endian: scale < 0.0,
    })
}

/// Reads a word and the one white space character behind it; no text where neither is in reach.
fn word(input: &mut dyn Read) -> io::Result<String> {
    let mut word = String::new();
    let mut byte = [0];
    for _ in 0..LONGEST {
        if fill(input, &mut byte)? == 0 {
            break;
        }
        if !byte[0].is_ascii_whitespace() {
            word.push(byte[0] as char);
        } else if !word.is_empty() {
            return Ok(word);
        }
    }
    Ok(String::new())
}

/// Reads the floats' bit patterns, three a pixel, and turns them so that the top row comes first; none where the input is shorter or
/// longer.
pub fn singles(input: &mut dyn Read, front: &Front) -> io::Result<Option<Vec<u32>>> {
    let (width, height) = (front.width as usize, front.height as usize);
    let mut singles = vec![0; 3 * width * height];
    let mut bytes = vec![0; 4 * front.floats * width];
    for row in singles.chunks_exact_mut(3 * width).rev() {
        if fill(input, &mut bytes)? < bytes.len() {
            return Ok(None);
        }
        put_row(row, &bytes, front);
    }
    Ok(at_end(input)?.then_some(singles))
}

fn put_row(row: &mut [u32], bytes: &[u8], front: &Front) {
    let number = if front.little_endian {
        u32::from_le_bytes
    } else {
        u32::from_be_bytes
    };
    let float = |bytes: &[u8]| number([bytes[0], bytes[1], bytes[2], bytes[3]]);
    if front.floats == 3 {
        for (single, bytes) in row.iter_mut().zip(bytes.chunks_exact(4)) {
            *single = float(bytes);
        }
    } else {
        for (pixel, bytes) in row.chunks_exact_mut(3).zip(bytes.chunks_exact(4)) {
            pixel.fill(float(bytes));
        }
    }
}

#[cfg(test)]
mod tests {
    use super::{front, singles, Front};

    fn read(mut text: &[u8]) -> Option<Front> {
        front(&mut text).unwrap()
    }

    #[test]
    fn the_text_is_read() {
        let colour = |little_endian| Front {
            width: 12,
            height: 9,
            floats: 3,
            little_endian,
        };
        assert_eq!(read(b"PF\n12 9\n-1.0\n"), Some(colour(true)));
        assert_eq!(read(b"PF\n12 9\n1\n"), Some(colour(false)));
        assert_eq!(read(b"PF 12\t9\r\n+2.5e-3 "), Some(colour(false)));
        assert_eq!(read(b"Pf\n12 9\n-0.003922\n").unwrap().floats, 1);
        assert_eq!(read(b"PF\n99999999999999999999 9\n-1\n").unwrap().width, u64::MAX);
    }

    #[test]
    fn another_text_is_no_pfm() {
        let texts: [&[u8]; 15] = [
            b"",
            b"PF",
            b"PF\n12 9\n",
            b"PF\n12 9\n-1.0",
            b"P6\n12 9\n-1.0\n",
            b"PF\n12\n-1.0\n",
            b"PF\n-12 9\n-1.0\n",
            b"PF\n12 +9\n-1.0\n",
            b"PF\n12 9.0\n-1.0\n",
            b"PF\n12 9\n0.0\n",
            b"PF\n12 9\n-inf\n",
            b"PF\n12 9\nNaN\n",
            b"PF\n12 9\none\n",
            b" PF\n12 9\n-1.0\n",
            b"PF4\n12 9\n-1.0\n",
        ];
        for text in texts {
            assert_eq!(read(text), None, "{}", text.escape_ascii());
        }
        assert_eq!(read(&[&b"PF\n12 9\n"[..], &[b'1'; 1000], b"\n"].concat()), None);
        assert_eq!(read(&[&b"PF\n12 9\n"[..], &[b' '; 1000], b"-1\n"].concat()), None);
    }

    #[test]
    fn rows_are_turned() {
        let front = |floats, little_endian| Front {
            width: 1,
            height: 2,
            floats,
            little_endian,
        };
        let bottom_top = [0, 0, 0, 1, 0, 0, 0, 2];
        let grey = |little_endian| singles(&mut &bottom_top[..], &front(1, little_endian)).unwrap();
        assert_eq!(grey(false), Some(vec![2, 2, 2, 1, 1, 1]));
        assert_eq!(grey(true), Some(vec![2 << 24, 2 << 24, 2 << 24, 1 << 24, 1 << 24, 1 << 24]));
        assert_eq!(singles(&mut &bottom_top[..], &front(3, false)).unwrap(), None);
        assert_eq!(singles(&mut &bottom_top[..7], &front(1, false)).unwrap(), None);
        assert_eq!(singles(&mut &[0; 9][..], &front(1, false)).unwrap(), None);
    }
}
