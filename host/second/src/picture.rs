//! "The picture program": the whole output for a standard input.

use crate::refusal::{Refusal, WRONG_LENGTH};
use crate::SecondStep;

/// "a strip of at most 65,536 bytes"; its levels are fewer, so that this is room enough for them.
const LIMIT: usize = 65_536;

pub fn print(step: &SecondStep, input: &[u8]) -> Vec<u8> {
    if input.len() > LIMIT {
        return b"long\n".to_vec();
    }
    picture(step, input).unwrap_or_else(|refusal| format!("refused {} {}\n", refusal.number, refusal.place).into_bytes())
}

/// "P6, line feed, width, space, height, line feed, 255, line feed, then the levels."
fn picture(step: &SecondStep, input: &[u8]) -> Result<Vec<u8>, Refusal> {
    let strip = words(input)?;
    let levels = step.levels(&strip, LIMIT)?;
    let header = step.header(&strip)?;
    let mut output = format!("P6\n{} {}\n255\n", header.width, header.height).into_bytes();
    output.extend(levels.iter().map(|&level| step.sample(level)));
    Ok(output)
}

/// "If the byte count is no multiple of four, the answer is refusal 3"; "words are little-endian".
fn words(input: &[u8]) -> Result<Vec<u32>, Refusal> {
    if !input.len().is_multiple_of(4) {
        return Err(Refusal {
            number: WRONG_LENGTH,
            place: 0,
        });
    }
    Ok(input
        .chunks_exact(4)
        .map(|bytes| u32::from_le_bytes([bytes[0], bytes[1], bytes[2], bytes[3]]))
        .collect())
}
