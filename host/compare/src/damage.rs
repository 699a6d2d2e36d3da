//! Strips that were sound, damaged.

use crate::pages::WHITE_KIND;
use crate::random::Random;

/// Every strip that differs from this one in one word: each bit flipped, each other kind, and words that stand elsewhere.
pub fn one_word(strip: &[u32], place: usize) -> Vec<u32> {
    let word = strip[place];
    let mut list: Vec<u32> = (0..32).map(|bit| word ^ 1 << bit).collect();
    list.extend((0..16).map(|kind| word & 0x0FFF_FFFF | kind << 28));
    list.extend([0, u32::MAX, !word, word.swap_bytes(), word.wrapping_add(1), word.wrapping_sub(1)]);
    list.extend(strip.iter());
    list.extend([0, 9, 10, 20, 1000, 1001, 0xFFFF, 1 << 16 | 20, 1 << 27 | 20, 0x0FFF_0000].map(|low| WHITE_KIND | low));
    list.extend([0x4700, 0x4780, 0x47FF, 0x4800, 0x487F, 0xB87F, 0xB980, 0xFFFF, 0x0080, 0x00FF].map(|low| word & 0xFFFF_0000 | low));
    list.sort_unstable();
    list.dedup();
    list.retain(|other| *other != word);
    list
}

/// Words put behind the end.
pub fn lengthened(strip: &[u32]) -> Vec<Vec<u32>> {
    let last = strip[strip.len() - 1];
    let tails: [&[u32]; 6] = [
        &[0],
        &[last],
        &[0; 3],
        &[last, last],
        &[0x4000_80FF, 0x5000_80FF, 0x6000_80FF],
        &[u32::MAX; 7],
    ];
    tails.iter().map(|tail| [strip, tail].concat()).collect()
}

/// One to three changes anywhere.
pub fn random(random: &mut Random, strip: &[u32]) -> Vec<u32> {
    let mut damaged = strip.to_vec();
    for _ in 0..random.between(1, 3) {
        change(random, &mut damaged);
    }
    damaged
}

fn change(random: &mut Random, strip: &mut Vec<u32>) {
    let count = strip.len() as u64;
    if count == 0 {
        return;
    }
    let place = random.below(count) as usize;
    match random.below(12) {
        0 => strip[place] = random.bits() as u32,
        1 => strip.truncate(place),
        2 => strip.push(random.bits() as u32),
        3 => strip.swap(place, random.below(count) as usize),
        4 => strip[place] = strip[place] & 0xFFFF_0000 | random.below(65536) as u32,
        5 => strip[place] = strip[place] & 0x0FFF_FFFF | (random.below(16) as u32) << 28,
        6 => blacken(&mut strip[place..]),
        7 => _ = strip.remove(place),
        8 => strip.insert(place, strip[place]),
        9 => strip.insert(2.min(strip.len()), white_word(random)),
        _ => strip[place] ^= 1 << random.below(32),
    }
}

/// A white word whose W is good or bad, sometimes with a spare bit.
fn white_word(random: &mut Random) -> u32 {
    let spare = random.one_in(4) as u32 * (1 << random.between(16, 27));
    WHITE_KIND | spare | random.pick(&[0, 9, 10, 30, 500, 1000, 1001, 0xFFFF])
}

/// Every channel black.
pub fn blacken(words: &mut [u32]) {
    let channels = words.iter_mut().filter(|word| (4..=6).contains(&(**word >> 28)));
    channels.for_each(|word| *word &= 0xFFFF_0000);
}
