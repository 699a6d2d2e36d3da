//! Pages cut into bands: strips of whole rows, one behind another in one row of words.

use crate::pages::{self, Look, Page, LOOKS};
use crate::random::Random;
use dofnihet::Header;

/// Cut above each row that is asked for; the first is never.
fn cut(height: u64, mut above: impl FnMut(u64) -> bool) -> Vec<u64> {
    let mut heights = vec![1];
    for y in 1..height {
        match above(y) {
            true => heights.push(1),
            false => *heights.last_mut().unwrap() += 1,
        }
    }
    heights
}

/// The heights of the bands, for every way of cutting a page of this height.
pub fn cuttings(height: u64) -> Vec<Vec<u64>> {
    let ways = 0..1_u64 << (height - 1);
    ways.map(|way| cut(height, |y| way >> (y - 1) & 1 == 1)).collect()
}

/// One way of cutting: single rows, or bands that are so high on average.
pub fn cutting(random: &mut Random, height: u64) -> Vec<u64> {
    let mean = random.pick(&[1, 2, 4, height.div_ceil(3), height]);
    cut(height, |_| random.one_in(mean))
}

/// Every row a band.
pub fn single_rows(height: u64) -> Vec<u64> {
    cut(height, |_| true)
}

/// The bands of a page cut into these heights.
pub fn row(page: &Page, heights: &[u64]) -> Vec<u32> {
    let mut row = Vec::with_capacity(page.channels.len() + 4 * heights.len());
    let mut rest = &page.channels[..];
    for &height in heights {
        let (channels, below) = rest.split_at(3 * (page.width * height) as usize);
        rest = below;
        row.extend(Page::new(Header { height, ..page.header() }, channels.to_vec()).strip());
    }
    row
}

/// The strips that lie one behind another in a row, as far as they are whole.
pub fn strips(row: &[u32]) -> Vec<&[u32]> {
    let (mut list, mut rest) = (Vec::new(), row);
    while let Some(size) = rest.first() {
        let pixels = (size >> 14 & 0x3FFF) * (size & 0x3FFF);
        let length = dofnihet::strip_length(pixels as usize) + pages::has_white(rest) as usize;
        let Some((strip, below)) = rest.split_at_checked(length) else {
            break;
        };
        list.push(strip);
        rest = below;
    }
    list
}

/// A page of this one channel throughout, in bands of these heights.
pub fn flat(width: u64, heights: &[u64], channel: u16) -> Vec<u32> {
    let height: u64 = heights.iter().sum();
    let channels = vec![channel; 3 * (width * height) as usize];
    row(&Page::new(pages::header(width, height, 180), channels), heights)
}

/// A page without a lit pixel in bands of these heights.
pub fn black(width: u64, heights: &[u64]) -> Vec<u32> {
    flat(width, heights, 0)
}

/// Some rows of a page made black.
pub fn darken(random: &mut Random, page: &mut Page) {
    for row in page.channels.chunks_mut(3 * page.width as usize) {
        if random.one_in(2) {
            row.fill(0);
        }
    }
}

/// A page of some look, with enough rows to be cut; dark rows among its lit ones or not.
pub fn page(random: &mut Random) -> Page {
    let (width, height) = match random.below(400) {
        0 => (random.between(1, 3), random.between(1, 8192)),
        1..=20 => (random.between(1, 60), random.between(1, 100)),
        _ => (random.between(1, 6), random.between(1, 12)),
    };
    let look = random.pick(&LOOKS);
    let mut page = pages::page(random, look, width, height);
    if random.one_in(3) {
        darken(random, &mut page);
    }
    page
}

/// Two to four small pages whose widths, keys and white points may differ; sometimes most of them are black.
pub fn several(random: &mut Random) -> Vec<Page> {
    let count = random.between(2, 4);
    let odd = random.between(2, 5);
    let looks: &[Look] = if random.one_in(8) {
        &[Look::Black, Look::Black, Look::Lone]
    } else {
        &LOOKS
    };
    let (white, other) = (pages::white(random), pages::white(random));
    let one = |random: &mut Random| {
        let (width, height) = (2 - random.one_in(odd) as u64, random.between(1, 3));
        let look = random.pick(looks);
        let mut page = pages::page(random, look, width, height);
        page.key = 180 + random.one_in(odd) as u64;
        page.with_white(if random.one_in(2 * odd) { other } else { white })
    };
    (0..count).map(|_| one(random)).collect()
}

#[cfg(test)]
mod tests {
    use super::*;

    /// Cutting a page of h rows leaves each of its h - 1 borders whole or not.
    #[test]
    fn every_cutting_once() {
        for height in 1..=8 {
            let mut list = cuttings(height);
            assert!(list
                .iter()
                .all(|heights| heights.iter().sum::<u64>() == height && !heights.contains(&0)));
            list.sort();
            list.dedup();
            assert_eq!(list.len(), 1 << (height - 1));
        }
    }
}
