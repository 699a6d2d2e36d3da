//! Request 2026-03 once more: how many lit pixels are enough, and what is told of a page by them; pages with just enough or too few.

use crate::compare::{Told, ACCEPTED};
use crate::pages::{self, Page};
use crate::random::Random;

/// What tally and map tell of a dark page.
pub const DARK: Told = (9, 0);

/// The fewest lit pixels that a page of so many is not dark with: a sixteenth of them, rounded up.
fn enough(pixels: u64) -> u64 {
    pixels.div_ceil(16)
}

#[derive(Clone, Copy, Debug, PartialEq, Eq)]
pub struct Light {
    pub lit: u64,
    pub pixels: u64,
}

impl Light {
    /// Of sound channels, or of the words that hold them.
    pub fn of<T: Copy + Into<u32>>(channels: &[T]) -> Light {
        let is_lit = |pixel: &&[T]| pixel.iter().any(|&channel| channel.into() as u16 > 0);
        let pixels = channels.chunks_exact(3);
        Light {
            pixels: pixels.len() as u64,
            lit: pixels.filter(is_lit).count() as u64,
        }
    }

    pub fn is_dark(self) -> bool {
        self.lit < enough(self.pixels)
    }

    /// What tally and map tell of the page.
    pub fn told(self) -> Told {
        match self.is_dark() {
            true => DARK,
            false => ACCEPTED,
        }
    }

    /// Whether one lit pixel more or fewer decides it.
    pub fn is_at_edge(self) -> bool {
        [self.lit, self.lit + 1].contains(&enough(self.pixels))
    }
}

/// Where the lit pixels of a page lie.
#[derive(Clone, Copy, Debug, PartialEq, Eq)]
pub enum Where {
    Front,
    End,
    Scattered,
}

pub const WHERE: [Where; 3] = [Where::Front, Where::End, Where::Scattered];

/// The channels that are lit in a lit pixel: each alone, and all.
pub const COLOURS: [[u16; 3]; 4] = [[1, 0, 0], [0, 1, 0], [0, 0, 1], [1, 1, 1]];

/// For each of the pixels, whether it is among so many that lie there.
fn chosen(random: &mut Random, count: u64, pixels: u64, lie: Where) -> Vec<bool> {
    let mut left = count;
    let mut choose = |ahead: u64| {
        let is_chosen = match lie {
            Where::Front => left > 0,
            Where::End => left == ahead,
            Where::Scattered => random.below(ahead) < left,
        };
        left -= is_chosen as u64;
        is_chosen
    };
    (1..=pixels).rev().map(&mut choose).collect()
}

/// Scattered pixels: as many as are enough, one more or one fewer.
pub fn few(random: &mut Random, pixels: u64) -> Vec<bool> {
    let count = enough(pixels) + random.below(3) - 1;
    chosen(random, count.min(pixels), pixels, Where::Scattered)
}

/// A page with so many lit pixels, of one colour's channels.
pub fn page(random: &mut Random, (width, height): (u64, u64), lit: u64, lie: Where, colour: [u16; 3]) -> Page {
    let chosen = chosen(random, lit, width * height, lie);
    let pixel = |is_lit| colour.map(|on| if is_lit { on * pages::wide(random) } else { 0 });
    let channels = chosen.into_iter().flat_map(pixel).collect();
    Page::new(pages::header(width, height, 180), channels)
}

/// Shapes with a pixel fewer than a multiple of sixteen, just as many, or a pixel more; up to 8,193 pixels.
pub const EDGES: [(u64, u64); 19] = [
    (1, 1),
    (3, 5),
    (4, 4),
    (1, 17),
    (1, 31),
    (4, 8),
    (11, 3),
    (7, 9),
    (8, 8),
    (13, 5),
    (15, 17),
    (16, 16),
    (257, 1),
    (63, 65),
    (64, 64),
    (17, 241),
    (8191, 1),
    (1, 8192),
    (2731, 3),
];

/// The number of lit pixels that brings sixteen times it nearest to the pixel count of such a shape, and what is told then.
pub fn edge((width, height): (u64, u64)) -> (u64, Told) {
    let pixels = width * height;
    match pixels % 16 {
        15 => ((pixels + 1) / 16, ACCEPTED),
        0 => (pixels / 16, ACCEPTED),
        1 => ((pixels - 1) / 16, DARK),
        _ => panic!("{width} x {height} is not at the edge"),
    }
}

/// A page at the edge, and what is told of it.
pub fn page_at_edge(random: &mut Random, shape: (u64, u64), lie: Where, colour: [u16; 3]) -> (Page, Told) {
    let (lit, told) = edge(shape);
    (page(random, shape, lit, lie, colour), told)
}

/// Every way for lit pixels to lie and every colour.
pub fn ways() -> impl Iterator<Item = (Where, [u16; 3])> {
    WHERE.into_iter().flat_map(|lie| COLOURS.map(|colour| (lie, colour)))
}

#[cfg(test)]
mod tests {
    use super::*;

    /// Sixteen pixels need one that is lit, seventeen need two; any channel lights a pixel.
    #[test]
    fn sixteenths() {
        for (lit, pixels, is_dark) in [
            (0, 1, true),
            (1, 16, false),
            (1, 17, true),
            (2, 17, false),
            (2, 32, false),
            (2, 33, true),
        ] {
            assert_eq!(Light { lit, pixels }.is_dark(), is_dark);
            assert!(Light { lit, pixels }.is_at_edge());
        }
        assert!(!Light { lit: 3, pixels: 32 }.is_at_edge() && !Light { lit: 0, pixels: 17 }.is_at_edge());
        let expected = Light { lit: 3, pixels: 4 };
        assert_eq!(Light::of(&[7_u16, 0, 0, 0, 7, 0, 0, 0, 0, 0, 0, 7]), expected);
        assert_eq!(
            Light::of(&[4_u32 << 28 | 7, 0, 0, 0, 7, 0, 4 << 28, 5 << 28, 6 << 28, 0, 0, 7]),
            expected
        );
    }

    /// As many lit pixels as asked, where they should lie.
    #[test]
    fn places() {
        let random = &mut Random::new(7);
        for (pixels, lit, lie) in WHERE
            .iter()
            .flat_map(|lie| [(1, 0), (1, 1), (17, 1), (40, 3)].map(|(p, n)| (p, n, *lie)))
        {
            let page = page(random, (pixels, 1), lit, lie, [0, 1, 0]);
            let light = |pixels: std::ops::Range<u64>| Light::of(&page.channels[3 * pixels.start as usize..3 * pixels.end as usize]).lit;
            assert_eq!(light(0..pixels), lit);
            assert!(lie != Where::Front || light(0..lit) == lit);
            assert!(lie != Where::End || light(pixels - lit..pixels) == lit);
        }
    }
}
