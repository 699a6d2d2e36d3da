//! Pages by their scaled luminances: which of them a page reaches, and channels that tell what becomes of them.

use crate::calls::{Calls, Library};
use crate::pages::{self, stored, Page, DIM};
use crate::random::Random;
use crate::steps::{self, WEIGHTS};
use crate::values;
use dofnihet::Header;
use std::ops::RangeInclusive;

/// Every stored number with one of these exponents.
pub fn numbers(exponents: RangeInclusive<u64>) -> impl Iterator<Item = u16> {
    exponents.flat_map(|exponent| (128..=255).map(move |mantissa| stored(exponent, mantissa)))
}

pub struct Pixel {
    pub channels: [u16; 3],
    pub luminance: u16,
    pub scaled: u16,
}

impl Pixel {
    /// Its levels under this display luminance.
    pub fn levels(&self, display: u16) -> [u8; 3] {
        self.channels.map(|channel| steps::level(channel, display, self.luminance))
    }
}

/// The lit pixels of a strip, each with its number, under the average that the library tells.
pub fn pixels(strip: &[u32]) -> Vec<(usize, Pixel)> {
    let (tally, key) = (Library.tally(strip), Library.header(strip).key);
    let average = stored(tally.exponent, tally.mantissa);
    let pixel = |words: &[u32; 3]| {
        let channels = words.map(|word| word as u16);
        let luminance = steps::luminance(channels);
        Pixel {
            channels,
            luminance,
            scaled: steps::scaled_luminance(luminance, average, key),
        }
    };
    let all = pages::channel_words(strip).as_chunks().0.iter().enumerate();
    all.filter(|(_, words)| words.iter().any(|word| *word as u16 > 0))
        .map(|(number, words)| (number, pixel(words)))
        .collect()
}

/// A pixel of a telling page: one channel with this number, and the binary logarithm of its luminance without the others.
struct Bright {
    number: u16,
    place: usize,
    luminance: f64,
}

impl Bright {
    fn new(number: u16, place: usize) -> Bright {
        Bright {
            number,
            place,
            luminance: (values::worth(number) * WEIGHTS[place] as f64 / 100.0).log2(),
        }
    }

    /// The other channels have any level under this display luminance, as far as they are below the first.
    fn pixel(&self, random: &mut Random, display: f64) -> [u16; 3] {
        let mut pixel = [0; 3].map(|_| {
            let level = random.between(1, 255) as f64 / 255.0;
            values::channel((self.luminance.exp2() * level / display).min(values::worth(self.number)))
        });
        pixel[self.place] = self.number;
        pixel
    }
}

/// A page with a pixel for each number, in one of its channels; the others are the dimmest. The other channels of a pixel are so far below
/// that their levels are neither 0 nor clipped, where display luminance is above 1; floating point only chooses them.
pub fn telling_page(random: &mut Random, numbers: &[u16], header: Header) -> Page {
    let brights: Vec<Bright> = numbers
        .iter()
        .map(|&number| Bright::new(number, random.below(3) as usize))
        .collect();
    let pixels = (header.width * header.height) as usize;
    let dims = pixels - numbers.len();
    let sum: f64 = brights.iter().map(|bright| bright.luminance).sum();
    let mean = (sum + dims as f64 * Bright::new(DIM, 2).luminance) / pixels as f64;
    let mut channels = Vec::with_capacity(3 * pixels);
    for bright in &brights {
        let scaled = (bright.luminance - mean).exp2() * header.key as f64 / 1000.0;
        channels.extend(bright.pixel(random, display(scaled, header.white)));
    }
    channels.extend([0, 0, DIM].repeat(dims));
    Page::new(header, channels)
}

/// L/(1+L), or L(1 + L/w²)/(1 + L), about.
fn display(scaled: f64, white: Option<u64>) -> f64 {
    let squared = white.map_or(f64::INFINITY, |white| (white * white) as f64 / 100.0);
    scaled * (1.0 + scaled / squared) / (1.0 + scaled)
}
