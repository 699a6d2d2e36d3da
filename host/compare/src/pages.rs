//! Pages as stored channels, 256E + M or 0, and the strips of them.

use crate::compare::Told;
use crate::light::{self, Light};
use crate::powers;
use crate::random::Random;
use dofnihet::Header;

/// A page before it is a strip: three channels a pixel.
#[derive(Clone, Debug)]
pub struct Page {
    pub width: u64,
    pub height: u64,
    pub key: u64,
    pub white: Option<u64>,
    pub channels: Vec<u16>,
}

impl Page {
    pub fn new(header: Header, channels: Vec<u16>) -> Page {
        let Header { width, height, key, white } = header;
        Page {
            width,
            height,
            key,
            white,
            channels,
        }
    }

    pub fn header(&self) -> Header {
        header_with(self.width, self.height, self.key, self.white)
    }

    /// The same page with this white point, or with none.
    pub fn with_white(self, white: Option<u64>) -> Page {
        Page { white, ..self }
    }

    /// Size, key, white where there is one, the channel words, end.
    pub fn strip(&self) -> Vec<u32> {
        let mut strip = Vec::with_capacity(self.channels.len() + 4);
        strip.push(1 << 28 | (self.width as u32) << 14 | self.height as u32);
        strip.push(2 << 28 | self.key as u32);
        strip.extend(self.white.map(|white| WHITE_KIND | white as u32));
        strip.extend(self.channels.iter().enumerate().map(|(i, &c)| (4 + i as u32 % 3) << 28 | c as u32));
        strip.push(7 << 28 | (self.channels.len() / 3) as u32);
        strip
    }

    /// What tally and map tell of it.
    pub fn told(&self) -> Told {
        Light::of(&self.channels).told()
    }

    /// Pixel n, counted from 0, where there is one.
    pub fn pixel(&self, n: u64) -> Option<[u16; 3]> {
        let pixels = self.channels.as_chunks().0;
        usize::try_from(n).ok().and_then(|n| pixels.get(n).copied())
    }

    /// One row of pixels.
    pub fn row(key: u64, pixels: &[[u16; 3]]) -> Page {
        Page {
            width: pixels.len() as u64,
            height: 1,
            key,
            white: None,
            channels: pixels.concat(),
        }
    }

    /// One column of pixels.
    pub fn column(key: u64, pixels: &[[u16; 3]]) -> Page {
        Page::row(key, pixels).turned()
    }

    /// A row as a column, or a column as a row.
    pub fn turned(self) -> Page {
        Page {
            width: self.height,
            height: self.width,
            ..self
        }
    }
}

/// The kind of a white word, in its place.
pub const WHITE_KIND: u32 = 3 << 28;

/// Whether a strip, or the strip that a row begins with, has a white word.
pub fn has_white(strip: &[u32]) -> bool {
    strip.get(2).is_some_and(|word| word >> 28 == 3)
}

/// The words of a sound strip between its header and its end.
pub fn channel_words(strip: &[u32]) -> &[u32] {
    &strip[2 + has_white(strip) as usize..strip.len() - 1]
}

pub const fn stored(exponent: u64, mantissa: u64) -> u16 {
    (256 * exponent + mantissa) as u16
}

/// The least and the greatest lit channel.
pub const DIM: u16 = stored(72, 128);
pub const BRIGHT: u16 = stored(184, 255);

pub fn is_channel(value: u16) -> bool {
    value == 0 || (72..=184).contains(&(value >> 8)) && value & 0xFF >= 128
}

/// What the pixels of a page are like.
#[derive(Clone, Copy, Debug, PartialEq, Eq)]
pub enum Look {
    /// Every exponent alike likely, in each channel.
    Wide,
    /// Exponents near one another, as on a photograph.
    Near,
    /// Three equal channels.
    Grey,
    /// Exponents 72 and 184 in one pixel.
    Far,
    /// Many black channels and black pixels.
    Mixed,
    /// One lit channel a pixel.
    Single,
    /// Luminances at and around powers of two.
    Powers,
    /// One pixel bright, the others dim.
    Spark,
    /// One pixel dim, the others bright.
    Speck,
    /// Least and greatest exponents and mantissas.
    Edges,
    /// One colour throughout.
    Flat,
    /// No pixel lit.
    Black,
    /// One pixel lit.
    Lone,
    /// As few pixels lit as are enough, one more or one fewer.
    Few,
}

pub const LOOKS: [Look; 14] = [
    Look::Wide,
    Look::Near,
    Look::Grey,
    Look::Far,
    Look::Mixed,
    Look::Single,
    Look::Powers,
    Look::Spark,
    Look::Speck,
    Look::Edges,
    Look::Flat,
    Look::Black,
    Look::Lone,
    Look::Few,
];

pub fn page(random: &mut Random, look: Look, width: u64, height: u64) -> Page {
    let pixels = width * height;
    let base = random.between(72, 184);
    let odd = random.below(pixels);
    let flat = pixel(random, Look::Near, base);
    let few = if look == Look::Few {
        light::few(random, pixels)
    } else {
        Vec::new()
    };
    let mut channels = Vec::with_capacity(3 * pixels as usize);
    for i in 0..pixels {
        let made = match look {
            Look::Spark => [lit(random, if i == odd { 184 } else { 72 }, 3); 3],
            Look::Speck => [lit(random, if i == odd { 72 } else { 184 }, 3); 3],
            Look::Lone if i != odd => [0; 3],
            Look::Few if !few[i as usize] => [0; 3],
            Look::Flat => flat,
            _ => pixel(random, look, base),
        };
        channels.extend(made);
    }
    let header = random_header(random, width, height);
    Page::new(header, channels)
}

/// A header without a white point.
pub fn header(width: u64, height: u64, key: u64) -> Header {
    header_with(width, height, key, None)
}

/// A header with this white point or with none.
pub fn header_with(width: u64, height: u64, key: u64, white: Option<u64>) -> Header {
    Header { width, height, key, white }
}

/// A header of this size with any key, and with a white point or none.
pub fn random_header(random: &mut Random, width: u64, height: u64) -> Header {
    header_with(width, height, key(random), white(random))
}

/// Keys at the limits, the usual one, and any.
pub fn key(random: &mut Random) -> u64 {
    match random.below(5) {
        0 => 1,
        1 => 180,
        2 => 1000,
        _ => random.between(1, 1000),
    }
}

/// None, the limits of white points, and around the powers of ten between them.
pub const WHITES: [Option<u64>; 7] = [None, Some(10), Some(11), Some(99), Some(100), Some(999), Some(1000)];

/// A white point at the limits or any, or none half the time.
pub fn white(random: &mut Random) -> Option<u64> {
    match random.below(6) {
        0..=2 => None,
        3 => random.pick(&WHITES[1..]),
        _ => Some(random.between(10, 1000)),
    }
}

fn pixel(random: &mut Random, look: Look, base: u64) -> [u16; 3] {
    match look {
        Look::Near => [0; 3].map(|_| lit(random, base, 4)),
        Look::Grey => [wide(random); 3],
        Look::Far => far(random),
        Look::Mixed if random.one_in(3) => [0; 3],
        Look::Mixed => [0; 3].map(|_| if random.one_in(2) { 0 } else { wide(random) }),
        Look::Single => alone(random),
        Look::Powers => powers::pixel(random),
        Look::Edges => [0; 3].map(|_| edge(random)),
        Look::Black => [0; 3],
        Look::Few => lit_pixel(random),
        _ => [0; 3].map(|_| wide(random)),
    }
}

pub(crate) fn wide(random: &mut Random) -> u16 {
    stored(random.between(72, 184), random.between(128, 255))
}

/// A lit channel with an exponent at most so far from the base.
pub fn lit(random: &mut Random, base: u64, distance: u64) -> u16 {
    let exponent = random.between(base - distance, base + distance);
    stored(exponent.clamp(72, 184), random.between(128, 255))
}

fn far(random: &mut Random) -> [u16; 3] {
    let mut pixel = [0; 3].map(|_| wide(random));
    let dim = random.below(3) as usize;
    pixel[dim] = stored(72, random.between(128, 255));
    pixel[(dim + 1 + random.below(2) as usize) % 3] = stored(184, random.between(128, 255));
    pixel
}

fn alone(random: &mut Random) -> [u16; 3] {
    let mut pixel = [0; 3];
    pixel[random.below(3) as usize] = if random.one_in(4) { edge(random) } else { wide(random) };
    pixel
}

/// One channel lit, or more.
fn lit_pixel(random: &mut Random) -> [u16; 3] {
    let mut pixel = [0; 3].map(|_| random.below(2) as u16 * wide(random));
    pixel[random.below(3) as usize] = wide(random);
    pixel
}

fn edge(random: &mut Random) -> u16 {
    random.pick(&[
        0,
        DIM,
        stored(72, 255),
        stored(128, 255),
        stored(129, 128),
        stored(184, 128),
        BRIGHT,
    ])
}

/// Widths and heights of small pages, any shape.
pub fn small_size(random: &mut Random) -> (u64, u64) {
    match random.below(4) {
        0 => (1, random.between(1, 40)),
        1 => (random.between(1, 40), 1),
        _ => (random.between(1, 9), random.between(1, 9)),
    }
}

/// Long and flat shapes, up to the greatest side.
pub const SHAPES: [(u64, u64); 10] = [
    (1, 1),
    (1, 2),
    (2, 1),
    (1, 300),
    (300, 1),
    (1, 8192),
    (8192, 1),
    (8192, 2),
    (2, 8192),
    (97, 61),
];
