//! Elements of source pictures: of all sizes, and on both sides of each limit. Which are refused, and what the others are stored as, is
//! written here once more, by the list and in floating point, which is exact for them.

use crate::elements::{Elements, Kind};
use crate::light;
use crate::pages::is_channel;
use crate::random::Random;

/// The bits of 2^56 as a single.
const BRIGHTEST: u32 = 0x5B80_0000;

/// NaN or infinity.
pub fn half_is_no_number(half: u16) -> bool {
    half & 0x7C00 == 0x7C00
}

/// The refusal of a single: 5 no number, 6 too bright, or none.
pub fn single_refusal(single: u32) -> Option<u64> {
    match single {
        _ if single & 0x7F80_0000 == 0x7F80_0000 => Some(5),
        BRIGHTEST..0x8000_0000 if single > BRIGHTEST => Some(6),
        _ => None,
    }
}

/// (m + 1/2) · 2^(e-136) above 2^56, that is, 2m + 1 above 2^(193-e).
pub fn rgbe_is_too_bright(mantissa: u8, exponent: u8) -> bool {
    match 193 - exponent as i32 {
        limit if limit < 0 => true,
        limit => (2 * mantissa as u128 + 1) > 1 << limit.min(100),
    }
}

/// For every exponent field and either sign: each mantissa of eight bits with its neighbours on both sides.
pub fn singles() -> Vec<u32> {
    let mut list = Vec::new();
    for top in 0..512_u32 {
        for step in 0..128_u32 {
            let middle = top << 23 | step << 16;
            list.extend([middle, middle + 1, middle + 0x7FFF, middle + 0x8000, middle + 0xFFFF]);
        }
    }
    list
}

/// Singles around the limits: 2^-57 and 2^56, subnormals, infinities.
pub fn edge_singles() -> Vec<u32> {
    let middles = [
        0,
        1 << 22,
        1 << 23,
        0x2300_0000,
        0x2380_0000,
        0x3F80_0000,
        0x5B00_0000,
        BRIGHTEST,
        0x7F80_0000,
        0x7FC0_0000,
    ];
    let near = middles
        .iter()
        .flat_map(|&m: &u32| (0..7).map(move |i| m.wrapping_add(i).wrapping_sub(3)));
    near.flat_map(|s| [s, s ^ 0x8000_0000]).collect()
}

/// An element that is accepted, of any size.
pub fn half(random: &mut Random) -> u16 {
    match random.below(8) {
        0 => 0,
        1 => random.between(0, 0x3FF) as u16,
        2 => random.between(0x8000, 0xFBFF) as u16,
        3 => (random.below(31) << 10) as u16,
        _ => random.below(0x7C00) as u16,
    }
}

pub fn single(random: &mut Random) -> u32 {
    let fraction = random.below(1 << 23) as u32;
    match random.below(10) {
        0 => random.pick(&[0, 0x8000_0000, 0x2300_0000, 0x2300_0001, 0x22FF_FFFF, 0x5B7F_FFFF, BRIGHTEST]),
        1 => fraction,
        2 => 0x8000_0000 | (random.below(255) as u32) << 23 | fraction,
        3 => (random.below(183) as u32) << 23,
        _ => (random.between(66, 182) as u32) << 23 | fraction,
    }
}

/// Four bytes of a pixel that is accepted.
pub fn rgbe(random: &mut Random) -> [u8; 4] {
    let exponent = match random.below(6) {
        0 => 0,
        1 => random.pick(&[71, 72, 73, 78, 79, 80, 184, 185, 186, 193]),
        _ => random.between(1, 193),
    } as u8;
    let greatest = (0..=255).rev().find(|&m| !rgbe_is_too_bright(m, exponent)).unwrap();
    let byte = |random: &mut Random| match random.below(6) {
        0 => 0,
        1 => greatest,
        _ => random.between(0, greatest as u64) as u8,
    };
    [byte(random), byte(random), byte(random), exponent]
}

pub fn stored(random: &mut Random) -> u16 {
    match random.below(4) {
        0 => 0,
        _ => crate::pages::stored(random.between(72, 184), random.between(128, 255)),
    }
}

/// A source of so many pixels that is accepted.
pub fn accepted(random: &mut Random, kind: Kind, pixels: u64) -> Elements {
    let count = 3 * pixels;
    match kind {
        Kind::Rgbe => Elements::Rgbe((0..pixels).flat_map(|_| rgbe(random)).collect()),
        Kind::Half => Elements::Half((0..count).map(|_| half(random)).collect()),
        Kind::Single => Elements::Single((0..count).map(|_| single(random)).collect()),
        Kind::Stored => Elements::Stored((0..count).map(|_| stored(random)).collect()),
    }
}

/// A source of so many pixels that is accepted, most of them black: about as few are left as are enough.
pub fn few(random: &mut Random, kind: Kind, pixels: u64) -> Elements {
    let mut elements = accepted(random, kind, pixels);
    let left = light::few(random, pixels);
    for place in (0..elements.count()).filter(|place| !left[place / kind.of_pixel()]) {
        elements.set(place, 0);
    }
    elements
}

/// A source of so many pixels made of any bits, near the limits more often than not.
pub fn wild(random: &mut Random, kind: Kind, pixels: u64) -> Elements {
    let mut elements = accepted(random, kind, pixels);
    let edges = edge_singles();
    for _ in 0..random.between(1, 3) {
        let place = random.below(elements.count() as u64) as usize;
        let value = match kind {
            Kind::Rgbe => random.pick(&[0, 1, 127, 128, 185, 186, 193, 194, 255]),
            Kind::Half => random.pick(&[0x7BFF, 0x7C00, 0x7C01, 0x7FFF, 0xFBFF, 0xFC00, 0xFC01, 0xFFFF, 1, 0x8001]),
            Kind::Single => random.pick(&edges),
            Kind::Stored => random.pick(&[
                1, 0x80, 0xFF, 0x47FF, 0x4780, 0x4800, 0x487F, 0xB87F, 0xB980, 0xFFFF, 0x4880, 0xB8FF,
            ]),
        };
        let value = if random.one_in(3) { random.bits() as u32 } else { value };
        elements.set(place, value);
    }
    elements
}

/// The refusal of the first element that has one, by the list.
pub fn first_refusal(elements: &Elements) -> Option<(u64, u64)> {
    match elements {
        Elements::Rgbe(list) => {
            let bright = |i: &usize| i % 4 != 3 && list[i | 3] != 0 && rgbe_is_too_bright(list[*i], list[i | 3]);
            (0..list.len()).find(bright).map(|i| (6, i as u64))
        }
        Elements::Half(list) => list.iter().position(|&half| half_is_no_number(half)).map(|i| (5, i as u64)),
        Elements::Single(list) => {
            let refused = |(i, &single): (usize, &u32)| single_refusal(single).map(|number| (number, i as u64));
            list.iter().enumerate().find_map(refused)
        }
        Elements::Stored(list) => list.iter().position(|&value| !is_channel(value)).map(|i| (8, i as u64)),
    }
}

/// The channels that accepted elements are stored as.
pub fn channels(elements: &Elements) -> Vec<u16> {
    let two = |power: i32| 2_f64.powi(power);
    match elements {
        Elements::Rgbe(list) => {
            let byte = |m: u8, e: u8| {
                if e == 0 {
                    0
                } else {
                    channel((m as f64 + 0.5) * two(e as i32 - 136))
                }
            };
            list.chunks_exact(4)
                .flat_map(|p| [byte(p[0], p[3]), byte(p[1], p[3]), byte(p[2], p[3])])
                .collect()
        }
        Elements::Half(list) => list.iter().map(|&half| channel(half_worth(half))).collect(),
        Elements::Single(list) => list.iter().map(|&single| channel(f32::from_bits(single) as f64)).collect(),
        Elements::Stored(list) => list.clone(),
    }
}

fn half_worth(half: u16) -> f64 {
    let fraction = (half & 0x3FF) as f64;
    let worth = match half >> 10 & 0x1F {
        0 => fraction * 2_f64.powi(-24),
        exponent => (1024.0 + fraction) * 2_f64.powi(exponent as i32 - 25),
    };
    if half < 0x8000 {
        worth
    } else {
        -worth
    }
}

/// What a lit channel is worth.
pub fn worth(channel: u16) -> f64 {
    ((channel & 0xFF) as f64 + 0.5) * 2_f64.powi((channel >> 8) as i32 - 136)
}

/// A finite number stored; at or below 2^-57 it is black.
pub fn channel(worth: f64) -> u16 {
    if worth <= 2_f64.powi(-57) {
        return 0;
    }
    let exponent = (72..=184).find(|e| worth <= 2_f64.powi(e - 128)).expect("not too bright");
    let mantissa = (worth * 2_f64.powi(136 - exponent)).floor().min(255.0);
    crate::pages::stored(exponent as u64, mantissa as u64)
}
