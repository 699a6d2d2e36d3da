//! Faults of a strip, of the row asked for and of the output, one or several at once, and which of them the list puts first.

use crate::compare::{Told, ACCEPTED};
use crate::damage;
use crate::light::DARK;
use crate::pages::{self, Page, WHITE_KIND};

#[derive(Clone, Copy, Debug, PartialEq, Eq)]
pub enum Fault {
    /// The kind of the first word.
    FirstKind(u32),
    Size(u32, u32),
    /// Bits of the second word that are changed.
    Second(u32),
    Key(u32),
    /// Spare bits of the white word that are set.
    WhiteSpare(u32),
    /// The W of the white word.
    White(u32),
    /// Of a strip without the word, the first red word turned into one with these bits.
    RedAsWhite(u32),
    Row(u64),
    /// So many elements fewer than needed; all of them where more are taken than there are.
    Room(usize),
    /// Bits that are changed of a channel word, counted from the first.
    Foreign(usize, u32),
    /// Exponent and mantissa of a channel word, counted from the first.
    Wild(usize, u16),
    /// Bits of the end word that are changed.
    End(u32),
    /// So many words more or fewer, at the end.
    Length(i64),
    /// Only so many words, one or none.
    Short(usize),
    /// No pixel lit.
    Dark,
}

/// The calls that differ in what they check.
#[derive(Clone, Copy, Debug, PartialEq, Eq)]
pub enum Asked {
    Strip,
    Row,
    Unpack,
    Tally,
    Map,
}

/// The channels of the 2 x 2 page.
const CHANNELS: [u16; 12] = [0x80FF, 0x8180, 0, 0, 0, 0, 0x4880, 0xB8FF, 0x90C0, 0x48FF, 0xB880, 0];

/// The index of its first channel word.
fn front(white: Option<u64>) -> usize {
    2 + white.is_some() as usize
}

/// The number of its words.
pub fn words(white: Option<u64>) -> usize {
    front(white) + CHANNELS.len() + 1
}

/// A 2 x 2 page with a white point or without one, its last row, and an exact output, before any fault.
#[derive(Clone, Debug)]
pub struct Case {
    white: Option<u64>,
    pub strip: Vec<u32>,
    pub y: u64,
    pub room: usize,
}

impl Case {
    pub fn sound(white: Option<u64>) -> Case {
        let page = Page::new(pages::header(2, 2, 180), CHANNELS.to_vec()).with_white(white);
        Case {
            white,
            strip: page.strip(),
            y: 1,
            room: 12,
        }
    }

    pub fn with(mut self, faults: &[Fault]) -> Case {
        for fault in faults {
            self.put(*fault);
        }
        self
    }

    pub fn put(&mut self, fault: Fault) {
        let (strip, front) = (&mut self.strip, front(self.white));
        match fault {
            Fault::FirstKind(kind) => strip[0] = strip[0] & 0x0FFF_FFFF | kind << 28,
            Fault::Size(width, height) => strip[0] = strip[0] & 0xF000_0000 | width << 14 | height,
            Fault::Second(bits) => strip[1] ^= bits,
            Fault::Key(key) => strip[1] = strip[1] & 0xFFFF_0000 | key,
            Fault::WhiteSpare(bits) => strip[2] |= bits,
            Fault::White(white) => strip[2] = strip[2] & 0xFFFF_0000 | white,
            Fault::RedAsWhite(bits) => strip[2] = WHITE_KIND | bits,
            Fault::Row(y) => self.y = y,
            Fault::Room(fewer) => self.room = self.room.saturating_sub(fewer),
            Fault::Foreign(place, bits) => strip[front + place] ^= bits,
            Fault::Wild(place, value) => strip[front + place] = strip[front + place] & 0xFFFF_0000 | value as u32,
            Fault::End(bits) => strip[front + CHANNELS.len()] ^= bits,
            Fault::Length(more) => {
                let last = strip[strip.len() - 1];
                strip.resize((strip.len() as i64 + more) as usize, last);
            }
            Fault::Short(count) => strip.truncate(count),
            Fault::Dark => damage::blacken(strip),
        }
    }
}

/// Every fault of such a strip on its own. The one that blackens the words comes first, those that cut or lengthen the strip last.
pub fn faults(white: Option<u64>) -> Vec<Fault> {
    let mut list = vec![Fault::Dark];
    list.extend([0, 2, 3, 4, 7, 9, 15].map(Fault::FirstKind));
    let sizes = [
        (0, 2),
        (2, 0),
        (0, 0),
        (8193, 1),
        (1, 8193),
        (8192, 2049),
        (4097, 4096),
        (8192, 8192),
        (16383, 16383),
    ];
    list.extend(sizes.map(|(width, height)| Fault::Size(width, height)));
    list.extend([1 << 28, 1 << 29, 1 << 31, 1 << 16, 1 << 27, 0x0FFF_0000].map(Fault::Second));
    list.extend([0, 1001, 1024, 65535].map(Fault::Key));
    match white {
        Some(_) => {
            list.extend([1 << 16, 1 << 27, 0x0FFF_0000].map(Fault::WhiteSpare));
            list.extend([0, 9, 1001, 1024, 65535].map(Fault::White));
        }
        None => list.extend([0x80FF, 0, 9, 1001, 1 << 16 | 20, 1 << 27 | 0x80FF].map(Fault::RedAsWhite)),
    }
    list.extend([2, 3, 1 << 32, (1 << 32) + 1, u64::MAX].map(Fault::Row));
    list.extend([1, 11, 12].map(Fault::Room));
    for place in [0, 4, 7, 11] {
        list.extend([1 << 28, 2 << 28, 8 << 28, 1 << 16, 1 << 27].map(|bits| Fault::Foreign(place, bits)));
        list.extend([1, 0x80, 0x4780, 0x487F, 0xB800, 0xB980, 0xFFFF].map(|value| Fault::Wild(place, value)));
    }
    list.extend([1 << 28, 4 << 28, 8 << 28, 1, 4, 1 << 13, 1 << 27].map(Fault::End));
    list.extend([-1, 1, -3, 3, -13].map(Fault::Length));
    list.extend(white.map(|_| Fault::Length(-14)));
    list.extend([0, 1].map(Fault::Short));
    list
}

/// Whether both faults can be there at once: not two of a kind, but two of a word and two of different words. A red word that is a white
/// one has no other fault.
pub fn together(one: Fault, other: Fault) -> bool {
    match (one, other) {
        (Fault::RedAsWhite(_), Fault::RedAsWhite(_) | Fault::Foreign(0, _) | Fault::Wild(0, _)) => false,
        (Fault::Foreign(0, _) | Fault::Wild(0, _), Fault::RedAsWhite(_)) => false,
        _ => order(one) != order(other),
    }
}

/// Where the list asks for the fault.
pub fn order(fault: Fault) -> usize {
    match fault {
        Fault::Short(_) => 0,
        Fault::FirstKind(_) => 1,
        Fault::Size(..) => 2,
        Fault::Second(_) => 3,
        Fault::Key(_) => 4,
        Fault::WhiteSpare(_) => 5,
        Fault::RedAsWhite(bits) if bits >> 16 > 0 => 5,
        Fault::White(_) | Fault::RedAsWhite(_) => 6,
        Fault::Length(_) => 7,
        Fault::Row(_) => 8,
        Fault::Room(_) => 9,
        Fault::Foreign(place, _) => 10 + 2 * place,
        Fault::Wild(place, _) => 11 + 2 * place,
        Fault::End(_) => usize::MAX - 1,
        Fault::Dark => usize::MAX,
    }
}

/// What the list answers where it is the first.
pub fn answer(fault: Fault, white: Option<u64>) -> Told {
    let front = front(white);
    match fault {
        Fault::Short(_) | Fault::Length(_) => (3, 0),
        Fault::FirstKind(_) => (7, 0),
        Fault::Size(..) => (1, 0),
        Fault::Second(_) => (7, 1),
        Fault::Key(_) => (2, 0),
        Fault::WhiteSpare(_) => (7, 2),
        Fault::RedAsWhite(bits) if bits >> 16 > 0 => (7, 2),
        Fault::White(_) | Fault::RedAsWhite(_) => (10, 0),
        Fault::Row(_) => (20, 0),
        Fault::Room(_) => (4, 0),
        Fault::Foreign(place, _) => (7, (front + place) as u64),
        Fault::Wild(place, _) => (8, (front + place) as u64),
        Fault::End(_) => (7, (front + CHANNELS.len()) as u64),
        Fault::Dark => DARK,
    }
}

/// Whether the call looks for the fault at all.
fn seen(fault: Fault, asked: Asked) -> bool {
    match fault {
        Fault::Row(_) => asked == Asked::Row,
        Fault::Room(_) => matches!(asked, Asked::Unpack | Asked::Map),
        Fault::Dark => matches!(asked, Asked::Tally | Asked::Map),
        _ => true,
    }
}

/// Whether the fault is one of a white word.
pub fn is_of_white(fault: Fault) -> bool {
    matches!(fault, Fault::WhiteSpare(_) | Fault::White(_) | Fault::RedAsWhite(_))
}

/// What the list answers where these faults, and no others, are there. Of two words none is white.
pub fn first(faults: &[Fault], asked: Asked, white: Option<u64>) -> Told {
    let two_words = |fault: &Fault| matches!(fault, Fault::Length(more) if words(white) as i64 + more == 2);
    let cut = faults.iter().any(two_words);
    let seen = faults.iter().filter(|fault| seen(**fault, asked) && !(cut && is_of_white(**fault)));
    seen.min_by_key(|fault| order(**fault))
        .map_or(ACCEPTED, |fault| answer(*fault, white))
}
