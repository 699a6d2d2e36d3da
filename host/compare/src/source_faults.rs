//! Faults of a source picture, one or several at once, and which of them the list puts first.

use crate::compare::{Told, ACCEPTED};
use crate::elements::{Elements, Kind};
use crate::pages;
use dofnihet::Header;

#[derive(Clone, Copy, Debug, PartialEq, Eq)]
pub enum Fault {
    Size(u64, u64),
    Key(u64),
    White(u64),
    /// So many elements more or fewer; all of them where more are taken than there are.
    Length(i64),
    /// So many words fewer than needed; all of them where more are taken than there are.
    Room(usize),
    /// An element and its refusal's number. An RGBE pixel gets exponent 185 with it.
    Element(usize, u32, u64),
}

const SIZES: [(u64, u64); 20] = [
    (0, 2),
    (2, 0),
    (0, 0),
    (8193, 1),
    (1, 8193),
    (8192, 2049),
    (2049, 8192),
    (4097, 4096),
    (8192, 8192),
    (0x1_0002, 2),
    (2, 0x1_0002),
    (0x1_0000_0002, 2),
    (2, 0x1_0000_0002),
    (1 << 32, 1 << 32),
    (1 << 63, 2),
    (2, (1 << 63) + 2),
    ((1 << 62) + 1, 4),
    (u64::MAX, 1),
    (1, u64::MAX),
    (u64::MAX, u64::MAX),
];
const KEYS: [u64; 6] = [0, 1001, 0x1_00B4, 0x1_0000_00B4, 1 << 63, u64::MAX];
const WHITES: [u64; 10] = [0, 1, 9, 1001, 65535, 0x1_0014, 1 << 32, 0x1_0000_0014, 1 << 63, u64::MAX];

/// A 2 x 2 page with a white point or without one and an exact output, before any fault.
#[derive(Clone, Debug)]
pub struct Case {
    pub elements: Elements,
    pub header: Header,
    pub room: usize,
}

impl Case {
    pub fn sound(kind: Kind, white: Option<u64>) -> Case {
        let elements = match kind {
            Kind::Rgbe => Elements::Rgbe(vec![1, 2, 3, 136, 0, 255, 127, 128, 0, 0, 0, 0, 9, 8, 7, 72]),
            Kind::Half => Elements::Half(vec![0x3C00, 0x3C01, 1, 0, 0, 0, 0x7BFF, 0x8000, 0xFBFF, 0x3FF, 0x400, 0x3555]),
            Kind::Single => Elements::Single(vec![
                0x3F80_0000,
                0x3F80_0001,
                1,
                0,
                0,
                0,
                0x5B80_0000,
                0x8000_0000,
                0xFF7F_FFFF,
                0x2300_0000,
                0x2300_0001,
                0x3EAA_AAAB,
            ]),
            Kind::Stored => Elements::Stored(vec![0x80FF, 0x8180, 0, 0, 0, 0, 0x4880, 0xB8FF, 0x90C0, 0x48FF, 0xB880, 0]),
        };
        let header = pages::header_with(2, 2, 180, white);
        Case {
            elements,
            header,
            room: header.strip_length(),
        }
    }

    pub fn with(mut self, faults: &[Fault]) -> Case {
        for fault in faults {
            self.put(*fault);
        }
        self
    }

    fn put(&mut self, fault: Fault) {
        match fault {
            Fault::Size(width, height) => (self.header.width, self.header.height) = (width, height),
            Fault::Key(key) => self.header.key = key,
            Fault::White(white) => self.header.white = Some(white),
            Fault::Length(more) => self.elements.resize((self.elements.count() as i64 + more).max(0) as usize),
            Fault::Room(fewer) => self.room = self.room.saturating_sub(fewer),
            Fault::Element(place, value, _) => {
                if self.elements.kind() == Kind::Rgbe {
                    self.elements.set(place | 3, 185);
                    self.tame(place | 3);
                }
                self.elements.set(place, value);
            }
        }
    }

    /// No other channel of the RGBE pixel is too bright at exponent 185, unless a fault made it so.
    fn tame(&mut self, end: usize) {
        if let Elements::Rgbe(list) = &mut self.elements {
            for byte in &mut list[end - 3..end] {
                if *byte == 255 {
                    *byte = 127;
                }
            }
        }
    }
}

/// Every fault on its own, those of the elements at the first, a middle and the last channel. Lengths come last: they move elements.
pub fn faults(kind: Kind) -> Vec<Fault> {
    let mut list: Vec<Fault> = SIZES.iter().map(|&(width, height)| Fault::Size(width, height)).collect();
    list.extend(KEYS.map(Fault::Key));
    list.extend(WHITES.map(Fault::White));
    list.extend([1, 3, 14, 15].map(Fault::Room));
    let values: &[(u32, u64)] = match kind {
        Kind::Rgbe => &[(128, 6), (254, 6)],
        Kind::Half => &[(0x7C00, 5), (0xFC00, 5), (0x7C01, 5), (0xFFFF, 5)],
        Kind::Single => &[
            (0x7F80_0000, 5),
            (0xFF80_0000, 5),
            (0x7FC0_0000, 5),
            (0xFF80_0001, 5),
            (0x5B80_0001, 6),
            (0x7F7F_FFFF, 6),
        ],
        Kind::Stored => &[(1, 8), (0x4780, 8), (0x487F, 8), (0xB800, 8), (0xB980, 8), (0xFFFF, 8)],
    };
    let places: [usize; 4] = match kind {
        Kind::Rgbe => [0, 5, 6, 14],
        _ => [0, 4, 7, 11],
    };
    list.extend(
        places
            .iter()
            .flat_map(|&p| values.iter().map(move |&(value, number)| Fault::Element(p, value, number))),
    );
    list.extend([-1, 1, -100, -(kind.of_pixel() as i64), kind.of_pixel() as i64].map(Fault::Length));
    list
}

/// Whether both faults can be there at once.
pub fn together(one: Fault, other: Fault) -> bool {
    stage(one) != stage(other)
}

/// Where the fault is asked for: 1, 2, 10, 3, 4, then elements in order.
fn stage(fault: Fault) -> usize {
    match fault {
        Fault::Size(..) => 1,
        Fault::Key(_) => 2,
        Fault::White(_) => 3,
        Fault::Length(_) => 4,
        Fault::Room(_) => 5,
        Fault::Element(place, ..) => 6 + place,
    }
}

/// What the list answers where these faults, and no others, are there.
pub fn first(faults: &[Fault]) -> Told {
    match faults.iter().min_by_key(|fault| stage(**fault)) {
        None => ACCEPTED,
        Some(Fault::Size(..)) => (1, 0),
        Some(Fault::Key(_)) => (2, 0),
        Some(Fault::White(_)) => (10, 0),
        Some(Fault::Length(_)) => (3, 0),
        Some(Fault::Room(_)) => (4, 0),
        Some(Fault::Element(place, _, number)) => (*number, *place as u64),
    }
}
