//! Pages, strips and generated numbers for the tests.

use second::{Extremes, Header, Number, Refusal, Rules, SecondStep, Source};

pub const BLACK: u16 = 0;
/// The half 1.0 and the half 0.5.
pub const ONE: u16 = 0x3C00;
pub const HALF: u16 = 0x3800;

pub const NO_ROOM_LIMIT: usize = usize::MAX;

/// A second step for each setting of all switches.
pub fn every_rule() -> impl Iterator<Item = SecondStep> {
    (0..16).map(|bits| {
        SecondStep::new(Rules {
            dark_page: bits & 1 != 0,
            white_word: bits & 2 != 0,
            nearest_steps: bits & 4 != 0,
            screen_curve: bits & 8 != 0,
        })
    })
}

/// The rules as built.
pub fn built() -> SecondStep {
    SecondStep::new(Rules::BUILT)
}

/// Without 2026-03: a dark page is accepted, as by document 01.
pub fn taking_dark_pages() -> SecondStep {
    SecondStep::new(Rules {
        dark_page: false,
        ..Rules::BUILT
    })
}

/// Without 2026-05: no strip has a white word.
pub fn without_white() -> SecondStep {
    SecondStep::new(Rules {
        white_word: false,
        ..Rules::BUILT
    })
}

/// Without 2026-06: T is rounded down, as by document 01.
pub fn rounded_down() -> SecondStep {
    SecondStep::new(Rules {
        nearest_steps: false,
        ..Rules::BUILT
    })
}

pub fn header(width: u64, height: u64, key: u64) -> Header {
    Header {
        width,
        height,
        key,
        white: None,
    }
}

/// The channel (E, M) as 16 bits.
pub fn stored(exponent: u16, mantissa: u16) -> u16 {
    256 * exponent + mantissa
}

/// The luminance (E, M).
pub fn number(exponent: i32, mantissa: u32) -> Number {
    Number { exponent, mantissa }
}

/// The darkest and the brightest as (E, M).
pub fn dark_and_bright(darkest: (i32, u32), brightest: (i32, u32)) -> Option<Extremes> {
    Some(Extremes {
        darkest: number(darkest.0, darkest.1),
        brightest: number(brightest.0, brightest.1),
    })
}

pub fn refused<T>(number: u64, place: u64) -> Result<T, Refusal> {
    Err(Refusal { number, place })
}

/// One row of pixels, three elements each.
fn one_row(source: &[u16], key: u64, white: Option<u64>) -> Header {
    Header {
        width: source.len() as u64 / 3,
        height: 1,
        key,
        white,
    }
}

pub fn half_strip(step: &SecondStep, source: &[u16], key: u64) -> Vec<u32> {
    step.convert(Source::Half(source), one_row(source, key, None), NO_ROOM_LIMIT)
        .unwrap()
}

pub fn stored_strip(step: &SecondStep, source: &[u16], key: u64, white: Option<u64>) -> Vec<u32> {
    step.convert(Source::Stored(source), one_row(source, key, white), NO_ROOM_LIMIT)
        .unwrap()
}

/// Each value three times.
pub fn grey(values: &[u16]) -> Vec<u16> {
    values.iter().flat_map(|&value| [value; 3]).collect()
}

/// A row of bands of one grey pixel each, of the key 180.
pub fn grey_bands(greys: &[u16]) -> Vec<u32> {
    let step = built();
    greys
        .iter()
        .flat_map(|&value| stored_strip(&step, &[value; 3], 180, None))
        .collect()
}

/// A page of the key 180 whose first pixels are grey 1.0 and whose others are black.
pub fn partly_lit(lit: u64, width: u64, height: u64) -> Vec<u32> {
    let greys: Vec<u16> = (0..width * height).map(|pixel| if pixel < lit { ONE } else { BLACK }).collect();
    built()
        .convert(Source::Half(&grey(&greys)), header(width, height, 180), NO_ROOM_LIMIT)
        .unwrap()
}

pub fn levels(step: &SecondStep, strip: &[u32]) -> Vec<u8> {
    step.levels(strip, NO_ROOM_LIMIT).unwrap()
}

pub fn bytes(strip: &[u32]) -> Vec<u8> {
    strip.iter().flat_map(|word| word.to_le_bytes()).collect()
}

/// The program's example.
pub const EXAMPLE: [u32; 9] = [
    0x10008001, 0x200000B4, 0x400080FF, 0x500080FF, 0x600080FF, 0x40007FFF, 0x50007FFF, 0x60007FFF, 0x70000002,
];

/// As the example, with both pixels black.
pub const BLACK_EXAMPLE: [u32; 9] = [
    0x10008001, 0x200000B4, 0x40000000, 0x50000000, 0x60000000, 0x40000000, 0x50000000, 0x60000000, 0x70000002,
];

/// A strip of two pixels, alone or as a band, with one of its words another.
pub struct Fault {
    pub word: (usize, u32),
    pub number: u64,
    /// Counted from the strip's start, where the number has a place.
    pub place: Option<usize>,
}

impl Fault {
    pub fn refusal<T>(&self, start: usize) -> Result<T, Refusal> {
        refused(self.number, self.place.map_or(0, |place| (start + place) as u64))
    }
}

pub const fn fault(word: (usize, u32), number: u64, place: Option<usize>) -> Fault {
    Fault { word, number, place }
}

/// In the order of the checks; a cut strip is 3 between the fourth and the fifth.
pub const FAULTS: [Fault; 11] = [
    fault((0, 0x20008001), 7, Some(0)),
    fault((0, 0x10008000), 1, None),
    fault((1, 0x200100B4), 7, Some(1)),
    fault((1, 0x200003E9), 2, None),
    fault((2, 0x500080FF), 7, Some(2)),
    fault((2, 0x400080FF ^ 0x80), 8, Some(2)),
    fault((3, 0x500180FF), 7, Some(3)),
    fault((5, 0x40008000), 8, Some(5)),
    fault((7, 0x6000B980), 8, Some(7)),
    fault((7, 0x50000001), 7, Some(7)),
    fault((8, 0x70000004), 7, Some(8)),
];
pub const BEFORE_THE_LENGTH: usize = 4;

/// Where each of three bands of two pixels begins.
pub const STARTS: [usize; 3] = [0, 9, 18];

/// Another width (1 by 2, as long as the example) and another key.
pub const UNLIKE: [Fault; 2] = [fault((0, 0x10004002), 21, None), fault((1, 0x200000B5), 21, None)];

/// Puts the fault into the strip that begins at `start`.
pub fn set(row: &mut [u32], start: usize, fault: &Fault) {
    row[start + fault.word.0] = fault.word.1;
}

/// What every call on a strip answers, the row asked and the room lent being good; a reader does at every step.
pub fn on_strip(step: &SecondStep, strip: &[u32]) -> Result<(), Refusal> {
    let answer = step.check(strip);
    assert_eq!(step.header(strip).map(|_| ()), answer);
    assert_eq!(step.row(strip, 0).map(|_| ()), answer);
    for n in [0, 1, 2, u64::MAX] {
        assert_eq!(step.reader_step(strip, n).map(|_| ()), answer);
    }
    assert_eq!(step.unpack(strip, NO_ROOM_LIMIT).map(|_| ()), answer);
    assert_eq!(step.tally(strip).map(|_| ()), answer);
    assert_eq!(step.levels(strip, NO_ROOM_LIMIT).map(|_| ()), answer);
    answer
}

/// What every call on a row answers, the room lent being good and the page no dark one.
pub fn on_row(step: &SecondStep, row: &[u32]) -> Result<(), Refusal> {
    let answer = step.header_of_bands(row).map(|_| ());
    assert_eq!(step.tally_of_bands(row).map(|_| ()), answer);
    assert_eq!(step.levels_of_bands(row, NO_ROOM_LIMIT).map(|_| ()), answer);
    assert_eq!(step.tall_strip(row).map(|_| ()), answer);
    answer
}

/// Every way of cutting so many rows: bit y of `cuts` cuts below row y.
pub fn all_cuttings(height: u64) -> impl Iterator<Item = Vec<u64>> {
    (0..1 << (height - 1)).map(move |cuts: u64| {
        let mut heights = vec![1];
        for y in 0..height - 1 {
            match cuts >> y & 1 {
                0 => *heights.last_mut().unwrap() += 1,
                _ => heights.push(1),
            }
        }
        heights
    })
}

/// "the joined tally equals that of the one tall strip"; "their levels one after another are those of the tall page."
/// A refusal, too, where the words are good.
pub fn check_cutting(step: &SecondStep, strip: &[u32], heights: &[u64]) {
    let row = step.cut(strip, heights);
    assert_eq!(step.header_of_bands(&row), step.header(strip));
    assert_eq!(step.tally_of_bands(&row), step.tally(strip));
    assert_eq!(step.levels_of_bands(&row, NO_ROOM_LIMIT), step.levels(strip, NO_ROOM_LIMIT));
    assert_eq!(step.tall_strip(&row), Ok(strip.to_vec()));
}

/// A linear congruential generator; the upper bits of its state are used.
pub struct Generator(u64);

impl Generator {
    /// Prints the seed; where the test fails, that is shown.
    pub fn new(seed: u64) -> Generator {
        println!("seed {seed}");
        Generator(seed)
    }

    pub fn next(&mut self) -> u64 {
        self.0 = self
            .0
            .wrapping_mul(6_364_136_223_846_793_005)
            .wrapping_add(1_442_695_040_888_963_407);
        self.0 >> 32
    }

    pub fn below(&mut self, limit: u64) -> u64 {
        self.next() % limit
    }

    /// A full 64-bit number.
    pub fn limb(&mut self) -> u64 {
        self.next() << 32 | self.next()
    }

    /// A stored channel, sometimes black.
    pub fn channel(&mut self) -> u16 {
        match self.below(4) {
            0 => BLACK,
            _ => stored(72 + self.below(113) as u16, 128 + self.below(128) as u16),
        }
    }

    pub fn page(&mut self, pixels: usize) -> Vec<u16> {
        (0..3 * pixels).map(|_| self.channel()).collect()
    }
}
