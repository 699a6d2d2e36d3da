//! The comparisons of bands can fail: bands joined here, one mistake at a time, and every mistake must be noticed.

use compare::band_faults::{alone_and_in_pairs, Fault};
use compare::pages::{self, Page};
use compare::rounds::band_fault_case;
use compare::{bands, planted, strip_faults, Calls, Compare, Difference, Library};
use dofnihet::raw::{Header, Outcome, Tally};

// Bands joined from the library's answers to single strips, with one mistake.
planted! {
    EmptyTaken CutTaken LeftOverTaken LeftOverRead OwnPlace
    WidthUnasked KeyUnasked LimitsOfBandAlone LimitNotReached UnlikeFirst UnlikeHasPlace UnlikeNotTallied
    OwnAverages FirstAverage MeanOfAverages LitOfFirst SumOfLast ExtremesOfFirst ExtremesOfLast ExtremesOfDark
    RoomBeforeWords RoomBeforeUnlike RoomOfWholeRow RoomOfFirst RoomUnasked BandsExchanged LevelsBehind LevelsOfRefused
    HeightOfFirst HeightOfRefused LitOfRefused
}

use Planted::*;

fn width(band: &[u32]) -> u64 {
    (band[0] >> 14 & 0x3FFF) as u64
}

fn height(band: &[u32]) -> u64 {
    (band[0] & 0x3FFF) as u64
}

fn outcome(number: u64, place: usize) -> Outcome {
    let place = place as u64;
    Outcome { number, place }
}

impl Planted {
    /// The bands of a row, or the first fault and the bands before it. A room is told where an output is lent.
    fn split(self, row: &[u32], room: Option<usize>) -> (Vec<&[u32]>, Option<Outcome>) {
        let (mut bands, mut start) = (Vec::new(), 0);
        if row.is_empty() && self != EmptyTaken {
            return (bands, Some(outcome(3, 0)));
        }
        while start < row.len() {
            let rest = &row[start..];
            let length = dofnihet::strip_length((width(rest) * height(rest)) as usize);
            let band = &rest[..length.min(rest.len())];
            let small = room.is_some_and(|room| room + 3 * bands.len() + 3 < start + length);
            let own = self.own(band, start, small);
            let unlike = self.unlike(&bands, band, start, small);
            let (one, other) = if self == UnlikeFirst { (unlike, own) } else { (own, unlike) };
            match one.or(other) {
                Some(fault) if fault.number == 0 => return (bands, None),
                Some(fault) => return (bands, Some(fault)),
                None => bands.push(band),
            }
            start += band.len();
        }
        (bands, None)
    }

    /// The band's own checks; number 0 ends the row here.
    fn own(self, band: &[u32], start: usize, small: bool) -> Option<Outcome> {
        let told = Library.check(band);
        match (self, told.number) {
            (CutTaken, 3) if band.len() > 1 && start > 0 => Some(outcome(0, 0)),
            (LeftOverTaken, 3) if band.len() == 1 && start > 0 => Some(outcome(0, 0)),
            (LeftOverRead, 3) if band.len() == 1 && band[0] >> 28 != 1 => Some(outcome(7, start)),
            (RoomBeforeWords, 0 | 7 | 8) if small => Some(outcome(4, 0)),
            (_, 0) => None,
            (OwnPlace, 7 | 8) | (_, 1..=3) => Some(told),
            _ => Some(outcome(told.number, told.place as usize + start)),
        }
    }

    /// 21, for a band below others.
    fn unlike(self, bands: &[&[u32]], band: &[u32], start: usize, small: bool) -> Option<Outcome> {
        let first = bands.first()?;
        let joined = bands.iter().chain([&band]).map(|band| height(band)).sum::<u64>();
        let limit = if self == LimitNotReached { 8191 } else { 8192 };
        let faults = [
            self != WidthUnasked && width(band) != width(first),
            self != KeyUnasked && band.len() > 1 && band[1] != first[1],
            self != LimitsOfBandAlone && (joined > limit || joined * width(band) > 1 << 24),
        ];
        if !faults.contains(&true) {
            return None;
        }
        match self {
            UnlikeHasPlace => Some(outcome(21, start)),
            RoomBeforeUnlike if small => Some(outcome(4, 0)),
            _ => Some(outcome(21, 0)),
        }
    }

    /// The room that is asked for.
    fn needed(self, row: &[u32], bands: &[&[u32]]) -> usize {
        match self {
            RoomOfWholeRow => row.len() - 3,
            RoomOfFirst => bands[0].len() - 3,
            RoomUnasked => 0,
            _ => bands.iter().map(|band| band.len() - 3).sum(),
        }
    }

    fn tally_of(self, bands: &[&[u32]]) -> Tally {
        let mut tally = Library.tally(&tall(bands));
        let all: Vec<Tally> = bands.iter().map(|band| Library.tally(band)).collect();
        let extremes_of = |other: &Tally| Tally {
            darkest_exponent: other.darkest_exponent,
            darkest_mantissa: other.darkest_mantissa,
            brightest_exponent: other.brightest_exponent,
            brightest_mantissa: other.brightest_mantissa,
            ..tally
        };
        match self {
            FirstAverage => tally.average = all[0].average,
            MeanOfAverages => tally.average = all.iter().map(|tally| tally.average).sum::<i64>().div_euclid(all.len() as i64),
            LitOfFirst => tally.lit = all[0].lit,
            SumOfLast => tally.sum = all[all.len() - 1].sum,
            ExtremesOfFirst => tally = extremes_of(&all[0]),
            ExtremesOfLast => tally = extremes_of(&all[all.len() - 1]),
            ExtremesOfDark if all.iter().any(|tally| tally.lit == 0) => (tally.darkest_exponent, tally.darkest_mantissa) = (0, 0),
            _ => (),
        }
        tally
    }
}

/// The strip of all rows.
fn tall(bands: &[&[u32]]) -> Vec<u32> {
    let header = pages::header(
        width(bands[0]),
        bands.iter().map(|band| height(band)).sum(),
        (bands[0][1] & 0xFFFF) as u64,
    );
    let words = bands.iter().flat_map(|band| &band[2..band.len() - 1]);
    Page::new(header, words.map(|word| *word as u16).collect()).strip()
}

/// The levels of each strip under its own average.
fn levels(strip: &[u32]) -> Vec<u8> {
    let mut levels = vec![0; strip.len() - 3];
    Library.map(strip, &mut levels);
    levels
}

impl Calls for Planted {
    fn header_of_bands(&self, row: &[u32]) -> Header {
        let (bands, fault) = self.split(row, None);
        let (number, place) = fault.map_or((0, 0), |fault| (fault.number, fault.place));
        let mut header = Header {
            number,
            place,
            width: 0,
            height: 0,
            key: 0,
            white_present: 0,
            white: 0,
        };
        if let (Some(first), true) = (bands.first(), fault.is_none() || *self == HeightOfRefused) {
            header.height = bands.iter().map(|band| height(band)).sum();
            if fault.is_none() {
                (header.width, header.key) = (width(first), (first[1] & 0xFFFF) as u64);
            }
            if *self == HeightOfFirst {
                header.height = height(first);
            }
        }
        header
    }

    fn tally_of_bands(&self, row: &[u32]) -> Tally {
        let (bands, fault) = self.split(row, None);
        match fault.filter(|fault| *self != UnlikeNotTallied || fault.number != 21) {
            None if !bands.is_empty() => self.tally_of(&bands),
            _ => {
                let refused = Library.tally(&[]);
                let (number, place) = fault.map_or((0, 0), |fault| (fault.number, fault.place));
                let lit = if *self == LitOfRefused { bands.len() as u64 } else { 0 };
                Tally {
                    number,
                    place,
                    lit,
                    ..refused
                }
            }
        }
    }

    fn map_bands(&self, row: &[u32], output: &mut [u8]) -> Outcome {
        let (bands, fault) = self.split(row, Some(output.len()));
        if let (LevelsOfRefused, Some(_), Some(first)) = (self, fault, bands.first()) {
            levels(first).iter().zip(&mut *output).for_each(|(level, byte)| *byte = *level);
        }
        match fault {
            Some(fault) => return fault,
            None if bands.is_empty() => return outcome(0, 0),
            None if Library.tally(&tall(&bands)).number == 9 => return outcome(9, 0),
            None if output.len() < self.needed(row, &bands) => return outcome(4, 0),
            None => (),
        }
        let mut made = match self {
            OwnAverages => bands.iter().flat_map(|band| levels(band)).collect(),
            BandsExchanged => levels(&tall(&bands.iter().rev().copied().collect::<Vec<&[u32]>>())),
            _ => levels(&tall(&bands)),
        };
        if *self == LevelsBehind {
            made.push(1);
        }
        made.iter().zip(output).for_each(|(level, byte)| *byte = *level);
        outcome(0, 0)
    }
}

/// Four rows, one of them dark, in every cutting; faults alone and in pairs; a word left over; the greatest height and one row more.
fn compared(calls: &dyn Calls) -> Result<(), Difference> {
    let mut compare = Compare::new(calls);
    let page = Page::column(180, &[[0x80FF; 3], [0x7FFF; 3], [0; 3], [0x8280, 0x8180, 0x80C0]]);
    for heights in bands::cuttings(page.height) {
        compare.cutting(&page, &heights)?;
    }
    let list = [
        Fault::In(1, strip_faults::Fault::Wild(4, 1)),
        Fault::Width(1, 4),
        Fault::Key(2, 181),
        Fault::Above(1),
        Fault::Cut(0, 0),
        Fault::Cut(1, 1),
        Fault::Cut(1, 8),
        Fault::Cut(2, 1),
        Fault::Room(1),
        Fault::Room(35),
    ];
    for faults in alone_and_in_pairs(&list) {
        band_fault_case(&mut compare, &faults, None)?;
    }
    compare.bands(&[&bands::row(&page, &[2, 2])[..], &[0]].concat())?;
    compare.bands(&bands::black(1, &[8191, 1]))?;
    compare.bands(&bands::black(1, &[8192, 1]))?;
    Ok(())
}

#[test]
fn planted_mistakes() {
    let count = planted::each_noticed(Nothing, PLANTED, compared);
    println!("planted mistakes with bands: {count} noticed");
}
