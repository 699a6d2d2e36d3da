//! Faults of a row of three bands and of the output, one or several at once, and which of them the request puts first.

use crate::compare::{Told, ACCEPTED};
use crate::damage;
use crate::light::DARK;
use crate::pages::{self, Page};
use crate::strip_faults::{self, answer, is_of_white, order, words, Asked};

#[derive(Clone, Copy, Debug, PartialEq, Eq)]
pub enum Fault {
    /// A fault of a strip, in this band.
    In(usize, strip_faults::Fault),
    /// A width, 1 or 4, that this band has alone; its pixels stay as many.
    Width(usize, u32),
    /// A key that this band has alone.
    Key(usize, u32),
    /// A white point, or none, that this band has alone.
    White(usize, Option<u64>),
    /// A black band lies before the three, so high that this one is the first to pass the greatest height.
    Above(usize),
    /// The row ends behind so many words of this band.
    Cut(usize, usize),
    /// So many bytes fewer than needed; all of them where more are taken than there are.
    Room(usize),
    /// Every pixel of the bands from this one to before that one black: no fault unless all three are.
    Black(usize, usize),
}

const BANDS: usize = 3;

/// The height of the black band before the three: with this one they pass 8,192 by a row.
fn height_above(band: usize) -> u64 {
    8193 - 2 * (band as u64 + 1)
}

/// The white point of each of the three.
fn whites(faults: &[Fault], white: Option<u64>) -> [Option<u64>; BANDS] {
    let mut whites = [white; BANDS];
    for fault in faults {
        if let Fault::White(band, other) = *fault {
            whites[band] = other;
        }
    }
    whites
}

/// The three bands, 2 x 2 pages with the white point or with none, what lies before them, and an output that is exact but for a fault.
#[derive(Clone, Debug)]
pub struct Case {
    white: Option<u64>,
    above: Option<usize>,
    bands: [strip_faults::Case; BANDS],
    cut: Option<(usize, usize)>,
    fewer: usize,
}

impl Case {
    pub fn new(faults: &[Fault], white: Option<u64>) -> Case {
        let mut case = Case {
            white,
            above: None,
            bands: whites(faults, white).map(strip_faults::Case::sound),
            cut: None,
            fewer: 0,
        };
        for fault in faults {
            case.put(*fault);
        }
        case
    }

    fn put(&mut self, fault: Fault) {
        match fault {
            Fault::In(band, fault) => self.bands[band].put(fault),
            Fault::Width(band, width) => self.bands[band].put(strip_faults::Fault::Size(width, 4 / width)),
            Fault::Key(band, key) => self.bands[band].put(strip_faults::Fault::Key(key)),
            Fault::White(..) => (),
            Fault::Above(band) => self.above = Some(band),
            Fault::Cut(band, words) => self.cut = Some((band, words)),
            Fault::Room(fewer) => self.fewer = fewer,
            Fault::Black(from, to) => self.bands[from..to].iter_mut().for_each(|band| damage::blacken(&mut band.strip)),
        }
    }

    /// The bands as they lie in the row.
    pub fn row(&self) -> Vec<u32> {
        let mut row = self.above.map_or(Vec::new(), |band| black(height_above(band), self.white));
        let (last, words) = self.cut.unwrap_or((BANDS, 0));
        row.extend(self.bands[..last].iter().flat_map(|band| &band.strip));
        row.extend(self.bands.iter().skip(last).take(1).flat_map(|band| &band.strip[..words]));
        row
    }

    pub fn room(&self) -> usize {
        let above = self.above.map_or(0, |band| 2 * height_above(band) as usize);
        (3 * above + 36).saturating_sub(self.fewer)
    }
}

/// A black band of the width 2.
fn black(height: u64, white: Option<u64>) -> Vec<u32> {
    let channels = vec![0; 6 * height as usize];
    Page::new(pages::header(2, height, 180), channels).with_white(white).strip()
}

/// Every fault of such a row on its own. Those that blacken words come first.
pub fn faults(white: Option<u64>) -> Vec<Fault> {
    use strip_faults::Fault::{Dark, Length, Room, Row, Short};
    let of_strip: Vec<strip_faults::Fault> = strip_faults::faults(white)
        .into_iter()
        .filter(|fault| !matches!(fault, Row(_) | Room(_) | Length(_) | Short(_) | Dark))
        .collect();
    let mut list: Vec<Fault> = [(0, 1), (1, 2), (2, 3), (0, 2), (0, 3)]
        .map(|(from, to)| Fault::Black(from, to))
        .to_vec();
    list.push(Fault::Cut(0, 0));
    for band in 0..BANDS {
        list.extend(of_strip.iter().map(|fault| Fault::In(band, *fault)));
        list.extend([1, 4].map(|width| Fault::Width(band, width)));
        list.extend([1, 181, 1000].map(|key| Fault::Key(band, key)));
        let others = [None, Some(10), Some(286), Some(1000)].into_iter().filter(|other| *other != white);
        list.extend(others.map(|other| Fault::White(band, other)));
        list.push(Fault::Above(band));
        list.extend([1, 2, 3, 14].map(|words| Fault::Cut(band, words)));
    }
    list.extend([1, 35, 36].map(Fault::Room));
    list
}

/// Whether both faults can be there at once: not two of a kind in one place, and no band before an empty row.
pub fn together(one: Fault, other: Fault) -> bool {
    use strip_faults::Fault::{Key, Size};
    match (one, other) {
        (Fault::In(band, fault), Fault::In(other, another)) => band != other || strip_faults::together(fault, another),
        (Fault::Width(band, _), Fault::Width(other, _) | Fault::In(other, Size(..))) => band != other,
        (Fault::Key(band, _), Fault::Key(other, _) | Fault::In(other, Key(_))) => band != other,
        (Fault::White(band, _), Fault::White(other, _)) => band != other,
        (Fault::White(band, _), Fault::In(other, fault)) => band != other || !is_of_white(fault),
        (Fault::In(..), Fault::Width(..) | Fault::Key(..) | Fault::White(..)) => together(other, one),
        (Fault::Above(_), Fault::Above(_) | Fault::Cut(0, 0)) | (Fault::Cut(0, 0), Fault::Above(_)) => false,
        (Fault::Cut(..), Fault::Cut(..)) | (Fault::Room(_), Fault::Room(_)) | (Fault::Black(..), Fault::Black(..)) => false,
        _ => true,
    }
}

/// Each fault alone, and each two that can be there at once.
pub fn alone_and_in_pairs(list: &[Fault]) -> Vec<Vec<Fault>> {
    let pairs = (0..list.len()).flat_map(|j| (0..j).map(move |i| [list[i], list[j]]));
    let pairs = pairs.filter(|[one, other]| together(*one, *other)).map(|pair| pair.to_vec());
    list.iter().map(|fault| vec![*fault]).chain(pairs).collect()
}

/// Where a fault is asked for: the band, whether behind the band's own checks, and where among those; behind all bands dark, then room.
type Stage = (usize, bool, usize);

/// Where a fault is asked for, and what is told then, for bands of these white points of which the first begins at `start`; not of widths,
/// keys and white points, which must be held against the first band's.
fn asked(fault: Fault, whites: &[Option<u64>; BANDS], start: u64) -> Option<(Stage, Told)> {
    match fault {
        Fault::In(band, fault) => {
            let before: usize = whites[..band].iter().map(|white| words(*white)).sum();
            Some((
                (band, false, order(fault)),
                moved(answer(fault, whites[band]), start + before as u64),
            ))
        }
        Fault::Cut(band, count) => {
            let fault = match count {
                0 | 1 => strip_faults::Fault::Short(count),
                _ => strip_faults::Fault::Length(count as i64 - words(whites[band]) as i64),
            };
            Some(((band, false, order(fault)), answer(fault, whites[band])))
        }
        Fault::Above(band) => Some(((band, true, 0), (21, 0))),
        Fault::Black(0, BANDS) => Some(((BANDS, false, 0), DARK)),
        Fault::Room(_) => Some(((BANDS, true, 0), (4, 0))),
        Fault::Width(..) | Fault::Key(..) | Fault::White(..) | Fault::Black(..) => None,
    }
}

/// What a strip is told where it begins at this index of the row: 7 and 8 have a place.
fn moved((number, place): Told, start: u64) -> Told {
    match number {
        7 | 8 => (number, place + start),
        _ => (number, place),
    }
}

/// The first band that is unlike the first of the row.
fn unlike(faults: &[Fault], above: bool, white: Option<u64>) -> Option<(Stage, Told)> {
    let mut kinds = vec![(2, 180, white); BANDS + above as usize];
    for fault in faults {
        match *fault {
            Fault::Width(band, width) => kinds[band + above as usize].0 = width,
            Fault::Key(band, key) => kinds[band + above as usize].1 = key,
            Fault::White(band, white) => kinds[band + above as usize].2 = white,
            _ => (),
        }
    }
    let band = kinds.iter().position(|kind| *kind != kinds[0])?;
    Some(((band - above as usize, true, 0), (21, 0)))
}

/// Whether the call looks for the fault at all.
fn seen(fault: Fault, asked: Asked) -> bool {
    match fault {
        Fault::Room(_) => asked == Asked::Map,
        Fault::Black(..) => asked != Asked::Strip,
        _ => true,
    }
}

/// Whether the row ends before the white word that the fault is of.
fn is_cut_off(fault: Fault, faults: &[Fault]) -> bool {
    match fault {
        Fault::In(band, fault) => is_of_white(fault) && faults.contains(&Fault::Cut(band, 2)),
        _ => false,
    }
}

/// What is told where these faults, and no others, are there; the header is asked for as a strip's check.
pub fn first(faults: &[Fault], asked_for: Asked, white: Option<u64>) -> Told {
    let above = faults.iter().find_map(|fault| match fault {
        Fault::Above(band) => Some(*band),
        _ => None,
    });
    let start = above.map_or(0, |band| black(height_above(band), white).len()) as u64;
    let whites = whites(faults, white);
    let seen = faults
        .iter()
        .filter(|fault| seen(**fault, asked_for) && !is_cut_off(**fault, faults));
    let all = seen
        .filter_map(|fault| asked(*fault, &whites, start))
        .chain(unlike(faults, above.is_some(), white));
    all.min_by_key(|(stage, _)| *stage).map_or(ACCEPTED, |(_, told)| told)
}
