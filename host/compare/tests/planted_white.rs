//! The comparisons of white points can fail: one mistake at a time is put over the library, in one call, and every mistake must be noticed
//! wherever it is put.

use compare::band_faults::{self, alone_and_in_pairs, Fault as BandFault};
use compare::compare::{raw_header, raw_step, raw_tally};
use compare::pages::{has_white, Page, WHITES, WHITE_KIND};
use compare::rounds::{band_fault_case, strip_fault_case};
use compare::strip_faults::{self, is_of_white, Fault};
use compare::{bands, planted, source_faults, Calls, Compare, Difference, Elements, Kind, Library, Told};
use dofnihet::raw::{Header as RawHeader, Outcome, Row, Step, Tally};
use dofnihet::{Header, Source};
use second::Refusal;

/// An answer by its number and place.
trait Answer {
    fn told(&self) -> Told;

    /// The answer with this number and place, its other fields 0.
    fn only(told: Told) -> Self;
}

/// The answer of each of these types, and how it is made of a refusal.
macro_rules! answers {
    ($($answer:ty, $refused:expr;)*) => {
        $(impl Answer for $answer {
            fn told(&self) -> Told {
                (self.number, self.place)
            }

            fn only((number, place): Told) -> $answer {
                $refused(Refusal { number, place })
            }
        })*
    };
}

answers! {
    Outcome, |Refusal { number, place }| Outcome { number, place };
    RawHeader, |refusal| raw_header(&Err(refusal));
    Row, |Refusal { number, place }| Row { number, place, start: 0, length: 0 };
    Step, |refusal| raw_step(&Err(refusal));
    Tally, |refusal| raw_tally(&Err(refusal));
}

/// A mistake that any call can make.
trait Mistake: Copy + Sync {
    /// The words as they are looked at.
    fn read(self, words: &[u32]) -> Vec<u32>;

    /// What is told in place of this.
    fn retold(self, words: &[u32], told: Told) -> Told;
}

#[derive(Clone, Copy, Debug, PartialEq, Eq)]
enum Call {
    Check,
    Header,
    Row,
    Step,
    Tally,
    Unpack,
    Map,
    HeaderOfBands,
    TallyOfBands,
    MapBands,
}

/// A mistake in one call.
#[derive(Clone, Copy, Debug)]
struct In<M>(M, Call);

/// Each mistake in each call.
fn in_each<M: Mistake>(mistakes: &[M], calls: &[Call]) -> Vec<In<M>> {
    let in_calls = |mistake: &M| {
        let mistake = *mistake;
        calls.iter().map(move |call| In(mistake, *call))
    };
    mistakes.iter().flat_map(in_calls).collect()
}

impl<M: Mistake> In<M> {
    fn asked<A: Answer>(&self, call: Call, words: &[u32], ask: impl FnOnce(&[u32]) -> A) -> A {
        let In(mistake, planted_call) = *self;
        if call != planted_call {
            return ask(words);
        }
        let answer = ask(&mistake.read(words));
        match mistake.retold(words, answer.told()) {
            told if told == answer.told() => answer,
            told => A::only(told),
        }
    }
}

impl<M: Mistake> Calls for In<M> {
    fn check(&self, strip: &[u32]) -> Outcome {
        self.asked(Call::Check, strip, |strip| Library.check(strip))
    }

    fn header(&self, strip: &[u32]) -> RawHeader {
        self.asked(Call::Header, strip, |strip| Library.header(strip))
    }

    fn row(&self, strip: &[u32], y: u64) -> Row {
        self.asked(Call::Row, strip, |strip| Library.row(strip, y))
    }

    fn step(&self, strip: &[u32], n: u64) -> Step {
        self.asked(Call::Step, strip, |strip| Library.step(strip, n))
    }

    fn tally(&self, strip: &[u32]) -> Tally {
        self.asked(Call::Tally, strip, |strip| Library.tally(strip))
    }

    fn unpack(&self, strip: &[u32], output: &mut [u16]) -> Outcome {
        self.asked(Call::Unpack, strip, |strip| Library.unpack(strip, output))
    }

    fn map(&self, strip: &[u32], output: &mut [u8]) -> Outcome {
        self.asked(Call::Map, strip, |strip| Library.map(strip, output))
    }

    fn header_of_bands(&self, row: &[u32]) -> RawHeader {
        self.asked(Call::HeaderOfBands, row, |row| Library.header_of_bands(row))
    }

    fn tally_of_bands(&self, row: &[u32]) -> Tally {
        self.asked(Call::TallyOfBands, row, |row| Library.tally_of_bands(row))
    }

    fn map_bands(&self, row: &[u32], output: &mut [u8]) -> Outcome {
        self.asked(Call::MapBands, row, |row| Library.map_bands(row, output))
    }
}

/// The words with the third one another.
fn with_third(words: &[u32], third: u32) -> Vec<u32> {
    let mut changed = words.to_vec();
    changed[2] = third;
    changed
}

/// Two greys, 1.0 and 0.5.
fn page() -> Page {
    Page::row(180, &[[0x80FF; 3], [0x7FFF; 3]])
}

mod checks {
    use super::*;

    // The checks of a strip with one mistake.
    planted! {
        SpareIgnored NineTaken ThousandOneTaken TenRefused ThousandRefused KindUnasked WordUnknown LengthWithoutWord
        SpareBeforeKey WhiteBeforeKey WhiteBeforeSpare SpareBehindLength WhiteBehindLength SpareWithoutPlace WhiteHasPlace
    }

    use Planted::*;

    /// What the library tells of the strip with its third word another.
    fn told_with_third(strip: &[u32], third: u32) -> Told {
        Library.check(&with_third(strip, third)).told()
    }

    /// What it tells of the strip with a good key.
    fn told_with_key(strip: &[u32]) -> Told {
        let mut changed = strip.to_vec();
        changed[1] = 0x2000_00B4;
        Library.check(&changed).told()
    }

    impl Mistake for Planted {
        fn read(self, strip: &[u32]) -> Vec<u32> {
            let Some(&third) = strip.get(2) else {
                return strip.to_vec();
            };
            match self {
                SpareIgnored if has_white(strip) => with_third(strip, third & 0xF000_FFFF),
                NineTaken if third == WHITE_KIND | 9 => with_third(strip, WHITE_KIND | 10),
                ThousandOneTaken if third == WHITE_KIND | 1001 => with_third(strip, WHITE_KIND | 1000),
                KindUnasked if Library.check(strip).number == 3 => with_third(strip, WHITE_KIND | third & 0x0FFF_FFFF),
                _ => strip.to_vec(),
            }
        }

        fn retold(self, strip: &[u32], told: Told) -> Told {
            let (third, white) = (strip.get(2).copied().unwrap_or(0), has_white(strip));
            let instead = match (self, told) {
                (TenRefused, (0, _)) if third == WHITE_KIND | 10 => Some((10, 0)),
                (ThousandRefused, (0, _)) if third == WHITE_KIND | 1000 => Some((10, 0)),
                (WordUnknown, (0, _)) if white => Some((3, 0)),
                (LengthWithoutWord, (3, _)) if white && strip.len().is_multiple_of(3) => Some((0, 0)),
                (SpareBeforeKey, (2, _)) if white => Some(told_with_key(strip)).filter(|told| *told == (7, 2)),
                (WhiteBeforeKey, (2, _)) => Some(told_with_key(strip)).filter(|told| told.0 == 10),
                (WhiteBeforeSpare, (7, 2)) if white => Some(told_with_third(strip, third & 0xF000_FFFF)).filter(|told| told.0 == 10),
                (SpareBehindLength, (7, 2)) | (WhiteBehindLength, (10, _)) if white => {
                    Some(told_with_third(strip, WHITE_KIND | 10)).filter(|told| told.0 == 3)
                }
                (SpareWithoutPlace, (7, 2)) if white => Some((7, 0)),
                (WhiteHasPlace, (10, _)) => Some((10, 2)),
                _ => None,
            };
            instead.unwrap_or(told)
        }
    }

    /// Two greys with each white point; a word of another kind in the white word's place; the faults of a white word alone and with one of
    /// the key or of the length.
    fn compared(calls: &dyn Calls) -> Result<(), Difference> {
        let mut compare = Compare::new(calls);
        for white in WHITES {
            let strip = page().with_white(white).strip();
            compare.strip(&strip)?;
            compare.strip(&with_third(&strip, 8 << 28 | 30))?;
        }
        for white in [None, Some(30)] {
            let list = strip_faults::faults(white);
            for fault in list.iter().filter(|fault| is_of_white(**fault)) {
                strip_fault_case(&mut compare, &[*fault], white)?;
                for other in [Fault::Key(0), Fault::Length(-1), Fault::Length(1)] {
                    strip_fault_case(&mut compare, &[*fault, other], white)?;
                }
            }
            strip_fault_case(&mut compare, &[Fault::Length(-1)], white)?;
        }
        strip_fault_case(&mut compare, &[Fault::White(0), Fault::WhiteSpare(1 << 16)], Some(30))
    }

    #[test]
    fn planted_checks() {
        let calls = [
            Call::Check,
            Call::Header,
            Call::Row,
            Call::Step,
            Call::Tally,
            Call::Unpack,
            Call::Map,
        ];
        let count = planted::each_noticed(In(Nothing, Call::Check), &in_each(PLANTED, &calls), compared);
        println!("planted mistakes in checks of white points: {count} noticed");
    }
}

mod answers {
    use super::*;

    // What is read back or converted, with one mistake.
    planted! {
        PresentUntold WhiteUntold WhiteToldAbsent PresentTold PresentOfRefused WhiteOfRefused UntoldOfBands
        RowFromWhite StepFromWhite UnpackFromWhite
        ZeroIsNone ZeroTaken WhiteCut OutsideClamped WordUnwritten WordAlways
        WhiteBeforeSize WhiteBeforeKey WhiteBehindLength WhiteBehindRoom WhiteBehindElements
    }

    use Planted::*;

    impl Planted {
        /// The header as it is looked at in converting.
        fn read(self, header: Header) -> Header {
            let white = match (self, header.white) {
                (ZeroIsNone, Some(0)) | (WordUnwritten, _) => None,
                (ZeroTaken, Some(0)) => Some(10),
                (WhiteCut, Some(white)) => Some(white as u16 as u64),
                (OutsideClamped, Some(white)) => Some(white.clamp(10, 1000)),
                (WordAlways, None) => Some(1000),
                (_, white) => white,
            };
            Header { white, ..header }
        }

        /// Whether 10 is told in place of a refusal with this number, or behind it.
        fn moves(self, number: u64) -> bool {
            match self {
                WhiteBeforeSize => number <= 2,
                WhiteBeforeKey => number == 2,
                WhiteBehindLength => number == 3,
                WhiteBehindRoom => matches!(number, 3 | 4),
                WhiteBehindElements => number > 2,
                _ => false,
            }
        }
    }

    /// Whether a white point is given that is bad.
    fn is_bad(header: Header) -> bool {
        header.white.is_some_and(|white| !(10..=1000).contains(&white))
    }

    impl Calls for Planted {
        fn convert(&self, source: Source, header: Header, output: &mut [u32]) -> Outcome {
            let told = Library.convert(source, self.read(header), output);
            match (self, told.number) {
                (WhiteBeforeSize | WhiteBeforeKey, number) if is_bad(header) && self.moves(number) => Outcome { number: 10, place: 0 },
                (WhiteBehindLength | WhiteBehindRoom | WhiteBehindElements, 10) => {
                    let good = Header { white: Some(10), ..header };
                    let other = Library.convert(source, good, &mut vec![0; output.len()]);
                    if self.moves(other.number) {
                        other
                    } else {
                        told
                    }
                }
                _ => told,
            }
        }

        fn header(&self, strip: &[u32]) -> RawHeader {
            let told = Library.header(strip);
            let (white, refused) = (told.white_present == 1, told.number > 0);
            let mut planted = told;
            match self {
                PresentUntold => planted.white_present = 0,
                WhiteUntold => planted.white = 0,
                WhiteToldAbsent if !white && !refused => planted.white = 1000,
                PresentTold if !white && !refused => planted.white_present = 1,
                PresentOfRefused if refused => planted.white_present = 1,
                WhiteOfRefused if refused && has_white(strip) => planted.white = strip[2] as u64 & 0xFFFF,
                _ => (),
            }
            planted
        }

        fn header_of_bands(&self, row: &[u32]) -> RawHeader {
            let told = Library.header_of_bands(row);
            let kept = (*self != UntoldOfBands) as u64;
            RawHeader {
                white_present: kept * told.white_present,
                white: kept * told.white,
                ..told
            }
        }

        fn row(&self, strip: &[u32], y: u64) -> Row {
            let told = Library.row(strip, y);
            let early = *self == RowFromWhite && told.number == 0 && has_white(strip);
            Row {
                start: told.start - early as u64,
                ..told
            }
        }

        fn step(&self, strip: &[u32], n: u64) -> Step {
            let told = Library.step(strip, n);
            let early = *self == StepFromWhite && told.number == 0 && told.over == 0 && has_white(strip);
            Step {
                red: if early {
                    strip[2 + 3 * n as usize] as u64 & 0xFFFF
                } else {
                    told.red
                },
                ..told
            }
        }

        fn unpack(&self, strip: &[u32], output: &mut [u16]) -> Outcome {
            let told = Library.unpack(strip, output);
            if *self == UnpackFromWhite && told.number == 0 && has_white(strip) {
                output[0] = strip[2] as u16;
            }
            told
        }
    }

    /// Two greys with each white point, converted and read back, alone and in bands; bad white points alone and with each other fault of a source.
    fn compared(calls: &dyn Calls) -> Result<(), Difference> {
        let mut compare = Compare::new(calls);
        for white in WHITES {
            let page = page().with_white(white);
            compare.convert(Elements::Stored(page.channels.clone()).source(), page.header())?;
            compare.strip(&page.strip())?;
            compare.strip(&page.strip()[..4])?;
            compare.bands(&page.strip().repeat(2))?;
        }
        for white in [0, 9, 1001, 65_536 + 30] {
            let bad = source_faults::Fault::White(white);
            for other in source_faults::faults(Kind::Stored) {
                let faults = if source_faults::together(bad, other) {
                    vec![bad, other]
                } else {
                    vec![bad]
                };
                let case = source_faults::Case::sound(Kind::Stored, None).with(&faults);
                compare.convert_into(case.elements.source(), case.header, case.room + 1)?;
            }
        }
        Ok(())
    }

    #[test]
    fn planted_answers() {
        let count = planted::each_noticed(Nothing, PLANTED, compared);
        println!("planted mistakes in reading back and converting white points: {count} noticed");
    }
}

mod joined {
    use super::*;

    // Bands with one mistake.
    planted! {
        FirstForAll LastForAll NoneIsLike WhitesAlike WordUncounted UnlikeHasPlace UnlikeBeforeWords SpareHasOwnPlace
    }

    use Planted::*;

    /// The strip with the white word of another, or with none where that has none.
    fn with_white_of(strip: &[u32], other: &[u32]) -> Vec<u32> {
        let mut changed = strip.to_vec();
        changed.splice(2..2 + has_white(strip) as usize, white_word(other).copied());
        changed
    }

    fn white_word(strip: &[u32]) -> Option<&u32> {
        strip.get(2).filter(|_| has_white(strip))
    }

    /// Whether the second band has another white point than the first.
    fn second_differs(row: &[u32]) -> bool {
        let list = bands::strips(row);
        list.len() > 1 && white_word(list[0]) != white_word(list[1])
    }

    impl Mistake for Planted {
        /// Only a row of sound strips is looked at otherwise.
        fn read(self, row: &[u32]) -> Vec<u32> {
            let list = bands::strips(row);
            let whole = list.iter().map(|strip| strip.len()).sum::<usize>() == row.len();
            if !whole || list.iter().any(|strip| Library.check(strip).number > 0) {
                return row.to_vec();
            }
            let taken = match self {
                FirstForAll => list.first(),
                LastForAll => list.last(),
                NoneIsLike => list.iter().find(|strip| has_white(strip)),
                WhitesAlike if list.iter().all(|strip| has_white(strip)) => list.first(),
                _ => None,
            };
            let seen = |strip: &&[u32]| match taken {
                Some(other) if self != NoneIsLike || !has_white(strip) => with_white_of(strip, other),
                _ => strip.to_vec(),
            };
            list.iter().flat_map(seen).collect()
        }

        fn retold(self, row: &[u32], told: Told) -> Told {
            match (self, told) {
                (WordUncounted, (0 | 4 | 9, _)) if has_white(row) => (3, 0),
                (UnlikeHasPlace, (21, 0)) => (21, 2),
                (UnlikeBeforeWords, (8, _)) if second_differs(row) => (21, 0),
                (SpareHasOwnPlace, (7, 18 | 34)) => (7, 2),
                _ => told,
            }
        }
    }

    /// Four rows in every cutting with each white point; each white point, or none, that a band has alone, and faults of white words, with
    /// a wild channel too.
    fn compared(calls: &dyn Calls) -> Result<(), Difference> {
        let mut compare = Compare::new(calls);
        let column = Page::column(180, &[[0x80FF; 3], [0x7FFF; 3], [0; 3], [0x8280, 0x8180, 0x80C0]]);
        for (white, heights) in WHITES
            .iter()
            .flat_map(|white| bands::cuttings(4).into_iter().map(move |heights| (white, heights)))
        {
            compare.cutting(&column.clone().with_white(*white), &heights)?;
        }
        let is_planted = |fault: &BandFault| match fault {
            BandFault::White(..) => true,
            BandFault::In(_, fault) => is_of_white(*fault) || *fault == Fault::Wild(0, 1),
            _ => false,
        };
        for white in [None, Some(30)] {
            let list: Vec<BandFault> = band_faults::faults(white).into_iter().filter(is_planted).collect();
            for faults in alone_and_in_pairs(&list) {
                band_fault_case(&mut compare, &faults, white)?;
            }
        }
        Ok(())
    }

    #[test]
    fn planted_bands() {
        let calls = [Call::HeaderOfBands, Call::TallyOfBands, Call::MapBands];
        let count = planted::each_noticed(In(Nothing, Call::HeaderOfBands), &in_each(PLANTED, &calls), compared);
        println!("planted mistakes in white points of bands: {count} noticed");
    }
}
