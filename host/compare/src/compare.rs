//! Each call made on both sides, and every field and element compared.

use crate::calls::Calls;
use crate::counts::Counts;
use crate::elements::Elements;
use crate::lent::{Element, Lent};
use crate::light::Light;
use crate::pages::{channel_words, has_white};
use crate::random::Random;
use dofnihet::raw::{Header as RawHeader, Outcome, Row, Step, Tally};
use dofnihet::{Header, Source};
use second::{Refusal, Rules, SecondStep};
use std::fmt;

/// Number and place of what both answered; both are 0 where a call accepts.
pub type Told = (u64, u64);

pub const ACCEPTED: Told = (0, 0);

/// The first difference that was seen.
pub struct Difference(pub String);

impl fmt::Debug for Difference {
    fn fmt(&self, f: &mut fmt::Formatter) -> fmt::Result {
        f.write_str(&self.0)
    }
}

/// Fails with the seed where a difference was seen.
#[track_caller]
pub fn same<T>(seed: u64, answer: Result<T, Difference>) -> T {
    match answer {
        Ok(t) => t,
        Err(difference) => panic!("seed {seed}: {difference:?}"),
    }
}

pub struct Compare<'a> {
    pub(crate) calls: &'a dyn Calls,
    pub(crate) second: SecondStep,
    pub counts: Counts,
    /// The first half of demand 3 is checked on each page of at most so many lit pixels.
    pub mean_limit: u64,
    salt: u64,
}

impl<'a> Compare<'a> {
    pub fn new(calls: &'a dyn Calls) -> Compare<'a> {
        Compare {
            calls,
            second: SecondStep::new(Rules::BUILT),
            counts: Counts::none(),
            mean_limit: 12,
            salt: 0,
        }
    }

    /// Converting into an output of so many words; the strip is the outcome where both accept.
    pub fn convert_into(&mut self, source: Source, header: Header, room: usize) -> Result<(Told, Vec<u32>), Difference> {
        let expected = self.second.convert(second_source(source), second_header(header), room);
        let read = Elements::copy(source);
        let mut output = self.lend::<u32>(room);
        let outcome = self.calls.convert(read.source(), header, output.output());
        let what = || format!("convert {} of {}, room {room}", show_source(source), show(&header));
        let told = self.outcome(&expected, outcome, &what)?;
        let strip = expected.unwrap_or_default();
        output.holds(&strip).map_err(|fault| different(&what, fault))?;
        unchanged(&Elements::copy(source), std::hint::black_box(&read), &what)?;
        Ok((told, strip))
    }

    /// Converting into outputs longer than needed, exact, too short by one, and empty.
    pub fn convert(&mut self, source: Source, header: Header) -> Result<(Told, Vec<u32>), Difference> {
        let room = source_room(source, header);
        let (told, strip) = self.convert_into(source, header, room + 7)?;
        let needed = if told == ACCEPTED { strip.len() } else { room };
        for room in other_rooms(needed) {
            self.convert_into(source, header, room)?;
        }
        Ok((told, strip))
    }

    pub fn check(&mut self, strip: &[u32]) -> Result<Told, Difference> {
        let (calls, told) = (self.calls, told(&self.second.check(strip)));
        let what = || format!("check {}", show_strip(strip));
        let expected = Outcome {
            number: told.0,
            place: told.1,
        };
        self.read(strip, told, expected, |read| calls.check(read), &what)?;
        Ok(told)
    }

    pub fn header(&mut self, strip: &[u32]) -> Result<RawHeader, Difference> {
        let (calls, expected) = (self.calls, self.second.header(strip));
        let what = || format!("header of {}", show_strip(strip));
        self.read(strip, told(&expected), raw_header(&expected), |read| calls.header(read), &what)
    }

    pub fn row(&mut self, strip: &[u32], y: u64) -> Result<Told, Difference> {
        let (calls, expected) = (self.calls, self.second.row(strip, y));
        let what = || format!("row {y} of {}", show_strip(strip));
        let (number, place) = told(&expected);
        let part = expected.unwrap_or(0..0);
        let expected = Row {
            number,
            place,
            start: part.start as u64,
            length: part.len() as u64,
        };
        self.read(strip, (number, place), expected, |read| calls.row(read, y), &what)?;
        Ok((number, place))
    }

    /// Step n of a reader, as the library told it.
    pub fn step(&mut self, strip: &[u32], n: u64) -> Result<Step, Difference> {
        let (calls, expected) = (self.calls, self.second.reader_step(strip, n));
        let what = || format!("step {n} of {}", show_strip(strip));
        self.read(strip, told(&expected), raw_step(&expected), |read| calls.step(read, n), &what)
    }

    /// The tally, as the library told it.
    pub fn tally(&mut self, strip: &[u32]) -> Result<Tally, Difference> {
        let (calls, expected) = (self.calls, self.second.tally(strip));
        let what = || format!("tally of {}", show_strip(strip));
        self.read(strip, told(&expected), raw_tally(&expected), |read| calls.tally(read), &what)
    }

    /// Unpacking into an output of so many elements.
    pub fn unpack(&mut self, strip: &[u32], room: usize) -> Result<Told, Difference> {
        let (calls, expected) = (self.calls, self.second.unpack(strip, room));
        let what = || format!("unpack {}, room {room}", show_strip(strip));
        let (told, _) = self.write(strip, room, expected, |read, output| calls.unpack(read, output), &what)?;
        Ok(told)
    }

    /// Mapping into an output of so many bytes; the levels as the library left them, none where both refuse.
    pub fn map(&mut self, strip: &[u32], room: usize) -> Result<(Told, Vec<u8>), Difference> {
        let (calls, expected) = (self.calls, self.second.levels(strip, room));
        let what = || format!("map {}, room {room}", show_strip(strip));
        self.write(strip, room, expected, |read, output| calls.map(read, output), &what)
    }

    /// Every call on a strip, with several rows, steps and outputs, and demand 3 where the page is accepted. It tells what tally and map do,
    /// which refuse a dark page too.
    pub fn strip(&mut self, strip: &[u32]) -> Result<Told, Difference> {
        let sound = self.check(strip)? == ACCEPTED;
        self.header(strip)?;
        for y in rows(strip) {
            self.row(strip, y)?;
        }
        for n in step_numbers(strip) {
            self.step(strip, n)?;
        }
        let tally = self.tally(strip)?;
        let needed = strip.len().saturating_sub(3 + has_white(strip) as usize);
        self.unpack(strip, needed + 7)?;
        let (told, levels) = self.map(strip, needed + 7)?;
        for room in other_rooms(needed) {
            self.unpack(strip, room)?;
            self.map(strip, room)?;
        }
        if sound {
            self.page(strip, told, &tally, &levels)?;
        }
        Ok(told)
    }

    /// A sound strip by its lit pixels: tally and map refuse it as dark, or demand 3 holds.
    pub(crate) fn page(&mut self, strip: &[u32], told: Told, tally: &Tally, levels: &[u8]) -> Result<(), Difference> {
        let light = Light::of(channel_words(strip));
        self.counts.light(light);
        if [told, (tally.number, tally.place)] != [light.told(); 2] {
            return Err(Difference(format!("{light:?} does not tell {told:?} of {}", show_strip(strip))));
        }
        match light.is_dark() {
            true => Ok(()),
            false => self.demand(strip, tally, levels),
        }
    }

    /// Demand 3 on an accepted page, with the average and levels that the library told.
    fn demand(&mut self, strip: &[u32], tally: &Tally, levels: &[u8]) -> Result<(), Difference> {
        self.counts.pages += 1;
        self.counts.white += has_white(strip) as u64;
        self.counts.pixels += levels.len() as u64 / 3;
        if !is_whole(tally) {
            return Err(Difference(format!("{tally:?} lacks a number of {}", show_strip(strip))));
        }
        self.distances(strip, tally, levels)?;
        if tally.lit <= self.mean_limit {
            self.mean(strip, tally.average)?;
        }
        Ok(())
    }

    /// The second half of demand 3.
    pub fn distances(&mut self, strip: &[u32], tally: &Tally, levels: &[u8]) -> Result<(), Difference> {
        let average = second::Average {
            steps: tally.average,
            exponent: tally.exponent as u8,
            mantissa: tally.mantissa as u8,
        };
        let distances = self.second.level_distances(strip, average, levels);
        self.counts.levels += distances.compared;
        self.counts.worst = self.counts.worst.max(distances.worst);
        match distances.first_failure {
            None if distances.compared == 3 * tally.lit => Ok(()),
            None => Err(Difference(format!(
                "{} levels measured of {}",
                distances.compared,
                show_strip(strip)
            ))),
            Some(i) => Err(Difference(format!(
                "level {i} is too far from the exact value: {}",
                show_strip(strip)
            ))),
        }
    }

    /// The first half of demand 3.
    pub fn mean(&mut self, strip: &[u32], average: i64) -> Result<(), Difference> {
        self.counts.mean(self.second.mean_above(strip, average));
        match self.second.mean_holds(strip, average) {
            true => Ok(()),
            false => Err(Difference(format!("average {average} is not that of {}", show_strip(strip)))),
        }
    }

    /// A call that only reads words; its answer is told where it is the expected one.
    pub(crate) fn read<T: PartialEq + fmt::Debug>(
        &mut self,
        words: &[u32],
        told: Told,
        expected: T,
        call: impl Fn(&[u32]) -> T,
        what: &dyn Fn() -> String,
    ) -> Result<T, Difference> {
        let read = words.to_vec();
        let answer = call(&read);
        unchanged(words, std::hint::black_box(&read), what)?;
        self.count(told);
        equal(&expected, &answer, what)?;
        Ok(answer)
    }

    /// A call that reads words and is lent an output of so many elements; what it left there, nothing where both refuse.
    pub(crate) fn write<T: Element>(
        &mut self,
        words: &[u32],
        room: usize,
        expected: Result<Vec<T>, Refusal>,
        call: impl Fn(&[u32], &mut [T]) -> Outcome,
        what: &dyn Fn() -> String,
    ) -> Result<(Told, Vec<T>), Difference> {
        let read = words.to_vec();
        let mut output = self.lend::<T>(room);
        let outcome = call(&read, output.output());
        unchanged(words, std::hint::black_box(&read), what)?;
        let told = self.outcome(&expected, outcome, what)?;
        let made = expected.unwrap_or_default();
        output.holds(&made).map_err(|fault| different(what, fault))?;
        Ok((told, output.front(made.len()).to_vec()))
    }

    fn lend<T: Element>(&mut self, room: usize) -> Lent<T> {
        self.salt += 1;
        Lent::new(room, self.salt.wrapping_mul(0xD6E8_FEB8_6659_FD93))
    }

    fn count(&mut self, told: Told) {
        self.counts.calls += 1;
        self.counts.refused += (told != ACCEPTED) as u64;
    }

    fn outcome<T>(&mut self, expected: &Result<T, Refusal>, outcome: Outcome, what: &dyn Fn() -> String) -> Result<Told, Difference> {
        let told = told(expected);
        self.count(told);
        equal(&told, &(outcome.number, outcome.place), what)?;
        Ok(told)
    }
}

pub(crate) fn told<T>(answer: &Result<T, Refusal>) -> Told {
    match answer {
        Ok(_) => ACCEPTED,
        Err(refusal) => (refusal.number, refusal.place),
    }
}

/// The seven fields of a header; free fields are 0.
pub fn raw_header(answer: &Result<second::Header, Refusal>) -> RawHeader {
    let (number, place) = told(answer);
    let (width, height, key) = answer.as_ref().map_or((0, 0, 0), |h| (h.width, h.height, h.key));
    let white = answer.as_ref().ok().and_then(|h| h.white);
    RawHeader {
        number,
        place,
        width,
        height,
        key,
        white_present: white.is_some() as u64,
        white: white.unwrap_or(0),
    }
}

/// The six fields of a reader's step; free fields are 0.
pub fn raw_step(answer: &Result<Option<[u16; 3]>, Refusal>) -> Step {
    let (number, place) = told(answer);
    let [red, green, blue] = answer.unwrap_or_default().unwrap_or_default().map(u64::from);
    Step {
        number,
        place,
        over: (*answer == Ok(None)) as u64,
        red,
        green,
        blue,
    }
}

/// The twelve fields of a tally; free fields are 0.
pub fn raw_tally(answer: &Result<second::Tally, Refusal>) -> Tally {
    let (number, place) = told(answer);
    let (lit, sum) = answer.as_ref().map_or((0, 0), |t| (t.lit, t.sum));
    let average = answer.as_ref().ok().and_then(|t| t.average.as_ref());
    let extremes = answer.as_ref().ok().and_then(|t| t.extremes.as_ref());
    let (darkest_exponent, darkest_mantissa) = extremes.map_or((0, 0), |e| parts(e.darkest));
    let (brightest_exponent, brightest_mantissa) = extremes.map_or((0, 0), |e| parts(e.brightest));
    Tally {
        number,
        place,
        lit,
        sum,
        present: average.is_some() as u64,
        average: average.map_or(0, |a| a.steps),
        exponent: average.map_or(0, |a| a.exponent as u64),
        mantissa: average.map_or(0, |a| a.mantissa as u64),
        darkest_exponent,
        darkest_mantissa,
        brightest_exponent,
        brightest_mantissa,
    }
}

/// Whether average, darkest and brightest are there.
fn is_whole(tally: &Tally) -> bool {
    let mantissas = [tally.mantissa, tally.darkest_mantissa, tally.brightest_mantissa];
    tally.present == 1 && mantissas.iter().all(|mantissa| (128..=255).contains(mantissa))
}

/// Exponent and mantissa.
fn parts(number: second::Number) -> (u64, u64) {
    (number.exponent as u64, number.mantissa as u64)
}

pub fn second_header(header: Header) -> second::Header {
    let Header { width, height, key, white } = header;
    second::Header { width, height, key, white }
}

pub fn second_source(source: Source) -> second::Source {
    match source {
        Source::Rgbe(list) => second::Source::Rgbe(list),
        Source::Half(list) => second::Source::Half(list),
        Source::Single(list) => second::Source::Single(list),
        Source::Stored(list) => second::Source::Stored(list),
    }
}

/// Words that the strip of a source of this length needs.
fn source_room(source: Source, header: Header) -> usize {
    let pixels = match source {
        Source::Rgbe(list) => list.len() / 4,
        Source::Half(list) | Source::Stored(list) => list.len() / 3,
        Source::Single(list) => list.len() / 3,
    };
    dofnihet::strip_length(pixels) + header.white.is_some() as usize
}

/// Outputs beside the longer one: exact, too short by one, empty; on a long page only too short by one.
pub(crate) fn other_rooms(needed: usize) -> Vec<usize> {
    match needed {
        0 => vec![0],
        1..=10_000 => vec![needed, needed - 1, 0],
        _ => vec![needed - 1],
    }
}

/// Rows to ask for: of a short strip all up to eight and numbers far above; of a long one the last and the one after.
fn rows(strip: &[u32]) -> Vec<u64> {
    let height = strip.first().map_or(0, |word| (word & 0x3FFF) as u64);
    let last = height.saturating_sub(1);
    if strip.len() > 10_000 {
        return vec![last, height];
    }
    let mut rows: Vec<u64> = (0..height.min(8)).collect();
    rows.extend([height / 2, last, height, height + 1, 1 << 32, (1 << 32) + last, 1 << 63, u64::MAX]);
    rows
}

/// Steps of a reader to ask for: of a short strip all up to a few behind the last pixel, and numbers far above, some of which lie within the
/// page once they, three or twelve times them are cut to 32 or 64 bits; of a long one the first, any two, those around the end and two above.
pub fn step_numbers(strip: &[u32]) -> Vec<u64> {
    let pixels = strip.len().saturating_sub(3) as u64 / 3;
    let last = pixels.saturating_sub(1);
    if pixels > 100 {
        let random = &mut Random::new(strip[strip.len() / 2] as u64);
        let (some, other) = (random.below(pixels), random.below(pixels));
        return vec![0, some, other, last - 1, last, pixels, pixels + 1, (1 << 32) + last, u64::MAX];
    }
    let mut numbers: Vec<u64> = (0..pixels + 3).collect();
    numbers.extend([1 << 32, (1 << 32) + last, 0x5555_5556, 0xAAAA_AAAB]);
    numbers.extend([0x5555_5555_5555_5556, 0xAAAA_AAAA_AAAA_AAAB, 1 << 62, 1 << 63, u64::MAX]);
    numbers
}

pub(crate) fn different(what: &dyn Fn() -> String, fault: String) -> Difference {
    Difference(format!("{}: {fault}", what()))
}

pub(crate) fn equal<T: PartialEq + fmt::Debug>(second: &T, library: &T, what: &dyn Fn() -> String) -> Result<(), Difference> {
    match second == library {
        true => Ok(()),
        false => Err(different(
            what,
            format!("the library tells {library:?}, the second step {second:?}"),
        )),
    }
}

/// Whether memory that was only to be read is as it was.
pub fn unchanged<T: PartialEq + ?Sized>(before: &T, after: &T, what: &dyn Fn() -> String) -> Result<(), Difference> {
    match before == after {
        true => Ok(()),
        false => Err(different(what, "memory to be read was changed".to_string())),
    }
}

fn show(header: &Header) -> String {
    format!("{} x {} key {} white {:?}", header.width, header.height, header.key, header.white)
}

/// The start of a source.
pub fn show_source(source: Source) -> String {
    let mut text = format!("{source:x?}");
    text.truncate(400);
    text
}

/// The start of a strip.
pub fn show_strip(strip: &[u32]) -> String {
    let words: Vec<String> = strip.iter().take(40).map(|word| format!("{word:08X}")).collect();
    format!("strip of {} words {}", strip.len(), words.join(" "))
}
