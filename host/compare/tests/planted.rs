//! Each comparison can fail: differences are planted in the library's answers, and every one must be noticed.

use compare::pages::Page;
use compare::{planted, program, Calls, Compare, Difference, Elements, Library};
use dofnihet::raw::{Header as RawHeader, Outcome, Row, Step, Tally};
use dofnihet::{Header, Source};

// The library with one thing wrong.
planted! {
    Number Place PlaceOfAccepted
    ConvertFirst ConvertLast ConvertBehind ConvertRefused
    UnpackLast UnpackBehind UnpackRefused
    LevelMore LevelLess MapBehind MapRefused
    HeaderWidth HeaderHeight HeaderKey HeaderOfRefused
    RowStart RowLength RowOfRefused
    StepNumber StepPlace StepOver StepRed StepGreen StepBlue StepOfOver StepOfRefused OverOfRefused
    StepRepeated StepSkipped StepCut StepNeverOver StepsAnew StepOverFirst StepRefusedOnce StepRefusedLate
    Lit Sum Present Average Exponent Mantissa TallyOfRefused
    DarkestExponent DarkestMantissa BrightestExponent BrightestMantissa ExtremesExchanged
    DarkestExponentOfRefused DarkestMantissaOfRefused BrightestExponentOfRefused BrightestMantissaOfRefused
    DarkestExponentOfDark DarkestMantissaOfDark BrightestExponentOfDark BrightestMantissaOfDark
}

use Planted::*;

impl Planted {
    fn on(self, planted: Planted, value: u64) -> u64 {
        value + (self == planted) as u64
    }

    fn outcome(self, outcome: Outcome) -> Outcome {
        let (number, place) = self.told(outcome.number, outcome.place);
        Outcome { number, place }
    }

    fn told(self, number: u64, place: u64) -> (u64, u64) {
        match self {
            Number if number > 0 => (number + 1, place),
            Place => (number, 0),
            PlaceOfAccepted if number == 0 => (0, 1),
            _ => (number, place),
        }
    }

    fn extremes(self, told: Tally) -> Tally {
        let (lit, refused, dark) = (told.lit > 0, told.number > 0, told.number == 9);
        let mut planted = told;
        match self {
            DarkestExponent if lit => planted.darkest_exponent += 1,
            DarkestMantissa if lit => planted.darkest_mantissa -= 1,
            BrightestExponent if lit => planted.brightest_exponent -= 1,
            BrightestMantissa if lit => planted.brightest_mantissa -= 1,
            ExtremesExchanged => {
                (planted.darkest_exponent, planted.brightest_exponent) = (told.brightest_exponent, told.darkest_exponent);
                (planted.darkest_mantissa, planted.brightest_mantissa) = (told.brightest_mantissa, told.darkest_mantissa);
            }
            DarkestExponentOfRefused if refused => planted.darkest_exponent = 72,
            DarkestMantissaOfRefused if refused => planted.darkest_mantissa = 255,
            BrightestExponentOfRefused if refused => planted.brightest_exponent = 72,
            BrightestMantissaOfRefused if refused => planted.brightest_mantissa = 255,
            DarkestExponentOfDark if dark => planted.darkest_exponent = 72,
            DarkestMantissaOfDark if dark => planted.darkest_mantissa = 255,
            BrightestExponentOfDark if dark => planted.brightest_exponent = 72,
            BrightestMantissaOfDark if dark => planted.brightest_mantissa = 255,
            _ => (),
        }
        planted
    }
}

impl Calls for Planted {
    fn convert(&self, source: Source, header: Header, output: &mut [u32]) -> Outcome {
        let outcome = Library.convert(source, header, output);
        let (needed, last) = (header.strip_length(), output.len() - 1);
        match self {
            ConvertFirst if outcome.number == 0 => output[0] ^= 1 << 14,
            ConvertLast if outcome.number == 0 => output[needed - 1] ^= 1,
            ConvertBehind if outcome.number == 0 && last >= needed => output[needed] ^= 1,
            ConvertRefused if outcome.number > 0 => output[last] ^= 1,
            _ => (),
        }
        self.outcome(outcome)
    }

    fn check(&self, strip: &[u32]) -> Outcome {
        self.outcome(Library.check(strip))
    }

    fn unpack(&self, strip: &[u32], output: &mut [u16]) -> Outcome {
        let outcome = Library.unpack(strip, output);
        let needed = strip.len() - 3;
        match self {
            UnpackLast if outcome.number == 0 => output[needed - 1] ^= 1,
            UnpackBehind if outcome.number == 0 && output.len() > needed => output[needed] ^= 1,
            UnpackRefused if outcome.number == 4 && !output.is_empty() => output[0] ^= 1,
            _ => (),
        }
        self.outcome(outcome)
    }

    fn map(&self, strip: &[u32], output: &mut [u8]) -> Outcome {
        let outcome = Library.map(strip, output);
        let needed = strip.len() - 3;
        match self {
            LevelMore if outcome.number == 0 => output[needed - 1] += 1,
            LevelLess if outcome.number == 0 => output[0] = output[0].wrapping_sub(1),
            MapBehind if outcome.number == 0 && output.len() > needed => output[needed] ^= 1,
            MapRefused if outcome.number == 4 && !output.is_empty() => output[0] ^= 1,
            _ => (),
        }
        self.outcome(outcome)
    }

    fn header(&self, strip: &[u32]) -> RawHeader {
        let told = Library.header(strip);
        RawHeader {
            width: self.on(HeaderWidth, told.width),
            height: self.on(HeaderHeight, told.height),
            key: self.on(HeaderKey, told.key) + (*self == HeaderOfRefused && told.number > 0) as u64,
            ..told
        }
    }

    fn row(&self, strip: &[u32], y: u64) -> Row {
        let told = Library.row(strip, y);
        Row {
            start: self.on(RowStart, told.start),
            length: self.on(RowLength, told.length) + (*self == RowOfRefused && told.number > 0) as u64,
            ..told
        }
    }

    fn step(&self, strip: &[u32], n: u64) -> Step {
        let pixels = strip.len() as u64 / 3 - 1;
        let asked = match self {
            StepRepeated => 0,
            StepSkipped => n.saturating_add(1),
            StepCut => n as u32 as u64,
            StepNeverOver => n.min(pixels - 1),
            StepsAnew if n > pixels => n % pixels,
            StepOverFirst if n == 0 => pixels,
            _ => n,
        };
        let told = Library.step(strip, asked);
        let (refused, over) = (told.number > 0, told.over == 1);
        let silent = *self == StepRefusedOnce && n > 0 || *self == StepRefusedLate && n == 0;
        let (number, place) = if silent { (0, 0) } else { (told.number, told.place) };
        Step {
            number: self.on(StepNumber, number),
            place: self.on(StepPlace, place),
            over: self.on(StepOver, told.over) + (*self == OverOfRefused && refused) as u64,
            red: self.on(StepRed, told.red) + (*self == StepOfRefused && refused) as u64,
            green: self.on(StepGreen, told.green),
            blue: self.on(StepBlue, told.blue) + (*self == StepOfOver && over) as u64,
        }
    }

    fn tally(&self, strip: &[u32]) -> Tally {
        let told = self.extremes(Library.tally(strip));
        Tally {
            lit: self.on(Lit, told.lit),
            sum: told.sum + (*self == Sum) as i64,
            present: self.on(Present, told.present),
            average: told.average + (*self == Average) as i64 + (*self == TallyOfRefused && told.number > 0) as i64,
            exponent: self.on(Exponent, told.exponent),
            mantissa: self.on(Mantissa, told.mantissa),
            ..told
        }
    }
}

/// Two greys, 1.0 and 0.5.
fn page() -> Page {
    Page::row(180, &[[0x80FF; 3], [0x7FFF; 3]])
}

/// The sound page, the page with its last blue word wild and a black page, through every comparison.
fn compared(calls: &dyn Calls) -> Result<(), Difference> {
    let mut compare = Compare::new(calls);
    let (sound, mut wild, black) = (page(), page(), Page::row(180, &[[0; 3]; 2]));
    wild.channels[5] = 1;
    for page in [&sound, &wild] {
        let elements = Elements::Stored(page.channels.clone());
        compare.convert_into(elements.source(), page.header(), 11)?;
    }
    for page in [&sound, &wild, &black] {
        compare.strip(&page.strip())?;
    }
    Ok(())
}

#[test]
fn planted_differences() {
    let count = planted::each_noticed(Nothing, PLANTED, compared);
    println!("planted differences: {count} noticed");
}

/// The paper's -129 is within the bound: of 511/512 and half of it the logarithms are -0.72 and -256.72 steps, and the mean is -128.72. One
/// more is not, "at most half a step below the reported steps", nor is two less, "less than one and a half above".
#[test]
fn planted_means() {
    let mut compare = Compare::new(&Library);
    let strip = page().strip();
    assert!(compare.mean(&strip, -129).is_ok());
    for wrong in [-129 + 1, -129 - 2, -129 + 256, 129, 0] {
        assert!(compare.mean(&strip, wrong).is_err(), "{wrong}");
    }
    println!("planted means: 5 noticed");
}

/// Levels too far from the exact value are seen at any place; the paper's 52 and 29 are near it.
#[test]
fn planted_levels() {
    let mut compare = Compare::new(&Library);
    let (strip, levels) = (page().strip(), [52, 52, 52, 29, 29, 29]);
    let tally = Library.tally(&strip);
    assert!(compare.distances(&strip, &tally, &levels).is_ok());
    for (place, wrong) in (0..6).flat_map(|place| [4, 252, 128].map(|wrong| (place, wrong))) {
        let mut planted = levels;
        planted[place] = planted[place].wrapping_add(wrong);
        assert!(compare.distances(&strip, &tally, &planted).is_err(), "level {place}");
    }
    assert!(compare.distances(&strip, &tally, &[0; 6]).is_err());
    println!("planted levels: 19 noticed");
}

/// A picture with one byte changed, dropped or added is another.
#[test]
fn planted_bytes() {
    let printed = b"P6\n2 1\n255\n444\x1D\x1D\x1D";
    assert!(program::equal(&[], printed, printed).is_ok());
    for place in 0..printed.len() {
        let mut planted = *printed;
        planted[place] ^= 1;
        assert!(program::equal(&[], printed, &planted).is_err());
        assert!(program::equal(&[], printed, &printed[..place]).is_err());
    }
    assert!(program::equal(&[], printed, &[&printed[..], &[0]].concat()).is_err());
    println!("planted bytes: {} noticed", 2 * printed.len() + 1);
}

/// Memory to be read that was changed is seen.
#[test]
fn planted_writes() {
    let what = || String::new();
    assert!(compare::compare::unchanged(&[1, 2, 3], &[1, 2, 3], &what).is_ok());
    assert!(compare::compare::unchanged(&[1, 2, 3], &[1, 2, 4], &what).is_err());
    println!("planted writes: 1 noticed");
}
