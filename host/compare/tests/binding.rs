//! The Rust binding's calls beside the C interface's: the same answers as slices and results.

use compare::compare::step_numbers;
use compare::pages::{self, Page, LOOKS};
use compare::{bands, damage, values, Calls, Elements, Library, Random};
use dofnihet::{raw, Average, Extremes, Header, Refusal, Stored, Tally};
use std::fmt;

const SEED: u64 = 1201;

fn refusal(number: u64, place: u64) -> Result<(), Refusal> {
    match number {
        0 => Ok(()),
        _ => Err(Refusal { number, place }),
    }
}

fn stored(exponent: u64, mantissa: u64) -> Stored {
    Stored {
        exponent: exponent as u8,
        mantissa: mantissa as u8,
    }
}

fn header(told: raw::Header) -> Result<Header, Refusal> {
    let raw::Header { width, height, key, .. } = told;
    let white = match (told.white_present, told.white) {
        (0, 0) => None,
        (1, white) => Some(white),
        _ => panic!("{told:?} has a white point and has none"),
    };
    refusal(told.number, told.place).map(|_| Header { width, height, key, white })
}

/// An accepted tally has an average and extremes.
fn tally(told: raw::Tally) -> Result<Tally, Refusal> {
    let average = Average {
        steps: told.average,
        exponent: told.exponent as u8,
        mantissa: told.mantissa as u8,
    };
    let extremes = Extremes {
        darkest: stored(told.darkest_exponent, told.darkest_mantissa),
        brightest: stored(told.brightest_exponent, told.brightest_mantissa),
    };
    let expected = Tally {
        lit: told.lit,
        sum: told.sum,
        average: Some(average),
        extremes: Some(extremes),
    };
    refusal(told.number, told.place).map(|_| expected)
}

/// Every call of the binding on a strip.
fn same(strip: &[u32], y: u64) {
    let outcome = Library.check(strip);
    let told = refusal(outcome.number, outcome.place);
    assert_eq!(dofnihet::check(strip), told);

    assert_eq!(dofnihet::header(strip), header(Library.header(strip)));

    let row = Library.row(strip, y);
    let part = &strip[row.start as usize..(row.start + row.length) as usize];
    assert_eq!(dofnihet::row(strip, y), refusal(row.number, row.place).map(|_| part));

    for n in step_numbers(strip) {
        let step = Library.step(strip, n);
        let pixel = [step.red, step.green, step.blue].map(|channel| channel as u16);
        let expected = if step.over == 1 { None } else { Some(pixel) };
        assert_eq!(dofnihet::step(strip, n), told.map(|_| expected));
    }

    assert_eq!(dofnihet::tally(strip), tally(Library.tally(strip)));
    outputs(strip);
}

/// A call of both with an output of so many elements.
fn written<T: Clone + fmt::Debug + From<u8> + PartialEq>(
    room: usize,
    bound: impl Fn(&mut [T]) -> Result<(), Refusal>,
    raw: impl Fn(&mut [T]) -> raw::Outcome,
) {
    let [mut by_bound, mut by_raw] = [0; 2].map(|_| vec![T::from(7); room]);
    let outcome = raw(&mut by_raw);
    assert_eq!(bound(&mut by_bound), refusal(outcome.number, outcome.place));
    assert_eq!(by_bound, by_raw);
}

fn outputs(strip: &[u32]) {
    for room in [strip.len(), strip.len().saturating_sub(4)] {
        written(room, |to| dofnihet::unpack(strip, to), |to| Library.unpack(strip, to));
        written(room, |to| dofnihet::map(strip, to), |to| Library.map(strip, to));
    }
}

/// Every call of the binding on a row of bands.
fn same_of_bands(row: &[u32]) {
    assert_eq!(dofnihet::header_of_bands(row), header(Library.header_of_bands(row)));
    assert_eq!(dofnihet::tally_of_bands(row), tally(Library.tally_of_bands(row)));
    for room in [row.len(), row.len() / 2] {
        written(room, |to| dofnihet::map_bands(row, to), |to| Library.map_bands(row, to));
    }
}

fn converted(elements: &Elements, header: Header, room: usize) {
    written(
        room,
        |to| dofnihet::convert(elements.source(), header, to),
        |to| Library.convert(elements.source(), header, to),
    );
}

#[test]
fn binding() {
    let random = &mut Random::new(SEED);
    let mut strips = 0;
    for (look, _) in LOOKS.iter().flat_map(|look| (0..40).map(move |i| (*look, i))) {
        let (width, height) = pages::small_size(random);
        let page = pages::page(random, look, width, height);
        let y = random.below(height + 2);
        same(&page.strip(), y);
        same(&damage::random(random, &page.strip()), y);
        for kind in compare::elements::KINDS {
            let room = page.header().strip_length() + random.below(3) as usize - 1;
            converted(&values::wild(random, kind, width * height), page.header(), room);
        }
        strips += 2;
    }
    println!("binding, seed {SEED}: {strips} strips, {} sources", 2 * strips);
}

#[test]
fn binding_of_bands() {
    let seed = SEED + 1;
    let random = &mut Random::new(seed);
    for _ in 0..500 {
        let page = bands::page(random);
        let row = bands::row(&page, &bands::cutting(random, page.height));
        same_of_bands(&row);
        same_of_bands(&damage::random(random, &row));
        same_of_bands(&bands::several(random).iter().flat_map(Page::strip).collect::<Vec<u32>>());
    }
    println!("binding of bands, seed {seed}: 1500 rows");
}
