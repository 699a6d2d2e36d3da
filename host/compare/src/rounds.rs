//! One round: new pages, sources, bands, damage and faults from one seed, each compared.

use crate::compare::{show_source, show_strip, step_numbers, Compare, Difference, Told, ACCEPTED};
use crate::elements::{Elements, KINDS};
use crate::pages::Page;
use crate::program::{self, Printed};
use crate::random::Random;
use crate::strip_faults::Asked;
use crate::{band_faults, bands, damage, pages, source_faults, strip_faults, values};
use dofnihet::Header;
use std::fmt::Debug;

pub fn round(compare: &mut Compare, seed: u64) -> Result<(), Difference> {
    let random = &mut Random::new(seed);
    page(compare, random)?;
    for _ in 0..4 {
        source(compare, random)?;
    }
    source_fault(compare, random)?;
    for _ in 0..4 {
        strip_fault(compare, random)?;
    }
    bands(compare, random)?;
    for _ in 0..4 {
        band_fault(compare, random)?;
    }
    Ok(())
}

/// A page of some look: its strip, the same from a stored source, and damaged.
fn page(compare: &mut Compare, random: &mut Random) -> Result<(), Difference> {
    let (width, height) = match random.below(400) {
        0 => (random.between(1, 8192), random.between(1, 32)),
        1 => (random.between(1, 32), random.between(1, 8192)),
        2..=30 => (random.between(1, 200), random.between(1, 60)),
        _ => pages::small_size(random),
    };
    let look = random.pick(&pages::LOOKS);
    let page = pages::page(random, look, width, height);
    let strip = page.strip();
    compare.strip(&strip)?;
    let made = compare.convert(Elements::Stored(page.channels.clone()).source(), page.header())?;
    if made != (ACCEPTED, strip.clone()) {
        return Err(Difference(format!(
            "stored channels became another strip than {}",
            show_strip(&strip)
        )));
    }
    for _ in 0..6 {
        compare.strip(&damage::random(random, &strip))?;
    }
    Ok(())
}

/// A source of each kind, sound, with few lit pixels or with wild elements, and its strip.
fn source(compare: &mut Compare, random: &mut Random) -> Result<(), Difference> {
    for kind in KINDS {
        let (width, height) = pages::small_size(random);
        let made = match random.below(12) {
            0..=3 => values::wild(random, kind, width * height),
            4 => values::few(random, kind, width * height),
            _ => values::accepted(random, kind, width * height),
        };
        let header = pages::random_header(random, width, height);
        converted(compare, &made, header)?;
    }
    Ok(())
}

/// A source, and its strip where it is accepted: beside the second step, the list, and the page written out from its channels.
pub fn converted(compare: &mut Compare, elements: &Elements, header: Header) -> Result<Told, Difference> {
    let (told, strip) = compare.convert(elements.source(), header)?;
    if told != values::first_refusal(elements).unwrap_or(ACCEPTED) {
        return Err(Difference(format!(
            "the list does not tell {told:?} for {}",
            show_source(elements.source())
        )));
    }
    if told == ACCEPTED {
        if strip != Page::new(header, values::channels(elements)).strip() {
            return Err(Difference(format!("not the strip of {}", show_source(elements.source()))));
        }
        compare.strip(&strip)?;
    }
    Ok(told)
}

/// The picture program on a page that fits, sound, damaged, or cut anywhere.
pub fn picture(printed: &mut Printed, seed: u64) -> Result<(), Difference> {
    let random = &mut Random::new(!seed);
    let (width, height) = match random.below(20) {
        0 => (random.between(1, 84), random.between(1, 65)),
        _ => pages::small_size(random),
    };
    let look = random.pick(&pages::LOOKS);
    let strip = pages::page(random, look, width, height).strip();
    let mut bytes = match random.below(3) {
        0 => program::bytes(&damage::random(random, &strip)),
        _ => program::bytes(&strip),
    };
    if random.one_in(8) {
        bytes.truncate(random.below(bytes.len() as u64 + 1) as usize);
    }
    printed.same(&bytes).map(|_| ())
}

/// Up to three faults of a source at once.
fn source_fault(compare: &mut Compare, random: &mut Random) -> Result<(), Difference> {
    for kind in KINDS {
        let list = some_together(random, &source_faults::faults(kind), source_faults::together);
        let case = source_faults::Case::sound(kind, pages::white(random)).with(&list);
        let (told, _) = compare.convert_into(case.elements.source(), case.header, case.room)?;
        if told != source_faults::first(&list) {
            return Err(Difference(format!("the list does not tell {told:?} for {list:?}")));
        }
    }
    Ok(())
}

/// Up to three faults of a strip at once.
fn strip_fault(compare: &mut Compare, random: &mut Random) -> Result<(), Difference> {
    let white = pages::white(random);
    let list = some_together(random, &strip_faults::faults(white), strip_faults::together);
    strip_fault_case(compare, &list, white)
}

/// Every call on a strip with this white point or none and these faults, and what the list tells each.
pub fn strip_fault_case(compare: &mut Compare, list: &[strip_faults::Fault], white: Option<u64>) -> Result<(), Difference> {
    let strip_faults::Case { strip, y, room, .. } = strip_faults::Case::sound(white).with(list);
    let (header, tally) = (compare.header(&strip)?, compare.tally(&strip)?);
    let mut answers = vec![
        (Asked::Strip, compare.check(&strip)?),
        (Asked::Strip, (header.number, header.place)),
        (Asked::Tally, (tally.number, tally.place)),
        (Asked::Row, compare.row(&strip, y)?),
        (Asked::Unpack, compare.unpack(&strip, room)?),
        (Asked::Map, compare.map(&strip, room)?.0),
    ];
    for n in step_numbers(&strip) {
        let step = compare.step(&strip, n)?;
        answers.push((Asked::Strip, (step.number, step.place)));
    }
    told_first(&answers, list, |list, asked| strip_faults::first(list, asked, white))
}

/// Whether each call told what is first among these faults.
fn told_first<T: Debug>(answers: &[(Asked, Told)], list: &[T], first: impl Fn(&[T], Asked) -> Told) -> Result<(), Difference> {
    match answers.iter().find(|(asked, told)| *told != first(list, *asked)) {
        None => Ok(()),
        Some((asked, told)) => Err(Difference(format!(
            "the papers do not tell {told:?} for {list:?}, asked for {asked:?}"
        ))),
    }
}

/// A page cut into bands, whole and damaged, and bands of several pages.
fn bands(compare: &mut Compare, random: &mut Random) -> Result<(), Difference> {
    let page = bands::page(random);
    let heights = bands::cutting(random, page.height);
    compare.cutting(&page, &heights)?;
    let row = bands::row(&page, &heights);
    for _ in 0..4 {
        compare.bands(&damage::random(random, &row))?;
    }
    let several: Vec<u32> = bands::several(random).iter().flat_map(Page::strip).collect();
    compare.bands(&several)?;
    Ok(())
}

/// Up to three faults of a row of bands at once.
fn band_fault(compare: &mut Compare, random: &mut Random) -> Result<(), Difference> {
    let white = pages::white(random);
    let list = some_together(random, &band_faults::faults(white), band_faults::together);
    band_fault_case(compare, &list, white)
}

/// Every call on a row of bands with this white point or none and these faults, and what is told first.
pub fn band_fault_case(compare: &mut Compare, list: &[band_faults::Fault], white: Option<u64>) -> Result<(), Difference> {
    let case = band_faults::Case::new(list, white);
    let row = case.row();
    let (header, tally) = (compare.header_of_bands(&row)?, compare.tally_of_bands(&row)?);
    let (mapped, _) = compare.map_bands(&row, case.room())?;
    let answers = [
        (Asked::Strip, (header.number, header.place)),
        (Asked::Tally, (tally.number, tally.place)),
        (Asked::Map, mapped),
    ];
    told_first(&answers, list, |list, asked| band_faults::first(list, asked, white))
}

/// One to three of the list that can be there at once, in its order.
fn some_together<T: Copy>(random: &mut Random, list: &[T], together: impl Fn(T, T) -> bool) -> Vec<T> {
    let mut chosen: Vec<T> = Vec::new();
    for fault in some(random, list) {
        if chosen.iter().all(|other| together(*other, fault)) {
            chosen.push(fault);
        }
    }
    chosen
}

/// One to three of the list, in its order.
fn some<T: Copy>(random: &mut Random, list: &[T]) -> Vec<T> {
    let mut places: Vec<u64> = (0..random.between(1, 3)).map(|_| random.below(list.len() as u64)).collect();
    places.sort_unstable();
    places.into_iter().map(|place| list[place as usize]).collect()
}
