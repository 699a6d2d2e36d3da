//! Each fault alone, and each pair of faults at once: which the list puts first.

use compare::elements::KINDS;
use compare::rounds::strip_fault_case;
use compare::strip_faults::Fault;
use compare::{pages, same, source_faults, strip_faults, Compare, Library, Random};

/// Without a white point and with one.
const WHITES: [Option<u64>; 2] = [None, Some(30)];

/// Sources: each fault and each pair, for each kind.
#[test]
fn sources() {
    let mut compare = Compare::new(&Library);
    let mut cases = 0;
    for (kind, white) in KINDS.iter().flat_map(|kind| WHITES.map(|white| (*kind, white))) {
        let list = source_faults::faults(kind);
        let pairs = (0..list.len()).flat_map(|j| (0..=j).map(move |i| (i, j)));
        for (i, j) in pairs.filter(|&(i, j)| i == j || source_faults::together(list[i], list[j])) {
            let faults = if i == j { vec![list[i]] } else { vec![list[i], list[j]] };
            let case = source_faults::Case::sound(kind, white).with(&faults);
            let (told, _) = compare.convert_into(case.elements.source(), case.header, case.room).unwrap();
            assert_eq!(told, source_faults::first(&faults), "{kind:?} {faults:?}");
            cases += 1;
        }
        let sound = source_faults::Case::sound(kind, white);
        let (told, _) = compare.convert(sound.elements.source(), sound.header).unwrap();
        assert_eq!(told, (0, 0));
    }
    println!("faults of sources: {cases} cases, {}", compare.counts);
}

/// Strips: each fault and each pair, for every call, and each of these on a dark page too.
#[test]
fn strips() {
    let mut compare = Compare::new(&Library);
    let mut cases = 0;
    for white in WHITES {
        let list = strip_faults::faults(white);
        let pairs = (0..list.len()).flat_map(|j| (0..=j).map(move |i| (i, j)));
        for (i, j) in pairs.filter(|&(i, j)| i == j || strip_faults::together(list[i], list[j])) {
            let faults = if i == j { vec![list[i]] } else { vec![list[i], list[j]] };
            strip_fault_case(&mut compare, &faults, white).unwrap();
            cases += 1;
            if faults[0] != Fault::Dark {
                strip_fault_case(&mut compare, &[&[Fault::Dark], &faults[..]].concat(), white).unwrap();
                cases += 1;
            }
        }
        strip_fault_case(&mut compare, &[], white).unwrap();
    }
    println!("faults of strips: {cases} cases, {}", compare.counts);
}

/// Header numbers of any size: with 0, limits, powers of two and their neighbours on either side.
#[test]
fn header_numbers() {
    const SEED: u64 = 601;
    let (random, mut compare) = (&mut Random::new(SEED), Compare::new(&Library));
    let mut list = vec![0, 1, 2, 3, 180, 1000, 1001, 4095, 4096, 4097, 8191, 8192, 8193, u64::MAX];
    list.extend((10..64).flat_map(|bit| [(1 << bit) - 1, 1 << bit, (1 << bit) + 1]));
    for kind in KINDS {
        let sound = source_faults::Case::sound(kind, None);
        for (width, height) in list.iter().flat_map(|w| list.iter().map(move |h| (*w, *h))) {
            let key = if random.one_in(4) { random.pick(&list) } else { 180 };
            let white = random.one_in(4).then(|| random.pick(&list));
            let header = pages::header_with(width, height, key, white);
            let (told, _) = same(SEED, compare.convert_into(sound.elements.source(), header, 15));
            let fits = |side| (1..=8192).contains(&side);
            let good_size = fits(width) && fits(height) && width * height <= 1 << 24;
            assert_eq!(told.0 == 1, !good_size, "{header:?}");
        }
    }
    println!("header numbers, seed {SEED}: {}", compare.counts);
}
