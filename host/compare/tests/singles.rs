//! Singles at every exponent and both sides of each limit.

use compare::rounds::converted;
use compare::{pages, same, values, Compare, Elements, Library, Random};

const SEED: u64 = 201;

/// Each refused single alone among accepted ones, at a random place.
fn refuse(compare: &mut Compare, random: &mut Random, seed: u64, single: u32, number: u64) {
    let width = random.between(1, 3);
    let place = random.below(3 * width);
    let mut elements = values::accepted(random, compare::Kind::Single, width);
    elements.set(place as usize, single);
    let header = pages::header(width, 1, 180);
    let (told, _) = same(seed, compare.convert(elements.source(), header));
    assert_eq!(told, (number, place), "{single:08X}");
}

#[test]
fn refused() {
    let seed = SEED;
    let (random, mut compare) = (&mut Random::new(seed), Compare::new(&Library));
    let list = [values::singles(), values::edge_singles()].concat();
    let mut count = 0;
    for (single, number) in list.iter().filter_map(|&s| values::single_refusal(s).map(|n| (s, n))) {
        refuse(&mut compare, random, seed, single, number);
        count += 1;
    }
    println!("singles refused, seed {seed}: {count} singles, {}", compare.counts);
}

/// All accepted singles of the list in pages of 16 x 16, in order and mixed.
#[test]
fn accepted() {
    let seed = SEED + 1;
    let (random, mut compare) = (&mut Random::new(seed), Compare::new(&Library));
    let mut list = [values::singles(), values::edge_singles()].concat();
    list.retain(|&single| values::single_refusal(single).is_none());
    pages_of(&mut compare, random, seed, &list);
    (1..list.len()).for_each(|i| list.swap(i, random.below(i as u64 + 1) as usize));
    pages_of(&mut compare, random, seed, &list);
    println!("singles accepted, seed {seed}: {} singles, {}", list.len(), compare.counts);
}

fn pages_of(compare: &mut Compare, random: &mut Random, seed: u64, list: &[u32]) {
    for part in list.chunks(3 * 256) {
        let mut part = part.to_vec();
        part.resize(3 * 256, 0);
        let header = pages::random_header(random, 16, 16);
        assert_eq!(same(seed, converted(compare, &Elements::Single(part), header)), (0, 0));
    }
}

/// Around the limits, each as a page of one pixel: grey, and with a channel far away.
#[test]
fn edges() {
    let seed = SEED + 2;
    let (random, mut compare) = (&mut Random::new(seed), Compare::new(&Library));
    for single in values::edge_singles() {
        for other in [single, 0x2300_0001, 0x5B80_0000, 0] {
            let header = pages::random_header(random, 1, 1);
            same(seed, converted(&mut compare, &Elements::Single(vec![other, single, other]), header));
        }
    }
    println!("singles at limits, seed {seed}: {}", compare.counts);
}

/// Two refused singles at once, in both orders.
#[test]
fn pairs() {
    let mut compare = Compare::new(&Library);
    let list = [0x7F80_0000, 0xFF80_0000, 0x7FC0_0000, 0xFFFF_FFFF, 0x5B80_0001, 0x7F7F_FFFF];
    for (one, other) in list.iter().flat_map(|one| list.iter().map(move |other| (*one, *other))) {
        for (i, j) in (0..9).flat_map(|j| (0..j).map(move |i| (i, j))) {
            let mut elements = vec![0x3F80_0000; 9];
            (elements[i], elements[j]) = (one, other);
            let header = pages::header(3, 1, 180);
            let (told, _) = compare.convert(Elements::Single(elements).source(), header).unwrap();
            assert_eq!(told, (values::single_refusal(one).unwrap(), i as u64));
        }
    }
    println!("singles in pairs: {}", compare.counts);
}
