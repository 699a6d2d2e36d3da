//! Every half: refused ones with their place, accepted ones in pages.

use compare::rounds::converted;
use compare::{pages, same, values, Compare, Elements, Library, Random};

const SEED: u64 = 101;

fn halves(refused: bool) -> Vec<u16> {
    (0..=u16::MAX).filter(|&half| values::half_is_no_number(half) == refused).collect()
}

/// Each refused half at each place of a page of one to four pixels, alone and with another behind it.
#[test]
fn refused() {
    let seed = SEED;
    let (random, mut compare) = (&mut Random::new(seed), Compare::new(&Library));
    let list = halves(true);
    for &half in &list {
        let width = random.between(1, 4);
        for place in 0..3 * width {
            let mut elements = values::accepted(random, compare::Kind::Half, width);
            elements.set(place as usize, half as u32);
            let behind = random.between(place, 3 * width - 1);
            if behind > place {
                elements.set(behind as usize, random.pick(&list) as u32);
            }
            let header = pages::header(width, 1, 180);
            let (told, _) = same(seed, compare.convert(elements.source(), header));
            assert_eq!(told, (5, place), "{half:04X}");
        }
    }
    println!("halves refused, seed {seed}: {} halves, {}", list.len(), compare.counts);
}

/// Each accepted half as a grey page of one pixel.
#[test]
fn grey() {
    let seed = SEED + 1;
    let (random, mut compare) = (&mut Random::new(seed), Compare::new(&Library));
    let list = halves(false);
    for &half in &list {
        let header = pages::random_header(random, 1, 1);
        let told = same(seed, converted(&mut compare, &Elements::Half(vec![half; 3]), header));
        assert_eq!(told, (0, 0), "{half:04X}");
    }
    println!("halves grey, seed {seed}: {} halves, {}", list.len(), compare.counts);
}

/// All accepted halves in order, as red, green and blue, in pages of 512 pixels; then all of them shuffled.
#[test]
fn pages_of_all() {
    let seed = SEED + 2;
    let (random, mut compare) = (&mut Random::new(seed), Compare::new(&Library));
    let list = halves(false);
    for channel in 0..3 {
        let mut elements: Vec<u16> = (0..3 * list.len()).map(|_| values::half(random)).collect();
        (0..list.len()).for_each(|i| elements[3 * i + channel] = list[i]);
        for part in elements.chunks(3 * 512) {
            page(&mut compare, random, seed, part);
        }
    }
    let mut shuffled = list;
    (1..shuffled.len()).for_each(|i| shuffled.swap(i, random.below(i as u64 + 1) as usize));
    shuffled
        .chunks_exact(3 * 64)
        .for_each(|part| page(&mut compare, random, seed, part));
    println!("halves in pages, seed {seed}: {}", compare.counts);
}

fn page(compare: &mut Compare, random: &mut Random, seed: u64, part: &[u16]) {
    let header = pages::random_header(random, part.len() as u64 / 24, 8);
    assert_eq!(same(seed, converted(compare, &Elements::Half(part.to_vec()), header)), (0, 0));
}
