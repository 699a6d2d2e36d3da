//! Strips: pages of every look and shape, and damaged ones.

use compare::compare::raw_step;
use compare::pages::{self, Look, Page, LOOKS, SHAPES};
use compare::{damage, powers, same, Compare, Elements, Library, Random};

const SEED: u64 = 501;

/// Each look in each shape, from stored channels.
#[test]
fn looks_and_shapes() {
    let seed = SEED;
    let (random, mut compare) = (&mut Random::new(seed), Compare::new(&Library));
    for (look, (width, height)) in LOOKS.iter().flat_map(|look| SHAPES.iter().map(move |shape| (*look, *shape))) {
        let page = pages::page(random, look, width, height);
        let made = same(
            seed,
            compare.convert(Elements::Stored(page.channels.clone()).source(), page.header()),
        );
        assert_eq!(made, ((0, 0), page.strip()));
        assert_eq!(same(seed, compare.strip(&made.1)), page.told());
    }
    println!("strips of all looks and shapes, seed {seed}: {}", compare.counts);
}

/// Small pages of each look with key 1, 180, 1000 and any.
#[test]
fn small_pages() {
    let seed = SEED + 1;
    let (random, mut compare) = (&mut Random::new(seed), Compare::new(&Library));
    for (look, _) in LOOKS.iter().flat_map(|look| (0..120).map(move |i| (*look, i))) {
        let (width, height) = pages::small_size(random);
        let page = pages::page(random, look, width, height);
        assert_eq!(same(seed, compare.strip(&page.strip())), page.told());
    }
    println!("small strips, seed {seed}: {}", compare.counts);
}

/// Each pair of channels that sums to a power of two or nearly: without a third, with the least, and with those on both sides of the power.
#[test]
fn powers_of_two() {
    let mut compare = Compare::new(&Library);
    let pairs = powers::pairs();
    let exact = pairs.iter().filter(|pair| pair.fit.is_none()).count();
    for (pair, base) in pairs.iter().flat_map(|pair| [128, 170].map(|base| (pair, base))) {
        for third in pair.thirds(base) {
            compare.strip(&Page::row(1000, &[pair.pixel(base, third)]).strip()).unwrap();
        }
    }
    assert!(exact > 0);
    println!(
        "luminances at powers of two: {} pairs, {exact} exact, {}",
        pairs.len(),
        compare.counts
    );
}

/// Each word of small strips changed in many ways.
#[test]
fn damaged_words() {
    let seed = SEED + 2;
    let (random, mut compare) = (&mut Random::new(seed), Compare::new(&Library));
    let (mut strips, mut accepted) = (0, 0);
    for (width, height) in [(1, 1), (2, 1), (1, 2), (2, 2), (3, 2), (1, 5)] {
        for (look, white) in [
            (Look::Wide, None),
            (Look::Mixed, None),
            (Look::Black, None),
            (Look::Edges, None),
            (Look::Wide, Some(30)),
        ] {
            let strip = pages::page(random, look, width, height).with_white(white).strip();
            for place in 0..strip.len() {
                for word in damage::one_word(&strip, place) {
                    let mut damaged = strip.clone();
                    damaged[place] = word;
                    accepted += (same(seed, compare.strip(&damaged)) == (0, 0)) as u64;
                    strips += 1;
                }
            }
        }
    }
    println!(
        "damaged words, seed {seed}: {strips} strips, {accepted} still accepted, {}",
        compare.counts
    );
}

/// Small strips cut at every length and lengthened; with fewer than two words also those that begin otherwise.
#[test]
fn cut_and_lengthened() {
    let seed = SEED + 3;
    let (random, mut compare) = (&mut Random::new(seed), Compare::new(&Library));
    let shapes = [(1, 1), (2, 2), (3, 1), (1, 4), (5, 5)];
    for ((width, height), white) in shapes.iter().flat_map(|shape| [None, Some(30)].map(|white| (*shape, white))) {
        let strip = pages::page(random, Look::Mixed, width, height).with_white(white).strip();
        for count in 0..strip.len() {
            let told = same(seed, compare.strip(&strip[..count]));
            assert_eq!(told, (3, 0), "{count} words");
        }
        for longer in damage::lengthened(&strip) {
            assert_eq!(same(seed, compare.strip(&longer)), (3, 0));
        }
    }
    assert_eq!(same(seed, compare.strip(&[])), (3, 0));
    for bit in 0..32 {
        assert_eq!(same(seed, compare.strip(&[1 << bit])), (3, 0));
    }
    println!("cut and lengthened, seed {seed}: {}", compare.counts);
}

/// Long pages damaged near the end: the walk gets there.
#[test]
fn damaged_late() {
    let seed = SEED + 4;
    let (random, mut compare) = (&mut Random::new(seed), Compare::new(&Library));
    for (width, height) in [(8192, 1), (1, 8192), (130, 70)] {
        let strip = pages::page(random, Look::Wide, width, height).strip();
        for _ in 0..12 {
            let place = strip.len() - 1 - random.below(9) as usize;
            let mut damaged = strip.clone();
            damaged[place] ^= 1 << random.pick(&[7, 16, 20, 27, 28, 31]);
            let told = same(seed, compare.strip(&damaged));
            assert_eq!(told.1, place as u64);
        }
    }
    println!("damaged late, seed {seed}: {}", compare.counts);
}

/// Every row of pages of several shapes, and the numbers after them; of the highest page some.
#[test]
fn every_row() {
    let seed = SEED + 5;
    let (random, mut compare) = (&mut Random::new(seed), Compare::new(&Library));
    for (width, height) in [(1, 700), (3, 500), (100, 40), (8192, 3)] {
        let strip = pages::page(random, Look::Wide, width, height).strip();
        for y in 0..height + 3 {
            let told = same(seed, compare.row(&strip, y));
            assert_eq!(told, if y < height { (0, 0) } else { (20, 0) });
        }
    }
    let highest = pages::page(random, Look::Wide, 1, 8192).strip();
    for _ in 0..300 {
        let y = random.below(8200);
        same(seed, compare.row(&highest, y));
    }
    println!("every row, seed {seed}: {}", compare.counts);
}

/// Every step of a reader over pages of several shapes, and the numbers after them; of long pages some. The page's own channels tell each.
#[test]
fn every_step() {
    let seed = SEED + 6;
    let (random, mut compare) = (&mut Random::new(seed), Compare::new(&Library));
    let mut read = |page: &Page, strip: &[u32], n| assert_eq!(same(seed, compare.step(strip, n)), raw_step(&Ok(page.pixel(n))));
    for (look, (width, height)) in LOOKS
        .iter()
        .flat_map(|look| [(1, 200), (150, 1), (17, 13)].map(|shape| (*look, shape)))
    {
        let page = pages::page(random, look, width, height);
        let strip = page.strip();
        (0..width * height + 5).for_each(|n| read(&page, &strip, n));
    }
    for (width, height) in [(1, 8192), (8192, 1), (130, 70)] {
        let page = pages::page(random, Look::Wide, width, height);
        let strip = page.strip();
        for _ in 0..100 {
            read(&page, &strip, random.below(width * height + 50));
            read(&page, &strip, random.bits() >> random.below(64));
        }
    }
    println!("every step, seed {seed}: {}", compare.counts);
}
