//! Dark pages: sixteen times the lit pixels is one below the pixel count, equal to it, or one above. Tally and map refuse the first and leave
//! the output as it was; every other call takes all three.

use compare::compare::{raw_step, ACCEPTED};
use compare::light::{self, Where, DARK, EDGES, WHERE};
use compare::pages::{Page, BRIGHT, DIM};
use compare::{damage, same, Compare, Elements, Library, Random};

const SEED: u64 = 1601;

/// The calls that take every sound page.
#[track_caller]
fn taken(compare: &mut Compare, page: &Page, strip: &[u32]) {
    let made = compare.convert(Elements::Stored(page.channels.clone()).source(), page.header());
    assert_eq!(made.unwrap(), (ACCEPTED, strip.to_vec()));
    assert_eq!(compare.check(strip).unwrap(), ACCEPTED);
    assert_eq!(compare.header(strip).unwrap().number, 0);
    assert_eq!(compare.row(strip, page.height - 1).unwrap(), ACCEPTED);
    assert_eq!(compare.unpack(strip, page.channels.len()).unwrap(), ACCEPTED);
    let pixels = page.width * page.height;
    for n in [0, pixels - 1, pixels] {
        assert_eq!(compare.step(strip, n).unwrap(), raw_step(&Ok(page.pixel(n))));
    }
}

/// Every call on pages of these shapes at the edge, lit in each of these ways.
fn at_edge(seed: u64, shapes: &[(u64, u64)], ways: &[(Where, [u16; 3])]) {
    let (random, mut compare) = (&mut Random::new(seed), Compare::new(&Library));
    for (shape, (lie, colour)) in shapes.iter().flat_map(|shape| ways.iter().map(move |way| (*shape, *way))) {
        let (page, told) = light::page_at_edge(random, shape, lie, colour);
        let strip = page.strip();
        taken(&mut compare, &page, &strip);
        assert_eq!(same(seed, compare.strip(&strip)), told, "{shape:?} {lie:?} {colour:?}");
    }
    println!("{} shapes at the edge, seed {seed}: {}", shapes.len(), compare.counts);
}

/// 1 to 8,193 pixels, lit at the front, at the end and scattered, in one channel and in all.
#[test]
fn small_pages() {
    at_edge(SEED, &EDGES, &light::ways().collect::<Vec<_>>());
}

/// About 65,536 pixels.
#[test]
fn larger_pages() {
    let ways = [(Where::Front, [1, 0, 0]), (Where::End, [0, 1, 0]), (Where::Scattered, [0, 0, 1])];
    at_edge(SEED + 1, &[(255, 257), (256, 256), (165, 397)], &ways);
}

/// Every number of pixels up to 100 with no to eight lit ones.
#[test]
fn every_count() {
    let seed = SEED + 2;
    let (random, mut compare) = (&mut Random::new(seed), Compare::new(&Library));
    for (pixels, lit) in (1..=100).flat_map(|pixels| (0..=pixels.min(8)).map(move |lit| (pixels, lit))) {
        let (lie, colour) = (random.pick(&WHERE), random.pick(&light::COLOURS));
        let strip = light::page(random, (pixels, 1), lit, lie, colour).strip();
        let told = if 16 * lit < pixels { DARK } else { ACCEPTED };
        assert_eq!(same(seed, compare.strip(&strip)), told, "{lit} of {pixels}");
    }
    println!("every count of lit pixels, seed {seed}: {}", compare.counts);
}

/// Tally and map of a page.
#[track_caller]
fn told(compare: &mut Compare, seed: u64, page: &Page) -> [(u64, u64); 2] {
    let strip = page.strip();
    let tally = same(seed, compare.tally(&strip));
    [(tally.number, tally.place), same(seed, compare.map(&strip, strip.len() - 3)).0]
}

/// Dark pages at the edge with one more pixel lit, each in turn, in each channel, as dimly and as brightly as can be: it is enough.
#[test]
fn one_pixel_more() {
    let seed = SEED + 3;
    let (random, mut compare) = (&mut Random::new(seed), Compare::new(&Library));
    for (shape, lie) in [(1, 1), (1, 17), (11, 3), (13, 5), (257, 1)]
        .iter()
        .flat_map(|shape| WHERE.map(|lie| (*shape, lie)))
    {
        let (page, _) = light::page_at_edge(random, shape, lie, [1; 3]);
        let black = |place: &usize| page.pixel(*place as u64 / 3) == Some([0; 3]);
        assert_eq!(told(&mut compare, seed, &page), [DARK; 2]);
        for (place, channel) in (0..page.channels.len())
            .filter(black)
            .flat_map(|place| [(place, DIM), (place, BRIGHT)])
        {
            let mut lit = page.clone();
            lit.channels[place] = channel;
            assert_eq!(told(&mut compare, seed, &lit), [ACCEPTED; 2], "{shape:?}: channel {place}");
        }
    }
    println!("one lit pixel more, seed {seed}: {}", compare.counts);
}

/// Pages with just enough light with one pixel fewer lit, each in turn: it is too few. One channel less is not, where others are lit.
#[test]
fn one_pixel_fewer() {
    let seed = SEED + 4;
    let (random, mut compare) = (&mut Random::new(seed), Compare::new(&Library));
    for (shape, lie) in [(3, 5), (4, 4), (8, 8), (15, 17), (16, 16)]
        .iter()
        .flat_map(|shape| WHERE.map(|lie| (*shape, lie)))
    {
        let (page, _) = light::page_at_edge(random, shape, lie, [1; 3]);
        let lit = |place: &usize| page.channels[*place] > 0;
        for place in (0..page.channels.len()).filter(lit) {
            let mut less = page.clone();
            less.channels[place] = 0;
            assert_eq!(told(&mut compare, seed, &less), [ACCEPTED; 2], "{shape:?}: channel {place}");
            less.channels[place / 3 * 3..][..3].fill(0);
            assert_eq!(told(&mut compare, seed, &less), [DARK; 2], "{shape:?}: pixel of channel {place}");
        }
    }
    println!("one lit pixel fewer, seed {seed}: {}", compare.counts);
}

/// Each word of pages at the edge changed in many ways: some stay sound, and are then dark or not.
#[test]
fn damaged_words() {
    let seed = SEED + 5;
    let (random, mut compare) = (&mut Random::new(seed), Compare::new(&Library));
    let mut seen = [0; 3];
    for (shape, colour) in [((4, 4), [0, 1, 0]), ((1, 17), [0, 0, 1])] {
        let strip = light::page_at_edge(random, shape, Where::Scattered, colour).0.strip();
        for (place, word) in (0..strip.len()).flat_map(|place| damage::one_word(&strip, place).into_iter().map(move |word| (place, word))) {
            let mut damaged = strip.clone();
            damaged[place] = word;
            match same(seed, compare.strip(&damaged)) {
                ACCEPTED => seen[0] += 1,
                DARK => seen[1] += 1,
                _ => seen[2] += 1,
            }
        }
    }
    assert!(!seen.contains(&0), "{seen:?}");
    let [accepted, dark, refused] = seen;
    println!(
        "damaged words at the edge, seed {seed}: {accepted} accepted, {dark} dark, {refused} refused otherwise, {}",
        compare.counts
    );
}
