//! Demand 3: the first half, by request 2026-06 "at most half a step below the reported steps and less than one and a half above", on pages
//! of up to 2,000 lit pixels, and pages that drive both halves to their limits; each also of bands.

use compare::counts::Counts;
use compare::pages::{self, Look, Page, LOOKS};
use compare::{bands, limits, same, Compare, Library, Random};

const SEED: u64 = 701;

const LEAST: [u16; 3] = [0, 0, pages::DIM];
const GREATEST: [u16; 3] = [pages::BRIGHT; 3];
/// The least and the greatest luminance with the keys that drive the scaled one to its limits, and with the others.
const SCALED: [([u16; 3], [u16; 3], u64); 4] = [
    (GREATEST, LEAST, 1),
    (LEAST, GREATEST, 1000),
    (GREATEST, LEAST, 1000),
    (LEAST, GREATEST, 1),
];

/// Pages of up to 120 pixels of each look.
#[test]
fn means_of_small_pages() {
    let seed = SEED;
    let (random, mut compare) = (&mut Random::new(seed), Compare::new(&Library));
    compare.mean_limit = 2_000;
    for (look, _) in LOOKS.iter().flat_map(|look| (0..12).map(move |i| (*look, i))) {
        let (width, height) = (random.between(1, 12), random.between(1, 10));
        let page = pages::page(random, look, width, height);
        same(seed, compare.strip(&page.strip()));
    }
    println!("means of small pages, seed {seed}: {}", compare.counts);
}

/// A few of 500 to 2,000.
#[test]
fn means_of_long_pages() {
    let seed = SEED + 1;
    let (random, mut compare) = (&mut Random::new(seed), Compare::new(&Library));
    compare.mean_limit = 2_000;
    for (look, width, height) in [
        (Look::Wide, 40, 50),
        (Look::Near, 25, 40),
        (Look::Mixed, 30, 40),
        (Look::Single, 500, 1),
    ] {
        let page = pages::page(random, look, width, height);
        same(seed, compare.strip(&page.strip()));
    }
    println!("means of long pages, seed {seed}: {}", compare.counts);
}

/// Whether the farthest means lie between these limits and less than 0.005 from them. Of all entries T[218] is rounded up the most, with
/// 256 · log2(218.5) = 1989.50130, and T[154] down the most, with 256 · log2(154.5) = 1861.49454; dividing by N then cuts at most
/// 1 - 1/N.
#[track_caller]
fn reaches(counts: &Counts, low: f64, high: f64) {
    assert!(low < counts.mean_low && counts.mean_low < low + 0.005, "{counts}");
    assert!(high - 0.005 < counts.mean_high && counts.mean_high < high, "{counts}");
}

/// Pages of one mantissa throughout, on which nothing is cut in dividing: the mean lies as far below or above the average as that entry of
/// T lets it, less than half a step.
#[test]
fn means_of_flat_pages() {
    let mut compare = Compare::new(&Library);
    for (mantissa, count) in (128..=255).flat_map(|mantissa| [1, 2, 7].map(|count| (mantissa, count))) {
        let grey = [pages::stored(120, mantissa); 3];
        compare.strip(&Page::row(180, &vec![grey; count]).strip()).unwrap();
    }
    reaches(&compare.counts, -0.4987, 0.4946);
    println!("means of flat pages: {}", compare.counts);
}

/// Greys that push the mean to a limit: their steps are rounded by nearly half a step each, up or down, and the division cuts nothing, or
/// nearly a whole step.
#[test]
fn means_at_limits() {
    let seed = SEED + 3;
    let (random, mut compare) = (&mut Random::new(seed), Compare::new(&Library));
    compare.mean_limit = 2_000;
    for count in (2..60).chain([100, 200, 300]) {
        for far in [false, true] {
            same(seed, compare.strip(&limits::page(random, count, far).strip()));
        }
    }
    reaches(&compare.counts, -0.4987, 1.4946);
    println!("means at limits, seed {seed}: {}", compare.counts);
}

/// Levels of one bright or dim pixel among others, with each key at the limits, and saturated channels.
#[test]
fn levels_at_limits() {
    let seed = SEED + 2;
    let (random, mut compare) = (&mut Random::new(seed), Compare::new(&Library));
    for key in [1, 2, 180, 999, 1000] {
        for look in [
            Look::Spark,
            Look::Speck,
            Look::Far,
            Look::Single,
            Look::Edges,
            Look::Near,
            Look::Powers,
        ] {
            for _ in 0..8 {
                let mut page = pages::page(random, look, 60, 10);
                page.key = key;
                same(seed, compare.strip(&page.strip()));
            }
        }
    }
    println!("levels at limits, seed {seed}: {}", compare.counts);
}

/// The least luminance among the greatest and the other way round.
#[test]
fn scaled_luminances_at_limits() {
    let mut compare = Compare::new(&Library);
    for (common, odd, key) in SCALED {
        for (count, white) in [2, 8, 100, 8192]
            .iter()
            .flat_map(|count| pages::WHITES.map(|white| (*count, white)))
        {
            let mut pixels = vec![common; count];
            pixels[count / 2] = odd;
            compare.strip(&Page::row(key, &pixels).with_white(white).strip()).unwrap();
        }
    }
    println!("scaled luminances at limits: {}", compare.counts);
}

/// Pages of up to 120 pixels of each look in bands: the mean is that of all lit pixels together.
#[test]
fn means_of_bands() {
    let seed = SEED + 4;
    let (random, mut compare) = (&mut Random::new(seed), Compare::new(&Library));
    compare.mean_limit = 2_000;
    for (look, _) in LOOKS.iter().flat_map(|look| (0..12).map(move |i| (*look, i))) {
        let (width, height) = (random.between(1, 10), random.between(2, 12));
        let mut page = pages::page(random, look, width, height);
        if random.one_in(3) {
            bands::darken(random, &mut page);
        }
        let heights = bands::cutting(random, height);
        same(seed, compare.cutting(&page, &heights));
    }
    println!("means of bands, seed {seed}: {}", compare.counts);
}

/// Bands of one mantissa throughout, and one such band among black ones: each entry of T by itself in the joined sum; then all mantissas,
/// each in a band.
#[test]
fn means_of_flat_bands() {
    let mut compare = Compare::new(&Library);
    compare.mean_limit = 128;
    let greys: Vec<[u16; 3]> = (128..=255).map(|mantissa| [pages::stored(120, mantissa); 3]).collect();
    for &grey in &greys {
        for pixels in [[grey, [0; 3], [0; 3]], [[0; 3], grey, [0; 3]], [grey; 3]] {
            compare.cutting(&Page::column(180, &pixels), &[1; 3]).unwrap();
        }
    }
    reaches(&compare.counts, -0.4987, 0.4946);
    compare.cutting(&Page::column(180, &greys), &[1; 128]).unwrap();
    println!("means of flat bands: {}", compare.counts);
}

/// The greys that push the mean to a limit, one below another in bands.
#[test]
fn means_of_bands_at_limits() {
    let seed = SEED + 5;
    let (random, mut compare) = (&mut Random::new(seed), Compare::new(&Library));
    compare.mean_limit = 2_000;
    for (count, far) in (2..60).chain([100, 200, 300]).flat_map(|count| [(count, false), (count, true)]) {
        let page = limits::page(random, count, far).turned();
        let heights = bands::cutting(random, count);
        same(seed, compare.cutting(&page, &heights));
    }
    reaches(&compare.counts, -0.4987, 1.4946);
    println!("means of bands at limits, seed {seed}: {}", compare.counts);
}

/// Levels of bands with each key at the limits. Bands of sparks and specks have averages far from the joined one.
#[test]
fn levels_of_bands_at_limits() {
    let seed = SEED + 6;
    let (random, mut compare) = (&mut Random::new(seed), Compare::new(&Library));
    for (key, look) in [1, 180, 1000]
        .iter()
        .flat_map(|key| [Look::Spark, Look::Speck, Look::Far, Look::Single, Look::Edges, Look::Wide].map(|look| (*key, look)))
    {
        for heights in [[1; 12].to_vec(), vec![4; 3], vec![11, 1], vec![1, 11]] {
            let mut page = pages::page(random, look, 20, 12);
            page.key = key;
            same(seed, compare.cutting(&page, &heights));
        }
    }
    println!("levels of bands at limits, seed {seed}: {}", compare.counts);
}

/// A band of the least luminance below one of the greatest and the other way round.
#[test]
fn scaled_luminances_of_bands_at_limits() {
    let mut compare = Compare::new(&Library);
    for (upper, lower, key) in SCALED {
        for (count, odd) in [(2, 1), (8, 1), (100, 1), (100, 50), (8192, 1)] {
            let mut pixels = vec![upper; count];
            pixels[count - odd..].fill(lower);
            for white in pages::WHITES {
                let page = Page::column(key, &pixels).with_white(white);
                compare.cutting(&page, &[(count - odd) as u64, odd as u64]).unwrap();
            }
        }
    }
    println!("scaled luminances of bands at limits: {}", compare.counts);
}
