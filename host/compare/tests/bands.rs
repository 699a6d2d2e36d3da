//! Bands: pages of every look in every cutting, and the tall page beside each.

use compare::light::Light;
use compare::pages::{self, stored, Look, Page, LOOKS};
use compare::{bands, same, Compare, Library, Random};

const SEED: u64 = 1401;

/// Each cutting of pages of up to eight rows, with lit and with dark rows.
#[test]
fn every_cutting() {
    let seed = SEED;
    let (random, mut compare) = (&mut Random::new(seed), Compare::new(&Library));
    let mut rows = 0;
    for (look, height) in LOOKS.iter().flat_map(|look| (1..=8).map(move |height| (*look, height))) {
        for width in [1, 2, 3, 5] {
            let mut page = pages::page(random, look, width, height);
            if width == 2 {
                bands::darken(random, &mut page);
            }
            for heights in bands::cuttings(height) {
                same(seed, compare.cutting(&page, &heights));
                rows += 1;
            }
        }
    }
    println!("every cutting, seed {seed}: {rows} rows of bands, {}", compare.counts);
}

/// Some cuttings of larger pages.
#[test]
fn larger_pages() {
    let seed = SEED + 1;
    let (random, mut compare) = (&mut Random::new(seed), Compare::new(&Library));
    for (look, (width, height)) in LOOKS
        .iter()
        .flat_map(|look| [(1, 300), (300, 9), (97, 61), (17, 130)].map(|shape| (*look, shape)))
    {
        let page = pages::page(random, look, width, height);
        for _ in 0..3 {
            let heights = bands::cutting(random, height);
            same(seed, compare.cutting(&page, &heights));
        }
    }
    println!("larger pages in bands, seed {seed}: {}", compare.counts);
}

/// Tall and wide pages whose every row is a band, up to 8,192 of them.
#[test]
fn single_rows() {
    let seed = SEED + 2;
    let (random, mut compare) = (&mut Random::new(seed), Compare::new(&Library));
    for (look, width, height) in [
        (Look::Wide, 1, 8192),
        (Look::Lone, 1, 8192),
        (Look::Few, 1, 8192),
        (Look::Mixed, 2, 8192),
        (Look::Near, 2048, 64),
        (Look::Far, 8192, 5),
    ] {
        let page = pages::page(random, look, width, height);
        same(seed, compare.cutting(&page, &bands::single_rows(height)));
    }
    println!("single rows, seed {seed}: {}", compare.counts);
}

/// One lit row, each in turn, in bands that are dark but for one.
#[test]
fn one_lit_band() {
    let mut compare = Compare::new(&Library);
    for (lit, height) in (1..=6).flat_map(|height| (0..height).map(move |lit| (lit, height))) {
        let mut channels = vec![0; 6 * height];
        channels[6 * lit..6 * lit + 6].copy_from_slice(&[0x80FF, 0x8180, 0, 0x7FC0, 0x7FC0, 0x7FC0]);
        let page = Page::new(pages::header(2, height as u64, 180), channels);
        for heights in bands::cuttings(height as u64) {
            compare.cutting(&page, &heights).unwrap();
        }
    }
    println!("one lit band: {}", compare.counts);
}

/// Darkest and brightest in each two of four bands, with dark bands beside them and without. A grey's luminance is the channel.
#[test]
fn extremes() {
    let mut compare = Compare::new(&Library);
    let pairs = (0..4).flat_map(|dark| (0..4).map(move |bright| (dark, bright)));
    for ((dark, bright), other) in pairs.flat_map(|pair| [0, stored(128, 200)].map(|other| (pair, other))) {
        let mut pixels = vec![[other; 3]; 8];
        pixels[2 * dark] = [stored(127, 255); 3];
        pixels[2 * bright + 1] = [stored(129, 128); 3];
        let page = Page::column(180, &pixels);
        let tally = compare.tally_of_bands(&bands::row(&page, &[2; 4])).unwrap();
        assert_eq!((tally.darkest_exponent, tally.darkest_mantissa), (127, 255));
        assert_eq!((tally.brightest_exponent, tally.brightest_mantissa), (129, 128));
        compare.cutting(&page, &[2; 4]).unwrap();
    }
    println!("extremes of bands: {}", compare.counts);
}

/// Strips of two widths, two keys and two white points or none, one behind another: 21 unless all are like the first, then as all their
/// pixels tell.
#[test]
fn like_and_unlike() {
    let seed = SEED + 3;
    let (random, mut compare) = (&mut Random::new(seed), Compare::new(&Library));
    for _ in 0..2_000 {
        let list = bands::several(random);
        let kind = |page: &Page| (page.width, page.key, page.white);
        let like = list.iter().all(|page| kind(page) == kind(&list[0]));
        let row: Vec<u32> = list.iter().flat_map(Page::strip).collect();
        let channels: Vec<u16> = list.iter().flat_map(|page| page.channels.clone()).collect();
        let told = if like { Light::of(&channels).told() } else { (21, 0) };
        assert_eq!(same(seed, compare.bands(&row)), told);
    }
    println!("like and unlike bands, seed {seed}: {}", compare.counts);
}
