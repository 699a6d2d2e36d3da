//! Dark pages in bands: only the lit pixels of all bands together count.

use compare::compare::{Told, ACCEPTED};
use compare::light::{self, Light, Where, DARK, EDGES, WHERE};
use compare::pages::{self, Page};
use compare::{bands, same, Compare, Library, Random};

const SEED: u64 = 1701;

/// What is told of the bands together, and of each alone.
#[track_caller]
fn told(compare: &mut Compare, row: &[u32]) -> (Told, Vec<Told>) {
    let alone = bands::strips(row).into_iter().map(|strip| compare.strip(strip).unwrap()).collect();
    (compare.bands(row).unwrap(), alone)
}

/// The bands of a page whose rows have so many lit pixels each, at their front.
fn row(width: u64, lit: &[u64], heights: &[u64]) -> Vec<u32> {
    let pixel = |is_lit| if is_lit { [0x7FC0, 0, 0x8180] } else { [0; 3] };
    let channels = lit.iter().flat_map(|&lit| (0..width).flat_map(move |x| pixel(x < lit)));
    let header = pages::header(width, lit.len() as u64, 180);
    bands::row(&Page::new(header, channels.collect()), heights)
}

/// A band that is dark alone, with and without a lit pixel, above, below and between bright ones: the page is not dark.
#[test]
fn dark_band() {
    let mut compare = Compare::new(&Library);
    for dark in [0, 1] {
        for (lit, alone) in [
            ([dark, 17, 17], [DARK, ACCEPTED, ACCEPTED]),
            ([17, dark, 17], [ACCEPTED, DARK, ACCEPTED]),
            ([2, 17, dark], [ACCEPTED, ACCEPTED, DARK]),
            ([dark, dark, 17], [DARK, DARK, ACCEPTED]),
            ([4, dark, dark], [ACCEPTED, DARK, DARK]),
        ] {
            assert_eq!(told(&mut compare, &row(17, &lit, &[1; 3])), (ACCEPTED, alone.to_vec()), "{lit:?}");
        }
    }
    println!("dark bands: {}", compare.counts);
}

/// A band that is bright alone among black ones: sixteen rows, one of them lit, are just enough, and one row more is too many.
#[test]
fn bright_band() {
    let mut compare = Compare::new(&Library);
    for (rows, width, lit) in (15..=18)
        .flat_map(|rows| [1, 5, 16].map(|width| (rows, width)))
        .flat_map(|(rows, width)| [0, 7, rows - 1].map(|lit| (rows, width, lit)))
    {
        let lit: Vec<u64> = (0..rows).map(|y| if y == lit { width } else { 0 }).collect();
        let joined = if rows > 16 { DARK } else { ACCEPTED };
        let alone: Vec<Told> = lit.iter().map(|&lit| if lit > 0 { ACCEPTED } else { DARK }).collect();
        assert_eq!(
            told(&mut compare, &row(width, &lit, &bands::single_rows(rows))),
            (joined, alone),
            "{rows} rows of {width}"
        );
    }
    println!("bright bands: {}", compare.counts);
}

/// Sixteen times the joined number is the joined pixel count, one below or one above it; of no band alone it is.
#[test]
fn joined_at_the_edge() {
    let mut compare = Compare::new(&Library);
    let cases: [(u64, &[u64], &[u64], Told); 6] = [
        (8, &[0, 0, 1, 1], &[1, 3], ACCEPTED),
        (8, &[2, 0, 0, 0], &[1, 3], ACCEPTED),
        (16, &[0, 3, 0], &[1, 1, 1], ACCEPTED),
        (3, &[1, 0, 0, 0, 0, 0, 0, 0, 0, 0, 1], &[5, 6], DARK),
        (11, &[1, 0, 1], &[1, 1, 1], DARK),
        (21, &[0, 4, 0], &[1, 2], ACCEPTED),
    ];
    for (width, lit, heights, joined) in cases {
        let row = row(width, lit, heights);
        let (pixels, lit) = (width * lit.len() as u64, lit.iter().sum::<u64>());
        assert!((pixels - 1..=pixels + 1).contains(&(16 * lit)));
        for strip in bands::strips(&row) {
            let Light { lit, pixels } = Light::of(pages::channel_words(strip));
            assert_ne!(16 * lit, pixels);
        }
        assert_eq!(told(&mut compare, &row).0, joined, "{lit} of {pixels}");
    }
    println!("joined bands at the edge: {}", compare.counts);
}

/// Pages at the edge in every cutting, of high ones in some: what is told is what the page is.
#[test]
fn every_cutting() {
    let seed = SEED;
    let (random, mut compare) = (&mut Random::new(seed), Compare::new(&Library));
    for (shape, (lie, colour)) in EDGES.iter().flat_map(|shape| light::ways().map(move |way| (*shape, way))) {
        let (page, told) = light::page_at_edge(random, shape, lie, colour);
        let cuttings = match shape.1 {
            1..=5 => bands::cuttings(shape.1),
            _ => vec![
                bands::single_rows(shape.1),
                bands::cutting(random, shape.1),
                bands::cutting(random, shape.1),
            ],
        };
        for heights in cuttings {
            same(seed, compare.cutting(&page, &heights));
        }
        assert_eq!(page.told(), told);
    }
    println!("cuttings at the edge, seed {seed}: {}", compare.counts);
}

/// A row of each page at the edge with one lit pixel more or fewer, in single rows: each pixel counts, in whichever band.
#[test]
fn one_pixel() {
    let seed = SEED + 1;
    let (random, mut compare) = (&mut Random::new(seed), Compare::new(&Library));
    for (shape, lie) in [(1, 17), (3, 11), (7, 7), (3, 5), (4, 4), (8, 8)]
        .iter()
        .flat_map(|shape| WHERE.map(|lie| (*shape, lie)))
    {
        let (page, _) = light::page_at_edge(random, shape, lie, [1; 3]);
        for place in 0..page.channels.len() / 3 {
            let mut other = page.clone();
            let pixel = &mut other.channels[3 * place..][..3];
            let was_lit = *pixel != [0; 3];
            pixel.copy_from_slice(if was_lit { &[0; 3] } else { &[0, 0, pages::DIM] });
            let row = bands::row(&other, &bands::single_rows(shape.1));
            let expected = if was_lit { DARK } else { ACCEPTED };
            assert_eq!(same(seed, compare.bands(&row)), expected, "{shape:?}: pixel {place}");
        }
    }
    println!("one pixel of bands, seed {seed}: {}", compare.counts);
}

/// The greatest number of bands at the edge and beside it: 512 of 8,192 rows lit are just enough.
#[test]
fn all_bands() {
    let seed = SEED + 2;
    let (random, mut compare) = (&mut Random::new(seed), Compare::new(&Library));
    for (lit, lie, told) in [
        (512, Where::Scattered, ACCEPTED),
        (511, Where::Front, DARK),
        (511, Where::End, DARK),
    ] {
        let page = light::page(random, (1, 8192), lit, lie, [1, 0, 0]);
        assert_eq!(
            same(seed, compare.bands(&bands::row(&page, &bands::single_rows(8192)))),
            told,
            "{lit} lit"
        );
    }
    println!("8192 bands at the edge, seed {seed}: {}", compare.counts);
}
