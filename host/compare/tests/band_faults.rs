//! Rows of bands that are refused: each fault and each pair of faults, cut and lengthened rows, damaged words, and sizes around the limits.

use compare::band_faults::{alone_and_in_pairs, faults, Fault};
use compare::light::{Light, DARK};
use compare::pages::{self, Look};
use compare::rounds::band_fault_case;
use compare::{bands, damage, same, Compare, Library, Random};

const SEED: u64 = 1501;

/// Each fault in each of three bands, and each pair in one band and in two, for every call; on dark bands too, unless the row is too high
/// already.
#[test]
fn one_and_two_faults() {
    one_and_two_faults_of(None);
}

#[test]
fn one_and_two_faults_with_white() {
    one_and_two_faults_of(Some(30));
}

fn one_and_two_faults_of(white: Option<u64>) {
    let mut compare = Compare::new(&Library);
    let cases = alone_and_in_pairs(&faults(white));
    for faults in &cases {
        band_fault_case(&mut compare, faults, white).unwrap();
    }
    let darkened = |fault: &Fault| !matches!(fault, Fault::Black(..) | Fault::Above(_));
    let dark: Vec<&Vec<Fault>> = cases.iter().filter(|faults| faults.iter().all(darkened)).collect();
    for faults in &dark {
        band_fault_case(&mut compare, &[&[Fault::Black(0, 3)], &faults[..]].concat(), white).unwrap();
    }
    band_fault_case(&mut compare, &[], white).unwrap();
    println!(
        "faults of bands with white point {white:?}: {} cases, {} on dark bands too, {}",
        cases.len(),
        dark.len(),
        compare.counts
    );
}

/// Rows of bands cut at every length: only an end between two bands leaves a row.
#[test]
fn cut_rows() {
    let seed = SEED;
    let (random, mut compare) = (&mut Random::new(seed), Compare::new(&Library));
    let cuttings = [(1, vec![1, 1, 1]), (2, vec![1, 3, 2]), (3, vec![2, 1]), (1, vec![5, 1, 1, 4])];
    for ((width, heights), white) in cuttings.iter().flat_map(|cutting| [None, Some(30)].map(|white| (cutting, white))) {
        let page = pages::page(random, Look::Mixed, *width, heights.iter().sum()).with_white(white);
        let row = bands::row(&page, heights);
        let channels = |bands: usize| (3 * width * heights[..bands].iter().sum::<u64>()) as usize;
        let others = 3 + page.white.is_some() as usize;
        let ended = |count: usize| (1..=heights.len()).find(|&bands| channels(bands) + others * bands == count);
        for count in 0..=row.len() {
            let told = same(seed, compare.bands(&row[..count]));
            let expected = ended(count).map_or((3, 0), |bands| Light::of(&page.channels[..channels(bands)]).told());
            assert_eq!(told, expected, "{count} words");
        }
    }
    println!("cut rows of bands, seed {seed}: {}", compare.counts);
}

/// One word left over is 3, whatever it is; more words that begin no strip are foreign.
#[test]
fn words_left_over() {
    let seed = SEED + 1;
    let (random, mut compare) = (&mut Random::new(seed), Compare::new(&Library));
    for heights in bands::cuttings(4) {
        let row = bands::row(&pages::page(random, Look::Wide, 2, 4), &heights);
        for longer in damage::lengthened(&row) {
            let told = if longer.len() == row.len() + 1 {
                (3, 0)
            } else {
                (7, row.len() as u64)
            };
            assert_eq!(same(seed, compare.bands(&longer)), told);
        }
        for bit in 0..32 {
            assert_eq!(same(seed, compare.bands(&[&row[..], &[1 << bit]].concat())), (3, 0));
        }
    }
    println!("words left over, seed {seed}: {}", compare.counts);
}

/// Each band of three declared one row higher or lower than it is. Where it should end stands a word of another kind, but a last band that
/// is too high is cut.
#[test]
fn other_heights() {
    let seed = SEED + 2;
    let (random, mut compare) = (&mut Random::new(seed), Compare::new(&Library));
    for (band, white) in (0..3).flat_map(|band| [None, Some(30)].map(|white| (band, white))) {
        let page = pages::page(random, Look::Near, 2, 6).with_white(white);
        let sound = bands::row(&page, &[2, 2, 2]);
        let front = 2 + white.is_some() as usize;
        let start = band * (front + 13);
        let mut told = |height| {
            let mut row = sound.clone();
            row[start] = row[start] & !0x3FFF | height;
            same(seed, compare.bands(&row))
        };
        assert_eq!(told(1), (7, (start + front) as u64 + 6));
        for height in [3, 4] {
            assert_eq!(told(height), if band == 2 { (3, 0) } else { (7, (start + front) as u64 + 12) });
        }
        assert_eq!(told(8192), (3, 0));
    }
    println!("other heights, seed {seed}: {}", compare.counts);
}

/// Each word of small rows of bands changed in many ways.
#[test]
fn damaged_words() {
    let seed = SEED + 3;
    let (random, mut compare) = (&mut Random::new(seed), Compare::new(&Library));
    let (mut rows, mut accepted) = (0, 0);
    for (width, heights) in [
        (1, vec![1, 1]),
        (1, vec![1, 2, 1]),
        (2, vec![1, 1, 1]),
        (2, vec![2, 1]),
        (1, vec![2, 2]),
    ] {
        for (look, white) in [(Look::Wide, None), (Look::Mixed, None), (Look::Black, None), (Look::Wide, Some(30))] {
            let page = pages::page(random, look, width, heights.iter().sum()).with_white(white);
            let row = bands::row(&page, &heights);
            for (place, word) in (0..row.len()).flat_map(|place| damage::one_word(&row, place).into_iter().map(move |word| (place, word))) {
                let mut damaged = row.clone();
                damaged[place] = word;
                accepted += (same(seed, compare.bands(&damaged)) == (0, 0)) as u64;
                rows += 1;
            }
        }
    }
    println!(
        "damaged words of bands, seed {seed}: {rows} rows, {accepted} still accepted, {}",
        compare.counts
    );
}

/// The greatest height, and one row more.
#[test]
fn heights_at_limit() {
    let mut compare = Compare::new(&Library);
    for width in [1, 3] {
        for heights in [vec![8192], vec![8191, 1], vec![1, 8191], vec![4096, 4096], vec![1, 8190, 1]] {
            assert_eq!(compare.bands(&bands::flat(width, &heights, 0x80FF)).unwrap(), (0, 0), "{heights:?}");
            assert_eq!(compare.bands(&bands::black(width, &heights)).unwrap(), DARK, "{heights:?}");
        }
        for heights in [vec![8192, 1], vec![1, 8192], vec![4096, 4097], vec![8191, 1, 1], vec![8192, 8192]] {
            assert_eq!(compare.bands(&bands::black(width, &heights)).unwrap(), (21, 0), "{heights:?}");
        }
    }
    println!("heights of bands at the limit: {}", compare.counts);
}

/// The greatest number of pixels, and one row more. The accepted ones are mapped elsewhere.
#[test]
fn pixels_at_limit() {
    let mut compare = Compare::new(&Library);
    for (width, heights) in [(8192, [2047, 1]), (4097, [4094, 1])] {
        let header = compare.header_of_bands(&bands::black(width, &heights)).unwrap();
        assert_eq!((header.number, header.height), (0, heights.iter().sum()));
    }
    for (width, heights) in [(8192, [1, 2048]), (4097, [4095, 1])] {
        let header = compare.header_of_bands(&bands::black(width, &heights)).unwrap();
        assert_eq!((header.number, header.height), (21, 0));
    }
    let row = bands::black(8192, &[2048, 1]);
    assert_eq!(compare.tally_of_bands(&row).unwrap().number, 21);
    assert_eq!(compare.map_bands(&row, 0).unwrap().0, (21, 0));
    println!("pixels of bands at the limit: {}", compare.counts);
}
