//! The picture program's standard output, byte for byte.

use compare::light::{self, DARK};
use compare::pages::{self, Look, Page, LOOKS};
use compare::program::{self, Printed};
use compare::{damage, same, strip_faults, Random, Told};
use std::fs::File;
use std::time::Duration;

const SEED: u64 = 801;

/// How the picture of a page begins that is told this.
fn front(page: &Page, told: Told) -> String {
    match told {
        DARK => "refused 9 0\n".to_string(),
        _ => format!("P6\n{} {}\n255\n", page.width, page.height),
    }
}

/// Sound pages of each look, small ones and the greatest that fit; the dark ones are refused.
#[test]
fn sound() {
    let seed = SEED;
    let (random, mut printed) = (&mut Random::new(seed), Printed::default());
    for (look, _) in LOOKS.iter().flat_map(|look| (0..8).map(move |i| (*look, i))) {
        let (width, height) = pages::small_size(random);
        let page = pages::page(random, look, width, height);
        let picture = same(seed, printed.same(&program::bytes(&page.strip())));
        assert!(picture.starts_with(front(&page, page.told()).as_bytes()));
    }
    let shapes = [(5460, 1), (1, 5460), (84, 65), (70, 78), (2730, 2)];
    for ((width, height), white) in shapes.iter().flat_map(|shape| [None, Some(30)].map(|white| (*shape, white))) {
        let strip = pages::page(random, Look::Wide, width, height).with_white(white).strip();
        assert!(same(seed, printed.same(&program::bytes(&strip))).starts_with(b"P6\n"));
    }
    println!(
        "pictures of sound pages, seed {seed}: {} inputs, {} refused",
        printed.inputs, printed.refused
    );
}

/// Pages at the edge of darkness, as large as fit.
#[test]
fn dark() {
    let seed = SEED + 4;
    let (random, mut printed) = (&mut Random::new(seed), Printed::default());
    let fits = |shape: &&(u64, u64)| shape.0 * shape.1 <= 5460;
    for (shape, lie) in light::EDGES
        .iter()
        .filter(fits)
        .flat_map(|shape| light::WHERE.map(|lie| (*shape, lie)))
    {
        let colour = random.pick(&light::COLOURS);
        let (page, told) = light::page_at_edge(random, shape, lie, colour);
        let picture = same(seed, printed.same(&program::bytes(&page.strip())));
        assert!(picture.starts_with(front(&page, told).as_bytes()), "{shape:?}");
    }
    println!(
        "pictures at the edge, seed {seed}: {} inputs, {} refused",
        printed.inputs, printed.refused
    );
}

/// Damaged strips, and each fault of a strip.
#[test]
fn refused() {
    let seed = SEED + 1;
    let (random, mut printed) = (&mut Random::new(seed), Printed::default());
    let with_each = |white: Option<u64>| strip_faults::faults(white).into_iter().map(move |fault| (fault, white));
    for (fault, white) in with_each(None).chain(with_each(Some(30))) {
        let case = strip_faults::Case::sound(white).with(&[fault]);
        let (number, place) = strip_faults::first(&[fault], strip_faults::Asked::Tally, white);
        let answer = same(seed, printed.same(&program::bytes(&case.strip)));
        if number > 0 {
            assert_eq!(answer, format!("refused {number} {place}\n").as_bytes());
        }
    }
    for _ in 0..120 {
        let (width, height) = pages::small_size(random);
        let strip = pages::page(random, Look::Mixed, width, height).strip();
        same(seed, printed.same(&program::bytes(&damage::random(random, &strip))));
    }
    println!(
        "pictures refused, seed {seed}: {} inputs, {} refused",
        printed.inputs, printed.refused
    );
}

/// The longest strip that the program takes, of 5,460 pixels: 65,532 bytes, or with a white word all 65,536.
fn longest(random: &mut Random, white: Option<u64>) -> Vec<u8> {
    let page = pages::page(random, Look::Wide, 5460, 1).with_white(white);
    let bytes = program::bytes(&page.strip());
    assert_eq!(bytes.len(), 65_532 + 4 * white.is_some() as usize);
    bytes
}

/// Byte counts: none, no multiple of four, at the limit and above it.
#[test]
fn byte_counts() {
    let seed = SEED + 2;
    let (random, mut printed) = (&mut Random::new(seed), Printed::default());
    for white in [None, Some(30)] {
        let bytes = longest(random, white);
        for count in (0..40).chain(65_500..bytes.len()) {
            let answer = same(seed, printed.same(&bytes[..count]));
            assert_eq!(answer, b"refused 3 0\n");
        }
        let mut told = |length: usize| {
            let longer = [&bytes[..], &vec![0; length - bytes.len()]].concat();
            same(seed, printed.same(&longer))
        };
        for length in bytes.len() + 1..=65_536 {
            assert_eq!(told(length), b"refused 3 0\n");
        }
        for more in [1, 2, 3, 4, 5, 8, 4096, 70_000, 1_000_000] {
            assert_eq!(told(65_536 + more), b"long\n");
        }
    }
    for count in [65_533, 65_535, 65_536, 65_537, 65_540, 131_072] {
        let noise: Vec<u8> = (0..count).map(|_| random.bits() as u8).collect();
        same(seed, printed.same(&noise));
    }
    println!(
        "pictures by byte count, seed {seed}: {} inputs, {} refused",
        printed.inputs, printed.refused
    );
}

/// Inputs in pieces whose lengths are no multiples of four, with pauses between them, and from a file.
#[test]
fn pieces_and_files() {
    let seed = SEED + 3;
    let (random, mut printed) = (&mut Random::new(seed), Printed::default());
    let bytes = longest(random, None);
    let white = longest(random, Some(30));
    let padded = [&bytes[..], &[0; 4]].concat();
    let longer = [&bytes[..], &[0; 5]].concat();
    let mut odd = bytes.clone();
    odd.pop();
    for (input, size) in [
        (&bytes, 7_001),
        (&white, 7_001),
        (&padded, 16_383),
        (&longer, 65_536),
        (&longer, 21_847),
        (&odd, 30_001),
    ] {
        let pieces: Vec<&[u8]> = input.chunks(size).collect();
        same(
            seed,
            printed.same_as(input, program::run_in_pieces(&pieces, Duration::from_millis(2))),
        );
        let path = concat!(env!("CARGO_TARGET_TMPDIR"), "/page.strip");
        std::fs::write(path, input).unwrap();
        same(seed, printed.same_as(input, program::run_file(File::open(path).unwrap())));
    }
    let short = &bytes[..23];
    let pieces: Vec<&[u8]> = short.chunks(1).collect();
    same(
        seed,
        printed.same_as(short, program::run_in_pieces(&pieces, Duration::from_millis(1))),
    );
    println!("pictures in pieces and from files, seed {seed}: {} inputs", printed.inputs);
}
