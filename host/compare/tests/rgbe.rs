//! RGBE pixels: every byte with every exponent.

use compare::rounds::converted;
use compare::{pages, same, values, Compare, Elements, Library, Random};

const SEED: u64 = 301;

fn bytes(refused: bool) -> Vec<(u8, u8)> {
    let all = (0..=255).flat_map(|e| (0..=255).map(move |m| (m, e)));
    all.filter(|&(m, e)| values::rgbe_is_too_bright(m, e) == refused).collect()
}

/// Each byte that is too bright, at each channel of some pixel; the channels before it are the greatest that are not.
#[test]
fn refused() {
    let seed = SEED;
    let (random, mut compare) = (&mut Random::new(seed), Compare::new(&Library));
    let list = bytes(true);
    for &(mantissa, exponent) in &list {
        let greatest = (0..=255).rev().find(|&m| !values::rgbe_is_too_bright(m, exponent));
        for channel in if greatest.is_some() { 0..3 } else { 0..1 } {
            let (width, at) = (random.between(1, 3), 4 * random.below(3) as usize);
            let at = at.min(4 * (width as usize - 1));
            let mut source: Vec<u8> = (0..width).flat_map(|_| values::rgbe(random)).collect();
            let mut pixel = [greatest.unwrap_or(0), greatest.unwrap_or(0), random.bits() as u8, exponent];
            pixel[channel] = mantissa;
            source[at..at + 4].copy_from_slice(&pixel);
            let header = pages::header(width, 1, 180);
            let (told, _) = same(seed, compare.convert(Elements::Rgbe(source).source(), header));
            assert_eq!(told, (6, (at + channel) as u64), "{mantissa} {exponent}");
        }
    }
    println!("RGBE refused, seed {seed}: {} bytes, {}", list.len(), compare.counts);
}

/// Each accepted byte with its exponent: grey pixels in rows of the same exponent, and each with other bytes beside it.
#[test]
fn accepted() {
    let seed = SEED + 1;
    let (random, mut compare) = (&mut Random::new(seed), Compare::new(&Library));
    let list = bytes(false);
    for exponent in 0..=193 {
        let row: Vec<u8> = list.iter().filter(|b| b.1 == exponent).map(|b| b.0).collect();
        page(&mut compare, random, seed, row.iter().flat_map(|&m| [m, m, m, exponent]).collect());
        for channel in 0..3 {
            let beside = |random: &mut Random, m: u8| {
                let mut pixel = [0; 3].map(|_| random.pick(&row));
                pixel[channel] = m;
                [pixel[0], pixel[1], pixel[2], exponent]
            };
            let source = row.iter().flat_map(|&m| beside(random, m)).collect();
            page(&mut compare, random, seed, source);
        }
    }
    for _ in 0..40 {
        let source = (0..1024).flat_map(|_| values::rgbe(random)).collect();
        page(&mut compare, random, seed, source);
    }
    println!("RGBE accepted, seed {seed}: {} bytes, {}", list.len(), compare.counts);
}

fn page(compare: &mut Compare, random: &mut Random, seed: u64, source: Vec<u8>) {
    let header = pages::random_header(random, source.len() as u64 / 4, 1);
    assert_eq!(same(seed, converted(compare, &Elements::Rgbe(source), header)), (0, 0));
}

/// Exponent 0 makes the pixel black, whatever its bytes.
#[test]
fn black() {
    let mut compare = Compare::new(&Library);
    for byte in 0..=255 {
        let header = pages::header(1, 1, 180);
        let (_, strip) = compare
            .convert(Elements::Rgbe(vec![byte, 255 - byte, byte, 0]).source(), header)
            .unwrap();
        assert_eq!(strip[2..5], [4 << 28, 5 << 28, 6 << 28]);
    }
    println!("RGBE black: {}", compare.counts);
}
