//! All 65,536 stored numbers, as sources and as words of a strip.

use compare::pages::{self, Page};
use compare::{same, values, Compare, Elements, Library, Random};

const SEED: u64 = 401;

/// Each number in a source of one to three pixels, at some place.
#[test]
fn sources() {
    let seed = SEED;
    let (random, mut compare) = (&mut Random::new(seed), Compare::new(&Library));
    for value in 0..=u16::MAX {
        let width = random.between(1, 3);
        let place = random.below(3 * width);
        let mut elements = values::accepted(random, compare::Kind::Stored, width);
        elements.set(place as usize, value as u32);
        let header = pages::header(width, 1, 180);
        let (told, _) = same(seed, compare.convert(elements.source(), header));
        assert_eq!(told, if pages::is_channel(value) { (0, 0) } else { (8, place) }, "{value:04X}");
    }
    println!("stored in sources, seed {seed}: 65536 numbers, {}", compare.counts);
}

/// Each number in a channel word of a strip of one or two pixels: every call.
#[test]
fn words() {
    let seed = SEED + 1;
    let (random, mut compare) = (&mut Random::new(seed), Compare::new(&Library));
    for value in 0..=u16::MAX {
        let width = random.between(1, 2);
        let place = random.below(3 * width);
        let header = pages::random_header(random, width, 1);
        let mut page = Page::new(header, (0..3 * width).map(|_| values::stored(random)).collect());
        page.channels[place as usize] = value;
        let front = 2 + page.white.is_some() as u64;
        let told = same(seed, compare.strip(&page.strip()));
        let expected = if pages::is_channel(value) {
            page.told()
        } else {
            (8, place + front)
        };
        assert_eq!(told, expected, "{value:04X}");
    }
    println!("stored in words, seed {seed}: 65536 numbers, {}", compare.counts);
}

/// Each accepted number as a grey pixel and alone in each channel, in pages of 128 pixels.
#[test]
fn accepted() {
    let seed = SEED + 2;
    let (random, mut compare) = (&mut Random::new(seed), Compare::new(&Library));
    let list: Vec<u16> = (0..=u16::MAX).filter(|&value| pages::is_channel(value)).collect();
    for part in list.chunks(128) {
        for shape in [[1, 1, 1], [1, 0, 0], [0, 1, 0], [0, 0, 1]] {
            let channels = part.iter().flat_map(|&value| shape.map(|on| on * value)).collect();
            let page = Page::new(pages::random_header(random, part.len() as u64, 1), channels);
            let made = same(
                seed,
                compare.convert(Elements::Stored(page.channels.clone()).source(), page.header()),
            );
            assert_eq!(made, ((0, 0), page.strip()));
            same(seed, compare.strip(&page.strip()));
        }
    }
    println!("stored in pages, seed {seed}: {} numbers, {}", list.len(), compare.counts);
}
