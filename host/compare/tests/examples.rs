//! The worked examples of document 01 and of the requests through the C interface, as strips and in bands. Every expected value is the
//! papers', or follows from their rules where a comment says how.

use compare::compare::{raw_step, raw_tally};
use compare::pages::{header, stored, Page};
use compare::{bands, program, Calls, Elements, Library};
use dofnihet::raw::{Outcome, Tally};
use second::whole::Whole;
use second::Refusal;

/// The strip of a source of one row, or the refusal.
fn strip(elements: &Elements, key: u64) -> Result<Vec<u32>, (u64, u64)> {
    let pixels = elements.count() / elements.kind().of_pixel();
    let mut output = vec![0; dofnihet::strip_length(pixels)];
    let header = header(pixels as u64, 1, key);
    let outcome = Library.convert(elements.source(), header, &mut output);
    match outcome.number {
        0 => Ok(output),
        number => Err((number, outcome.place)),
    }
}

/// The first channel of a source of one pixel; None is black.
fn channel(elements: Elements) -> Result<Option<(u32, u32)>, (u64, u64)> {
    let word = strip(&elements, 180)?[2];
    assert_eq!(word >> 16, 0x4000);
    Ok((word != 4 << 28).then_some((word >> 8 & 0xFF, word & 0xFF)))
}

fn half(bits: u16) -> Result<Option<(u32, u32)>, (u64, u64)> {
    channel(Elements::Half(vec![bits, 0, 0]))
}

fn rgbe(byte: u8, e: u8) -> Result<Option<(u32, u32)>, (u64, u64)> {
    channel(Elements::Rgbe(vec![byte, 0, 0, e]))
}

fn single(bits: u32) -> Result<Option<(u32, u32)>, (u64, u64)> {
    channel(Elements::Single(vec![bits, 0, 0]))
}

fn levels(strip: &[u32]) -> Vec<u8> {
    let mut levels = vec![0; strip.len() - 3];
    assert_eq!(Library.map(strip, &mut levels).number, 0);
    levels
}

fn levels_of_bands(row: &[u32]) -> Vec<u8> {
    let mut levels = vec![0; 3 * Library.header_of_bands(row).height as usize];
    assert_eq!(Library.map_bands(row, &mut levels).number, 0);
    levels
}

fn extremes(strip: &[u32]) -> [(u64, u64); 2] {
    both(Library.tally(strip))
}

/// Darkest and brightest.
fn both(tally: Tally) -> [(u64, u64); 2] {
    [
        (tally.darkest_exponent, tally.darkest_mantissa),
        (tally.brightest_exponent, tally.brightest_mantissa),
    ]
}

fn greys(halves: &[u16]) -> Vec<u32> {
    strip(&Elements::Half(halves.iter().flat_map(|half| [*half; 3]).collect()), 180).unwrap()
}

#[test]
fn channels() {
    assert_eq!(half(0x3C00), Ok(Some((128, 255))));
    assert_eq!(half(0x3C01), Ok(Some((129, 128))));
    assert_eq!(half(0x0001), Ok(Some((104, 255))));
    assert_eq!(half(0x0003), Ok(Some((106, 192))));
    assert_eq!(half(0x7BFF), Ok(Some((144, 255))));
    assert_eq!(half(0x8000), Ok(None));
    assert_eq!(half(0xFC00), Err((5, 0)));
    assert_eq!(rgbe(1, 136), Ok(Some((129, 192))));
    assert_eq!(rgbe(255, 71), Ok(None));
    assert_eq!(rgbe(127, 185), Ok(Some((184, 255))));
    assert_eq!(rgbe(128, 185), Err((6, 0)));
    assert_eq!(single(0x2300_0000), Ok(None));
    assert_eq!(single(0x2300_0001), Ok(Some((72, 128))));
    assert_eq!(single(0x5B80_0000), Ok(Some((184, 255))));
    assert_eq!(single(0x5B80_0001), Err((6, 0)));
    println!("examples of channels: 15");
}

/// T[M], read from the sum of one grey pixel of exponent 136, whose luminance is the channel itself.
fn table_entry(mantissa: u64) -> i64 {
    let tally = Library.tally(&Page::row(180, &[[stored(136, mantissa); 3]]).strip());
    assert_eq!(tally.lit, 1);
    tally.sum
}

/// The papers' entries of T, to the nearest step as request 2026-06 has it: 256 · log2(M + 1/2) is 1793.44 for 128, 1942.71 for 192 and
/// 2047.28 for 255. X[128], read from the average of two greys with T[128] = 1793 and T[255] = 2047 steps: 1920 is 256 · 7 + 128, and
/// 7 + 129 is 136.
#[test]
fn tables() {
    for (mantissa, steps) in [(128, 1793), (192, 1943), (255, 2047)] {
        assert_eq!(table_entry(mantissa), steps);
    }
    let tally = Library.tally(&Page::row(180, &[[stored(136, 128); 3], [stored(136, 255); 3]]).strip());
    assert_eq!((tally.average, tally.exponent, tally.mantissa), (1920, 136, 181));
    println!("examples of tables: 4");
}

/// 512 · log2(M + 1/2) rounded down: the greatest h with 2^(h+512) ≤ (2M+1)^512.
fn half_steps(mantissa: u64) -> i64 {
    Whole::from(2 * mantissa + 1).pow(512).bit_length() as i64 - 1 - 512
}

/// Every entry t of T is "the whole number nearest to 256 · log2(M + 1/2)": 512 · log2(M + 1/2) rounded down is 2t, or 2t - 1 where T is
/// rounded up.
#[test]
fn nearest_steps() {
    let mut more = 0;
    for mantissa in 128..=255 {
        let (twice, halves) = (2 * table_entry(mantissa), half_steps(mantissa));
        assert!(halves == twice || halves == twice - 1, "T[{mantissa}]");
        more += (halves == twice - 1) as u64;
    }
    println!("every entry of T: {more} of 128 rounded up");
}

#[test]
fn pages() {
    let one = greys(&[0x3C00]);
    let tally = Library.tally(&one);
    assert_eq!((tally.lit, tally.average, tally.exponent, tally.mantissa), (1, -1, 128, 255));
    assert_eq!(extremes(&one), [(128, 255); 2]);
    assert_eq!(levels(&one), [39; 3]);

    let two = greys(&[0x3C00, 0x3800]);
    let tally = Library.tally(&two);
    assert_eq!((tally.lit, tally.average, tally.exponent, tally.mantissa), (2, -129, 128, 180));
    assert_eq!(extremes(&two), [(127, 255), (128, 255)]);
    assert_eq!(levels(&two), [52, 52, 52, 29, 29, 29]);

    let three = greys(&[0x3C00, 0x3C00, 0x3800]);
    assert_eq!(Library.tally(&three).average, -87);
    assert_eq!(extremes(&three), [(127, 255), (128, 255)]);

    let bright = greys(&[0x7BFF, 0]);
    let tally = Library.tally(&bright);
    assert_eq!((tally.lit, tally.average), (1, 4095));
    assert_eq!(extremes(&bright), [(144, 255); 2]);
    assert_eq!(levels(&bright), [39, 39, 39, 0, 0, 0]);

    // Luminance (127,137), also read from its steps 256(E−136) + T[M]: 256 · log2(137.5) is 1818.44.
    let red = Elements::Half(vec![0x3C00, 0, 0]);
    assert_eq!(Library.tally(&strip(&red, 180).unwrap()).sum, 256 * (127 - 136) + 1818);
    assert_eq!(extremes(&strip(&red, 180).unwrap()), [(127, 137); 2]);
    assert_eq!(levels(&strip(&red, 180).unwrap()), [145, 0, 0]);
    assert_eq!(levels(&strip(&red, 1000).unwrap()), [255, 0, 0]);
    println!("examples of pages: 6");
}

/// Pages of the same greys one below another, each a band: average and levels are those of the whole page, 4095 and 39 beside a dark band.
#[test]
fn pages_in_bands() {
    let of_bands = |halves: &[u16]| -> Vec<u32> { halves.iter().flat_map(|half| greys(&[*half])).collect() };
    let (two, dark) = (of_bands(&[0x3C00, 0x3800]), of_bands(&[0x7BFF, 0]));
    let tally = Library.tally_of_bands(&two);
    assert_eq!((tally.lit, tally.average, tally.exponent, tally.mantissa), (2, -129, 128, 180));
    assert_eq!(both(tally), [(127, 255), (128, 255)]);
    assert_eq!(levels_of_bands(&two), [52, 52, 52, 29, 29, 29]);
    assert_eq!(Library.tally_of_bands(&of_bands(&[0x3C00, 0x3C00, 0x3800])).average, -87);
    let tally = Library.tally_of_bands(&dark);
    assert_eq!((tally.lit, tally.average, both(tally)), (1, 4095, [(144, 255); 2]));
    assert_eq!(levels_of_bands(&dark), [39, 39, 39, 0, 0, 0]);
    println!("examples of bands: 3");
}

/// The least luminance is that of blue (72,128) alone: 6/100 · 128.5 · 2^-64 is 246.72 · 2^-69. The greatest is that of a grey (184,255).
/// Of greys the greater mantissa may be the darker: (127,255) is below (129,128).
#[test]
fn darkest_and_brightest() {
    let of = |pixels: &[[u16; 3]]| extremes(&Page::row(180, pixels).strip());
    let (least, greatest) = ([0, 0, stored(72, 128)], [stored(184, 255); 3]);
    assert_eq!(of(&[greatest, least]), [(67, 246), (184, 255)]);
    assert_eq!(
        of(&[[stored(129, 128); 3], [0; 3], [stored(127, 255); 3]]),
        [(127, 255), (129, 128)]
    );
    println!("examples of darkest and brightest: 2");
}

/// What tally and map tell of a strip, the levels in memory that was all 7.
fn told(strip: &[u32]) -> (Tally, Outcome, Vec<u8>) {
    let mut levels = vec![7; strip.len() - 3];
    let outcome = Library.map(strip, &mut levels);
    (Library.tally(strip), outcome, levels)
}

/// Request 2026-03. The grey of the one-pixel example and fifteen black pixels: sixteen times one is sixteen, and average and level are its
/// own. One more black pixel, or no lit one, and the page is dark: number 9, place 0, the other fields 0, the memory as it was.
#[test]
fn dark_pages() {
    let mut halves = vec![0; 16];
    halves[9] = 0x3C00;
    let (tally, outcome, levels) = told(&greys(&halves));
    assert_eq!((tally.number, outcome.number, tally.lit, tally.average), (0, 0, 1, -1));
    assert_eq!(both(tally), [(128, 255); 2]);
    let level = |pixel| if pixel == 9 { 39 } else { 0 };
    assert_eq!(levels, (0..48).map(|i| level(i / 3)).collect::<Vec<u8>>());
    halves.push(0);
    for dark in [greys(&halves), greys(&[0])] {
        let (tally, outcome, levels) = told(&dark);
        assert_eq!(tally, raw_tally(&Err(Refusal { number: 9, place: 0 })));
        assert_eq!(outcome, Outcome { number: 9, place: 0 });
        assert_eq!(levels, vec![7; dark.len() - 3]);
    }
    println!("examples of dark pages: 3");
}

/// Request 2026-05. Greys 8 and 1/8 have 767 and -769 steps, the average -1 of (128,255), and at K 1,000 L is 8 and 1/8 times 511/512.
/// L(1 + L/w²)/(1 + L) is L/w² + (1 - 1/w²) · L/(1+L): with w = 1 that is L, 7.98 and 31.8/255; with w = 10 it is 0.95965 and 0.11106, stored
/// as 245.5/256 and 227.5/2048, which give 244.54 and 28.33.
#[test]
fn white_points() {
    let row = Page::row(1000, &[[stored(131, 255); 3], [stored(125, 255); 3]]);
    for (white, bright, dim) in [(None, 227, 28), (Some(10), 255, 32), (Some(100), 245, 28)] {
        let page = row.clone().with_white(white);
        let mut of_strip = [7; 6];
        assert_eq!(Library.map(&page.strip(), &mut of_strip).number, 0);
        let of_bands = levels_of_bands(&bands::row(&page.turned(), &[1, 1]));
        let expected = [bright, bright, bright, dim, dim, dim];
        assert_eq!((&of_strip[..], &of_bands[..]), (&expected[..], &expected[..]));
    }
    println!("examples of white points: 3");
}

/// The picture program's page with w = 1, where display luminance is L: 0.18 · 255.5/180.5 and half of it, stored as 130.5/512 and
/// 130.5/1024, which give 64.995 and 32.498.
#[test]
fn picture_with_white() {
    let strip = Page::row(180, &[[0x80FF; 3], [0x7FFF; 3]]).with_white(Some(10)).strip();
    assert_eq!(strip[..3], [0x1000_8001, 0x2000_00B4, 0x3000_000A]);
    assert_eq!(program::run(&program::bytes(&strip)), b"P6\n2 1\n255\nAAA\x20\x20\x20");
    println!("example of the picture program with a white point: 1");
}

/// The picture program's page, whose words hold 80FF and 7FFF, pixel by pixel and beyond.
#[test]
fn reader() {
    let strip = greys(&[0x3C00, 0x3800]);
    for (n, answer) in [(0, Some([0x80FF; 3])), (1, Some([0x7FFF; 3])), (2, None), (u64::MAX, None)] {
        assert_eq!(Library.step(&strip, n), raw_step(&Ok(answer)));
    }
    println!("examples of the page reader: 4");
}

/// The picture program's page, word by word and byte by byte.
#[test]
fn picture() {
    let strip = [
        0x1000_8001,
        0x2000_00B4,
        0x4000_80FF,
        0x5000_80FF,
        0x6000_80FF,
        0x4000_7FFF,
        0x5000_7FFF,
        0x6000_7FFF,
        0x7000_0002,
    ];
    assert_eq!(greys(&[0x3C00, 0x3800]), strip);
    let printed = [
        0x50, 0x36, 0x0A, 0x32, 0x20, 0x31, 0x0A, 0x32, 0x35, 0x35, 0x0A, 0x34, 0x34, 0x34, 0x1D, 0x1D, 0x1D,
    ];
    assert_eq!([dofnihet::front(2, 1), levels(&strip)].concat(), printed);
    assert_eq!(program::run(&program::bytes(&strip)), printed);
    println!("example of the picture program: 1");
}
