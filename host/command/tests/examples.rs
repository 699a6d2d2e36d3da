//! Document 01's worked examples, through the command line.

use crate::common::{accepted, bytes16, bytes32, convert, greys, strip, text, words, STRIP, TALLY};

/// The channel of one grey pixel: exponent and mantissa, (0, 0) for black.
fn channel(kind: &str, source: &[u8]) -> (u32, u32) {
    let words = strip(kind, 1, 1, 180, source);
    assert_eq!(words[0..2], [0x10004001, 0x200000B4]);
    assert_eq!(words[5..], [0x70000001]);
    let channels = [words[2] - 0x40000000, words[3] - 0x50000000, words[4] - 0x60000000];
    assert_eq!(channels, [channels[0]; 3]);
    (channels[0] >> 8, channels[0] & 255)
}

fn refusal(kind: &str, source: &[u8]) -> String {
    let answer = convert(kind, 1, 1, 180, source);
    assert_eq!((answer.status, answer.output), (1, Vec::new()));
    answer.errors
}

#[test]
fn halves() {
    let channel = |half: u16| channel("half", &greys(&[half]));
    assert_eq!(channel(0x3C00), (128, 255));
    assert_eq!(channel(0x3C01), (129, 128));
    assert_eq!(channel(0x0001), (104, 255));
    assert_eq!(channel(0x0003), (106, 192));
    assert_eq!(channel(0x7BFF), (144, 255));
    assert_eq!(channel(0x8000), (0, 0));
    assert_eq!(refusal("half", &greys(&[0xFC00])), "refused 5 0 no number\n");
}

#[test]
fn rgbe() {
    let channel = |byte: u8, e: u8| channel("rgbe", &[byte, byte, byte, e]);
    assert_eq!(channel(1, 136), (129, 192));
    assert_eq!(channel(255, 71), (0, 0));
    assert_eq!(channel(127, 185), (184, 255));
    assert_eq!(channel(255, 0), (0, 0));
    assert_eq!(refusal("rgbe", &[0, 127, 128, 185]), "refused 6 2 too bright\n");
}

#[test]
fn singles() {
    let channel = |single: u32| channel("single", &bytes32(&[single; 3]));
    assert_eq!(channel(0x23000000), (0, 0));
    assert_eq!(channel(0x23000001), (72, 128));
    assert_eq!(channel(0x5B800000), (184, 255));
    assert_eq!(refusal("single", &bytes32(&[0, 0x5B800001, 0])), "refused 6 1 too bright\n");
}

#[test]
fn stored_channels() {
    let channel = |stored: u16| channel("stored", &bytes16(&[stored; 3]));
    assert_eq!(channel(256 * 128 + 255), (128, 255));
    assert_eq!(channel(0), (0, 0));
    assert_eq!(refusal("stored", &bytes16(&[0, 0, 256 * 71 + 128])), "refused 8 2 wild channel\n");
}

/// Tally and levels of a page of halves in one row.
fn page(key: u32, halves: &[u8]) -> (String, Vec<u8>) {
    let strip = bytes32(&strip("half", halves.len() as u32 / 6, 1, key, halves));
    let picture = accepted(&["map", "-", "-"], &strip);
    let front = format!("P6\n{} 1\n255\n", halves.len() / 6);
    assert_eq!(picture[..front.len()], *front.as_bytes());
    (text(&["tally", "-"], &strip), picture[front.len()..].to_vec())
}

/// The tally of a page of stored channels in one row.
fn stored_tally(pixels: &[[u16; 3]]) -> String {
    let strip = strip("stored", pixels.len() as u32, 1, 180, &bytes16(&pixels.concat()));
    text(&["tally", "-"], &bytes32(&strip))
}

/// The lines of a page whose lit pixels have one luminance, which is the stored average too.
fn one_luminance(stored: &str) -> String {
    format!("stored {stored}\ndarkest {stored}\nbrightest {stored}\nrange 0.0 doublings\n")
}

#[test]
fn one_grey() {
    let (tally, levels) = page(180, &greys(&[0x3C00]));
    let luminance = one_luminance("128 255 worth 0.9980");
    assert_eq!(tally, format!("lit 1\nsum -1\naverage -1\n{luminance}"));
    assert_eq!(levels, [39; 3]);
}

#[test]
fn two_greys() {
    let (tally, levels) = page(180, &greys(&[0x3C00, 0x3800]));
    assert_eq!(tally, TALLY);
    assert_eq!(levels, [52, 52, 52, 29, 29, 29]);
}

#[test]
fn an_average_rounds_toward_minus_infinity() {
    let (tally, _) = page(180, &greys(&[0x3C00, 0x3C00, 0x3800]));
    assert_eq!(tally.lines().nth(2), Some("average -87"));
}

/// 4095 is 256 · 15 + 255, and X[255] is 255; (144,255) is worth 255.5 · 256 = 65408.
#[test]
fn a_black_pixel_does_not_count() {
    let (tally, levels) = page(180, &greys(&[0x7BFF, 0]));
    let luminance = one_luminance("144 255 worth 65410");
    assert_eq!(tally, format!("lit 1\nsum 4095\naverage 4095\n{luminance}"));
    assert_eq!(levels, [39, 39, 39, 0, 0, 0]);
}

/// 137.5 / 512 is 0.2685...
#[test]
fn red_alone() {
    let red = bytes16(&[0x3C00, 0, 0]);
    assert_eq!(page(180, &red).1, [145, 0, 0]);
    assert_eq!(page(1000, &red).1, [255, 0, 0]);
    assert!(page(180, &red).0.ends_with(&one_luminance("127 137 worth 0.2686")));
}

/// Greys (129,128) and (127,255) among black pixels: the brighter one has the smaller mantissa. Their steps are 1793 - 1792 and
/// 2047 - 2304, which are 258 apart; the average is 256 · -1 + 128, and X[128] is 181.
#[test]
fn darkest_and_brightest_by_worth() {
    let (dark, bright) = ([256 * 127 + 255; 3], [256 * 129 + 128; 3]);
    let wanted = "lit 2\nsum -256\naverage -128\nstored 128 181 worth 0.7090\ndarkest 127 255 worth 0.4990\n\
                  brightest 129 128 worth 1.004\nrange 1.0 doublings\n";
    assert_eq!(stored_tally(&[[0; 3], bright, [0; 3], dark]), wanted);
    assert_eq!(stored_tally(&[dark, [0; 3], bright, [0; 3]]), wanted);
}

/// Blue at (72,128) alone has the least luminance: 6 / 100 · 128.5 / 2^64 is 246.72 / 2^69. The greatest is a grey at (184,255). T[246] is
/// 2034, so their steps are 2034 - 17664 and 2047 + 12288, 29965 apart; the average, -1295 / 2 rounded down, is 256 · -3 + 120, and
/// X[120] is 177.
#[test]
fn the_widest_range() {
    let wanted = "lit 2\nsum -1295\naverage -648\nstored 126 177 worth 0.1733\ndarkest 67 246 worth 4.176e-19\n\
                  brightest 184 255 worth 7.192e16\nrange 117.1 doublings\n";
    assert_eq!(stored_tally(&[[256 * 184 + 255; 3], [0, 0, 256 * 72 + 128]]), wanted);
}

#[test]
fn the_picture_programs_example() {
    assert_eq!(words(&convert("half", 2, 1, 180, &greys(&[0x3C00, 0x3800])).output), STRIP);
    let picture = b"P6\n2 1\n255\n\x34\x34\x34\x1D\x1D\x1D";
    assert_eq!(accepted(&["map", "-", "-"], &bytes32(&STRIP)), picture);
}
