//! PFM files: made here, and made by other tools.
//!
//! In tests/data, source.ppm has 12 x 9 pixels of our own making and source.pgm is its grey by Netpbm's ppmtopgm. From these come
//! - netpbm_little.pfm, netpbm_big.pfm, netpbm_grey.pfm: Netpbm 11.1.0, pamtopfm -endian=little, -endian=big, -endian=little;
//! - imagemagick.pfm, imagemagick_grey.pfm: ImageMagick 6.9.11-60, convert;
//! - pfstools.pfm: pfstools 2.2.0, pfsinppm source.ppm | pfsgamma -g 0.4 -m 300 | pfsout pfstools.pfm.

use crate::common::{accepted, bytes32, refused, run, strip, text, words, wrong};
use std::fs;
use std::path::Path;

const PFM: [&str; 6] = ["convert", "pfm", "--key", "180", "-", "-"];

/// A PFM file of these floats, given top row first.
fn made(kind: &str, width: usize, height: usize, scale: &str, floats: &[f32]) -> Vec<u8> {
    let mut file = format!("{kind}\n{width} {height}\n{scale}\n").into_bytes();
    for row in floats.chunks(floats.len() / height).rev() {
        for float in row {
            file.extend(if scale.starts_with('-') {
                float.to_le_bytes()
            } else {
                float.to_be_bytes()
            });
        }
    }
    file
}

fn bits(floats: &[f32]) -> Vec<u8> {
    bytes32(&floats.iter().map(|float| float.to_bits()).collect::<Vec<_>>())
}

/// Every float three times, as a grey file's is taken.
fn thrice(greys: &[f32]) -> Vec<f32> {
    greys.iter().flat_map(|grey| [*grey; 3]).collect()
}

#[test]
fn both_byte_orders_give_the_strip_of_flat_singles() {
    let floats: Vec<f32> = (0..3 * 5 * 4).map(|i| (i as f32 - 3.0) * 1.37e-3 * 2_f32.powi(i / 2)).collect();
    let wanted = strip("single", 5, 4, 180, &bits(&floats));
    for scale in ["-1.0", "1.0", "-1", "1", "-0.25", "1000", "1e-3"] {
        assert_eq!(words(&accepted(&PFM, &made("PF", 5, 4, scale, &floats))), wanted, "scale {scale}");
    }
}

#[test]
fn grey_is_three_equal_channels() {
    let greys = [0.5, 1.0, 2.0, 0.0, -1.0, 1e-20];
    let wanted = strip("single", 2, 3, 180, &bits(&thrice(&greys)));
    for scale in ["-1.0", "1.0"] {
        assert_eq!(words(&accepted(&PFM, &made("Pf", 2, 3, scale, &greys))), wanted, "scale {scale}");
    }
}

#[test]
fn refusals() {
    let file = made("PF", 2, 2, "-1.0", &[1.0; 12]);
    for count in "PF\n2 2\n-1.0\n".len()..file.len() {
        refused(&PFM, &file[..count], "refused 3 0 wrong length");
    }
    refused(&PFM, &[&file[..], &[0]].concat(), "refused 3 0 wrong length");
    refused(&PFM, b"PF\n0 2\n-1.0\n", "refused 1 0 bad size");
    refused(&PFM, b"PF\n8192 2049\n-1.0\n", "refused 1 0 bad size");
    refused(&PFM, b"PF\n99999999999999999999 1\n-1.0\n", "refused 1 0 bad size");
    refused(
        &["convert", "pfm", "--key", "0", "-", "-"],
        b"PF\n2 2\n-1.0\n",
        "refused 2 0 bad key",
    );
    // Places are counted from the top row on, three to a pixel.
    let mut floats = [1.0; 12];
    floats[7] = f32::NAN;
    refused(&PFM, &made("PF", 2, 2, "1.0", &floats), "refused 5 7 no number");
    refused(&PFM, &made("Pf", 2, 2, "1.0", &[1.0, 1.0, 1e30, 1.0]), "refused 6 6 too bright");
}

#[test]
fn another_file_is_no_pfm() {
    let texts: [&[u8]; 5] = [b"", b"P6\n1 1\n255\n\0\0\0", b"PF\n1 1\n0\n", b"PF\n1 x\n-1\n", b"PF\n1 1\n-1"];
    for text in texts {
        wrong(&PFM, text, "- is no PFM file");
    }
}

/// A tiny reader of the files in tests/data, whose three lines are three: the floats, three a pixel, top row first.
fn floats(file: &[u8]) -> Vec<f32> {
    let lines: Vec<&[u8]> = file.splitn(4, |byte| *byte == b'\n').collect();
    assert_eq!(lines[1], b"12 9");
    let number = if lines[2][0] == b'-' {
        f32::from_le_bytes
    } else {
        f32::from_be_bytes
    };
    let floats: Vec<f32> = lines[3].chunks(4).map(|bytes| number(bytes.try_into().unwrap())).collect();
    let turned: Vec<f32> = floats.chunks(floats.len() / 9).rev().flatten().copied().collect();
    if lines[0] == b"Pf" {
        thrice(&turned)
    } else {
        turned
    }
}

fn data(name: &str) -> Vec<u8> {
    fs::read(Path::new(env!("CARGO_MANIFEST_DIR")).join("tests/data").join(name)).unwrap()
}

/// The samples of source.ppm or source.pgm, three a pixel.
fn samples(name: &str) -> Vec<u8> {
    let file = data(name);
    let samples = &file["P6\n12 9\n255\n".len()..];
    if name.ends_with("pgm") {
        samples.iter().flat_map(|sample| [*sample; 3]).collect()
    } else {
        samples.to_vec()
    }
}

/// Converts and maps the file; its strip is that of the floats as the tiny reader has them.
fn converted_and_mapped(name: &str) -> (Vec<f32>, Vec<u8>) {
    let file = data(name);
    let floats = floats(&file);
    assert_eq!(floats.len(), 324);
    let bytes = accepted(&PFM, &file);
    assert_eq!(words(&bytes), strip("single", 12, 9, 180, &bits(&floats)), "{name}");
    assert_eq!(
        text(&["info", "-"], &bytes),
        "width 12\nheight 9\nkey 180\nwhite none\npixels 108\n"
    );
    let picture = accepted(&["map", "-", "-"], &bytes);
    let front = b"P6\n12 9\n255\n";
    assert!(picture.starts_with(front), "{name}");
    (floats, picture[front.len()..].to_vec())
}

/// Netpbm and ImageMagick divide samples by 255.
#[test]
fn files_by_netpbm_and_imagemagick() {
    let files = [
        ("netpbm_little.pfm", "source.ppm"),
        ("netpbm_big.pfm", "source.ppm"),
        ("netpbm_grey.pfm", "source.pgm"),
        ("imagemagick.pfm", "source.ppm"),
        ("imagemagick_grey.pfm", "source.pgm"),
    ];
    for (name, source) in files {
        let (floats, levels) = converted_and_mapped(name);
        for (float, sample) in floats.iter().zip(samples(source)) {
            assert!((float - sample as f32 / 255.0).abs() < 1e-6, "{name}: {float} of {sample}");
        }
        assert_eq!(levels.len(), 324);
    }
}

/// The two byte orders of one picture are one strip.
#[test]
fn netpbms_byte_orders_agree() {
    assert_eq!(run(&PFM, &data("netpbm_little.pfm")), run(&PFM, &data("netpbm_big.pfm")));
}

/// A page of a wide range: a greater sample is a greater float.
#[test]
fn a_file_by_pfstools() {
    let (floats, levels) = converted_and_mapped("pfstools.pfm");
    let samples = samples("source.ppm");
    for i in 0..324 {
        for j in 0..324 {
            assert!(samples[i] <= samples[j] || floats[i] > floats[j], "{i} {j}");
        }
    }
    assert!(floats.iter().any(|float| *float > 1e6) && floats.iter().any(|float| *float < 100.0));
    assert!(levels.iter().any(|level| *level > 200) && levels.contains(&0));
}

/// A greater channel of a pixel never gets a lower level.
#[test]
fn levels_follow_the_channels() {
    for name in ["netpbm_little.pfm", "imagemagick.pfm", "pfstools.pfm"] {
        let (floats, levels) = converted_and_mapped(name);
        for (floats, levels) in floats.chunks(3).zip(levels.chunks(3)) {
            for (i, j) in [(0, 1), (0, 2), (1, 2), (1, 0), (2, 0), (2, 1)] {
                assert!(floats[i] > floats[j] || levels[i] <= levels[j], "{name}: {floats:?} {levels:?}");
            }
        }
    }
}
