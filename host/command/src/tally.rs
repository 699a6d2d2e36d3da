//! What `tally` prints.

use crate::worth::worth;
use dofnihet::{Average, Extremes, Header, Source, Stored, Tally};

/// The lines of what a tally has. That of an accepted page has all.
pub fn text(tally: &Tally) -> String {
    let average = tally.average.map(average_text).unwrap_or_default();
    let extremes = tally.extremes.map(extremes_text).unwrap_or_default();
    format!("lit {}\nsum {}\n{average}{extremes}", tally.lit, tally.sum)
}

fn average_text(average: Average) -> String {
    let (exponent, mantissa) = (average.exponent, average.mantissa);
    format!("average {}\nstored {}\n", average.steps, number(Stored { exponent, mantissa }))
}

fn extremes_text(Extremes { darkest, brightest }: Extremes) -> String {
    let range = doublings(steps(brightest) - steps(darkest));
    let (darkest, brightest) = (number(darkest), number(brightest));
    format!("darkest {darkest}\nbrightest {brightest}\nrange {range} doublings\n")
}

fn number(stored: Stored) -> String {
    format!("{} {} worth {}", stored.exponent, stored.mantissa, worth(stored))
}

/// Steps as doublings, 256 to one, to the nearest tenth, halves up.
fn doublings(steps: i64) -> String {
    let tenths = (10 * steps + 128) / 256;
    format!("{}.{}", tenths / 10, tenths % 10)
}

/// Steps of a luminance: 256(E - 136) + T[M].
fn steps(luminance: Stored) -> i64 {
    256 * (luminance.exponent as i64 - 136) + table_entry(luminance.mantissa)
}

/// T[M] of a luminance's mantissa, as the library has it: the sum of steps of one grey pixel of exponent 136, whose luminance is its channel.
fn table_entry(mantissa: u8) -> i64 {
    let channel = 256 * 136 + mantissa as u16;
    let one_pixel = Header {
        width: 1,
        height: 1,
        key: 180,
        white: None,
    };
    let mut strip = vec![0; one_pixel.strip_length()];
    let tally = dofnihet::convert(Source::Stored(&[channel; 3]), one_pixel, &mut strip).and_then(|()| dofnihet::tally(&strip));
    tally.expect("a mantissa is 128 to 255").sum
}

#[cfg(test)]
mod tests {
    use super::{doublings, table_entry, text};
    use dofnihet::{Average, Extremes, Stored, Tally};

    /// "T[192] becomes 1943, T[128] stays 1793" (2026-06), and T[255] stays 2047.
    #[test]
    fn table_entries() {
        assert_eq!(table_entry(128), 1793);
        assert_eq!(table_entry(192), 1943);
        assert_eq!(table_entry(255), 2047);
    }

    /// Quarters and three quarters are the halves of a tenth: 64 steps are 0.25 doublings.
    #[test]
    fn nearest_tenths() {
        assert_eq!(doublings(0), "0.0");
        assert_eq!(doublings(12), "0.0");
        assert_eq!(doublings(13), "0.1");
        assert_eq!(doublings(63), "0.2");
        assert_eq!(doublings(64), "0.3");
        assert_eq!(doublings(191), "0.7");
        assert_eq!(doublings(192), "0.8");
        assert_eq!(doublings(243), "0.9");
        assert_eq!(doublings(244), "1.0");
        assert_eq!(doublings(256), "1.0");
        assert_eq!(doublings(2560), "10.0");
        assert_eq!(doublings(29965), "117.1");
    }

    /// Greys (106,192) and (129,128) have 1943 - 7680 and 1793 - 1792 steps, 5738 apart: 22.4 doublings. Their worths are 192.5 / 2^30 and
    /// 128.5 / 128. The average, -5736 / 2, is 256 · -12 + 204, and X[204] is 222, as 2^(7 + 204/256) is 222.4; 222.5 / 2^19 is its worth.
    #[test]
    fn lines() {
        let tally = Tally {
            lit: 2,
            sum: -5736,
            average: Some(Average {
                steps: -2868,
                exponent: 117,
                mantissa: 222,
            }),
            extremes: Some(Extremes {
                darkest: Stored {
                    exponent: 106,
                    mantissa: 192,
                },
                brightest: Stored {
                    exponent: 129,
                    mantissa: 128,
                },
            }),
        };
        let wanted = "lit 2\nsum -5736\naverage -2868\nstored 117 222 worth 0.0004244\ndarkest 106 192 worth 1.793e-7\n\
                      brightest 129 128 worth 1.004\nrange 22.4 doublings\n";
        assert_eq!(text(&tally), wanted);
    }
}
