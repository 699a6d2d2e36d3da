//! The switch that is off, change 2026-07, and all settings of the switches.

use crate::helpers::*;
use second::{Header, Rules, SecondStep, Source};

fn screen() -> SecondStep {
    SecondStep::new(Rules {
        screen_curve: true,
        ..Rules::BUILT
    })
}

/// Bands are as the tall strip under all switches.
#[test]
fn cuttings_under_every_rule() {
    let mut generator = Generator::new(13);
    for step in every_rule() {
        for white in [None, Some(10 + generator.below(991))] {
            let page = Header {
                width: 2,
                height: 5,
                key: 1 + generator.below(1000),
                white,
            };
            for source in [generator.page(10), vec![BLACK; 30]] {
                let strip = step.convert(Source::Stored(&source), page, NO_ROOM_LIMIT).unwrap();
                for heights in all_cuttings(5) {
                    check_cutting(&step, &strip, &heights);
                }
            }
        }
    }
}

/// Document 01's program "now ends 70 70 70 50 50 50"; "Level 39 prints as 95"; mapping keeps its levels.
#[test]
fn screen_samples() {
    let mut expected = b"P6\n2 1\n255\n".to_vec();
    expected.extend([0x70, 0x70, 0x70, 0x50, 0x50, 0x50]);
    assert_eq!(screen().picture(&bytes(&EXAMPLE)), expected);
    assert_eq!(levels(&screen(), &EXAMPLE), levels(&built(), &EXAMPLE));
    let strip = half_strip(&screen(), &grey(&[ONE]), 180);
    assert_eq!(levels(&screen(), &strip), [39; 3]);
    assert_eq!(screen().picture(&bytes(&strip)), b"P6\n1 1\n255\n\x5F\x5F\x5F");
}

#[test]
fn screen_keeps_refusals() {
    assert_eq!(screen().picture(&[0; 65_540]), b"long\n");
    assert_eq!(screen().picture(&bytes(&EXAMPLE[..8])), b"refused 3 0\n");
}
