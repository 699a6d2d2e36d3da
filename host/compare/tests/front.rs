//! What stands before the levels of a picture, against Rust's own formatting.

use compare::Random;
use dofnihet::raw;

const SEED: u64 = 901;

fn same(width: u64, height: u64) {
    let text = format!("P6\n{width} {height}\n255\n").into_bytes();
    assert_eq!(dofnihet::front(width, height), text);
    let mut output = [0; 50];
    output.iter_mut().enumerate().for_each(|(i, byte)| *byte = 0x80 | i as u8);
    let old = output;
    let count = raw::front(width, height, &mut output) as usize;
    assert_eq!(output[..count], text);
    assert_eq!(
        output[count..],
        old[count..],
        "{width} {height}: bytes behind the text were changed"
    );
}

#[test]
fn fronts() {
    let random = &mut Random::new(SEED);
    let mut list: Vec<u64> = vec![0, 1, 2, 8191, 8192, 8193, u64::MAX];
    list.extend((1..20).map(|n| 10_u64.pow(n)).flat_map(|power| [power - 1, power, power + 1]));
    list.extend((1..64).map(|bit| 1 << bit));
    let mut count = 0;
    for (width, height) in list.iter().flat_map(|w| list.iter().map(move |h| (*w, *h))) {
        same(width, height);
        count += 1;
    }
    for side in 0..=10_000 {
        same(side, random.bits() >> random.below(64));
        same(random.bits() >> random.below(64), side);
        count += 2;
    }
    println!("fronts, seed {SEED}: {count}");
}
