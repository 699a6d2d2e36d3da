//! The soak's rounds on fixed seeds. Of their sound pages some are dark, some at the edge, and most are accepted; about half of those have
//! a white point.

use compare::counts::Counts;
use compare::{rounds, same, Compare, Library};

const SEED: u64 = 1_000_000;

fn run(first: u64, count: u64) {
    let mut compare = Compare::new(&Library);
    for seed in first..first + count {
        same(seed, rounds::round(&mut compare, seed));
    }
    let Counts {
        pages, white, dark, edge, ..
    } = compare.counts;
    assert!((pages / 50..pages / 10).contains(&dark) && edge > dark);
    assert!((2 * pages / 5..3 * pages / 5).contains(&white));
    println!("rounds, seeds {first} to {}: {}", first + count - 1, compare.counts);
}

#[test]
fn first_rounds() {
    run(SEED, 800);
}

#[test]
fn other_rounds() {
    run(2 * SEED, 800);
}
