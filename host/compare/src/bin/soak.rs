//! Rounds on new seeds: `soak MINUTES [FIRST_SEED]`, or `soak ROUNDSr [FIRST_SEED]` with an r behind the number. Without a first seed, the
//! clock gives it. It prints the seeds, and ends with 1 at the first difference.

use compare::counts::Counts;
use compare::program::Printed;
use compare::{rounds, Compare, Library};
use std::sync::atomic::{AtomicBool, AtomicU64, Ordering};
use std::sync::Mutex;
use std::time::{Duration, Instant, SystemTime, UNIX_EPOCH};

/// Either limit ends the soak.
struct Limits {
    rounds: u64,
    end: Option<Instant>,
}

fn limits(word: &str) -> Option<Limits> {
    if let Some(rounds) = word.strip_suffix('r') {
        return Some(Limits {
            rounds: rounds.parse().ok()?,
            end: None,
        });
    }
    let minutes: f64 = word.parse().ok()?;
    let end = Instant::now() + Duration::try_from_secs_f64(60.0 * minutes).ok()?;
    Some(Limits {
        rounds: u64::MAX,
        end: Some(end),
    })
}

fn clock() -> u64 {
    SystemTime::now()
        .duration_since(UNIX_EPOCH)
        .map_or(1, |time| time.as_nanos() as u64 >> 10)
}

struct Soak {
    first: u64,
    limits: Limits,
    next: AtomicU64,
    failed: AtomicBool,
    counts: Mutex<Counts>,
}

impl Soak {
    /// Rounds until a limit or a difference; several threads take them in turn.
    fn work(&self) {
        let (mut compare, mut printed) = (Compare::new(&Library), Printed::default());
        compare.mean_limit = 60;
        while let Some(round) = self.round() {
            let seed = self.first.wrapping_add(round);
            let same = rounds::round(&mut compare, seed).and_then(|_| rounds::picture(&mut printed, seed));
            if let Err(difference) = same {
                println!("seed {seed}: {difference:?}");
                self.failed.store(true, Ordering::SeqCst);
            }
            if round % 5_000 == 4_999 {
                println!("seed {seed}, {} rounds", round + 1);
            }
        }
        self.counts.lock().unwrap().add(&compare.counts);
    }

    fn round(&self) -> Option<u64> {
        let over = self.limits.end.is_some_and(|end| Instant::now() >= end);
        if over || self.failed.load(Ordering::SeqCst) {
            return None;
        }
        let taken = self
            .next
            .fetch_update(Ordering::SeqCst, Ordering::SeqCst, |n| (n < self.limits.rounds).then_some(n + 1));
        taken.ok()
    }
}

fn main() {
    let words: Vec<String> = std::env::args().skip(1).collect();
    let Some(limits) = words.first().and_then(|word| limits(word)) else {
        eprintln!("soak MINUTES [FIRST_SEED], or soak ROUNDSr [FIRST_SEED]");
        std::process::exit(2);
    };
    let first = words.get(1).and_then(|word| word.parse().ok()).unwrap_or_else(clock);
    println!("first seed {first}");
    let soak = Soak {
        first,
        limits,
        next: AtomicU64::new(0),
        failed: AtomicBool::new(false),
        counts: Mutex::new(Counts::none()),
    };
    let threads = std::thread::available_parallelism().map_or(1, |count| count.get());
    std::thread::scope(|scope| (0..threads).for_each(|_| drop(scope.spawn(|| soak.work()))));
    let rounds = soak.next.load(Ordering::SeqCst);
    println!(
        "seeds {first} to {}: {rounds} rounds, {}",
        first.wrapping_add(rounds).wrapping_sub(1),
        soak.counts.lock().unwrap()
    );
    std::process::exit(soak.failed.load(Ordering::SeqCst) as i32);
}
