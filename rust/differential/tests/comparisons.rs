//! The static library against the reference: a run with a fixed seed, then one with a seed from
//! the clock, or from NEULENTA_SEED.

use std::env;
use std::time::{Duration, Instant, SystemTime};

use differential::library::LINKED;
use differential::trial::Trial;
use reference::cases::Call;

const FIXED_SEED: u64 = 1_499;
/// The comparisons of a run for each linked call.
const COMPARISONS: u64 = 1_000_000;
/// The time after which a run ends with fewer.
const LIMIT: Duration = Duration::from_secs(50);
/// The fewest comparisons of a run, however slow.
const FLOOR: u64 = 200_000;

fn main() {
    run(FIXED_SEED);
    let clock = SystemTime::now().duration_since(SystemTime::UNIX_EPOCH);
    let clock = clock.expect("the clock is past 1970").as_nanos() as u64;
    let seed = env::var("NEULENTA_SEED").map_or(clock, |seed| seed.parse().expect("a number"));
    run(seed);
}

/// Compares on fixed shapes, then on random scenarios of every size in turn.
fn run(seed: u64) {
    println!("NEULENTA_SEED={seed}, calls {LINKED:?}");
    let start = Instant::now();
    let mut trial = Trial::new(seed);
    for call in LINKED {
        trial.shapes(*call);
    }
    let wanted = COMPARISONS * LINKED.len() as u64;
    let mut rounds = 0;
    while (rounds < 64 || trial.comparisons() < wanted) && start.elapsed() < LIMIT {
        for call in LINKED {
            trial.round(*call, rounds % 64 + 1);
        }
        rounds += 1;
    }
    let seconds = start.elapsed().as_secs_f64();
    println!("{} comparisons, {rounds} rounds, {seconds:.1} s, all equal", trial.comparisons());
    assert!(trial.comparisons() >= FLOOR, "{} comparisons", trial.comparisons());
    for call in LINKED {
        demand_every_answer(&trial, *call);
    }
}

/// Every number that `call` can give, and every verdict, came up.
fn demand_every_answer(trial: &Trial, call: Call) {
    let numbers: &[u32] = match call {
        Call::Copy | Call::Sheet => &[0, 1, 2, 3, 4, 5, 6, 7, 14, 15, 16, 17],
        Call::Reconcile => &[0, 1, 2, 3, 4, 5, 6, 7, 8, 9, 10, 11, 12, 13, 14],
        Call::Check => &[0, 1, 2, 3, 4, 5, 6, 7, 8, 9, 10, 11, 12, 15, 16, 17, 18],
        Call::Compare => &[0, 1, 2, 3, 4, 5, 6, 7, 8, 9, 10, 11, 12, 15, 16, 17],
    };
    let counts: Vec<_> =
        numbers.iter().map(|number| (*number, trial.given(call, *number))).collect();
    println!("{call:?}: {counts:?}");
    for (number, count) in counts {
        assert!(count >= 20, "{call:?} gave {number} only {count} times");
    }
    if call == Call::Compare {
        for verdict in 0..=3 {
            assert!(trial.judged(verdict) >= 20, "verdict {verdict}");
        }
    }
}
