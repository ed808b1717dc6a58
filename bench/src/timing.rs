//! Timing of two readers on the same bytes, in turn.

use std::hint::black_box;
use std::time::{Duration, Instant};

/// How often each reader is timed.
const TURNS: usize = 60;

/// How long one turn of one reader lasts, about.
const TURN: Duration = Duration::from_millis(5);

/// The nanoseconds that one read takes by each of two readers. The two take
/// turns, so that a change in the machine's speed meets both, and the quickest
/// turn counts, as whatever else the machine does only adds time.
pub fn compare(
    bytes: &[u8],
    first: impl Fn(&[u8]) -> u32,
    second: impl Fn(&[u8]) -> u32,
) -> (f64, f64) {
    let rounds = rounds_in_a_turn(bytes, &first).max(rounds_in_a_turn(bytes, &second));
    let mut quickest = (Duration::MAX, Duration::MAX);
    for _ in 0..TURNS {
        quickest.0 = quickest.0.min(time(bytes, &first, rounds));
        quickest.1 = quickest.1.min(time(bytes, &second, rounds));
    }
    let of_one = |all: Duration| all.as_nanos() as f64 / f64::from(rounds);
    (of_one(quickest.0), of_one(quickest.1))
}

/// The time of so many reads.
fn time(bytes: &[u8], read: impl Fn(&[u8]) -> u32, rounds: u32) -> Duration {
    let start = Instant::now();
    for _ in 0..rounds {
        black_box(read(black_box(bytes)));
    }
    start.elapsed()
}

/// How many reads fill a turn.
fn rounds_in_a_turn(bytes: &[u8], read: impl Fn(&[u8]) -> u32) -> u32 {
    let mut rounds = 1;
    while time(bytes, &read, rounds) < TURN {
        rounds *= 2;
    }
    rounds
}
