//! Both sides timed in turn.

use std::time::{Duration, Instant};

const ROUNDS: usize = 9;

/// A mebibyte.
pub const MIB: usize = 1 << 20;

/// Prints what the columns of [`compare`] hold.
pub fn heading() {
    println!(
        "{:<50} {:>10} {:>10} {:>10} {:>10} {:>7}",
        "", "proved ms", "MiB/s", "Rust ms", "MiB/s", "ratio"
    );
}

/// Runs both sides in turn, round by round, and prints the best time of each.
pub fn compare(name: &str, bytes: usize, mut proved: impl FnMut(), mut rust: impl FnMut()) {
    let [best_proved, best_rust] = best_of_rounds(|| [time(&mut proved), time(&mut rust)]);
    println!(
        "{name:<50} {:>10.1} {:>10.1} {:>10.1} {:>10.1} {:>7.2}",
        milliseconds(best_proved),
        mib_per_second(bytes, best_proved),
        milliseconds(best_rust),
        mib_per_second(bytes, best_rust),
        ratio(best_proved, best_rust),
    );
}

/// The best of the times that each round gives.
pub fn best_of_rounds<const TIMES: usize>(
    mut round: impl FnMut() -> [Duration; TIMES],
) -> [Duration; TIMES] {
    let mut best = [Duration::MAX; TIMES];
    for _ in 0..ROUNDS {
        for (best, time) in best.iter_mut().zip(round()) {
            *best = time.min(*best);
        }
    }
    best
}

/// How long a run takes.
pub fn time(run: impl FnOnce()) -> Duration {
    let start = Instant::now();
    run();
    start.elapsed()
}

/// A time in milliseconds.
pub fn milliseconds(time: Duration) -> f64 {
    1000.0 * time.as_secs_f64()
}

/// The proved library's time to Rust's.
pub fn ratio(proved: Duration, rust: Duration) -> f64 {
    proved.as_secs_f64() / rust.as_secs_f64()
}

fn mib_per_second(bytes: usize, time: Duration) -> f64 {
    bytes as f64 / MIB as f64 / time.as_secs_f64()
}

/// Bytes that are not all alike.
pub fn pattern(length: usize) -> Vec<u8> {
    (0..length).map(|i| (i ^ (i >> 8)) as u8).collect()
}
