//! Times by the clock.

use std::sync::OnceLock;
use std::time::{Duration, Instant};

/// How long one call takes, and its value.
pub fn timed<T>(f: impl FnOnce() -> T) -> (Duration, T) {
    let start = Instant::now();
    let value = f();
    (start.elapsed(), value)
}

/// The median of some times.
pub fn median(mut times: Vec<Duration>) -> Duration {
    times.sort();
    times[times.len() / 2]
}

/// The least of some times.
pub fn least(times: Vec<Duration>) -> Duration {
    times.into_iter().min().expect("a time")
}

/// The median time of so many calls.
pub fn repeated(n: usize, mut f: impl FnMut()) -> Duration {
    median((0..n).map(|_| timed(&mut f).0).collect())
}

/// How many times as long one time is as another.
pub fn ratio(time: Duration, unit: Duration) -> f64 {
    time.as_secs_f64() / unit.as_secs_f64()
}

/// A time in milliseconds.
pub fn milliseconds(time: Duration) -> f64 {
    time.as_secs_f64() * 1e3
}

/// Shows on standard error what is done, with the seconds since the start.
pub fn progress(what: &str) {
    static START: OnceLock<Instant> = OnceLock::new();
    eprintln!("{:4} s  {what}", START.get_or_init(Instant::now).elapsed().as_secs());
}
