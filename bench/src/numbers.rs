//! Numbers and times as the report writes them.

use crate::clock::{milliseconds, ratio};
use std::time::Duration;

/// A number with a comma after each thousand.
pub fn grouped(n: usize) -> String {
    let digits = n.to_string();
    let parts: Vec<&str> = digits.as_bytes().rchunks(3).rev().map(|part| std::str::from_utf8(part).expect("digits")).collect();
    parts.join(",")
}

/// A number with so many digits or more, and at most three behind the point.
pub fn digits(x: f64, n: i32) -> String {
    match n - 1 - x.log10().floor() as i32 {
        decimals if decimals > 0 => format!("{x:.*}", decimals.min(3) as usize),
        _ => grouped(x.round() as usize),
    }
}

/// A time in milliseconds.
pub fn time(duration: Duration) -> String {
    format!("{} ms", digits(milliseconds(duration), 3))
}

/// A ratio of two times.
pub fn times(time: Duration, unit: Duration) -> String {
    digits(ratio(time, unit), 2)
}

/// Bytes a second.
pub fn rate(bytes: usize, time: Duration) -> String {
    format!("{} MB/s", digits(bytes as f64 / time.as_secs_f64() / 1e6, 2))
}

/// A part of a whole.
pub fn percent(part: Duration, whole: Duration) -> String {
    format!("{} %", digits(100.0 * ratio(part, whole), 2))
}
