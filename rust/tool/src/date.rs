//! The date that a page carries.

use crate::fault::Fault;
use std::env;
use std::time::{SystemTime, UNIX_EPOCH};

/// Names the seconds to take in the place of the clock's, for pages that have to come out alike.
const FIXED: &str = "SOURCE_DATE_EPOCH";
/// The last second of the year 9999.
const LAST: u64 = 253_402_300_799;

/// Today in Universal Time, or the day that the environment asks for.
pub fn today() -> Result<String, Fault> {
    let seconds = match env::var_os(FIXED) {
        Some(seconds) => seconds.to_str().and_then(|seconds| seconds.parse().ok()),
        None => SystemTime::now()
            .duration_since(UNIX_EPOCH)
            .ok()
            .map(|time| time.as_secs()),
    };
    let misfit = || {
        Fault::Failure(format!(
            "{FIXED} or the clock names no date from 1970 to 9999"
        ))
    };
    let seconds = seconds
        .filter(|&seconds| seconds <= LAST)
        .ok_or_else(misfit)?;
    Ok(day(seconds))
}

fn day(seconds: u64) -> String {
    let mut days = seconds / 86_400;
    let mut year = 1970;
    while days >= year_length(year) {
        days -= year_length(year);
        year += 1;
    }
    let mut month = 0;
    while days >= month_length(year, month) {
        days -= month_length(year, month);
        month += 1;
    }
    format!("{year}-{:02}-{:02}", month + 1, days + 1)
}

fn is_leap(year: u64) -> bool {
    match (year % 4, year % 100, year % 400) {
        (_, _, 0) => true,
        (_, 0, _) => false,
        (quarter, _, _) => quarter == 0,
    }
}

fn year_length(year: u64) -> u64 {
    365 + u64::from(is_leap(year))
}

fn month_length(year: u64, month: usize) -> u64 {
    let lengths = [31, 28, 31, 30, 31, 30, 31, 31, 30, 31, 30, 31];
    lengths[month] + u64::from(month == 1 && is_leap(year))
}

#[cfg(test)]
mod tests {
    use super::*;

    // Seconds as `date -u -d DAY +%s` prints them.
    #[test]
    fn days_follow_the_calendar() {
        assert_eq!(day(0), "1970-01-01");
        assert_eq!(day(951_782_400), "2000-02-29");
        assert_eq!(day(1_709_251_199), "2024-02-29");
        assert_eq!(day(1_709_251_200), "2024-03-01");
        assert_eq!(day(1_794_700_800), "2026-11-15");
        assert_eq!(day(4_107_542_400), "2100-03-01");
        assert_eq!(day(LAST), "9999-12-31");
    }
}
