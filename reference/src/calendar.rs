//! The Gregorian calendar from 1900 to 2100.

/// Days before each month in a year of 365 days.
static DAYS_BEFORE: [i64; 12] = [0, 31, 59, 90, 120, 151, 181, 212, 243, 273, 304, 334];

/// Days of each month in a year of 365 days.
static MONTH_DAYS: [i64; 12] = [31, 28, 31, 30, 31, 30, 31, 31, 30, 31, 30, 31];

/// Days from 2000-01-01 to the given day, or refusal 1, 2 or 3.
pub fn day_count(year: i64, month: i64, day: i64) -> Result<i64, u8> {
    if !(1900..=2100).contains(&year) {
        return Err(1);
    }
    if !(1..=12).contains(&month) {
        return Err(2);
    }
    if !(1..=month_days(year, month)).contains(&day) {
        return Err(3);
    }
    let leap_day = i64::from(month > 2 && is_leap(year));
    Ok(365 * (year - 2000) + leap_days_before(year) - leap_days_before(2000)
        + DAYS_BEFORE[month as usize - 1]
        + leap_day
        + day
        - 1)
}

/// Days of an existing month.
fn month_days(year: i64, month: i64) -> i64 {
    MONTH_DAYS[month as usize - 1] + i64::from(month == 2 && is_leap(year))
}

fn is_leap(year: i64) -> bool {
    year % 4 == 0 && (year % 100 != 0 || year % 400 == 0)
}

/// Leap days in the years 1 to `year` - 1.
fn leap_days_before(year: i64) -> i64 {
    let last = year - 1;
    last / 4 - last / 100 + last / 400
}
