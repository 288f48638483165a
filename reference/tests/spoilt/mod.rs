//! A day's request with ever more faults in it.

use raddlehue_reference::{Date, Point};

/// From the last check to the first: each request has the faults of those before it, and its own number goes before theirs.
pub fn spoilt_days(date: Date, point: Point) -> [(u8, Date, Point); 8] {
    let high = Point { height: 9_001, ..point };
    let north = Point { latitude: 900_000_001, ..high };
    let east = Point { longitude: 1_800_000_001, ..north };
    let late = Date { delta_t: 8_000_001, ..date };
    let off = Date { ut1: 901, ..late };
    let no_day = Date { month: 2, day: 30, ..off };
    let no_month = Date { month: 13, day: 32, ..no_day };
    let no_year = Date { year: 1899, ..no_month };
    [
        (9, date, high),
        (8, date, north),
        (7, date, east),
        (6, late, east),
        (5, off, east),
        (3, no_day, east),
        (2, no_month, east),
        (1, no_year, east),
    ]
}
