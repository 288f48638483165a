//! What the year's picture says in words.

use super::YearDay;
use crate::delta_t::Scales;
use crate::observer::{range_words, short_range_words, Observer};
use crate::rise_set::{passed_degrees, Day, Stays};
use crate::svg::Heading;
use crate::time::Moment;

pub struct Story {
    pub heading: Heading,
    pub sunrise: String,
    pub sunset: String,
    pub notes: Vec<String>,
}

impl Story {
    pub fn of(observer: Observer, new_year: Moment, days: &[YearDay]) -> Story {
        let (year, zone) = (new_year.clock().date.year, new_year.zone().words());
        let sunrise = clock_range("sunrise", days, |day| day.rise);
        let sunset = clock_range("sunset", days, |day| day.set);
        let mut notes: Vec<String> = [Stays::Up, Stays::Down].into_iter().filter_map(|side| staying(days, side)).collect();
        notes.push(format!("rise and set when the centre passes {}°", passed_degrees()));
        let (mut scales_line, passed) = (String::new(), notes.join("; "));
        if let Some((least, greatest)) = Scales::range(days.iter().map(|day| day.scales)) {
            notes.extend(short_range_words(least, greatest));
            scales_line = range_words(least, greatest).trim_end().replace('\n', "; ");
        }
        let description = format!(
            "Sunrise and sunset through {year} from {}, times in {zone}. Days run from left to right, January to December; the hours of each day run \
             upward, from 00 to 24. The time that the Sun is up is light, the rest is dark. {sunrise}; {sunset}; {passed}, without refraction. \
             {scales_line}.",
            observer.words()
        );
        let title = format!("Sunrise and sunset in {year}");
        let place = format!("{}, {zone}", observer.short_words());
        Story { heading: Heading { title, place, description }, sunrise, sunset, notes }
    }
}

/// "sunrise 03:43 to 08:06", from the least that the clock shows to the greatest.
fn clock_range(name: &str, days: &[YearDay], of: fn(&Day) -> Option<Moment>) -> String {
    let all = || days.iter().filter_map(|day| of(&day.sun)).map(Moment::hour_and_minute);
    match (all().min(), all().max()) {
        (Some(least), Some(greatest)) if least == greatest => format!("{name} {least}"),
        (Some(least), Some(greatest)) => format!("{name} {least} to {greatest}"),
        _ => format!("{name} on no day"),
    }
}

/// "up all day on 70 days: 05-18 to 07-26".
fn staying(days: &[YearDay], side: Stays) -> Option<String> {
    let stays: Vec<bool> = days.iter().map(|day| day.sun.stays() == Some(side)).collect();
    let count = stays.iter().filter(|stays| **stays).count();
    let days_words = if count == 1 { "1 day".to_string() } else { format!("{count} days") };
    let date = |index: usize| days.get(index).map_or(String::new(), |day| day.midnight.clock().date.written()[5..].to_string());
    let runs: Vec<String> = runs(&stays).into_iter().map(|run| run_words(run, days.len(), date)).collect();
    match runs.as_slice() {
        [] => None,
        // More would not go into the width of the sheet.
        [_] | [_, _] => Some(format!("{} all day on {days_words}: {}", side.key(), runs.join(", "))),
        _ => Some(format!("{} all day on {days_words}", side.key())),
    }
}

// From the first day of each row to the last.
fn runs(stays: &[bool]) -> Vec<(usize, usize)> {
    let mut runs: Vec<(usize, usize)> = Vec::new();
    for (index, _) in stays.iter().enumerate().filter(|(_, stays)| **stays) {
        match runs.last_mut() {
            Some((_, last)) if *last + 1 == index => *last = index,
            _ => runs.push((index, index)),
        }
    }
    runs
}

// What begins or ends with the year begins before it, or ends after it.
fn run_words((first, last): (usize, usize), length: usize, date: impl Fn(usize) -> String) -> String {
    match (first == 0, last + 1 == length) {
        (true, true) => "all year".to_string(),
        (true, false) => format!("to {}", date(last)),
        (false, true) => format!("from {}", date(first)),
        (false, false) if first == last => date(first),
        (false, false) => format!("{} to {}", date(first), date(last)),
    }
}

#[cfg(test)]
mod tests {
    use super::*;

    #[test]
    fn days_in_a_row() {
        assert_eq!(runs(&[false, true, true, false, true]), [(1, 2), (4, 4)]);
        assert_eq!(runs(&[false, false]), []);
        let words = |first, last| run_words((first, last), 365, |index| index.to_string());
        assert_eq!((words(0, 13), words(330, 364), words(0, 364)), ("to 13".into(), "from 330".into(), "all year".into()));
        assert_eq!((words(137, 206), words(171, 171)), ("137 to 206".into(), "171".into()));
    }
}
