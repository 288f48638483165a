//! What the picture of an eclipse says in words.

use super::disks::turned;
use super::report::{Report, Row};
use crate::format::percent;
use crate::observer::{scales_words, short_range_words};
use crate::rise_set::passed_degrees;
use crate::svg::Heading;

pub struct Story {
    pub heading: Heading,
    /// The lines above the one that says what the grounds mean, and those below it.
    pub answer: Vec<String>,
    pub notes: Vec<String>,
}

impl Story {
    pub fn of(report: &Report) -> Story {
        let (observer, midnight) = (report.watch.observer, report.watch.midnight);
        let zone = midnight.zone().words();
        let scales = observer.scales(midnight);
        let date = midnight.clock().date.written();
        let description = format!(
            "The share of the Sun's disk that the Moon covers on {date} from {}, times in {zone}. {}. {}. Elevations without refraction; the Sun is up from {} \
             degrees. {}.",
            observer.words(),
            report.sentences().join("; "),
            phases(report),
            passed_degrees(),
            scales_words(scales).trim_end().replace('\n', "; ")
        );
        let title = format!("Eclipse of the Sun on {date}");
        let place = format!("{}, {zone}", observer.short_words());
        let mut notes = Vec::new();
        if report.passage.is_some() {
            notes.push("disks as one faces the Sun, the zenith up".to_string());
            notes.extend(report.sights().find_map(|sight| turned(sight.sun)).map(str::to_string));
            notes.push("under each: share covered, Sun's elevation".to_string());
            notes.push(format!("up from {}°, without refraction", passed_degrees()));
        }
        notes.extend(short_range_words(scales, scales));
        Story { heading: Heading { title, place, description }, answer: report.short_words(), notes }
    }
}

/// Each phase with its time and its share, for those who cannot see it.
fn phases(report: &Report) -> String {
    let phase = |row: &Row| match row.sight {
        Some(sight) => {
            format!("{} {}, {} % covered", row.phase.name(), report.time(sight.moment), percent(sight.disks.share_millionths))
        }
        None => row.unanswered(),
    };
    report.rows.iter().map(phase).collect::<Vec<String>>().join("; ")
}
