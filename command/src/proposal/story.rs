//! What the picture of a plan says in words.

use super::forms::counted;
use super::Plan;
use crate::decimal;
use crate::format::{body_name, shown_azimuth};
use crate::observer::{scales_words, short_range_words};
use crate::sky::{TurningPoint, ANGLE_DECIMALS, DAY_MINUTES};
use crate::svg::Heading;

/// More points than these are not read out one by one.
const HEARD: usize = 40;

pub struct Story {
    pub heading: Heading,
    /// Beside the samples of the line, of the band and of a point.
    pub azimuth: String,
    pub tolerance: String,
    pub points: String,
    pub notes: Vec<String>,
}

impl Story {
    pub fn of(plan: &Plan, band_is_seen: bool) -> Story {
        let question = &plan.question;
        let (body, date) = (body_name(question.body), question.date());
        let description = format!(
            "The azimuth of the {body} on {date} from {}, times in UTC, and {} turning points that stand for its {DAY_MINUTES} minutes. Time runs from left to right, from 00 to 24; azimuth runs upward, \
             from north over east, south and west to north, so that what leaves at the top goes on at the foot. From point to point the azimuth goes in proportion, the \
             short way round, and at every minute lies within {} of the {body}'s. {}{}.",
            question.observer.words(),
            plan.points.len(),
            question.tolerance_words(),
            heard(plan),
            scales_words(question.scales()).trim_end().replace('\n', "; ")
        );
        let mut notes = vec!["dashed: from point to point, the short way".to_string()];
        if !band_is_seen {
            notes.push("the band is too thin to be seen here".to_string());
        }
        notes.extend(short_range_words(question.scales(), question.scales()));
        Story {
            heading: Heading {
                title: format!("Plan for the {body} on {date}"),
                place: format!("{}, UTC", question.observer.short_words()),
                description,
            },
            azimuth: format!("azimuth of the {body}, from north over east"),
            tolerance: format!("tolerance {}° either way", decimal::short(question.tolerance_e8, ANGLE_DECIMALS, 0)),
            points: counted(plan),
            notes,
        }
    }
}

/// Each turning point, for those who cannot see it.
fn heard(plan: &Plan) -> String {
    if plan.points.len() > HEARD {
        return String::new();
    }
    let point = |point: &TurningPoint| {
        format!("{} {}°", plan.question.time(point.minute).hour_and_minute(), shown_azimuth(point.azimuth_e8))
    };
    format!("Turning points: {}. ", plan.points.iter().map(point).collect::<Vec<String>>().join("; "))
}
