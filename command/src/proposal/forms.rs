//! A plan as text, as JSON and as CSV.

use super::Plan;
use crate::format::{self, angle};
use crate::sky::{TurningPoint, DAY_MINUTES};

/// "9 turning points for 1440 minutes".
pub fn counted(plan: &Plan) -> String {
    format!("{} turning points for {DAY_MINUTES} minutes", plan.points.len())
}

pub fn text(plan: &Plan) -> String {
    let mut text = format!(
        "{}{}, tolerance {}\n\
         azimuth in degrees from north over east; from point to point in proportion, the short way round\n\n\
         time   minute       azimuth\n",
        plan.question.heading("Plan"),
        counted(plan),
        plan.question.tolerance_words()
    );
    for &TurningPoint { minute, azimuth_e8 } in &plan.points {
        text += &format!("{}  {minute:>6}  {:>12}\n", plan.question.time(minute).hour_and_minute(), angle(azimuth_e8));
    }
    text
}

pub fn json(plan: &Plan) -> String {
    let question = &plan.question;
    let row = |&TurningPoint { minute, azimuth_e8 }: &TurningPoint| {
        let time = question.time(minute).written();
        format!("{{\"time\": \"{time}\", \"minute\": {minute}, \"azimuth_degrees\": {}}}", angle(azimuth_e8))
    };
    let rows: Vec<String> = plan.points.iter().map(row).collect();
    format::json_object(&[
        format!("\"date\": \"{}\", \"zone\": \"Z\", \"body\": \"{}\"", question.date(), format::body_key(question.body)),
        format::json_spot(question.observer.spot),
        format::json_scales(question.scales()),
        format::json_forecast(),
        format!("\"tolerance_degrees\": {}", angle(question.tolerance_e8)),
        format!("\"turning_points\": {}, \"minutes\": {DAY_MINUTES}", plan.points.len()),
        format!("\"points\": {}", format::json_rows(&rows)),
    ])
}

// What is the same for the whole day stands on each line, so that each can be read alone.
pub fn csv(plan: &Plan) -> String {
    let question = &plan.question;
    let said =
        format!("{},{},{}", format::body_key(question.body), angle(question.tolerance_e8), format::csv_scales(question.scales()));
    let row = |&TurningPoint { minute, azimuth_e8 }: &TurningPoint| {
        format!("{},{minute},{},{said}", question.time(minute).written(), angle(azimuth_e8))
    };
    let head = format!("time,minute,azimuth_degrees,body,tolerance_degrees,{}", format::CSV_SCALES);
    format::csv(&head, plan.points.iter().map(row))
}
