//! Turning points read from the lines of a table, as `raddlehue plan --csv` writes them.

use super::round::{is_azimuth, HALF_TURN_E8};
use super::Question;
use crate::decimal;
use crate::failure::{quoted, Failure};
use crate::format::{body_key, body_name};
use crate::input::at_line;
use crate::sky::{TurningPoint, ANGLE_DECIMALS};

const MINUTE: &str = "minute";
const AZIMUTH: &str = "azimuth_degrees";

/// Which columns the head names; time and body may be left out.
struct Columns {
    count: usize,
    minute: usize,
    azimuth: usize,
    time: Option<usize>,
    body: Option<usize>,
}

/// All points, or what is wrong with the first line that is wrong.
pub fn read(lines: &[String], question: &Question) -> Result<Vec<TurningPoint>, Failure> {
    let Some((head, rows)) = lines.split_first() else {
        return Err(Failure::Line(format!(
            "standard input is empty: its first line has to name the columns {MINUTE} and {AZIMUTH}"
        )));
    };
    let columns = Columns::read(cells(head)).map_err(|sentence| at_line(0, head, &sentence))?;
    let point = |(index, row): (usize, &String)| {
        point(&columns, &cells(row), question).map_err(|sentence| at_line(index + 1, row, &sentence))
    };
    rows.iter().enumerate().map(point).collect()
}

// A line ends in CR LF where the RFC is kept.
fn cells(line: &str) -> Vec<&str> {
    line.strip_suffix('\r').unwrap_or(line).split(',').collect()
}

impl Columns {
    fn read(names: Vec<&str>) -> Result<Columns, String> {
        let column = |name: &str| {
            let mut found = names.iter().enumerate().filter(|(_, found)| **found == name).map(|(index, _)| index);
            match (found.next(), found.next()) {
                (_, Some(_)) => Err(format!("it names the column {name} twice")),
                (first, None) => Ok(first),
            }
        };
        let needed = |name: &str| {
            column(name)?.ok_or(format!("it does not name the column {name}, and {MINUTE} and {AZIMUTH} are needed"))
        };
        Ok(Columns {
            count: names.len(),
            minute: needed(MINUTE)?,
            azimuth: needed(AZIMUTH)?,
            time: column("time")?,
            body: column("body")?,
        })
    }
}

fn point(columns: &Columns, cells: &[&str], question: &Question) -> Result<TurningPoint, String> {
    if cells.len() != columns.count {
        return Err(format!("it has {} columns, and the first line names {}", cells.len(), columns.count));
    }
    let cell = |column: usize| cells.get(column).copied().unwrap_or_default();
    let minute = decimal::read(cell(columns.minute), 0).ok().and_then(|minute| u32::try_from(minute).ok());
    let minute = minute.ok_or("a minute is a whole number from 0 to 1439")?;
    let azimuth_e8 = decimal::read(cell(columns.azimuth), ANGLE_DECIMALS as usize);
    let azimuth_e8 =
        azimuth_e8.map_err(|_| "an azimuth is written in degrees with a point and at most 8 decimals, like 255.67689443")?;
    let time = question.time(minute).written();
    if columns.time.is_some_and(|column| cell(column) != time) {
        return Err(format!("its time is not that of minute {minute} of {} UTC, {time}", question.date()));
    }
    match columns.body.map(cell).filter(|body| *body != body_key(question.body)) {
        Some(other) => Err(format!("its body is {}, and the {} is asked for", quoted(other), body_name(question.body))),
        None => Ok(TurningPoint { minute, azimuth_e8 }),
    }
}

// ---- refusals

/// The library's refusal by 29 or 30 with the first line that it is about, where there is one.
pub fn at_fault(failure: Failure, points: &[TurningPoint], lines: &[String]) -> Failure {
    let (index, sentence) = match &failure {
        Failure::Refused(29, sentence) => (misplaced(points), sentence),
        Failure::Refused(30, sentence) => (opposite(points), sentence),
        _ => return failure,
    };
    // The points begin behind the head.
    match index.and_then(|index| Some((index + 1, lines.get(index + 1)?))) {
        Some((index, line)) => at_line(index, line, sentence),
        None => failure,
    }
}

// The first point that does not rise above the one before, or whose azimuth is none; or else an end that is none.
fn misplaced(points: &[TurningPoint]) -> Option<usize> {
    let falls = points.windows(2).position(|pair| pair[1].minute <= pair[0].minute).map(|index| index + 1);
    let wrong = points.iter().position(|point| !is_azimuth(point.azimuth_e8));
    let [first, last] = [points.first().filter(|point| point.minute != 0), points.last().filter(|point| point.minute != 1439)];
    let first = first.map(|_| 0);
    let last = last.map(|_| points.len() - 1);
    [falls, wrong, first].into_iter().flatten().min().or(last)
}

// The second of the first two that are.
fn opposite(points: &[TurningPoint]) -> Option<usize> {
    let is_opposite = |pair: &[TurningPoint]| (pair[1].azimuth_e8 - pair[0].azimuth_e8).abs() == HALF_TURN_E8;
    points.windows(2).position(is_opposite).map(|index| index + 1)
}

#[cfg(test)]
mod tests {
    use super::*;

    fn points(pairs: &[(u32, i64)]) -> Vec<TurningPoint> {
        pairs.iter().map(|&(minute, azimuth_e8)| TurningPoint { minute, azimuth_e8 }).collect()
    }

    #[test]
    fn the_first_point_at_fault() {
        for (pairs, index) in [
            (&[][..], None),
            (&[(0, 0)], Some(0)),
            (&[(0, 0), (1439, 0)], None),
            (&[(1, 0), (1439, 0)], Some(0)),
            (&[(0, 0), (7, 0), (7, 0), (1439, 0)], Some(2)),
            (&[(0, 0), (7, 36_000_000_000), (6, -1), (1439, 0)], Some(1)),
            (&[(0, 0), (1440, 0), (1439, 0)], Some(2)),
            (&[(0, 0), (7, 0), (1438, 0)], Some(2)),
        ] {
            assert_eq!(misplaced(&points(pairs)), index, "{pairs:?}");
        }
        assert_eq!(opposite(&points(&[(0, 5), (1, 6), (2, HALF_TURN_E8 + 6), (3, 6)])), Some(2));
    }
}
