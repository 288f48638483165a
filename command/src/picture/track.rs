//! The path of a body through a day: its places minute by minute, and the lines that they make on a sheet that has edges.

use super::dome::{length, onward, short_way, Dot, LOWEST};
use crate::failure::Failure;
use crate::sky::{self, Body, Place, View};
use crate::svg::degrees;
use crate::time::{MS_OF_DAY, MS_OF_MINUTE};

/// How far apart two points of a line may lie on the sheet; a body near the zenith goes further in a minute.
const LONGEST_STEP: f64 = 8.0;
/// The points that are put between lie at whole steps of 0.1 s: in less no body goes far enough to be seen.
const FINEST_MS: u32 = 100;

const MINUTES: u32 = 24 * 60;
/// The day's last moment, since the last day of 2100 has no midnight after it.
const LAST_MS: u32 = MS_OF_DAY as u32 - 1;

pub struct Track {
    pub body: Body,
    /// The places at each minute from 00:00 to 24:00.
    pub minutes: Vec<Place>,
    /// Lines with no jump in them: each ends at an edge of the sheet or with the day.
    pub lines: Vec<Vec<Dot>>,
    /// The places at whole hours from 00:00 to 24:00, those below the sheet too.
    pub hours: Vec<Dot>,
}

// What has no azimuth is at the zenith, which is one point of the sheet, or far below it: it may be taken as in the middle.
fn dot(place: Place, centre: f64) -> Dot {
    let right = place.azimuth_e8.map_or(0.0, |azimuth_e8| short_way(degrees(azimuth_e8) - centre));
    Dot { right, up: degrees(place.elevation_e8) }
}

impl Track {
    pub fn of(view: View, body: Body, centre: f64) -> Result<Track, Failure> {
        let offsets: Vec<u32> = (0..=MINUTES).map(|minute| (minute * MS_OF_MINUTE as u32).min(LAST_MS)).collect();
        let minutes = sky::places(view, body, &offsets)?;
        let hours = minutes.iter().step_by(60).map(|&place| dot(place, centre)).collect();
        let coarse = offsets.into_iter().zip(minutes.iter().map(|&place| dot(place, centre))).collect();
        let ask = |offsets: &[u32]| {
            let places = sky::places(view, body, offsets)?;
            Ok(places.into_iter().map(|place| dot(place, centre)).collect())
        };
        let dots: Vec<Dot> = refined(coarse, ask)?.into_iter().map(|(_, dot)| dot).collect();
        let lines = above_the_lower_edge(&within_the_sides(&dots));
        Ok(Track { body, minutes, lines, hours })
    }
}

// ---- from places to lines

/// Points between those that lie too far apart: so the line near the zenith is the body's own way and no short cut.
fn refined(mut dots: Vec<(u32, Dot)>, ask: impl Fn(&[u32]) -> Result<Vec<Dot>, Failure>) -> Result<Vec<(u32, Dot)>, Failure> {
    loop {
        // In less than two steps there may be no whole one, since the day's last moment is none itself.
        let wide = |pair: &[(u32, Dot)]| pair[1].0 - pair[0].0 >= 2 * FINEST_MS && length(pair[0].1, pair[1].1) > LONGEST_STEP;
        let seen = |pair: &[(u32, Dot)]| pair[0].1.up.max(pair[1].1.up) > LOWEST;
        let gaps = dots.windows(2).filter(|pair| wide(pair) && seen(pair));
        let between: Vec<u32> = gaps.map(|pair| (pair[0].0 + pair[1].0) / 2 / FINEST_MS * FINEST_MS).collect();
        if between.is_empty() {
            return Ok(dots);
        }
        let found = ask(&between)?;
        dots.extend(between.into_iter().zip(found));
        dots.sort_by_key(|(offset, _)| *offset);
    }
}

fn between(from: Dot, to: Dot, part: f64) -> Dot {
    Dot { right: from.right + part * (to.right - from.right), up: from.up + part * (to.up - from.up) }
}

/// A line that runs over one side of the sheet ends there, and goes on from the other side at the same height.
fn within_the_sides(dots: &[Dot]) -> Vec<Vec<Dot>> {
    let mut lines = vec![dots.iter().take(1).copied().collect::<Vec<Dot>>()];
    for pair in dots.windows(2) {
        let (from, to) = (pair[0], pair[1]);
        let beyond = onward(from, to);
        if (beyond.right - to.right).abs() > 180.0 {
            let side = 180.0 * beyond.right.signum();
            let edge = between(from, beyond, (side - from.right) / (beyond.right - from.right));
            lines.last_mut().into_iter().for_each(|line| line.push(edge));
            lines.push(vec![Dot { right: -side, up: edge.up }]);
        }
        lines.last_mut().into_iter().for_each(|line| line.push(to));
    }
    lines
}

/// The parts of the lines that are not below the sheet.
fn above_the_lower_edge(lines: &[Vec<Dot>]) -> Vec<Vec<Dot>> {
    let mut parts = Vec::new();
    for line in lines {
        let mut part: Vec<Dot> = line.iter().take(1).filter(|dot| dot.up >= LOWEST).copied().collect();
        for pair in line.windows(2) {
            let (from, to) = (pair[0], pair[1]);
            let crossing = || between(from, to, (LOWEST - from.up) / (to.up - from.up));
            match (from.up >= LOWEST, to.up >= LOWEST) {
                (true, true) => part.push(to),
                (false, true) => part = vec![crossing(), to],
                (true, false) => {
                    part.push(crossing());
                    parts.push(std::mem::take(&mut part));
                }
                (false, false) => {}
            }
        }
        parts.push(part);
    }
    parts.retain(|part| part.len() > 1);
    parts
}

#[cfg(test)]
mod tests {
    use super::*;

    fn dot(right: f64, up: f64) -> Dot {
        Dot { right, up }
    }

    #[test]
    fn a_line_over_the_side_goes_on_from_the_other_side() {
        let lines = within_the_sides(&[dot(170.0, 10.0), dot(-170.0, 20.0), dot(-160.0, 30.0)]);
        assert_eq!(
            lines,
            [vec![dot(170.0, 10.0), dot(180.0, 15.0)], vec![dot(-180.0, 15.0), dot(-170.0, 20.0), dot(-160.0, 30.0)]]
        );
        let lines = within_the_sides(&[dot(-170.0, 10.0), dot(170.0, 20.0)]);
        assert_eq!(lines, [vec![dot(-170.0, 10.0), dot(-180.0, 15.0)], vec![dot(180.0, 15.0), dot(170.0, 20.0)]]);
    }

    #[test]
    fn a_point_on_the_side_makes_no_jump() {
        let lines = within_the_sides(&[dot(-170.0, 10.0), dot(-180.0, 20.0), dot(-170.0, 30.0)]);
        assert_eq!(lines.len(), 1);
        let lines = within_the_sides(&[dot(170.0, 10.0), dot(-180.0, 20.0), dot(-170.0, 30.0)]);
        assert_eq!(lines[0], [dot(170.0, 10.0), dot(180.0, 20.0)]);
        assert!(lines[1].iter().all(|dot| dot.right <= -170.0));
        let lines = within_the_sides(&[dot(-180.0, 10.0), dot(170.0, 20.0)]);
        assert_eq!(lines[1], [dot(180.0, 10.0), dot(170.0, 20.0)]);
    }

    #[test]
    fn a_line_is_cut_at_the_lower_edge() {
        let line = vec![dot(0.0, -20.0), dot(10.0, 0.0), dot(20.0, 0.0), dot(30.0, -20.0), dot(40.0, -20.0)];
        let parts = above_the_lower_edge(&[line]);
        assert_eq!(parts, [vec![dot(5.0, -10.0), dot(10.0, 0.0), dot(20.0, 0.0), dot(25.0, -10.0)]]);
    }

    // A body that passes one degree from the zenith: a great circle, asked for by its offset.
    #[test]
    fn no_step_near_the_zenith_is_long() {
        let at = |offset: u32| {
            let way = (f64::from(offset) - 600_000.0) / 240_000.0;
            dot((way / 1.0).atan().to_degrees() - 90.0, 90.0 - way.hypot(1.0))
        };
        let coarse: Vec<(u32, Dot)> = (0..=20).map(|step| (step * 60_000, at(step * 60_000))).collect();
        let ask = |offsets: &[u32]| Ok(offsets.iter().map(|&offset| at(offset)).collect());
        let fine = refined(coarse, ask).unwrap();
        assert!(fine.windows(2).all(|pair| length(pair[0].1, pair[1].1) <= LONGEST_STEP && pair[0].0 < pair[1].0));
        assert!(fine.iter().any(|(_, dot)| dot.up > 88.9));
    }

    // A body that is elsewhere from some moment on, which no point between makes any nearer.
    #[test]
    fn the_finest_step_ends_the_search() {
        for (first, last, jump, before, after) in [
            (0, 60_000, 30_050, 30_000, 30_100),
            (86_340_000, LAST_MS, 86_370_000, 86_369_900, 86_370_000),
            (86_340_000, LAST_MS, LAST_MS, 86_399_800, LAST_MS),
        ] {
            let at = |offset: u32| dot(if offset < jump { -60.0 } else { 60.0 }, 45.0);
            let ask = |offsets: &[u32]| Ok(offsets.iter().map(|&offset| at(offset)).collect());
            let fine = refined(vec![(first, at(first)), (last, at(last))], ask).unwrap();
            let found = fine.windows(2).find(|pair| pair[0].1 != pair[1].1).map(|pair| (pair[0].0, pair[1].0));
            assert_eq!(found, Some((before, after)));
            assert!(fine.iter().all(|(offset, _)| offset % FINEST_MS == 0 || *offset == LAST_MS));
        }
    }
}
