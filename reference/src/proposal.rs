//! A short strip that the phone proposes: turning points of a day's azimuth, and the watch's verdict on them
//! (document 02, Item 7).
//!
//! There is no planner here: a plan of the proved one is held to what document 02 asks of it, that it is accepted and
//! that no inner point can be dropped.

use crate::day::{midnight, Date, MINUTE, MINUTES};
use crate::instant::Instant;
use crate::numbers::{floor_div, reduce, HALF_TURN, TURN};
use crate::place::Observer;
use crate::request::{check_point, Body, Point};

/// The azimuth at each minute of a day, where there is one.
pub type AzimuthCurve = [Option<i64>; MINUTES];

/// Why a proposal is refused: the number, and with 31 the first minute out of tolerance, else 0.
pub type Refusal = (u8, u32);

/// Turning points as the phone sends them: a list of minutes and a list of azimuths (10⁻⁸ degree).
#[derive(Clone, Copy, Debug)]
pub struct Proposal<'a> {
    pub minutes: &'a [u32],
    pub azimuths: &'a [i64],
}

/// A turning point: its minute, and its azimuth, reduced.
#[derive(Clone, Copy, Debug, PartialEq, Eq)]
pub struct TurningPoint {
    pub minute: u32,
    pub azimuth: i64,
}

/// The body's azimuth at each minute of the day, or the first refusal of 1 to 3 and 5 to 9.
pub fn azimuth_curve(date: Date, body: Body, point: Point) -> Result<AzimuthCurve, u8> {
    let mut azimuths = azimuths(date, body, point)?;
    Ok(std::array::from_fn(|_| azimuths.next().flatten()))
}

/// The same, each worked only when it is asked for.
fn azimuths(date: Date, body: Body, point: Point) -> Result<impl Iterator<Item = Option<i64>>, u8> {
    let midnight = Instant::new(&midnight(&date))?;
    check_point(&point)?;
    let observer = Observer::new(&point);
    let offsets = (0..MINUTES as u32).map(|minute| MINUTE * minute);
    Ok(offsets.map(move |offset| observer.look(body, &midnight.after(offset)).azimuth))
}

// ---- the watch's verdict

/// Accepted, or the first refusal: 1 to 3, 5 to 9, then those of `judge_against`.
pub fn judge(date: Date, body: Body, point: Point, proposal: Proposal, tolerance: u64) -> Result<(), Refusal> {
    let azimuths = azimuths(date, body, point).map_err(|number| (number, 0))?;
    verdict(azimuths, proposal, tolerance)
}

/// The verdict where the day is worked already: 29 for turning points that are none, 30 for neighbours half a turn
/// apart, 31 with the first minute at which the proposal is out of tolerance.
pub fn judge_against(curve: &AzimuthCurve, proposal: Proposal, tolerance: u64) -> Result<(), Refusal> {
    verdict(curve.iter().copied(), proposal, tolerance)
}

fn verdict(azimuths: impl Iterator<Item = Option<i64>>, proposal: Proposal, tolerance: u64) -> Result<(), Refusal> {
    let points = turning_points(proposal).ok_or((29, 0))?;
    if points.windows(2).any(|leg| are_opposite(leg[0].azimuth, leg[1].azimuth)) {
        return Err((30, 0));
    }
    // a minute without an azimuth is not compared
    let is_out =
        |(value, azimuth): (i64, Option<i64>)| azimuth.is_some_and(|azimuth| distance(value, azimuth) > tolerance);
    let first_out = values(&points).zip(azimuths).position(is_out);
    first_out.map_or(Ok(()), |minute| Err((31, minute as u32)))
}

/// The points, 2 to 1,440 of them, strictly rising from minute 0 to 1439, their azimuths reduced; nothing where they
/// are not so.
fn turning_points(Proposal { minutes, azimuths }: Proposal) -> Option<Vec<TurningPoint>> {
    let are_counted = minutes.len() == azimuths.len() && (2..=MINUTES).contains(&minutes.len());
    let are_rising = minutes.windows(2).all(|pair| pair[0] < pair[1]);
    let are_from_end_to_end = minutes.first() == Some(&0) && minutes.last() == Some(&(MINUTES as u32 - 1));
    let are_reduced = azimuths.iter().all(|azimuth| (0..TURN).contains(azimuth));
    let is_well_formed = are_counted && are_rising && are_from_end_to_end && are_reduced;
    let points = minutes.iter().zip(azimuths).map(|(&minute, &azimuth)| TurningPoint { minute, azimuth });
    is_well_formed.then(|| points.collect())
}

/// The proposal's azimuth at each minute from the first point's to the last's.
fn values(points: &[TurningPoint]) -> impl Iterator<Item = i64> + '_ {
    let legs = points.windows(2);
    let before_the_last =
        legs.flat_map(|leg| (leg[0].minute..leg[1].minute).map(|minute| value_between(leg[0], leg[1], minute)));
    before_the_last.chain(points.last().map(|last| last.azimuth))
}

/// The azimuth at a minute between two turning points: from the earlier on the short way round to the later, in
/// proportion to the time, floored, also where the way runs backward.
pub fn value_between(earlier: TurningPoint, later: TurningPoint, minute: u32) -> i64 {
    let way = short_way(earlier.azimuth, later.azimuth);
    let [gone, whole] = [minute, later.minute].map(|minute| i64::from(minute) - i64::from(earlier.minute));
    reduce(earlier.azimuth + floor_div(way * gone, whole))
}

/// What takes one azimuth to another the short way round: above zero over east, below zero back.
fn short_way(from: i64, to: i64) -> i64 {
    let onward = reduce(to - from);
    if onward <= HALF_TURN {
        onward
    } else {
        onward - TURN
    }
}

/// How far apart two azimuths are, the short way round: 0 to half a turn.
pub fn distance(one: i64, other: i64) -> u64 {
    short_way(one, other).unsigned_abs()
}

/// Whether two reduced azimuths are exactly half a turn apart.
fn are_opposite(one: i64, other: i64) -> bool {
    (one - other).abs() == HALF_TURN
}

// ---- what is asked of a planner

/// Whether there has to be a plan: every minute has an azimuth, and no two adjacent minutes are exactly opposite.
pub fn has_plan(curve: &AzimuthCurve) -> bool {
    let no_pair_is_opposite = || {
        curve.windows(2).all(|pair| match (pair[0], pair[1]) {
            (Some(one), Some(other)) => !are_opposite(one, other),
            _ => true,
        })
    };
    curve.iter().all(Option::is_some) && no_pair_is_opposite()
}

/// Whether the proposal would be refused, by 30 or 31, if its inner point at this index were dropped.
pub fn is_needed(curve: &AzimuthCurve, proposal: Proposal, tolerance: u64, index: usize) -> bool {
    let (mut minutes, mut azimuths) = (proposal.minutes.to_vec(), proposal.azimuths.to_vec());
    minutes.remove(index);
    azimuths.remove(index);
    let dropped = Proposal { minutes: &minutes, azimuths: &azimuths };
    matches!(judge_against(curve, dropped, tolerance), Err((30 | 31, _)))
}

/// The index of the first inner point that could be dropped; none where the proposal is minimal.
pub fn first_needless(curve: &AzimuthCurve, proposal: Proposal, tolerance: u64) -> Option<usize> {
    let last = proposal.minutes.len().saturating_sub(1);
    (1..last).find(|&index| !is_needed(curve, proposal, tolerance, index))
}
