//! Every call of the proved library, and nothing else: what is asked of it, and its refusals in its own words.

use crate::calendar;
use crate::failure::Failure;
use crate::time::{Clock, Moment};
use raddlehue::{Air, Date, FoundStrip, Point, Refusal, Start, StripHeader};

pub use raddlehue::{Body, Eclipse, Place, RiseSet, Shown, Strip, StripAir, StripStep, Which};
pub use raddlehue::{DAY_MINUTES, LOWEST_REFRACTED_E8, RISE_SET_E8, SECOND_MS, STRIP_HEADER};

/// Decimals of the library's angles, of a point's degrees, of a second, and of per cent of the Sun's disk in millionths.
pub const ANGLE_DECIMALS: u32 = 8;
pub const POINT_DECIMALS: u32 = 7;
pub const SECOND_DECIMALS: u32 = 3;
pub const SHARE_DECIMALS: u32 = 4;

pub const DEGREE_E8: i64 = raddlehue::DEGREE_E8;
pub const VERSION: &str = raddlehue::VERSION;

/// What turns UTC into the two time scales of the sky, in milliseconds.
#[derive(Clone, Copy, Debug, PartialEq, Eq)]
pub struct Offsets {
    pub ut1_ms: i64,
    pub delta_t_ms: i64,
}

/// Where the observer stands.
#[derive(Clone, Copy, Debug, PartialEq, Eq)]
pub struct Spot {
    pub latitude_e7: i64,
    pub longitude_e7: i64,
    pub height_metres: i64,
}

/// When and from where: the part of a question that all commands share.
#[derive(Clone, Copy, Debug)]
pub struct View {
    pub moment: Moment,
    pub offsets: Offsets,
    pub spot: Spot,
}

impl View {
    fn start(self) -> Start {
        let Offsets { ut1_ms, delta_t_ms } = self.offsets;
        start_of(self.moment.in_utc().clock()).ut1_ms(ut1_ms).delta_t_ms(delta_t_ms)
    }

    fn date(self) -> Date {
        let Start { year, month, day, ut1_ms, delta_t_ms, .. } = self.start();
        Date::utc(year, month, day).ut1_ms(ut1_ms).delta_t_ms(delta_t_ms)
    }

    fn point(self) -> Point {
        let Spot { latitude_e7, longitude_e7, height_metres } = self.spot;
        Point { longitude_e7, latitude_e7, height_metres }
    }
}

fn start_of(clock: Clock) -> Start {
    let Clock { date, hour, minute, second, millisecond } = clock;
    Start::utc(date.year, date.month, date.day, hour, minute, second).fraction_ms(millisecond)
}

/// The place without refraction.
pub fn place(view: View, body: Body) -> Result<Place, Failure> {
    raddlehue::place(view.start(), body, view.point(), Air::None).map_err(|refusal| refused(refusal, view.moment))
}

/// The place with refraction; the air is in mbar and in degrees Celsius.
pub fn shown_place(view: View, body: Body, pressure_mbar: f64, temperature_celsius: f64) -> Result<Shown, Failure> {
    let air = Air::Measured { pressure_mbar, temperature_celsius };
    raddlehue::shown_place(view.start(), body, view.point(), air).map_err(|refusal| refused(refusal, view.moment))
}

/// Why many places are refused, and at which offset where it is one that is too late.
pub struct TrackRefused {
    pub index: Option<usize>,
    pub failure: Failure,
}

impl From<TrackRefused> for Failure {
    fn from(refused: TrackRefused) -> Failure {
        refused.failure
    }
}

/// Places without refraction at offsets in milliseconds after the view's moment.
pub fn places(view: View, body: Body, offsets_ms: &[u32]) -> Result<Vec<Place>, TrackRefused> {
    raddlehue::places_ms(view.start(), body, view.point(), offsets_ms).map_err(|refusal| match refusal {
        Refusal::TooLate { index } => {
            let offset = offsets_ms.get(index).copied().unwrap_or(0);
            TrackRefused { index: Some(index), failure: refused(refusal, view.moment.later(offset)) }
        }
        _ => TrackRefused { index: None, failure: refused(refusal, view.moment) },
    })
}

/// A UTC date's curve, without refraction, and when the body rises and sets on it.
pub struct UtcDay {
    pub rise_set: RiseSet,
    pub elevations_e8: [i64; DAY_MINUTES],
}

/// The UTC date on which the view's moment lies.
pub fn utc_day(view: View, body: Body) -> Result<UtcDay, Failure> {
    let mut elevations_e8 = [0; DAY_MINUTES];
    let rise_set = raddlehue::day(view.date(), body, view.point(), &mut elevations_e8);
    Ok(UtcDay { rise_set: rise_set.map_err(|refusal| refused(refusal, view.moment))?, elevations_e8 })
}

/// The Sun and the Moon as two disks, and how much of the Sun is covered.
pub fn eclipse(view: View) -> Result<Eclipse, Failure> {
    raddlehue::eclipse(view.start(), view.point()).map_err(|refusal| refused(refusal, view.moment))
}

/// The same, or nothing where the moment lies outside the years that are answered.
pub fn eclipse_within_years(view: View) -> Result<Option<Eclipse>, Failure> {
    match raddlehue::eclipse(view.start(), view.point()) {
        Err(Refusal::Year) => Ok(None),
        answer => answer.map(Some).map_err(|refusal| refused(refusal, view.moment)),
    }
}

/// The middle of two azimuths, all in 1e-8 degree.
pub fn middle(a_e8: i64, b_e8: i64) -> Result<i64, Failure> {
    raddlehue::middle(a_e8, b_e8).map_err(refused_plainly)
}

// ---- strips

/// The strip of the UTC date on which the view's moment lies.
pub fn strip_of_day(view: View, body: Body, step_minutes: i64) -> Result<Vec<u8>, Failure> {
    let (date, point) = (view.date(), view.point());
    let mut azimuths_e7 = [0; DAY_MINUTES];
    let count = raddlehue::day_azimuths(date, body, point, step_minutes, &mut azimuths_e7)
        .map_err(|refusal| refused(refusal, view.moment))?;
    let header = StripHeader::of(date, body, point, step_minutes);
    raddlehue::strip_to_vec(header, &azimuths_e7[..count]).map_err(refused_plainly)
}

pub fn strip(bytes: &[u8]) -> Result<Strip<'_>, Failure> {
    Strip::try_from(bytes).map_err(refused_plainly)
}

/// Why a lookup is refused: one of the two is no strip, or it is about the date.
pub struct LookupRefused {
    pub at: Option<Which>,
    pub failure: Failure,
}

pub fn find_strip<'a>(first: &'a [u8], second: &'a [u8], date: calendar::Date) -> Result<FoundStrip<'a>, LookupRefused> {
    raddlehue::find_strip(first, second, date.year, date.month, date.day).map_err(|refusal| LookupRefused {
        at: match refusal {
            Refusal::StripNotFound => None,
            _ if Strip::try_from(first).is_err() => Some(Which::First),
            _ => Some(Which::Second),
        },
        failure: refused_plainly(refusal),
    })
}

// ---- proposals

/// A turning point of a proposal: a minute of the UTC date, and an azimuth in 1e-8 degree.
#[derive(Clone, Copy, Debug, PartialEq, Eq)]
pub struct TurningPoint {
    pub minute: u32,
    pub azimuth_e8: i64,
}

/// Turning points for the UTC date on which the view's moment lies, or none where there is no plan.
pub fn plan(view: View, body: Body, tolerance_e8: u64) -> Result<Option<Vec<TurningPoint>>, Failure> {
    let (mut minutes, mut azimuths_e8) = ([0; DAY_MINUTES], [0; DAY_MINUTES]);
    let count = raddlehue::plan(view.date(), body, view.point(), tolerance_e8, &mut minutes, &mut azimuths_e8)
        .map_err(|refusal| refused(refusal, view.moment))?;
    let points = minutes.into_iter().zip(azimuths_e8).map(|(minute, azimuth_e8)| TurningPoint { minute, azimuth_e8 });
    Ok(count.map(|count| points.take(count).collect()))
}

/// No plan, in the library's words and by its number.
pub fn no_plan(why: &str) -> Failure {
    Failure::Refused(Refusal::NoPlan.number(), format!("{}{why}", numbered(Refusal::NoPlan)))
}

/// The watch's verdict on turning points for the UTC date on which the view's moment lies.
pub fn judge(view: View, body: Body, tolerance_e8: u64, points: &[TurningPoint]) -> Result<(), Failure> {
    let minutes: Vec<u32> = points.iter().map(|point| point.minute).collect();
    let azimuths_e8: Vec<i64> = points.iter().map(|point| point.azimuth_e8).collect();
    let verdict = raddlehue::judge(view.date(), body, view.point(), tolerance_e8, &minutes, &azimuths_e8);
    verdict.map_err(|refusal| match refusal {
        Refusal::ProposalOut { minute } => {
            let time = view.moment.in_utc().minutes_later(minute as usize).hour_and_minute();
            Failure::Refused(refusal.number(), format!("{} (first at {time} UTC, minute {minute})", numbered(refusal)))
        }
        _ => refused(refusal, view.moment),
    })
}

// ---- refusals

fn numbered(refusal: Refusal) -> String {
    format!("refused {}: {}", refusal.number(), refusal.sentence())
}

fn refused_plainly(refusal: Refusal) -> Failure {
    Failure::Refused(refusal.number(), numbered(refusal))
}

// A moment is said in UTC, since a zone or an offset may have moved it out of the years that are answered.
fn refused(refusal: Refusal, moment: Moment) -> Failure {
    let of_moment = matches!(refusal.number(), 1..=4 | 13);
    let asked = if of_moment { format!(" (asked for {})", moment.in_utc().written()) } else { String::new() };
    Failure::Refused(refusal.number(), numbered(refusal) + &asked)
}

/// The library's refusal of a time that no clock shows.
pub fn refused_clock(clock: Clock) -> Failure {
    let nowhere = Point { longitude_e7: 0, latitude_e7: 0, height_metres: 0 };
    match raddlehue::place(start_of(clock), Body::Sun, nowhere, Air::None) {
        Err(refusal) => refused_plainly(refusal),
        Ok(_) => Failure::Usage("there is no such time".to_string()),
    }
}
