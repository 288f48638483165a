//! A short strip: turning points that the phone proposes, and the watch's verdict on them.
#![forbid(unsafe_code)]

use crate::refusal::{accepted, answer};
use crate::{archive, Body, Date, Point, Refusal, DAY_MINUTES};

/// The watch's verdict on a proposal: turning points of a UTC date, given by their minutes and by their azimuths in 10⁻⁸ degree from north over east.
///
/// The minutes rise from 0 to 1439. Between two of them the azimuth goes the short way round in proportion to the time, rounded down from the earlier one: from 13 back to 10
/// in two minutes it is 11 at the first. The proposal is accepted exactly where at every minute its azimuth lies within the tolerance, in 10⁻⁸ degree, the short way round, of
/// the body's azimuth 0 seconds into that minute; a minute at which the body has no azimuth is not compared. Tolerances from 18,000,000,000 on, half a turn, all say the same.
///
/// # Errors
/// [`Year`](Refusal::Year) to [`Day`](Refusal::Day), 1 to 3, [`Ut1`](Refusal::Ut1) to [`Height`](Refusal::Height), 5 to 9, [`ProposalPoints`](Refusal::ProposalPoints), 29,
/// also where one list is longer than the other, [`ProposalOpposite`](Refusal::ProposalOpposite), 30, and [`ProposalOut`](Refusal::ProposalOut), 31, with the first minute out of
/// tolerance, in this order.
///
/// At Boulder the Sun is not in the north-east when a UTC date begins:
///
/// ```
/// use raddlehue::{judge, Body, Date, Point, Refusal, DEGREE_E8};
///
/// let date = Date::utc(2003, 10, 17).delta_t_ms(67_000);
/// let boulder = Point::east_north(-105.1786, 39.742476, 1830);
/// let verdict = |minutes: &[u32], azimuths_e8: &[i64]| judge(date, Body::Sun, boulder, 5 * DEGREE_E8 as u64, minutes, azimuths_e8);
/// assert_eq!(verdict(&[0, 1439], &[4_500_000_000, 25_300_000_000]), Err(Refusal::ProposalOut { minute: 0 }));
/// assert_eq!(verdict(&[0, 720, 1439], &[4_500_000_000, 22_500_000_000, 0]), Err(Refusal::ProposalOpposite));
/// assert_eq!(verdict(&[0, 1438], &[4_500_000_000, 25_300_000_000]), Err(Refusal::ProposalPoints));
/// ```
pub fn judge(
    date: Date,
    body: Body,
    point: Point,
    tolerance_e8: u64,
    minutes: &[u32],
    azimuths_e8: &[i64],
) -> Result<(), Refusal> {
    let (refusal, minute) = archive::judge(&date, body.code(), &point, tolerance_e8, minutes, azimuths_e8);
    match accepted(refusal) {
        Err(Refusal::ProposalOut { .. }) => Err(Refusal::ProposalOut { minute }),
        verdict => verdict,
    }
}

/// A proposal for a UTC date into two lent buffers: the minutes of its turning points, and the body's azimuths there in 10⁻⁸ degree from north over east.
///
/// The answer is how many entries of each were written, 2 to 1,440; those behind them keep their contents. [`judge`] never refuses what was planned for its tolerance, and would
/// refuse it, by 30 or 31, if any one inner point were dropped. `None` is no plan: a minute of the day has no azimuth, or two adjacent minutes are exactly opposite, and nothing
/// is written. For the phone: some 12 KB of stack more than the others take, beside 17 KB for the buffers, 1,440 azimuths, and up to 500 million comparisons, on real days
/// about a million (docs/FIGURES.md has the times).
///
/// # Errors
/// [`Year`](Refusal::Year) to [`Day`](Refusal::Day), 1 to 3, then [`Ut1`](Refusal::Ut1) to [`Height`](Refusal::Height), 5 to 9, in this order; nothing is written.
///
/// ```
/// use raddlehue::{judge, plan, Body, Date, Point, Refusal, DAY_MINUTES, DEGREE_E8};
///
/// let date = Date::utc(2003, 10, 17).delta_t_ms(67_000);
/// let boulder = Point::east_north(-105.1786, 39.742476, 1830);
/// let tolerance_e8 = 3 * DEGREE_E8 as u64;
/// let (mut minutes, mut azimuths_e8) = ([0; DAY_MINUTES], [0; DAY_MINUTES]);
/// let Some(count) = plan(date, Body::Sun, boulder, tolerance_e8, &mut minutes, &mut azimuths_e8)? else {
///     panic!("the Sun has an azimuth at every minute");
/// };
/// let (minutes, azimuths_e8) = (&minutes[..count], &azimuths_e8[..count]);
/// assert!(count < 20, "and not 1,440");
/// assert_eq!(judge(date, Body::Sun, boulder, tolerance_e8, minutes, azimuths_e8), Ok(()));
/// # Ok::<(), Refusal>(())
/// ```
pub fn plan(
    date: Date,
    body: Body,
    point: Point,
    tolerance_e8: u64,
    minutes: &mut [u32; DAY_MINUTES],
    azimuths_e8: &mut [i64; DAY_MINUTES],
) -> Result<Option<usize>, Refusal> {
    let planned =
        answer(|count: &mut u64| archive::raddlehue_plan(&date, body.code(), &point, tolerance_e8, minutes, azimuths_e8, count));
    match planned {
        // It is not above 1,440, so that a cast loses nothing.
        Ok(count) => Ok(Some(count as usize)),
        Err(Refusal::NoPlan) => Ok(None),
        Err(other) => Err(other),
    }
}
