//! What is told of a day: its eclipse, phase by phase, and how the Sun stands meanwhile; or how near the two come.

use super::course::{overlap, parts, Course, Span, MINUTE};
use super::phase::{Kind, Phase};
use crate::failure::Failure;
use crate::observer::Observer;
use crate::rise_set::{is_up, Stays};
use crate::sky::{self, Body, Eclipse, Place, View, DAY_MINUTES};
use crate::time::Moment;

/// A day of a zone by its seconds, those before and after it too, all with the UT1 minus UTC and the delta-T of its beginning.
#[derive(Clone, Copy)]
pub struct Watch {
    pub observer: Observer,
    pub midnight: Moment,
    view: View,
}

/// What there is to see at a moment.
#[derive(Clone, Copy)]
pub struct Sight {
    pub second: i64,
    pub moment: Moment,
    pub disks: Eclipse,
    pub sun: Place,
    pub moon: Place,
}

impl Sight {
    pub fn sun_is_up(&self) -> bool {
        is_up(self.sun.elevation_e8)
    }
}

impl Watch {
    pub fn of(observer: Observer, midnight: Moment) -> Watch {
        Watch { observer, midnight, view: observer.view(midnight) }
    }

    pub fn moment(&self, second: i64) -> Moment {
        self.midnight.seconds_later(second)
    }

    pub fn disks(&self, second: i64) -> Result<Eclipse, Failure> {
        sky::eclipse(self.at(second))
    }

    fn at(&self, second: i64) -> View {
        View { moment: self.moment(second), ..self.view }
    }

    fn sun_is_up(&self, second: i64) -> Result<bool, Failure> {
        Ok(is_up(sky::place(self.at(second), Body::Sun)?.elevation_e8))
    }

    fn sight(&self, second: i64) -> Result<Sight, Failure> {
        let view = self.at(second);
        let (sun, moon) = (sky::place(view, Body::Sun)?, sky::place(view, Body::Moon)?);
        Ok(Sight { second, moment: view.moment, disks: sky::eclipse(view)?, sun, moon })
    }
}

/// An eclipse by the seconds of its day.
pub struct Passage {
    pub kind: Kind,
    pub contacts: Span,
    pub inner: Option<Span>,
    pub maximum: Sight,
    /// While the Sun is up, and the maximum of that time.
    pub up: Vec<Span>,
    pub maximum_up: Option<Sight>,
}

/// A phase, and what there is to see; nothing where it lies outside the years that are answered.
pub struct Row {
    pub phase: Phase,
    pub sight: Option<Sight>,
}

pub struct Report {
    pub watch: Watch,
    pub passage: Option<Passage>,
    /// In the order of time; of a day without an eclipse, one.
    pub rows: Vec<Row>,
}

impl Report {
    pub fn of(observer: Observer, midnight: Moment) -> Result<Report, Failure> {
        let watch = Watch::of(observer, midnight);
        let day = Span { first: 0, last: MINUTE * DAY_MINUTES as i64 - 1 };
        // The day itself is answered as a whole or refused; only what an eclipse has beyond it may be missing.
        watch.disks(day.first)?;
        watch.disks(day.last)?;
        let course = Course { ask: &|second| sky::eclipse_within_years(watch.at(second)) };
        let nearest = course.nearest(day)?;
        if !overlap(&watch.disks(nearest)?) {
            let row = Row { phase: Phase::Nearest, sight: Some(watch.sight(nearest)?) };
            return Ok(Report { watch, passage: None, rows: vec![row] });
        }
        let passage = passage(&watch, &course, nearest)?;
        let rows = rows(&watch, &course, &passage)?;
        Ok(Report { watch, passage: Some(passage), rows })
    }

    /// Seconds and covered shares in millionths from the first contact to the last, each minute and at the maximum.
    pub fn curve(&self) -> Result<Vec<(i64, i64)>, Failure> {
        let Some(Passage { contacts, maximum, .. }) = &self.passage else { return Ok(Vec::new()) };
        let minutes = (contacts.first..contacts.last).step_by(MINUTE as usize);
        let mut seconds: Vec<i64> = minutes.chain([maximum.second, contacts.last]).collect();
        seconds.sort_unstable();
        seconds.into_iter().map(|second| Ok((second, self.watch.disks(second)?.share_millionths))).collect()
    }
}

impl Passage {
    /// What the Sun does that neither rises nor sets from the first contact to the last.
    pub fn stays(&self) -> Option<Stays> {
        match self.up.as_slice() {
            [] => Some(Stays::Down),
            [span] if *span == self.contacts => Some(Stays::Up),
            _ => None,
        }
    }

    fn horizon(&self) -> Vec<(i64, Phase)> {
        let rises = self.up.iter().map(|span| span.first).filter(|&second| second > self.contacts.first);
        let sets = self.up.iter().map(|span| span.last).filter(|&second| second < self.contacts.last);
        rises.map(|second| (second, Phase::Sunrise)).chain(sets.map(|second| (second, Phase::Sunset))).collect()
    }
}

fn passage(watch: &Watch, course: &Course, second: i64) -> Result<Passage, Failure> {
    let maximum = course.maximum(second)?;
    let contacts = course.contacts(maximum)?;
    let inner = course.inner(maximum)?;
    let disks = watch.disks(maximum)?;
    let kind = match inner {
        None => Kind::Partial,
        Some(_) if disks.moon_radius_e8 >= disks.sun_radius_e8 => Kind::Total,
        Some(_) => Kind::Annular,
    };
    let between: Vec<i64> = inner.iter().flat_map(|span| [span.first, span.last]).chain([maximum]).collect();
    let up = parts(contacts, &between, |second| watch.sun_is_up(second))?;
    let maximum_up = course.maximum_within(&up, maximum)?.map(|second| watch.sight(second)).transpose()?;
    Ok(Passage { kind, contacts, inner, maximum: watch.sight(maximum)?, up, maximum_up })
}

// What has an unanswered second beside it is the end of the years and no phase.
fn rows(watch: &Watch, course: &Course, passage: &Passage) -> Result<Vec<Row>, Failure> {
    let Passage { kind, contacts, inner, maximum, .. } = passage;
    let mut phases = vec![(contacts.first, Phase::FirstContact)];
    phases.extend(inner.map(|span| (span.first, Phase::InnerBegins(*kind))));
    phases.push((maximum.second, Phase::Maximum));
    phases.extend(inner.map(|span| (span.last, Phase::InnerEnds(*kind))));
    phases.extend(passage.horizon());
    phases.push((contacts.last, Phase::LastContact));
    phases.sort_by_key(|(second, _)| *second);
    let row = |(second, phase): (i64, Phase)| {
        let is_known = course.is_answered(second - 1)? && course.is_answered(second + 1)?;
        Ok(Row { phase, sight: is_known.then(|| watch.sight(second)).transpose()? })
    };
    phases.into_iter().map(row).collect()
}
