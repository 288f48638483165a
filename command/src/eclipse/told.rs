//! A day's eclipse in sentences.

use super::phase::{Kind, Phase};
use super::report::{Passage, Report, Row, Sight};
use crate::format::{percent, short_percent, shown_angle};
use crate::rise_set::Stays;
use crate::time::Moment;

/// Of a day that has none.
const NONE: &str = "no eclipse here on this day";

impl Report {
    /// What kind it is, how the Sun stands, and the maximum while the Sun is up; one sentence a line.
    pub fn sentences(&self) -> Vec<String> {
        let Some(passage) = &self.passage else {
            let nearest = |sight: Sight| {
                let (time, [apart, touch]) = (self.time(sight.moment), sight.apart_and_touch());
                format!("the Sun and the Moon are nearest at {time}, {apart} degrees apart; they would touch at {touch} degrees")
            };
            return [NONE.to_string()].into_iter().chain(self.sights().map(nearest)).collect();
        };
        let mut sentences = vec![passage.kind_words(), self.sun_words(passage)];
        sentences.extend(passage.maximum_up.map(|sight| {
            let at = passage.cut_by().map_or(String::new(), |phase| format!(", at {}", phase.name()));
            let (share, time) = (percent(sight.disks.share_millionths), self.time(sight.moment));
            format!("maximum while the Sun is up: {share} % at {time}{at}")
        }));
        sentences
    }

    /// The same, short enough for the width of a picture.
    pub fn short_words(&self) -> Vec<String> {
        let Some(passage) = &self.passage else {
            let nearest = |sight: Sight| {
                let (time, [apart, touch]) = (self.time(sight.moment), sight.apart_and_touch());
                [format!("nearest at {time}, {apart}° apart"), format!("they would touch at {touch}°")]
            };
            return [NONE.to_string()].into_iter().chain(self.sights().flat_map(nearest)).collect();
        };
        let clock = Moment::hour_minute_and_second;
        let mut words = vec![passage.short_kind()];
        words.push(passage.maximum_up.map_or("nothing is seen: the Sun stays down".to_string(), |sight| {
            format!("maximum seen: {} % at {}", short_percent(sight.disks.share_millionths), clock(sight.moment))
        }));
        if passage.stays().is_none() {
            words.push(format!("the Sun {}", self.horizon_words(clock)));
        }
        words.extend(self.dates(passage));
        words.extend(self.rows.iter().filter(|row| row.sight.is_none()).map(Row::unanswered));
        words
    }

    /// With the date where it is not the day's own.
    pub fn time(&self, moment: Moment) -> String {
        let (date, time) = (moment.clock().date, moment.hour_minute_and_second());
        match date == self.watch.midnight.clock().date {
            true => time,
            false => format!("{} {time}", date.written()),
        }
    }

    pub fn sights(&self) -> impl Iterator<Item = Sight> + '_ {
        self.rows.iter().filter_map(|row| row.sight)
    }

    // Where it runs over midnight: "from 2026-08-12 23:10 to 2026-08-13 00:52".
    fn dates(&self, passage: &Passage) -> Option<String> {
        let [first, last] = [passage.contacts.first, passage.contacts.last].map(|second| self.watch.moment(second));
        let dated = |moment: Moment| format!("{} {}", moment.clock().date.written(), moment.hour_and_minute());
        (first.clock().date != last.clock().date).then(|| format!("from {} to {}", dated(first), dated(last)))
    }

    fn sun_words(&self, passage: &Passage) -> String {
        let horizon = || self.horizon_words(|moment| self.time(moment));
        let comes = match passage.cut_by() {
            Some(Phase::Sunset) => "after sunset",
            Some(_) => "before sunrise",
            None => "while it is up",
        };
        match passage.stays() {
            Some(Stays::Up) => "the Sun is up throughout".to_string(),
            Some(Stays::Down) => "the Sun is below the horizon throughout, so that nothing is seen".to_string(),
            None => format!("the Sun {} during the eclipse; the maximum comes {comes}", horizon()),
        }
    }

    // "sets at 21:17:20", or more of it where the Sun skims the horizon.
    fn horizon_words(&self, time: impl Fn(Moment) -> String) -> String {
        let words = self.rows.iter().filter_map(|row| Some(format!("{} at {}", row.phase.verb()?, time(row.sight?.moment))));
        words.collect::<Vec<String>>().join(" and ")
    }
}

impl Sight {
    // How far apart the centres are, and how far they are where the disks touch, in degrees.
    fn apart_and_touch(&self) -> [String; 2] {
        let disks = self.disks;
        [disks.separation_e8, disks.sun_radius_e8 + disks.moon_radius_e8].map(shown_angle)
    }
}

impl Row {
    /// Of a phase that is not answered.
    pub fn unanswered(&self) -> String {
        format!("{} outside the years 1900 to 2100", self.phase.name())
    }
}

impl Passage {
    fn kind_words(&self) -> String {
        let share = percent(self.maximum.disks.share_millionths);
        match self.kind {
            Kind::Partial => format!("a partial eclipse: {share} % of the Sun is covered at its maximum"),
            Kind::Total => format!("a total eclipse: the whole Sun is covered for {}", self.inner_words()),
            Kind::Annular => format!("an annular eclipse: a ring of the Sun is left for {}", self.inner_words()),
        }
    }

    fn short_kind(&self) -> String {
        match self.kind {
            Kind::Partial => "a partial eclipse".to_string(),
            Kind::Total => format!("a total eclipse: totality for {}", self.inner_words()),
            Kind::Annular => format!("an annular eclipse: a ring for {}", self.inner_words()),
        }
    }

    // How long one disk is within the other.
    fn inner_words(&self) -> String {
        let seconds = self.inner.map_or(0, |span| span.last - span.first);
        match (seconds / 60, seconds % 60) {
            (0, 0) => "a second or less".to_string(),
            (0, seconds) => format!("{seconds} s"),
            (minutes, seconds) => format!("{minutes} min {seconds} s"),
        }
    }

    // Where the maximum itself is not seen: the sunset before it or the sunrise after it, at which the most is seen.
    fn cut_by(&self) -> Option<Phase> {
        match self.maximum_up {
            Some(seen) if seen.second < self.maximum.second => Some(Phase::Sunset),
            Some(seen) if seen.second > self.maximum.second => Some(Phase::Sunrise),
            _ => None,
        }
    }
}
