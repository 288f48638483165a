//! The course of an eclipse in whole seconds from a midnight: found by minutes, then narrowed down to the second.
//!
//! What begins has its first second here, and what ends its last: it holds at both, and neither at the second before nor at the one after.

use crate::failure::Failure;
use crate::sky::Eclipse;

pub const MINUTE: i64 = 60;

/// How deep the Moon's disk reaches into the Sun's, above 0 where they overlap: greatest at the maximum of an eclipse, or where the two are nearest.
fn depth_e8(disks: &Eclipse) -> i64 {
    disks.sun_radius_e8 + disks.moon_radius_e8 - disks.separation_e8
}

/// The same for the smaller disk within the larger, from 0 up: the whole Sun is covered, or a ring of it is left.
fn inner_depth_e8(disks: &Eclipse) -> i64 {
    (disks.sun_radius_e8 - disks.moon_radius_e8).abs() - disks.separation_e8
}

pub fn overlap(disks: &Eclipse) -> bool {
    depth_e8(disks) > 0
}

fn one_within_the_other(disks: &Eclipse) -> bool {
    inner_depth_e8(disks) >= 0
}

/// From the first second to the last.
#[derive(Clone, Copy, Debug, PartialEq, Eq)]
pub struct Span {
    pub first: i64,
    pub last: i64,
}

/// The two disks second by second; nothing outside the years that are answered.
pub struct Course<'a> {
    pub ask: &'a dyn Fn(i64) -> Result<Option<Eclipse>, Failure>,
}

impl Course<'_> {
    /// The second of a day at which the disks overlap most, or are nearest.
    pub fn nearest(&self, day: Span) -> Result<i64, Failure> {
        let minutes = (day.first..day.last).step_by(MINUTE as usize);
        let minute = self.best(day.last, minutes, depth_e8)?;
        self.best(minute, about(minute).filter(|second| (day.first..=day.last).contains(second)), depth_e8)
    }

    /// The maximum of an eclipse that is under way at a second.
    pub fn maximum(&self, second: i64) -> Result<i64, Failure> {
        let mut top = second;
        loop {
            let higher = self.best(top, [top - MINUTE, top + MINUTE].into_iter(), depth_e8)?;
            if higher == top {
                return self.best(top, about(top), depth_e8);
            }
            top = higher;
        }
    }

    /// While the disks overlap, round a second at which they do.
    pub fn contacts(&self, second: i64) -> Result<Span, Failure> {
        self.span(second, overlap)
    }

    /// While one disk is within the other, where it ever is, near the maximum.
    pub fn inner(&self, maximum: i64) -> Result<Option<Span>, Failure> {
        let second = self.best(maximum, about(maximum), inner_depth_e8)?;
        match self.holds(second, one_within_the_other)? {
            true => self.span(second, one_within_the_other).map(Some),
            false => Ok(None),
        }
    }

    /// The same of some spans: on each the second nearest to the maximum itself, on both sides of which the disks part.
    pub fn maximum_within(&self, spans: &[Span], maximum: i64) -> Result<Option<i64>, Failure> {
        let mut nearest = spans.iter().map(|span| maximum.clamp(span.first, span.last));
        nearest.next().map(|first| self.best(first, nearest, depth_e8)).transpose()
    }

    pub fn is_answered(&self, second: i64) -> Result<bool, Failure> {
        self.holds(second, |_| true)
    }

    fn holds(&self, second: i64, is: fn(&Eclipse) -> bool) -> Result<bool, Failure> {
        Ok((self.ask)(second)?.is_some_and(|disks| is(&disks)))
    }

    // Of equals the one that comes first; what is not answered is never better.
    fn best(&self, first: i64, others: impl Iterator<Item = i64>, depth: fn(&Eclipse) -> i64) -> Result<i64, Failure> {
        let mut best = (first, self.measured(first, depth)?);
        for second in others {
            let measured = self.measured(second, depth)?;
            if measured > best.1 {
                best = (second, measured);
            }
        }
        Ok(best.0)
    }

    fn measured(&self, second: i64, depth: fn(&Eclipse) -> i64) -> Result<i64, Failure> {
        Ok((self.ask)(second)?.map_or(i64::MIN, |disks| depth(&disks)))
    }

    fn span(&self, second: i64, is: fn(&Eclipse) -> bool) -> Result<Span, Failure> {
        let end = |step: i64| {
            let mut inside = second;
            while self.holds(inside + step, is)? {
                inside += step;
            }
            edge(inside, inside + step, |second| self.holds(second, is))
        };
        Ok(Span { first: end(-MINUTE)?, last: end(MINUTE)? })
    }
}

fn about(second: i64) -> impl Iterator<Item = i64> {
    second - MINUTE..=second + MINUTE
}

/// The last second at which something holds, on the way from one at which it does to one at which it does not.
fn edge(mut inside: i64, mut outside: i64, holds: impl Fn(i64) -> Result<bool, Failure>) -> Result<i64, Failure> {
    while (outside - inside).abs() > 1 {
        let middle = inside + (outside - inside) / 2;
        match holds(middle)? {
            true => inside = middle,
            false => outside = middle,
        }
    }
    Ok(inside)
}

/// The parts of a span in which something holds: looked at each minute, at both ends and at some seconds in between, then to the second.
pub fn parts(span: Span, between: &[i64], holds: impl Fn(i64) -> Result<bool, Failure>) -> Result<Vec<Span>, Failure> {
    let mut seconds: Vec<i64> = (span.first..span.last).step_by(MINUTE as usize).chain([span.last]).collect();
    seconds.extend(between);
    seconds.sort_unstable();
    let (mut parts, mut before): (Vec<Span>, Option<i64>) = (Vec::new(), None);
    for second in seconds {
        let inside = holds(second)?;
        let open = parts.last_mut().filter(|part| Some(part.last) == before);
        match (open, inside) {
            (Some(part), true) => part.last = second,
            (Some(part), false) => part.last = edge(part.last, second, &holds)?,
            (None, true) => {
                parts.push(Span { first: before.map_or(Ok(second), |before| edge(second, before, &holds))?, last: second })
            }
            (None, false) => {}
        }
        before = Some(second);
    }
    Ok(parts)
}

#[cfg(test)]
mod tests {
    use super::*;

    const DAY: Span = Span { first: 0, last: 86_399 };
    /// A Moon that goes 0.0001 degree in a second.
    const SPEED_E8: f64 = 10_000.0;
    const SUN_RADIUS_E8: i64 = 26_000_000;

    /// Passes the Sun at a second, at a least separation; answered from a second on.
    struct Moon {
        second: i64,
        least_e8: f64,
        radius_e8: i64,
        answered_from: i64,
    }

    impl Moon {
        fn disks(&self, second: i64) -> Result<Option<Eclipse>, Failure> {
            let along = SPEED_E8 * (second - self.second) as f64;
            let separation_e8 = along.hypot(self.least_e8).round() as i64;
            let disks =
                Eclipse { separation_e8, sun_radius_e8: SUN_RADIUS_E8, moon_radius_e8: self.radius_e8, share_millionths: 0 };
            Ok((second >= self.answered_from).then_some(disks))
        }
    }

    const TOTAL: Moon = Moon { second: 40_000, least_e8: 0.0, radius_e8: 27_000_000, answered_from: i64::MIN };

    fn span(first: i64, last: i64) -> Span {
        Span { first, last }
    }

    // They overlap within 5,300 seconds, where they touch, and one is within the other within 100.
    #[test]
    fn a_total_eclipse() {
        let ask = |second| TOTAL.disks(second);
        let course = Course { ask: &ask };
        let nearest = course.nearest(DAY).unwrap();
        assert_eq!((nearest, course.maximum(nearest).unwrap()), (40_000, 40_000));
        assert_eq!(course.contacts(40_000).unwrap(), span(34_701, 45_299));
        assert_eq!(course.inner(40_000).unwrap(), Some(span(39_900, 40_100)));
    }

    #[test]
    fn a_ring_and_a_partial_eclipse() {
        for (least_e8, inner) in
            [(0.0, Some(span(39_900, 40_100))), (1_000_000.0, Some(span(40_000, 40_000))), (1_000_001.0, None)]
        {
            let moon = Moon { radius_e8: 25_000_000, least_e8, ..TOTAL };
            let ask = |second| moon.disks(second);
            assert_eq!(Course { ask: &ask }.inner(40_000).unwrap(), inner, "{least_e8}");
        }
    }

    // It passes half way between two minutes, and reaches 50 units into the Sun.
    #[test]
    fn a_graze_between_two_minutes() {
        let moon = Moon { second: 39_990, least_e8: 53_000_000.0 - 50.0, ..TOTAL };
        let ask = |second| moon.disks(second);
        let course = Course { ask: &ask };
        assert!(!course.holds(39_960, overlap).unwrap() && !course.holds(40_020, overlap).unwrap());
        let nearest = course.nearest(DAY).unwrap();
        assert_eq!((nearest, course.contacts(nearest).unwrap()), (39_990, span(39_983, 39_997)));
        let moon = Moon { least_e8: 53_000_000.0, ..moon };
        let ask = |second| moon.disks(second);
        assert!(!Course { ask: &ask }.holds(39_990, overlap).unwrap());
    }

    #[test]
    fn an_eclipse_over_midnight_is_whole() {
        for (second, nearest) in [(-2_000, 0), (88_000, 86_399)] {
            let moon = Moon { second, ..TOTAL };
            let ask = |second| moon.disks(second);
            let course = Course { ask: &ask };
            assert_eq!(course.nearest(DAY).unwrap(), nearest);
            assert_eq!(course.maximum(nearest).unwrap(), second);
            assert_eq!(course.contacts(second).unwrap(), span(second - 5_299, second + 5_299));
        }
    }

    #[test]
    fn an_eclipse_may_begin_before_the_years_that_are_answered() {
        for (answered_from, maximum) in [(-2_000, 1_000), (0, 1_000), (2_000, 2_000)] {
            let moon = Moon { second: 1_000, answered_from, ..TOTAL };
            let ask = |second| moon.disks(second);
            let course = Course { ask: &ask };
            assert_eq!(course.maximum(3_000).unwrap(), maximum);
            assert_eq!(course.contacts(maximum).unwrap(), span(answered_from, 6_299));
            assert!(course.is_answered(answered_from).unwrap() && !course.is_answered(answered_from - 1).unwrap());
        }
    }

    #[test]
    fn the_maximum_of_parts() {
        let ask = |second| TOTAL.disks(second);
        let within = |spans: &[Span]| Course { ask: &ask }.maximum_within(spans, 40_000).unwrap();
        assert_eq!(within(&[]), None);
        assert_eq!(within(&[span(35_000, 41_000)]), Some(40_000));
        assert_eq!(within(&[span(35_000, 39_000), span(40_500, 41_000)]), Some(40_500));
    }

    #[test]
    fn parts_to_the_second() {
        let of = |holds: fn(i64) -> bool| parts(span(1_000, 2_001), &[1_500, 1_501], |second| Ok(holds(second))).unwrap();
        assert_eq!(of(|_| true), [span(1_000, 2_001)]);
        assert_eq!(of(|_| false), []);
        assert_eq!(of(|second| second < 1_234), [span(1_000, 1_233)]);
        assert_eq!(of(|second| !(1_234..=1_777).contains(&second)), [span(1_000, 1_233), span(1_778, 2_001)]);
        assert_eq!(of(|second| second == 1_501 || second == 2_001), [span(1_501, 1_501), span(2_001, 2_001)]);
        assert_eq!(parts(span(7, 7), &[7], |_| Ok(true)).unwrap(), [span(7, 7)]);
    }
}
