//! UT1 minus UTC and delta-T where they are not given. A convenience outside the proofs: the library takes both numbers as they come.
//!
//! UT1 minus UTC is then 0. Delta-T (TT minus UT1) is read from a table of its values on 1 January, 0 h, of each year, from the Swiss Ephemeris 2.10, with a straight
//! line from year to year. It was observed up to about 2022 (good to 0.1 s there); what follows is a forecast, and other models differ from it by tens of seconds in 2050
//! and by more than a minute in 2100. A second of delta-T moves the Moon by about 0.00015 degree.

use crate::decimal;
use crate::sky::{Offsets, SECOND_DECIMALS};
use crate::time::Moment;
use std::sync::LazyLock;

const TABLE: &str = include_str!("../data/delta_t.csv");

/// The last year whose 1 January is observed.
pub const OBSERVED_TO: i64 = 2022;

#[derive(Clone, Copy, Debug, PartialEq, Eq)]
pub enum Source {
    Given,
    Assumed,
    Observed,
    Forecast,
}

impl Source {
    /// One word for tables that programs read.
    pub fn key(self) -> &'static str {
        match self {
            Source::Given => "given",
            Source::Assumed => "assumed",
            Source::Observed => "table",
            Source::Forecast => "table_forecast",
        }
    }

    pub fn words(self) -> String {
        match self {
            Source::Given => "given".to_string(),
            Source::Assumed => "assumed, since it is not given".to_string(),
            Source::Observed => format!("from a table of years, observed to about {OBSERVED_TO}, then a forecast"),
            Source::Forecast => format!("a forecast from a table of years, observed to about {OBSERVED_TO}"),
        }
    }
}

/// What was given on the command line, in milliseconds.
#[derive(Clone, Copy, Debug)]
pub struct Given {
    pub ut1_ms: Option<i64>,
    pub delta_t_ms: Option<i64>,
}

/// Both numbers, and where each comes from.
#[derive(Clone, Copy, Debug, PartialEq, Eq)]
pub struct Scales {
    pub offsets: Offsets,
    pub ut1_source: Source,
    pub delta_t_source: Source,
}

impl Given {
    pub fn at(self, moment: Moment) -> Scales {
        let (ut1_ms, ut1_source) = match self.ut1_ms {
            Some(ms) => (ms, Source::Given),
            None => (0, Source::Assumed),
        };
        let (delta_t_ms, delta_t_source) = match self.delta_t_ms {
            Some(ms) => (ms, Source::Given),
            None => from_table(moment),
        };
        Scales { offsets: Offsets { ut1_ms, delta_t_ms }, ut1_source, delta_t_source }
    }
}

impl Scales {
    /// The least and the greatest delta-T of some.
    pub fn range(all: impl Iterator<Item = Scales> + Clone) -> Option<(Scales, Scales)> {
        let by_delta_t = |scales: &Scales| scales.offsets.delta_t_ms;
        all.clone().min_by_key(by_delta_t).zip(all.max_by_key(by_delta_t))
    }

    pub fn ut1_seconds(self) -> String {
        seconds(self.offsets.ut1_ms)
    }

    pub fn delta_t_seconds(self) -> String {
        seconds(self.offsets.delta_t_ms)
    }
}

fn seconds(ms: i64) -> String {
    decimal::short(ms, SECOND_DECIMALS, 1)
}

/// What is read from the table is rounded to 0.1 s, since the table is no better than that: milliseconds of it would be made up.
const TABLE_STEP_MS: i64 = 100;

// Beyond the table any number will do, since the library refuses the year before it looks at delta-T.
fn from_table(moment: Moment) -> (i64, Source) {
    let (year, elapsed, length) = moment.of_year();
    let source = if year < OBSERVED_TO { Source::Observed } else { Source::Forecast };
    let (Some(first), Some(next)) = (new_year_ms(year), new_year_ms(year + 1)) else { return (0, source) };
    let line_times_length = first * length + (next - first) * elapsed;
    let steps = (2 * line_times_length + TABLE_STEP_MS * length).div_euclid(2 * TABLE_STEP_MS * length);
    (TABLE_STEP_MS * steps, source)
}

/// Delta-T on 1 January of a year.
fn new_year_ms(year: i64) -> Option<i64> {
    ROWS.get(usize::try_from(year - FIRST_YEAR).ok()?).copied()
}

/// The table's second column in milliseconds, read once; a test holds the first to the years in their order.
static ROWS: LazyLock<Vec<i64>> = LazyLock::new(|| {
    let second = |line: &str| decimal::read(line.split_once(',')?.1, SECOND_DECIMALS as usize).ok();
    TABLE.lines().skip(1).map_while(second).collect()
});

const FIRST_YEAR: i64 = 1900;

#[cfg(test)]
mod tests {
    use super::*;

    fn at(word: &str) -> (i64, Source) {
        from_table(Moment::read(word).unwrap())
    }

    #[test]
    fn every_year_is_in_the_table() {
        let years: Vec<String> = TABLE.lines().map(|line| line.split(',').next().unwrap().to_string()).collect();
        let wanted: Vec<String> =
            ["year".to_string()].into_iter().chain((1900..=2101).map(|year: i64| year.to_string())).collect();
        assert_eq!((years, ROWS.len()), (wanted, 202));
        assert_eq!((new_year_ms(1899), new_year_ms(2102)), (None, None));
        assert_eq!((new_year_ms(1900), new_year_ms(2026)), (Some(-1_990), Some(68_900)));
    }

    #[test]
    fn a_straight_line_from_year_to_year() {
        assert_eq!(at("1900-01-01T00:00Z"), (-2_000, Source::Observed));
        assert_eq!(at("1900-07-02T12:00Z"), (-1_400, Source::Observed)); // half way from -1.99 to -0.76, -1.375
        assert_eq!(at("1900-12-31T23:59:59.999Z"), (-800, Source::Observed));
        assert_eq!(at("2021-12-31T23:59Z"), (69_300, Source::Observed));
        assert_eq!(at("2022-01-01T00:00Z"), (69_300, Source::Forecast));
        assert_eq!(at("2100-12-31T23:59:59.999Z"), (93_600, Source::Forecast)); // a hair below 93.65, which would be 93.7
    }

    #[test]
    fn what_is_given_comes_first() {
        let moment = Moment::read("2003-10-17T19:30:30Z").unwrap();
        for (ut1_ms, delta_t_ms, ut1, delta_t) in [(-400, 67_000, "-0.4", "67.0"), (-123, 64_184, "-0.123", "64.184")] {
            let scales = Given { ut1_ms: Some(ut1_ms), delta_t_ms: Some(delta_t_ms) }.at(moment);
            assert_eq!((scales.ut1_seconds(), scales.delta_t_seconds()), (ut1.into(), delta_t.into()));
            assert_eq!((scales.ut1_source, scales.delta_t_source), (Source::Given, Source::Given));
        }
        let scales = Given { ut1_ms: None, delta_t_ms: None }.at(moment);
        assert_eq!((scales.ut1_source, scales.delta_t_source), (Source::Assumed, Source::Observed));
    }
}
