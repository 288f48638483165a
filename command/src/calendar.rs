//! Days of the Gregorian calendar counted, for zones and for the table of delta-T. Whether a date is accepted is for the library to say.

/// Days from 0000-03-01 to 2000-01-01: the count below begins its years in March, so that a leap day is a year's last.
const MARCH_OF_YEAR_0: i64 = 730_425;
const FOUR_CENTURIES: i64 = 146_097;

#[derive(Clone, Copy, Debug, PartialEq, Eq)]
pub struct Date {
    pub year: i64,
    pub month: i64,
    pub day: i64,
}

impl Date {
    /// Days from 2000-01-01; of a date that does not exist, those of some other date.
    pub fn day_number(self) -> i64 {
        let year = if self.month <= 2 { self.year - 1 } else { self.year };
        let month_from_march = (self.month + 9) % 12;
        let day_of_year = (153 * month_from_march + 2) / 5 + self.day - 1;
        365 * year + year.div_euclid(4) - year.div_euclid(100) + year.div_euclid(400) + day_of_year - MARCH_OF_YEAR_0
    }

    pub fn of_day_number(number: i64) -> Date {
        let days = number + MARCH_OF_YEAR_0;
        let (cycle, day) = (days.div_euclid(FOUR_CENTURIES), days.rem_euclid(FOUR_CENTURIES));
        let year_of_cycle = (day - day / 1_460 + day / 36_524 - day / 146_096) / 365;
        let day_of_year = day - (365 * year_of_cycle + year_of_cycle / 4 - year_of_cycle / 100);
        let month_from_march = (5 * day_of_year + 2) / 153;
        let month = (month_from_march + 2) % 12 + 1;
        let year = 400 * cycle + year_of_cycle + i64::from(month <= 2);
        Date { year, month, day: day_of_year - (153 * month_from_march + 2) / 5 + 1 }
    }

    pub fn exists(self) -> bool {
        Date::of_day_number(self.day_number()) == self
    }

    /// In ISO 8601, of a year with four digits.
    pub fn written(self) -> String {
        format!("{:04}-{:02}-{:02}", self.year, self.month, self.day)
    }
}

#[cfg(test)]
mod tests {
    use super::*;

    fn date(year: i64, month: i64, day: i64) -> Date {
        Date { year, month, day }
    }

    #[test]
    fn days_are_counted() {
        let known = [(date(2000, 1, 1), 0), (date(1900, 1, 1), -36_524), (date(2100, 12, 31), 36_889), (date(2000, 2, 29), 59)];
        for (date, number) in known {
            assert_eq!((date.day_number(), Date::of_day_number(number)), (number, date));
        }
    }

    #[test]
    fn every_day_is_one_after_the_one_before() {
        for number in -40_000..40_000 {
            assert_eq!(Date::of_day_number(number).day_number(), number);
            assert!(Date::of_day_number(number).exists());
        }
    }

    #[test]
    fn dates_that_do_not_exist() {
        let none = [
            (2026, 2, 29),
            (1900, 2, 29),
            (2026, 13, 1),
            (2026, 0, 1),
            (2026, 8, 32),
            (2026, 8, 0),
            (2026, 4, 31),
            (2026, 99, 99),
        ];
        for (year, month, day) in none {
            assert!(!date(year, month, day).exists(), "{year}-{month}-{day}");
        }
    }
}
