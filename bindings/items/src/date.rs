//! Dates of the common calendar, in UTC.
use std::fmt::{self, Display, Formatter};

const DAY: u64 = 86_400;

/// The days of four centuries, after which the calendar begins anew.
const FOUR_CENTURIES: u64 = 146_097;

/// The days from 1 March of the year 0 to 1 January 1970.
const MARCH_0: u64 = 719_468;

/// A time to the second.
#[derive(Debug, PartialEq, Eq)]
pub struct Date {
    year: u64,
    month: u64,
    day: u64,
    /// Seconds since midnight.
    second: u64,
}

/// The date so many seconds after 1970 began; none past the year 9999, whose digits would be more than four.
pub fn utc(seconds: u64) -> Option<Date> {
    let days = seconds / DAY + MARCH_0;
    let (era, day) = (days / FOUR_CENTURIES, days % FOUR_CENTURIES);
    // years begin in March here, so that a leap day is the last day of its year
    let year = (day - day / 1_460 + day / 36_524 - day / 146_096) / 365;
    let day_of_year = day - (365 * year + year / 4 - year / 100);
    let month = (5 * day_of_year + 2) / 153;
    let (month, later) = if month < 10 { (month + 3, 0) } else { (month - 9, 1) };
    let year = 400 * era + year + later;
    (year <= 9_999).then(|| Date {
        year,
        month,
        day: day_of_year - (153 * ((month + 9) % 12) + 2) / 5 + 1,
        second: seconds % DAY,
    })
}

impl Date {
    fn day(&self) -> String {
        format!("{:04}-{:02}-{:02}", self.year, self.month, self.day)
    }

    fn clock(&self) -> String {
        format!("{:02}:{:02}:{:02}", self.second / 3_600, self.second / 60 % 60, self.second % 60)
    }

    /// As RFC 3339 spells it.
    pub fn stamp(&self) -> String {
        format!("{}T{}Z", self.day(), self.clock())
    }
}

impl Display for Date {
    fn fmt(&self, f: &mut Formatter<'_>) -> fmt::Result {
        write!(f, "{} {} UTC", self.day(), self.clock())
    }
}

/// A date in words, or that it lies too far off.
pub fn words(date: &Option<Date>) -> String {
    date.as_ref().map_or("a date past the year 9999".to_string(), Date::to_string)
}

#[cfg(test)]
mod tests {
    use super::*;

    #[test]
    fn known_dates() {
        for (seconds, wanted) in [
            (0, "1970-01-01 00:00:00 UTC"),
            (86_399, "1970-01-01 23:59:59 UTC"),
            (951_782_399, "2000-02-28 23:59:59 UTC"),
            (951_782_400, "2000-02-29 00:00:00 UTC"),
            (951_868_800, "2000-03-01 00:00:00 UTC"),
            (1_496_314_658, "2017-06-01 10:57:38 UTC"),
            (1_704_067_199, "2023-12-31 23:59:59 UTC"),
            (4_107_542_400, "2100-03-01 00:00:00 UTC"),
            (34_359_738_367, "3058-10-26 03:46:07 UTC"),
            (253_402_300_799, "9999-12-31 23:59:59 UTC"),
        ] {
            assert_eq!(words(&utc(seconds)), wanted);
        }
        assert_eq!(utc(1_496_314_658).unwrap().stamp(), "2017-06-01T10:57:38Z");
        assert_eq!(words(&utc(253_402_300_800)), "a date past the year 9999");
        assert_eq!(utc(u64::MAX), None);
    }

    /// Every day of 800 years follows the one before by the rules of months and leap years.
    #[test]
    fn day_by_day() {
        let (mut year, mut month, mut day) = (1970, 1, 1);
        for count in 0..2 * FOUR_CENTURIES {
            assert_eq!(
                utc(count * DAY),
                Some(Date {
                    year,
                    month,
                    day,
                    second: 0
                })
            );
            let leap = year % 4 == 0 && year % 100 != 0 || year % 400 == 0;
            let last = [31, 28 + u64::from(leap), 31, 30, 31, 30, 31, 31, 30, 31, 30, 31][month as usize - 1];
            (month, day) = if day < last { (month, day + 1) } else { (month + 1, 1) };
            (year, month) = if month > 12 { (year + 1, 1) } else { (year, month) };
        }
    }
}
