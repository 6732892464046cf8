//! Seconds from 1970 as a date and time of day in UTC.

/// Seconds of a day.
const DAY: i64 = 86_400;

/// Days of 400 years, after which the calendar repeats.
const ERA: i64 = 146_097;

/// Days from 1 March of year 0 to 1 January 1970.
const FROM_MARCH_0: i64 = 719_468;

/// The date in the proleptic Gregorian calendar (the year 0 is 1 BC) and the time; years outside 0 to 9999 have a sign.
pub fn utc(seconds: i64) -> String {
    let (days, second) = (seconds.div_euclid(DAY), seconds.rem_euclid(DAY));
    let (year, month, day) = civil(days);
    let year = match year {
        0..=9999 => format!("{year:04}"),
        _ => format!("{year:+05}"),
    };
    let (hour, minute, second) = (second / 3600, second / 60 % 60, second % 60);
    format!("{year}-{month:02}-{day:02} {hour:02}:{minute:02}:{second:02} UTC")
}

/// Year, month and day of a number of days from 1970; years are counted from March, so that a leap day is the last one.
fn civil(days: i64) -> (i64, i64, i64) {
    let days = days + FROM_MARCH_0;
    let (era, day_of_era) = (days.div_euclid(ERA), days.rem_euclid(ERA));
    let year_of_era = (day_of_era - day_of_era / 1_460 + day_of_era / 36_524 - day_of_era / 146_096) / 365;
    let day_of_year = day_of_era - (365 * year_of_era + year_of_era / 4 - year_of_era / 100);
    let month_from_march = (5 * day_of_year + 2) / 153;
    let day = day_of_year - (153 * month_from_march + 2) / 5 + 1;
    let month = if month_from_march < 10 { month_from_march + 3 } else { month_from_march - 9 };
    let year = 400 * era + year_of_era + i64::from(month <= 2);
    (year, month, day)
}

#[cfg(test)]
mod tests {
    use super::*;

    #[test]
    fn known_times_have_their_dates() {
        let known = [
            (0, "1970-01-01 00:00:00 UTC"),
            (-1, "1969-12-31 23:59:59 UTC"),
            (951_782_399, "2000-02-28 23:59:59 UTC"),
            (951_782_400, "2000-02-29 00:00:00 UTC"),
            (951_868_800, "2000-03-01 00:00:00 UTC"),
            (1_512_432_000, "2017-12-05 00:00:00 UTC"),
            (4_107_542_400, "2100-03-01 00:00:00 UTC"),
            (4_107_456_000, "2100-02-28 00:00:00 UTC"),
            (253_402_300_799, "9999-12-31 23:59:59 UTC"),
            (253_402_300_800, "+10000-01-01 00:00:00 UTC"),
            (-62_167_219_200, "0000-01-01 00:00:00 UTC"),
            (-62_167_219_201, "-0001-12-31 23:59:59 UTC"),
        ];
        for (seconds, date) in known {
            assert_eq!(utc(seconds), date);
        }
    }

    #[test]
    fn extreme_times_have_dates() {
        assert_eq!(utc(i64::MAX), "+292277026596-12-04 15:30:07 UTC");
        assert_eq!(utc(i64::MIN), "-292277022657-01-27 08:29:52 UTC");
    }

    #[test]
    fn days_follow_each_other() {
        let mut last = civil(-800_000);
        for days in -799_999..800_000 {
            let next = civil(days);
            let (year, month, day) = last;
            let leap = year % 4 == 0 && (year % 100 != 0 || year % 400 == 0);
            let length = match month {
                2 => 28 + i64::from(leap),
                4 | 6 | 9 | 11 => 30,
                _ => 31,
            };
            let expected = match (month, day) {
                (12, 31) => (year + 1, 1, 1),
                _ if day == length => (year, month + 1, 1),
                _ => (year, month, day + 1),
            };
            assert_eq!(next, expected);
            last = next;
        }
    }
}
