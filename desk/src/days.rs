//! A day's number, 0 to 65,535, and its date: day 0 is 1 January 1970, so that the
//! last is 6 June 2149.

use std::fmt;

/// The largest day that can be entered.
pub const LARGEST: u32 = 65_535;

/// A day as it was said: by number or by date.
#[derive(Clone, Copy, Debug, PartialEq, Eq)]
pub struct Day {
    pub number: u32,
    dated: bool,
}

impl Day {
    /// A number, or a date as year-month-day: `20560` or `2026-04-17`.
    pub fn read(word: &str) -> Option<Day> {
        if let Ok(number) = word.parse() {
            let dated = false;
            return Some(Day { number, dated });
        }
        let mut parts = word.split('-').map(|part| {
            let digits = !part.is_empty() && part.bytes().all(|byte| byte.is_ascii_digit());
            digits.then(|| part.parse::<u32>().ok()).flatten()
        });
        let (year, month, day) = (parts.next()??, parts.next()??, parts.next()??);
        if parts.next().is_some() || !(1970..=2149).contains(&year) {
            return None;
        }
        let number = number(year, month, day)?;
        let dated = true;
        (number <= LARGEST).then_some(Day { number, dated })
    }
}

impl fmt::Display for Day {
    /// A date with its number, a number by itself.
    fn fmt(&self, to: &mut fmt::Formatter<'_>) -> fmt::Result {
        match date(self.number) {
            Some(date) if self.dated => write!(to, "{date} (day {})", self.number),
            _ => write!(to, "day {}", self.number),
        }
    }
}

/// A day that nobody said: its number, with the date that it would be.
pub fn told(number: u32) -> String {
    match date(number) {
        Some(date) => format!("day {number} ({date})"),
        None => format!("day {number}"),
    }
}

/// The date of a day, year-month-day.
pub fn date(number: u32) -> Option<String> {
    if number > LARGEST {
        return None;
    }
    let (mut year, mut left) = (1970, number);
    while left >= days_of(year) {
        left -= days_of(year);
        year += 1;
    }
    let mut month = 1;
    while left >= days_in(year, month) {
        left -= days_in(year, month);
        month += 1;
    }
    Some(format!("{year}-{month:02}-{:02}", left + 1))
}

fn number(year: u32, month: u32, day: u32) -> Option<u32> {
    let there = (1..=12).contains(&month) && (1..=days_in(year, month)).contains(&day);
    there.then(|| {
        let years: u32 = (1970..year).map(days_of).sum();
        let months: u32 = (1..month).map(|month| days_in(year, month)).sum();
        years + months + day - 1
    })
}

fn leap(year: u32) -> bool {
    year.is_multiple_of(4) && (!year.is_multiple_of(100) || year.is_multiple_of(400))
}

fn days_of(year: u32) -> u32 {
    365 + u32::from(leap(year))
}

fn days_in(year: u32, month: u32) -> u32 {
    match month {
        2 => 28 + u32::from(leap(year)),
        4 | 6 | 9 | 11 => 30,
        _ => 31,
    }
}

#[cfg(test)]
mod tests {
    use super::*;

    fn of(word: &str) -> Option<u32> {
        Day::read(word).map(|day| day.number)
    }

    #[test]
    fn days_that_are_known() {
        assert_eq!(of("1970-01-01"), Some(0));
        assert_eq!(of("2000-02-29"), Some(11_016));
        assert_eq!(of("2000-03-01"), Some(11_017));
        assert_eq!(of("2026-04-17"), Some(20_560));
        assert_eq!(of("2149-06-06"), Some(65_535));
        assert_eq!(of("70000"), Some(70_000));
    }

    #[test]
    fn every_day_has_its_date_and_back() {
        for number in 0..=LARGEST {
            assert_eq!(of(&date(number).expect("a date")), Some(number));
        }
    }

    #[test]
    fn words_that_are_no_day() {
        for word in [
            "",
            "-",
            "-1",
            "2026-04",
            "2026-04-31",
            "2026-02-29",
            "2100-02-29",
            "2026-00-10",
            "2026-13-01",
            "2026-01-00",
            "1969-12-31",
            "2149-06-07",
            "2026-04-17-",
            "2026-+4-17",
            "today",
            "4294967296",
            "17.4.2026",
        ] {
            assert_eq!(of(word), None, "{word}");
        }
    }

    #[test]
    fn said_as_it_was_asked() {
        let said = |word| Day::read(word).expect("a day").to_string();
        assert_eq!(said("2026-04-17"), "2026-04-17 (day 20560)");
        assert_eq!(said("20560"), "day 20560");
        assert_eq!(told(20_560), "day 20560 (2026-04-17)");
        assert_eq!(told(65_536), "day 65536");
    }
}
