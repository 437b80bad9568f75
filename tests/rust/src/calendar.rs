//! The Gregorian calendar from 1600 to 9999, in two ways: a date by itself, with Zeller's congruence
//! for its weekday, and every date counted from the first one on. A weekday is a number, 0 for Monday.

use std::iter::successors;

use crate::calls::Date;

pub const FIRST_YEAR: u32 = 1600;
pub const LAST_YEAR: u32 = 9999;
pub const SATURDAY: u32 = 5;

// ---------------------------------------------------------------- a date by itself

/// Whether there is such a date.
pub fn exists(Date { year, month, day }: Date) -> bool {
    let length = match month {
        2 if is_leap(year) => 29,
        2 => 28,
        4 | 6 | 9 | 11 => 30,
        1..=12 => 31,
        _ => 0,
    };
    (FIRST_YEAR..=LAST_YEAR).contains(&year) && 1 <= day && day <= length
}

fn is_leap(year: u32) -> bool {
    if year.is_multiple_of(100) {
        year.is_multiple_of(400)
    } else {
        year.is_multiple_of(4)
    }
}

/// The weekday of a date that exists. January and February are the months 13 and 14 of the year before,
/// and the congruence has 0 for Saturday.
pub fn weekday(Date { year, month, day }: Date) -> u32 {
    let (year, month) = if month < 3 { (year - 1, month + 12) } else { (year, month) };
    let (century, rest) = (year / 100, year % 100);
    let zeller = day + 13 * (month + 1) / 5 + rest + rest / 4 + century / 4 + 5 * century;
    (zeller + SATURDAY) % 7
}

// ---------------------------------------------------------------- every date

/// Every date and its weekday, one after the other from 1 January 1600, a Saturday.
pub fn every_date() -> impl Iterator<Item = (Date, u32)> {
    let first = Date { year: FIRST_YEAR, month: 1, day: 1 };
    let dates = successors(Some(first), |&date| Some(next_date(date)));
    let dates = dates.take_while(|date| date.year <= LAST_YEAR);
    dates.zip((0..7).cycle().skip(SATURDAY as usize))
}

fn next_date(date: Date) -> Date {
    // Leap years are those that one of the three divides, or all of them.
    let divisors = [4, 100, 400].into_iter().filter(|&divisor| date.year.is_multiple_of(divisor));
    let february = if divisors.count() % 2 == 1 { 29 } else { 28 };
    let lengths = [31, february, 31, 30, 31, 30, 31, 31, 30, 31, 30, 31];
    if date.day < lengths[date.month as usize - 1] {
        Date { day: date.day + 1, ..date }
    } else if date.month < 12 {
        Date { month: date.month + 1, day: 1, ..date }
    } else {
        Date { year: date.year + 1, month: 1, day: 1 }
    }
}

/// Every date of the years 1599 to 10000 with months from 0 to 13 and days from 0 to 32, those that do
/// not exist among them, with the weekday of those that do: the counted ones.
pub fn every_triple() -> impl Iterator<Item = (Date, Option<u32>)> {
    let years = FIRST_YEAR - 1..=LAST_YEAR + 1;
    let months = years.flat_map(|year| (0..=13).map(move |month| (year, month)));
    let triples =
        months.flat_map(|(year, month)| (0..=32).map(move |day| Date { year, month, day }));
    let mut counted = every_date().peekable();
    triples.map(move |date| {
        let weekday = counted.next_if(|&(next, _)| next == date).map(|(_, weekday)| weekday);
        (date, weekday)
    })
}

#[cfg(test)]
mod tests {
    use super::*;

    fn date(year: u32, month: u32, day: u32) -> Date {
        Date { year, month, day }
    }

    #[test]
    fn the_papers_dates() {
        assert_eq!(weekday(date(2024, 2, 29)), 3);
        assert_eq!(weekday(date(2000, 1, 1)), SATURDAY);
        assert!(!exists(date(1900, 2, 29)));
        let known = [date(2024, 2, 29), date(2000, 1, 1), date(1600, 2, 29), date(9999, 12, 31)];
        assert!(known.into_iter().all(exists));
        let counted: Vec<_> = every_date().filter(|(date, _)| known.contains(date)).collect();
        let days = [(1600, 2, 29, 1), (2000, 1, 1, 5), (2024, 2, 29, 3), (9999, 12, 31, 4)];
        assert_eq!(counted, days.map(|(y, m, d, weekday)| (date(y, m, d), weekday)));
    }

    #[test]
    fn a_date_by_itself_is_as_it_is_counted() {
        let mut counted = 0;
        for (date, by_counting) in every_triple() {
            assert_eq!(exists(date).then(|| weekday(date)), by_counting, "{date:?}");
            counted += usize::from(by_counting.is_some());
        }
        // 21 times 400 years of 97 leap days each.
        assert_eq!(counted, 21 * (400 * 365 + 97));
        assert_eq!(every_date().count(), counted);
    }

    #[test]
    fn numbers_far_beyond_are_no_dates() {
        for far in [10_001, 65_536 + 2024, 1 << 31, u32::MAX] {
            assert!(!exists(date(far, 2, 1)) && !exists(date(2024, far, 1)));
            assert!(!exists(date(2024, 2, far)));
        }
    }
}
