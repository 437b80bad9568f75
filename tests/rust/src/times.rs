//! Queries for the members at a time: dates, minutes, working hours, communities and plans within the
//! limits, at them, just beyond and far beyond. What is right is for the reference to say.

use crate::calls::{Date, Plan, Plans, Query, Time, Window};
use crate::sites::Rng;

/// Each pool has numbers that would be within the limits in 8 or 16 bits.
const YEARS: [u32; 15] = [
    0,
    1,
    1599,
    1600,
    1900,
    2000,
    2023,
    2024,
    9999,
    10_000,
    65_535,
    65_536 + 2024,
    1 << 31,
    u32::MAX - 1,
    u32::MAX,
];
const MONTHS: [u32; 9] = [0, 1, 2, 3, 12, 13, 256 + 2, 65_536 + 1, u32::MAX];
const DAYS: [u32; 10] = [0, 1, 28, 29, 30, 31, 32, 256 + 1, 65_536 + 1, u32::MAX];
const MINUTES: [u32; 9] = [0, 479, 480, 1019, 1020, 1439, 1440, 65_536 + 480, u32::MAX];
/// Opening and closing minutes.
const WINDOWS: [(u32, u32); 15] = [
    (480, 1020),
    (480, 480),
    (0, 1440),
    (0, 0),
    (1439, 1440),
    (1440, 1440),
    (1020, 480),
    (1440, 1439),
    (0, 1441),
    (1441, 1441),
    (65_536 + 480, 1020),
    (480, 65_536 + 1020),
    (0, u32::MAX),
    (u32::MAX, 0),
    (u32::MAX, u32::MAX),
];
/// The first ones, the last one of the longest start table, the number past it, and numbers far beyond.
const COMMUNITIES: [u64; 8] = [0, 1, 2, 3, 1 << 32, (1 << 32) + 1, 1 << 63, u64::MAX];
/// Two plans without a community that has as many members in both come first. They stand where nothing
/// can be written.
const PLANS: [Plan; 10] = [
    Plan { starts: &[0, 2, 5, 5], members: &[0, 1, 1, 2, 3] },
    Plan { starts: &[0, 1, 5, 8], members: &[0, 1, 2, 4, 5, 0, 2, 3] },
    // Nothing; no starts; one start; no members.
    Plan { starts: &[], members: &[] },
    Plan { starts: &[], members: &[0, 1] },
    Plan { starts: &[0], members: &[0, 1] },
    Plan { starts: &[0, 0, 0], members: &[] },
    // Starts that fall, that go beyond the members by one, that go far beyond.
    Plan { starts: &[1, 0, 2, 1], members: &[0, 1] },
    Plan { starts: &[0, 2, 3], members: &[0, 1] },
    Plan { starts: &[0, 1 << 31, u32::MAX], members: &[0, 1] },
    Plan { starts: &[u32::MAX, u32::MAX, 0, 1], members: &[0, 1] },
];

/// Group 0 of two plans at a minute of the working hours: two members in the first, one in the second.
pub fn in_working_hours(date: Date) -> Query<'static> {
    Query {
        time: Time { date, minute: 480 },
        window: Window { opening: 480, closing: 1020 },
        community: 0,
        plans: Plans { workday: PLANS[0], restday: PLANS[1] },
    }
}

/// Every time and window of the pools, each with some community and plans; and every community and both
/// plans of the pools, each at a time of every kind.
pub fn hostile(rng: &mut Rng) -> Vec<Query<'static>> {
    let mut queries = Vec::new();
    for (time, window) in pooled() {
        let plans = Plans { workday: rng.pick(&PLANS), restday: rng.pick(&PLANS) };
        queries.push(Query { time, window, community: rng.pick(&COMMUNITIES), plans });
    }
    for query in of_every_kind() {
        for workday in PLANS {
            for restday in PLANS {
                let plans = Plans { workday, restday };
                queries.extend(COMMUNITIES.map(|community| Query { community, plans, ..query }));
            }
        }
    }
    queries
}

/// Every time and window of the pools.
fn pooled() -> Vec<(Time, Window)> {
    let mut dates = Vec::new();
    for year in YEARS {
        for month in MONTHS {
            dates.extend(DAYS.map(|day| Date { year, month, day }));
        }
    }
    let mut pooled = Vec::new();
    for date in dates {
        for minute in MINUTES {
            let time = Time { date, minute };
            pooled.extend(WINDOWS.map(|(opening, closing)| (time, Window { opening, closing })));
        }
    }
    pooled
}

/// In working hours and not, on a Thursday and a Saturday; refused for the date, for the minute, for both.
fn of_every_kind() -> Vec<Query<'static>> {
    let mut queries = Vec::new();
    for (year, month, day) in [(2024, 2, 29), (2000, 1, 1), (1900, 2, 29)] {
        let query = in_working_hours(Date { year, month, day });
        let at = |minute| Query { time: Time { minute, ..query.time }, ..query };
        queries.extend([480, 1020, 1440].map(at));
    }
    queries
}

/// Mostly within the limits, the minute often at an end of the window or just before it.
pub fn any(rng: &mut Rng) -> (Time, Window) {
    let mut number = |low, high| rng.count(low, high) as u32;
    let mut date = Date { year: number(1600, 9999), month: number(1, 12), day: number(1, 31) };
    let closing = number(0, 1440);
    let mut window = Window { opening: number(0, closing as usize), closing };
    let ends = [window.opening, closing, number(0, 1439)];
    let mut minute = rng.pick(&ends).saturating_sub(rng.below(2) as u32);
    match rng.below(24) {
        0 => date.year = rng.pick(&YEARS),
        1 => date.month = rng.pick(&MONTHS),
        2 => date.day = rng.pick(&DAYS),
        3 => minute = rng.pick(&MINUTES),
        4 | 5 => {
            let (opening, closing) = rng.pick(&WINDOWS);
            window = Window { opening, closing };
        }
        _ => {}
    }
    (Time { date, minute }, window)
}

#[cfg(test)]
mod tests {
    use super::*;
    use crate::calendar::every_triple;
    use crate::calls::{Refusal, Scheduled};
    use crate::reference;

    /// The call once more, with a day number by the day counts from March on, and each step of it open to
    /// a mistake.
    #[derive(Clone, Copy)]
    struct Reading {
        first_year: u32,
        last_year: u32,
        is_leap: fn(u32) -> bool,
        day_counts: [u32; 12],
        workdays: u32,
        last_minute: u32,
        last_closing: u32,
        /// Working hours may have no minutes.
        may_be_none: bool,
        is_open: fn(u32, Window) -> bool,
        /// The questions in their order.
        questions: [u64; 3],
        /// 14 is asked of both plans.
        asks_both: bool,
        /// Each plan is taken for the other.
        swaps: bool,
    }

    const RIGHT: Reading = Reading {
        first_year: 1600,
        last_year: 9999,
        is_leap: |year| year % 4 == 0 && (year % 100 != 0 || year % 400 == 0),
        day_counts: [0, 31, 61, 92, 122, 153, 184, 214, 245, 275, 306, 337],
        workdays: 5,
        last_minute: 1439,
        last_closing: 1440,
        may_be_none: true,
        is_open: |m, w| w.opening <= m && m < w.closing,
        questions: [18, 19, 14],
        asks_both: false,
        swaps: false,
    };

    /// What goes wrong, by its name, in a reading.
    type Mistake = (&'static str, fn(&mut Reading));

    /// Those that dates alone show come first.
    const MISTAKES: [Mistake; 16] = [
        ("Saturday is a workday", |r| r.workdays = 6),
        ("Friday is no workday", |r| r.workdays = 4),
        ("1900 is a leap year", |r| r.is_leap = |year| year % 4 == 0),
        ("2000 is no leap year", |r| r.is_leap = |year| year % 4 == 0 && year % 100 != 0),
        ("305 is written for 306", |r| r.day_counts[10] = 305),
        ("1599 is allowed", |r| r.first_year = 1599),
        ("10000 is allowed", |r| r.last_year = 10_000),
        ("the plans are swapped", |r| r.swaps = true),
        ("opening is exclusive", |r| r.is_open = |m, w| w.opening < m && m < w.closing),
        ("closing is inclusive", |r| r.is_open = |m, w| w.opening <= m && m <= w.closing),
        ("opening may not be closing", |r| r.may_be_none = false),
        ("minute 1440 is allowed", |r| r.last_minute = 1440),
        ("closing 1441 is allowed", |r| r.last_closing = 1441),
        ("19 is asked before 18", |r| r.questions = [19, 18, 14]),
        ("14 is asked before 19", |r| r.questions = [18, 14, 19]),
        ("14 is asked of both plans", |r| r.asks_both = true),
    ];
    const SHOWN_BY_DATES: usize = 9;

    impl Reading {
        fn exists(&self, Date { year, month, day }: Date) -> bool {
            let february = if (self.is_leap)(year) { 29 } else { 28 };
            let lengths = [31, february, 31, 30, 31, 30, 31, 31, 30, 31, 30, 31];
            (self.first_year..=self.last_year).contains(&year)
                && (1..=12).contains(&month)
                && (1..=lengths[month as usize - 1]).contains(&day)
        }

        fn fits(&self, minute: u32, Window { opening, closing }: Window) -> bool {
            minute <= self.last_minute
                && closing <= self.last_closing
                && (opening < closing || opening == closing && self.may_be_none)
        }

        fn is_working(&self, time: Time, window: Window) -> bool {
            let Date { year, month, day } = time.date;
            let year = if month < 3 { year - 1 } else { year };
            let count = self.day_counts[(month as usize + 9) % 12];
            let day_number = 365 * year + year / 4 - year / 100 + year / 400 + count + day;
            (day_number + 1) % 7 < self.workdays && (self.is_open)(time.minute, window)
        }

        fn answer(&self, query: Query) -> Result<Scheduled, Refusal> {
            let Query { time, window, community, plans } = query;
            let looked = |Plan { starts, members }: Plan| {
                reference::members(starts, members, community).map(|part| part.len() as u64)
            };
            let chosen_and_other = || {
                if self.is_working(time, window) != self.swaps {
                    (plans.workday, plans.restday)
                } else {
                    (plans.restday, plans.workday)
                }
            };
            for number in self.questions {
                let yes = match number {
                    18 => self.exists(time.date),
                    19 => self.fits(time.minute, window),
                    _ => {
                        let (chosen, other) = chosen_and_other();
                        looked(chosen).is_ok() && (!self.asks_both || looked(other).is_ok())
                    }
                };
                if !yes {
                    return Err(Refusal { number, place: 0 });
                }
            }
            let working = self.is_working(time, window);
            let scheduled = if working { Scheduled::Workday } else { Scheduled::Restday };
            looked(chosen_and_other().0).map(scheduled)
        }
    }

    /// How many of the queries each mistake gives a wrong answer to; without one all answers are right.
    fn shown(queries: impl Iterator<Item = Query<'static>>) -> [usize; MISTAKES.len()] {
        let mistaken = MISTAKES.map(|(_, mistake)| {
            let mut reading = RIGHT;
            mistake(&mut reading);
            reading
        });
        let mut shown = [0; MISTAKES.len()];
        for query in queries {
            let right = reference::members_at(query);
            assert_eq!(RIGHT.answer(query), right, "{query:?}");
            for (count, reading) in shown.iter_mut().zip(mistaken) {
                *count += usize::from(reading.answer(query) != right);
            }
        }
        shown
    }

    /// Of the times drawn for a site's plans, one in fifty at least is of each kind.
    #[test]
    fn times_are_of_every_kind() {
        const TIMES: usize = 4000;
        let mut rng = Rng::new(0);
        let mut seen = [0; 8];
        for _ in 0..TIMES {
            let (time, window) = any(&mut rng);
            let answer =
                reference::members_at(Query { time, window, ..in_working_hours(time.date) });
            let Window { opening, closing } = window;
            let refused = |number| answer == Err(Refusal { number, place: 0 });
            let works = matches!(answer, Ok(Scheduled::Workday(_)));
            let rests = matches!(answer, Ok(Scheduled::Restday(_)));
            let kinds = [
                works && time.minute == opening,
                works && time.minute + 1 == closing,
                works && opening < time.minute && time.minute + 1 < closing,
                // Just before opening, at closing, in the window on a day of rest.
                rests && time.minute + 1 == opening,
                rests && time.minute == closing,
                rests && (opening..closing).contains(&time.minute),
                refused(18),
                refused(19),
            ];
            seen.iter_mut().zip(kinds).for_each(|(count, is)| *count += usize::from(is));
        }
        assert!(seen.iter().all(|&count| 50 * count >= TIMES), "{seen:?}");
    }

    /// Each mistake shows on twenty at least of the hostile queries that the differential test has, and
    /// each that dates alone show on as many of its dates.
    #[test]
    fn queries_tell_mistakes() {
        let hostile = shown(hostile(&mut Rng::new(0)).into_iter());
        let dated = shown(every_triple().map(|(date, _)| in_working_hours(date)));
        for (i, (mistake, _)) in MISTAKES.into_iter().enumerate() {
            assert!(hostile[i] >= 20, "{mistake}: {}", hostile[i]);
            assert!(dated[i] >= 20 || i >= SHOWN_BY_DATES, "{mistake}: {} dates", dated[i]);
        }
    }
}
