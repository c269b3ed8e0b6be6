//! When a trade was made. Request [2]: "Order is by day, then by minutes since 19:50 taken
//! around the clock, then by place in the book."
//!
//! The day written is the trading day already, so nothing is converted: the night session
//! from 20:00 to 2:30 has the day that it belongs to, and stands at its front.

/// A trading day and a minute of it, compared as time runs. Two trades may have equal
/// stamps: then the place in the book decides, which a stable sort leaves as it is.
#[derive(Clone, Copy, Debug, PartialEq, Eq, PartialOrd, Ord)]
pub struct Stamp {
    /// As it is written: year, month and day as one number, which grows with the days.
    day: u32,
    /// Minutes since 19:50, 0 to 1439: 19:50 is a trading day's first minute, 19:49 its last.
    minute: u32,
}

impl Stamp {
    /// The stamp of eight digits and four digits read as numbers, or `None` where they are
    /// no calendar date from 2000 to 2099 or no time from 00:00 to 23:59.
    pub fn of(day: u32, time: u32) -> Option<Stamp> {
        let (hour, minute) = (time / 100, time % 100);
        if !is_date(day / 10_000, day / 100 % 100, day % 100) || hour > 23 || minute > 59 {
            return None;
        }
        Some(Stamp {
            day,
            minute: since_opening(60 * hour + minute),
        })
    }
}

/// Minutes of the clock from 00:00 on, counted from 19:50 around it.
fn since_opening(clock: u32) -> u32 {
    const OPENING: u32 = 60 * 19 + 50;
    const WHOLE: u32 = 60 * 24;
    if clock >= OPENING {
        clock - OPENING
    } else {
        clock + WHOLE - OPENING
    }
}

/// Whether the calendar has this day, from 2000-01-01 to 2099-12-31.
fn is_date(year: u32, month: u32, day: u32) -> bool {
    (2000..=2099).contains(&year) && (1..=days_of(year, month)).contains(&day)
}

/// How many days a month has; 0 for a month that is none.
fn days_of(year: u32, month: u32) -> u32 {
    match month {
        1 | 3 | 5 | 7 | 8 | 10 | 12 => 31,
        4 | 6 | 9 | 11 => 30,
        2 if is_leap(year) => 29,
        2 => 28,
        _ => 0,
    }
}

fn is_leap(year: u32) -> bool {
    let every = |years| year.is_multiple_of(years);
    every(4) && (!every(100) || every(400))
}
