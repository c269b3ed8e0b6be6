//! Request [12]: what each day of a list in the longer form is on the ladder of locks.

use super::lines::{decimal, interest, price, read, Refusal, NO_FORM, ZERO};

const OTHER_LETTER: u64 = 32;

/// Article 18's raise, in thousandths of a percent, both ends allowed.
const RAISE: std::ops::RangeInclusive<i128> = 3_000..=6_000;

/// What a day is.
#[derive(Clone, Copy, Debug, PartialEq, Eq)]
pub enum Step {
    /// Not locked.
    None,
    /// The first lock of a run that is no reverse, and what Article 18's raise came to.
    First(Raise),
    /// A lock in the direction of the day before, with the days running.
    Same(u64),
    /// A lock against the direction of the day before.
    Reverse,
}

/// What the check of the raise after a first lock came to.
#[derive(Clone, Copy, Debug, PartialEq, Eq)]
pub enum Raise {
    Holds,
    Fails,
    NoDay,
    NoLimit,
    NoNextLimit,
}

/// A day: its direction where it is locked, and its limit where it is known.
#[derive(Clone, Copy, Debug, PartialEq, Eq)]
struct Day {
    locked: Option<u8>,
    limit: Option<i128>,
}

/// A step for each day.
pub fn ladder(list: &[u8]) -> Result<Vec<Step>, Refusal> {
    let (_, days) = read(list, day)?;
    let mut steps = Vec::with_capacity(days.len());
    for stretch in days.chunk_by(|day, next| day.locked.is_some() == next.locked.is_some()) {
        if stretch[0].locked.is_none() {
            steps.extend(vec![Step::None; stretch.len()]);
            continue;
        }
        let first = Step::First(raise(&days[steps.len()..]));
        for (at, run) in stretch
            .chunk_by(|day, next| day.locked == next.locked)
            .enumerate()
        {
            steps.push(if at == 0 { first } else { Step::Reverse });
            steps.extend((2..=run.len() as u64).map(Step::Same));
        }
    }
    Ok(steps)
}

/// Of the days from a first lock on.
fn raise(days: &[Day]) -> Raise {
    match *days {
        [_] | [] => Raise::NoDay,
        [Day { limit: None, .. }, ..] => Raise::NoLimit,
        [_, Day { limit: None, .. }, ..] => Raise::NoNextLimit,
        [Day {
            limit: Some(limit), ..
        }, Day {
            limit: Some(next), ..
        }, ..] => {
            if RAISE.contains(&(next - limit)) {
                Raise::Holds
            } else {
                Raise::Fails
            }
        }
    }
}

/// Price and open interest, a mark and a limit: 33 of any of them, then 31, then 32.
fn day(words: &[&[u8]]) -> Result<Day, u64> {
    let &[first, second, mark, rate] = words else {
        return Err(NO_FORM);
    };
    let (Some(price), Some(interest), &[mark]) = (price(first), interest(second), mark) else {
        return Err(NO_FORM);
    };
    if mark != b'-' && !mark.is_ascii_alphabetic() {
        return Err(NO_FORM);
    }
    let limit = match rate {
        b"-" => None,
        _ => Some(
            decimal(rate, 2, 3)
                .filter(|&rate| rate > 0)
                .ok_or(NO_FORM)?,
        ),
    };
    let locked = match mark {
        _ if price == 0 || interest == 0 => return Err(ZERO),
        b'-' => None,
        b'U' | b'D' => Some(mark),
        _ => return Err(OTHER_LETTER),
    };
    Ok(Day { locked, limit })
}

/// What the program prints.
pub fn ladder_listing(list: &[u8]) -> String {
    let steps = match ladder(list) {
        Ok(steps) => steps,
        Err((number, place)) => return format!("refused {number} at {place}\n"),
    };
    let mut text = format!("days {}\n", steps.len());
    for (day, step) in (1..).zip(steps) {
        text += &match step {
            Step::None => format!("{day} none\n"),
            Step::First(raise) => format!("{day} first {}\n", word(raise)),
            Step::Same(running) => format!("{day} same {running}\n"),
            Step::Reverse => format!("{day} reverse\n"),
        };
    }
    text
}

fn word(raise: Raise) -> &'static str {
    match raise {
        Raise::Holds => "holds",
        Raise::Fails => "fails",
        Raise::NoDay => "no-day",
        Raise::NoLimit => "no-limit",
        Raise::NoNextLimit => "no-next-limit",
    }
}
