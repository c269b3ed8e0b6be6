//! Days and times for trades, and the order in which a broker's export has the trades.
//!
//! A draft's trades are oldest first; here they get stamps that say so and are put in
//! another order. Stamps are counted from the front of the calendar and of the trading day
//! and then written as date and clock, the other way round from a reader.

use std::cmp::Reverse;
use std::collections::BTreeMap;

use super::draft::{Draft, Trade};
use super::rng::Rng;

/// A trading day, counted from 2000-01-01, and a minute of it, counted from 19:50.
#[derive(Clone, Copy, Debug, Default, PartialEq, Eq, PartialOrd, Ord)]
pub struct Stamp {
    pub day: u32,
    pub minute: u32,
}

/// From 2000-01-01 to 2099-12-31: 25 times four years, the first of each four a leap year.
const DAYS: u32 = 25 * FOUR_YEARS;
const FOUR_YEARS: u32 = 366 + 3 * 365;
const MINUTES: u32 = 24 * 60;

impl Stamp {
    /// Year, month and day as one number of eight digits.
    pub fn date(self) -> u32 {
        let mut year = 2000 + 4 * (self.day / FOUR_YEARS);
        let mut left = self.day % FOUR_YEARS;
        let mut february = 29;
        for days in [366, 365, 365] {
            if left < days {
                break;
            }
            left -= days;
            year += 1;
            february = 28;
        }
        let mut month = 1;
        for days in [31, february, 31, 30, 31, 30, 31, 31, 30, 31, 30] {
            if left < days {
                break;
            }
            left -= days;
            month += 1;
        }
        10_000 * year + 100 * month + left + 1
    }

    /// Hour and minute as one number of four digits.
    pub fn clock(self) -> u32 {
        let clock = (19 * 60 + 50 + self.minute) % MINUTES;
        100 * (clock / 60) + clock % 60
    }
}

/// Which stamps a customer's trades have.
#[derive(Clone, Copy)]
enum Spread {
    /// One for all: the order is the book's.
    One,
    /// Two or three for all.
    Few,
    /// Minutes of the night and day sessions, on one trading day or a few running.
    Sessions,
    /// The first and last minutes of a trading day, of a calendar day and of the sessions.
    EdgesOfDay,
    /// The first and last days of the century, of a year and of a month.
    EdgesOfCalendar,
    Any,
}

const SPREADS: [(u64, Spread); 6] = [
    (2, Spread::One),
    (3, Spread::Few),
    (4, Spread::Sessions),
    (5, Spread::EdgesOfDay),
    (2, Spread::EdgesOfCalendar),
    (2, Spread::Any),
];

/// How an export has the trades of a customer.
#[derive(Clone, Copy)]
enum Export {
    InTime,
    /// By day and then by the clock, so that the night stands after the day.
    ByClock,
    NewestFirst,
    Shuffled,
    /// All bought, then all sold.
    BySide,
}

const EXPORTS: [(u64, Export); 5] = [
    (3, Export::InTime),
    (4, Export::ByClock),
    (2, Export::NewestFirst),
    (5, Export::Shuffled),
    (1, Export::BySide),
];

/// Gives the trades of all customers stamps and puts them in the order of an export, mostly
/// the same for all. Trades of equal stamps keep their order, so that the newest stay the
/// newest.
pub fn arrange(rng: &mut Rng, draft: &mut Draft) {
    let of_all = rng.weighted(&EXPORTS);
    let each_its_own = rng.one_in(4);
    for group in &mut draft.groups {
        stamp(rng, &mut group.trades);
        let export = if each_its_own {
            rng.weighted(&EXPORTS)
        } else {
            of_all
        };
        exported(rng, export, &mut group.trades);
    }
}

/// Stamps for trades that are oldest first.
fn stamp(rng: &mut Rng, trades: &mut [Trade]) {
    let spread = rng.weighted(&SPREADS);
    let first = any_day(rng);
    let few = [0; 3].map(|_| Stamp {
        day: (first + rng.between(0, 1)).min(DAYS - 1),
        minute: rng.between(0, MINUTES - 1),
    });
    let kinds = rng.between(2, 3) as usize;
    let mut stamps: Vec<Stamp> = (trades.iter())
        .map(|_| match spread {
            Spread::One => few[0],
            Spread::Few => rng.pick(&few[..kinds]),
            Spread::Sessions => near(rng, first, session_minute),
            Spread::EdgesOfDay => near(rng, first, edge_minute),
            Spread::EdgesOfCalendar => Stamp {
                day: edge_day(rng),
                minute: rng.pick(&[0, 790, MINUTES - 1]),
            },
            Spread::Any => Stamp {
                day: any_day(rng),
                minute: rng.between(0, MINUTES - 1),
            },
        })
        .collect();
    stamps.sort();
    for (trade, stamp) in trades.iter_mut().zip(stamps) {
        trade.stamp = stamp;
    }
}

/// On a day, or rarely one of the two after it.
fn near(rng: &mut Rng, first: u32, minute: fn(&mut Rng) -> u32) -> Stamp {
    let later = rng.pick(&[0, 0, 0, 1, 2]);
    Stamp {
        day: (first + later).min(DAYS - 1),
        minute: minute(rng),
    }
}

/// Mostly of a year or two, where trades of several days meet.
fn any_day(rng: &mut Rng) -> u32 {
    if rng.one_in(3) {
        rng.between(0, DAYS - 1)
    } else {
        rng.between(9_000, 9_800)
    }
}

/// 20:00 to 2:30, 9:00 to 11:30 and 13:30 to 15:30.
fn session_minute(rng: &mut Rng) -> u32 {
    let (first, last) = rng.pick(&[(10, 400), (10, 400), (790, 940), (1_060, 1_180)]);
    rng.between(first, last)
}

/// 19:50 and what is beside it, midnight, the ends of the sessions, 19:48 and 19:49.
fn edge_minute(rng: &mut Rng) -> u32 {
    const EDGES: [u32; 16] = [
        0, 0, 1, 9, 10, 11, 249, 249, 250, 250, 251, 400, 790, 1_438, 1_439, 1_439,
    ];
    rng.pick(&EDGES)
}

/// The first and last two days of the century, of a leap year and of another, and the end
/// of February in both.
fn edge_day(rng: &mut Rng) -> u32 {
    let (leap, usual) = (9 * FOUR_YEARS, 9 * FOUR_YEARS + 366);
    let edges = [
        0,
        1,
        31 + 28,
        31 + 29,
        365,
        366,
        366 + 31 + 27,
        366 + 31 + 28,
        leap + 31 + 27,
        leap + 31 + 28,
        leap + 31 + 29,
        usual - 1,
        usual,
        usual + 31 + 28 + 31 + 29,
        usual + 31 + 28 + 31 + 30,
        DAYS - 2,
        DAYS - 1,
        DAYS - 1,
    ];
    rng.pick(&edges)
}

/// Puts trades that are oldest first in the order of an export. All orders but the shuffled
/// one are stable sorts, so equal stamps stay as they are.
fn exported(rng: &mut Rng, export: Export, trades: &mut Vec<Trade>) {
    match export {
        Export::InTime => (),
        Export::ByClock => trades.sort_by_key(|trade| (trade.stamp.day, trade.stamp.clock())),
        Export::NewestFirst => trades.sort_by_key(|trade| Reverse(trade.stamp)),
        Export::Shuffled => *trades = shuffled(rng, trades),
        Export::BySide => {
            // A purchase and a sale of one minute keep their order too.
            let mixed = trades
                .windows(2)
                .any(|two| two[0].stamp == two[1].stamp && two[0].bought != two[1].bought);
            if !mixed {
                trades.sort_by_key(|trade| !trade.bought);
            }
        }
    }
}

/// The stamps are shuffled, and each takes the next trade that has it.
fn shuffled(rng: &mut Rng, trades: &[Trade]) -> Vec<Trade> {
    let mut stamps: Vec<Stamp> = trades.iter().map(|trade| trade.stamp).collect();
    // Of equal keys the last counts, so from the back: where the first of each stamp stands.
    let places = stamps.iter().enumerate().rev();
    let mut next: BTreeMap<Stamp, usize> = places.map(|(place, &stamp)| (stamp, place)).collect();
    rng.shuffle(&mut stamps);
    let mut order = Vec::with_capacity(trades.len());
    for stamp in stamps {
        let place = next.get_mut(&stamp).expect("a stamp of a trade");
        order.push(trades[*place]);
        *place += 1;
    }
    order
}
