//! A trade's value taken apart: price, lots, day and time, between single blanks.

use std::ops::Range;

use crate::fields::{fields, value};

/// What the newest trade is found by: the day; then whether the minute is of the part of the day after midnight and before
/// 19:50, which comes after the evening; then the clock. Trades with equal stamps are ordered by their place.
pub type Stamp<'a> = (&'a [u8], bool, &'a [u8]);

/// The four words of a value of the right shape. Their own form is not looked at.
pub fn words(value: &[u8]) -> Option<[&[u8]; 4]> {
    let words: Vec<&[u8]> = value.split(|&byte| byte == b' ').collect();
    words.try_into().ok()
}

/// The stamp of a trade, if the value has one.
pub fn stamp(value: &[u8]) -> Option<Stamp<'_>> {
    let [_, _, day, time] = words(value)?;
    Some((day, time < b"1950".as_slice(), time))
}

/// A group cut in two: the bytes before its first trade, and the trades' fields.
pub fn cut(group: &[u8]) -> (Range<usize>, Vec<Range<usize>>) {
    let all = fields(group);
    let first = all
        .iter()
        .position(|field| is_trade(group[field.start]))
        .unwrap_or(all.len());
    let head = all[..first].last().map_or(0, |last| last.end);
    (0..head, all[first..].to_vec())
}

pub fn is_trade(tag: u8) -> bool {
    matches!(tag, b'B' | b'A')
}

/// The stamps of a group's trades in the order of the book. The group is an accepted book's.
pub fn stamps(group: &[u8]) -> Vec<Stamp<'_>> {
    let trades = cut(group).1;
    trades
        .iter()
        .map(|field| stamp(&group[value(field)]).expect("an accepted trade has a stamp"))
        .collect()
}
