//! Damages to seats: a code that was given, or is none; too many seats or none; and seats where none may stand.

use std::ops::Range;

use super::damage_bytes::{any_field_of, fields};
use super::damage_draft::{any_group, malform};
use super::draft::{Draft, Group};
use super::rng::Rng;
use super::seats::codes;

/// A seat with the code of an earlier one of the same customer; where there is one seat alone it is given twice. Sometimes the
/// later one breaks 8 too, or a trade is missing: 13 is first.
pub fn code_twice(rng: &mut Rng, draft: &mut Draft) {
    let Some(group) = any_group(rng, draft) else {
        return;
    };
    if let [only] = group.seats.as_slice() {
        let again = only.clone();
        group.seats.push(again);
    }
    let count = group.seats.len();
    if count < 2 {
        return;
    }
    let later = 1 + rng.place(count - 1);
    let earlier = rng.place(later);
    group.seats[later].code = group.seats[earlier].code.clone();
    match rng.below(6) {
        0 => group.seats[later].unfilled = 1_000_000,
        1 => {
            group.trades.pop();
        }
        _ => (),
    }
}

/// A seat code that is none: 5.
pub fn code_malformed(rng: &mut Rng, draft: &mut Draft) {
    if let Some(group) = any_group(rng, draft) {
        let place = rng.place(group.seats.len().max(1));
        if let Some(seat) = group.seats.get_mut(place) {
            malform(rng, &mut seat.code);
        }
    }
}

/// Five seats, or rarely six: 3 at the fifth, also where its code was given or is none. Sometimes an earlier seat's code was
/// given: 13 is then first.
pub fn fifth_seat(rng: &mut Rng, draft: &mut Draft) {
    let Some(group) = any_group(rng, draft) else {
        return;
    };
    let wanted = if rng.one_in(6) { 6 } else { 5 };
    if !fill_up(rng, group, wanted) {
        return;
    }
    match rng.below(6) {
        0 => group.seats[4].code = group.seats[rng.place(4)].code.clone(),
        1 => malform(rng, &mut group.seats[4].code),
        2 => group.seats[3].code = group.seats[rng.place(3)].code.clone(),
        _ => (),
    }
}

/// Copies of a seat with codes of their own, up to so many seats.
fn fill_up(rng: &mut Rng, group: &mut Group, wanted: usize) -> bool {
    let Some(seat) = group.seats.first().cloned() else {
        return false;
    };
    let mut spare = codes(rng, 2 * wanted);
    spare.retain(|code| group.seats.iter().all(|seat| seat.code != *code));
    while group.seats.len() < wanted {
        let mut more = seat.clone();
        more.code = spare.pop().expect("more codes than seats");
        group.seats.push(more);
    }
    true
}

/// A customer without a seat: 3 at what follows its code.
pub fn no_seat(rng: &mut Rng, draft: &mut Draft) {
    if let Some(group) = any_group(rng, draft) {
        group.seats.clear();
    }
}

/// The `I` of a seat is missing, so that `K` stands straight after `C` or after a `Q`.
pub fn no_seat_code(rng: &mut Rng, bytes: &mut Vec<u8>) {
    if let Some(field) = any_field_of(rng, bytes, b"I") {
        bytes.drain(field);
    }
}

/// A seat behind a trade of its customer, or behind one of another: `I` may not stand there.
pub fn seat_after_a_trade(rng: &mut Rng, bytes: &mut Vec<u8>) {
    let Some(seat) = any_seat(rng, bytes) else {
        return;
    };
    let block = bytes[seat.clone()].to_vec();
    let keep = rng.one_in(2);
    if !keep {
        bytes.drain(seat);
    }
    if let Some(trade) = any_field_of(rng, bytes, b"AB") {
        bytes.splice(trade.end..trade.end, block);
    }
}

/// The four fields of a seat in another order, or one of them twice or left out.
pub fn seat_parts(rng: &mut Rng, bytes: &mut Vec<u8>) {
    let Some(seat) = any_seat(rng, bytes) else {
        return;
    };
    let block = &bytes[seat.clone()];
    let mut parts: Vec<Vec<u8>> = (fields(block).into_iter())
        .map(|field| block[field].to_vec())
        .collect();
    let one = rng.place(parts.len());
    match rng.below(3) {
        0 => {
            parts.remove(one);
        }
        1 => parts.insert(one, parts[one].clone()),
        _ => rng.shuffle(&mut parts),
    }
    bytes.splice(seat, parts.concat());
}

/// From an `I` to the end of the three fields after it.
fn any_seat(rng: &mut Rng, bytes: &[u8]) -> Option<Range<usize>> {
    let start = any_field_of(rng, bytes, b"I")?.start;
    let rest = fields(&bytes[start..]);
    Some(start..start + rest.get(3)?.end)
}
