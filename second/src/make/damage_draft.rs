//! Damages to a book's numbers: the book is well written, but a rule is broken.

use super::draft::{Draft, Group, MOST_LOTS};
use super::rng::Rng;
use super::seats::seat;
use super::whole;

/// U equal to V, or below it.
pub fn edges_out_of_order(rng: &mut Rng, draft: &mut Draft) {
    let terms = &mut draft.terms;
    if rng.one_in(2) {
        terms.tier1_edge = terms.tier2_edge;
    } else {
        std::mem::swap(&mut terms.tier1_edge, &mut terms.tier2_edge);
    }
}

/// A later customer with an earlier one's code.
pub fn code_twice(rng: &mut Rng, draft: &mut Draft) {
    let count = draft.groups.len();
    if count >= 2 {
        let later = 1 + rng.place(count - 1);
        let earlier = rng.place(later);
        draft.groups[later].code = draft.groups[earlier].code.clone();
    }
}

/// A code that isn't one.
pub fn code_malformed(rng: &mut Rng, draft: &mut Draft) {
    if let Some(group) = any_group(rng, draft) {
        malform(rng, &mut group.code);
    }
}

/// Q of one seat just above its K or H, sometimes beyond the range of lots too (5 comes first). The other seats may hold more
/// than enough: the sum is not asked.
pub fn pending_over_held(rng: &mut Rng, draft: &mut Draft) {
    let down = draft.terms.down;
    if let Some(group) = any_group(rng, draft) {
        let place = rng.place(group.seats.len().max(1));
        if let Some(seat) = group.seats.get_mut(place) {
            seat.unfilled = if down { seat.long } else { seat.short } + rng.between(1, 3);
        }
    }
}

/// Too few trades on the net side.
pub fn trades_short(rng: &mut Rng, draft: &mut Draft) {
    if let Some(group) = any_group(rng, draft) {
        take_trades(rng, group);
    }
}

/// Too few trades, and the `C` that closes the group breaks 5 or 7 itself: 9 is first.
pub fn closing_broken(rng: &mut Rng, draft: &mut Draft) {
    let count = draft.groups.len();
    if count < 2 {
        return trades_short(rng, draft);
    }
    let closing = 1 + rng.place(count - 1);
    take_trades(rng, &mut draft.groups[closing - 1]);
    if rng.one_in(2) {
        malform(rng, &mut draft.groups[closing].code);
    } else {
        let known = rng.place(closing);
        draft.groups[closing].code = draft.groups[known].code.clone();
    }
}

/// 257 customers, the last with a good, a known or a malformed code; sometimes the
/// one before has too few trades.
pub fn one_too_many(rng: &mut Rng, draft: &mut Draft) {
    *draft = whole::of_count(rng, 257);
    seat(rng, draft);
    match rng.below(4) {
        0 => draft.groups[256].code = draft.groups[rng.place(256)].code.clone(),
        1 => malform(rng, &mut draft.groups[256].code),
        2 => take_trades(rng, &mut draft.groups[255]),
        _ => (),
    }
}

/// A price beyond five times S or a fifth of it, on any side and counted or not: 12. Sometimes with lots that are none in the
/// same trade (5 is first), with too few trades (9 is later) or with a code that is none in the next customer (5 is later).
pub fn price_beyond(rng: &mut Rng, draft: &mut Draft) {
    let with_trades: Vec<usize> = (0..draft.groups.len())
        .filter(|&at| !draft.groups[at].trades.is_empty())
        .collect();
    let Some(price) = draft.terms.far_price(rng) else {
        return;
    };
    if with_trades.is_empty() {
        return;
    }
    let at = rng.pick(&with_trades);
    let way = rng.below(8);
    if way == 0 {
        take_trades(rng, &mut draft.groups[at]);
    }
    let trades = &mut draft.groups[at].trades;
    if !trades.is_empty() {
        let place = rng.place(trades.len());
        trades[place].price = price;
        if way == 1 {
            trades[place].lots = rng.pick(&[0, MOST_LOTS + 1]);
        }
    }
    if let (2, Some(next)) = (way, draft.groups.get_mut(at + 1)) {
        malform(rng, &mut next.code);
    }
}

pub fn any_group<'a>(rng: &mut Rng, draft: &'a mut Draft) -> Option<&'a mut Group> {
    if draft.groups.is_empty() {
        return None;
    }
    let place = rng.place(draft.groups.len());
    draft.groups.get_mut(place)
}

/// Leaves one lot too few on the net side, or none, or drops any one trade.
fn take_trades(rng: &mut Rng, group: &mut Group) {
    let long = group.long > group.short;
    match rng.below(4) {
        0 => group.trades.retain(|trade| trade.bought != long),
        1 if !group.trades.is_empty() => {
            group.trades.remove(rng.place(group.trades.len()));
        }
        _ => leave_lots(group, long, group.net().saturating_sub(1)),
    }
}

/// Cuts the trades on one side to this many lots, from the newest.
fn leave_lots(group: &mut Group, bought: bool, lots: u32) {
    let mut left = lots;
    for trade in group.trades.iter_mut().rev() {
        if trade.bought == bought {
            trade.lots = trade.lots.min(left);
            left -= trade.lots;
        }
    }
    group.trades.retain(|trade| trade.lots > 0);
}

/// Empty, too long, or with a byte that no code has.
pub fn malform(rng: &mut Rng, code: &mut Vec<u8>) {
    match rng.below(4) {
        0 => code.clear(),
        1 => code.resize(13, b'A'),
        _ => {
            let place = rng.place(code.len().max(1));
            code.resize(code.len().max(1), b'A');
            code[place] = rng.pick(b"az ,./:@[`{-\0\x7f\xff");
        }
    }
}
