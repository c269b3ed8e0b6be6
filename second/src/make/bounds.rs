//! Prices at five times S and at a fifth of it, and one fen or yuan beside.

use super::draft::{Draft, Group, Terms, Trade, MOST_PRICE};
use super::rng::Rng;
use super::trades::lots;
use super::whole;

impl Terms {
    /// The least price that a trade may have: a fifth of S, and where that is no whole fen or yuan the next one above.
    pub fn least_price(&self) -> u32 {
        self.settlement / 5 + u32::from(!self.settlement.is_multiple_of(5))
    }

    /// The most: five times S, as far as a price can be written.
    pub fn most_price(&self) -> u32 {
        MOST_PRICE.min(5 * self.settlement)
    }

    /// A price that is good, anywhere between the bounds.
    pub fn any_price(&self, rng: &mut Rng) -> u32 {
        rng.between(self.least_price(), self.most_price())
    }

    /// A price at one of the bounds, or one beside it that is good too.
    pub fn bound_price(&self, rng: &mut Rng) -> u32 {
        let (least, most) = (self.least_price(), self.most_price());
        rng.pick(&[least, least, least + 1, most, most, most - 1])
            .clamp(least, most)
    }

    /// A price just beyond a bound, mostly; far beyond it; or S with its point moved. `None` where no such price can be written.
    pub fn far_price(&self, rng: &mut Rng) -> Option<u32> {
        let (least, most) = (self.least_price(), self.most_price());
        let by = rng.pick(&[10, 100]);
        let beside = [least - 1, most + 1].repeat(4);
        let farther = [self.settlement * by, self.settlement / by, 1, MOST_PRICE];
        let far: Vec<u32> = (beside.into_iter().chain(farther))
            .filter(|price| (1..=MOST_PRICE).contains(price) && !(least..=most).contains(price))
            .collect();
        (!far.is_empty()).then(|| rng.pick(&far))
    }
}

/// Which trades of a book are brought to a bound.
#[derive(Clone, Copy)]
enum Whose {
    /// On the net side, counted or not.
    Net,
    Other,
    /// Of a customer without a net position.
    NoNet,
}

/// A small whole book in which some trades are at a bound, or one fen or yuan inside it. In half of the books one of them is
/// beyond it: refused with 12.
pub fn draft(rng: &mut Rng) -> Draft {
    let mut terms = whole::terms(rng);
    terms.settlement = settlement(rng, terms.settlement);
    let count = rng.between(1, 5) as usize;
    let mut draft = whole::with_terms(rng, terms, count);
    for group in &mut draft.groups {
        if rng.one_in(2) {
            at_bounds(rng, &draft.terms, group);
        }
    }
    if rng.one_in(2) {
        let at = rng.place(count);
        let whose = rng.pick(&[Whose::Net, Whose::Other, Whose::NoNet]);
        beyond(rng, &draft.terms, &mut draft.groups[at], whose);
    }
    draft
}

/// S with every remainder by five: near the one given, as small as can be, and where five times S is as much as can be written.
fn settlement(rng: &mut Rng, given: u32) -> u32 {
    let near = (given / 5 * 5 + rng.pick(&[0, 0, 0, 1, 2, 3, 4])).clamp(1, MOST_PRICE);
    let largest = MOST_PRICE / 5;
    let small = rng.between(1, 12);
    rng.weighted(&[
        (6, near),
        (2, small),
        (1, largest - small / 3),
        (1, largest + small / 3),
    ])
}

/// Some of a group's trades at the bounds. Their lots stay, so that the position is still reached.
fn at_bounds(rng: &mut Rng, terms: &Terms, group: &mut Group) {
    for trade in &mut group.trades {
        if rng.one_in(2) {
            trade.price = terms.bound_price(rng);
        }
    }
}

/// A trade with a price beyond a bound, among those that the group has: more trades never take away what a position needs.
fn beyond(rng: &mut Rng, terms: &Terms, group: &mut Group, whose: Whose) {
    let Some(price) = terms.far_price(rng) else {
        return;
    };
    if let Whose::NoNet = whose {
        (group.long, group.short) = (group.long.max(group.short), group.long.max(group.short));
    }
    let net_long = group.long > group.short;
    let bought = match whose {
        Whose::Net => net_long,
        Whose::Other => !net_long,
        Whose::NoNet => rng.one_in(2),
    };
    let place = rng.place(group.trades.len() + 1);
    let lots = lots(rng);
    group.trades.insert(place, Trade::new(bought, price, lots));
}
