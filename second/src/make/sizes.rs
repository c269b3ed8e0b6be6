//! Books of an exact number of bytes, and customers with about a hundred trades or thousands.

use super::draft::{Draft, Group, Terms, Trade, MOST_LOTS, MOST_PRICE};
use super::rng::Rng;
use super::seats::seat;
use super::whole;

/// How many bytes a trade field may have, with a price between the bounds.
#[derive(Clone, Copy)]
struct Bytes {
    /// The bytes that all of them have: tag and length, the point if any, three blanks, day and time.
    fixed: usize,
    least_price: u32,
    most_price: u32,
    /// The fewest digits of such a price, and the most: `0.01` has three of them and `1` has one.
    fewest_digits: u32,
    most_digits: u32,
}

impl Bytes {
    fn of(terms: &Terms) -> Self {
        let (point, written) = if terms.decimals == 0 { (0, 1) } else { (1, 3) };
        let (least_price, most_price) = (terms.least_price(), terms.most_price());
        let digits = |price: u32| written.max(price.ilog10() + 1);
        Bytes {
            fixed: 3 + point + 3 + 8 + 4,
            least_price,
            most_price,
            fewest_digits: digits(least_price),
            most_digits: digits(most_price),
        }
    }

    /// A price as short as can be, and 1 lot.
    fn shortest(self) -> usize {
        self.fixed + self.fewest_digits as usize + 1
    }

    /// A price as long as can be, and 1000000 lots.
    fn longest(self) -> usize {
        self.fixed + self.most_digits as usize + 7
    }

    /// A price of so many digits.
    fn price(self, rng: &mut Rng, digits: u32) -> u32 {
        let shorter = if digits == self.fewest_digits {
            0
        } else {
            10_u32.pow(digits - 1)
        };
        let longest = 10_u32.pow(digits) - 1;
        rng.between(self.least_price.max(shorter), self.most_price.min(longest))
    }
}

/// A book of 59,999, 60,000 or 60,001 bytes, whole but for its size.
pub fn exact(rng: &mut Rng) -> Draft {
    let count = rng.between(1, 8) as usize;
    let mut draft = whole::of_count(rng, count);
    seat(rng, &mut draft);
    let size = rng.pick(&[59_999, 60_000, 60_001]);
    let bytes = Bytes::of(&draft.terms);
    let padding = padding(rng, bytes, size - draft.bytes().len());
    // More trades never take away what a position needs, wherever they stand.
    let trades = &mut draft.groups[rng.place(count)].trades;
    let place = rng.place(trades.len() + 1);
    trades.splice(place..place, padding);
    draft
}

/// Trades that take exactly this many bytes, some tens of thousands. First their number is
/// drawn, since the longest trade is not twice as long as the shortest.
fn padding(rng: &mut Rng, bytes: Bytes, mut gap: usize) -> Vec<Trade> {
    let (shortest, longest) = (bytes.shortest(), bytes.longest());
    let count = rng.between(gap.div_ceil(longest) as u32, (gap / shortest) as u32) as usize;
    let mut trades = Vec::with_capacity(count);
    for after in (0..count).rev() {
        // What stays must be as much as the trades after this one can take.
        let least = shortest.max(gap.saturating_sub(longest * after));
        let most = longest.min(gap - shortest * after);
        let size = rng.between(least as u32, most as u32) as usize;
        trades.push(trade_of_size(rng, bytes, size));
        gap -= size;
    }
    trades
}

/// A trade whose field has this many bytes: the fixed ones, the digits of a price and 1 to 7 of
/// lots.
fn trade_of_size(rng: &mut Rng, bytes: Bytes, size: usize) -> Trade {
    let digits = (size - bytes.fixed) as u32;
    let fewest = bytes.fewest_digits.max(digits.saturating_sub(7));
    let of_price = rng.between(fewest, bytes.most_digits.min(digits - 1));
    let least_lots = 10_u32.pow(digits - of_price - 1);
    let bought = rng.one_in(2);
    let price = bytes.price(rng, of_price);
    let lots = rng.between(least_lots, (10 * least_lots - 1).min(MOST_LOTS));
    Trade::new(bought, price, lots)
}

/// What the trades of a customer with many of them are like.
#[derive(Clone, Copy)]
struct Run {
    least_price: u32,
    most_price: u32,
    least_lots: u32,
    most_lots: u32,
    least_trades: u32,
    most_trades: u32,
}

/// A whole book in which one customer has thousands of trades.
pub fn many_trades(rng: &mut Rng) -> Draft {
    let count = rng.between(1, 4) as usize;
    let mut terms = whole::terms(rng);
    // Trades of at most 29 bytes, or of just 23, in yuan 20: the longest runs stay below 60,000
    // bytes. With a million lots in each, a run sums to as many as 2,000,000,000 lots, and in
    // yuan, where such a trade may have 26 bytes, to more than 31 bits hold. Short trades have low
    // prices, and so S is low too.
    let (shortest, (least, most), most_of_them) = if terms.decimals == 0 {
        (9, (2_150, 2_200), 2_850)
    } else {
        (999, (1_000, 1_950), 2_500)
    };
    let (highest, least_lots, most_lots, least_trades, most_trades) = rng.pick(&[
        (MOST_PRICE, 1, 600, 1_000, 1_950),
        (999, 1, MOST_LOTS, 1_000, 1_950),
        (shortest, MOST_LOTS, MOST_LOTS, least, most),
        (shortest, 1, 9, 1_000, most_of_them),
    ]);
    if terms.settlement > highest {
        terms.settlement = rng.between(1, highest);
    }
    let run = Run {
        least_price: terms.least_price(),
        most_price: highest.min(2 * terms.settlement),
        least_lots,
        most_lots,
        least_trades,
        most_trades,
    };
    let mut draft = whole::with_terms(rng, terms, count);
    let deep = rng.place(count);
    let group = &mut draft.groups[deep];
    let long = rng.one_in(2);
    let all_on_side = rng.one_in(2);
    group.trades = run_of_trades(
        rng,
        run,
        |rng| if all_on_side { long } else { rng.one_in(2) },
    );
    hold_of_trades(rng, group, long);
    group.unfilled = rng.between(0, group.locked_held(&draft.terms));
    draft
}

/// A whole book in which one to three customers have 100 to 160 trades each. Mostly 127, 128
/// or 129 of them are on the net side: about as many as a program may want to keep, if it has
/// a limit.
pub fn about_a_hundred(rng: &mut Rng) -> Draft {
    let deep = rng.between(1, 3) as usize;
    let others = rng.between(0, 2) as usize;
    let mut draft = whole::of_count(rng, deep + others);
    let least_price = draft.terms.least_price();
    let most_price = (2 * draft.terms.settlement).min(MOST_PRICE);
    for group in &mut draft.groups[..deep] {
        let (least_lots, most_lots) = rng.weighted(&[
            (3, (1, 9)),
            (3, (1, 600)),
            (2, (1, 7_000)),
            (1, (1, MOST_LOTS)),
            (1, (MOST_LOTS, MOST_LOTS)),
        ]);
        let (least, most) = rng.weighted(&[(1, (60, 160)), (3, (127, 129))]);
        let on_side = rng.between(least, most);
        let all = rng.between(on_side.max(100), 160);
        let run = |trades| Run {
            least_price,
            most_price,
            least_lots,
            most_lots,
            least_trades: trades,
            most_trades: trades,
        };
        let long = rng.one_in(2);
        group.trades = run_of_trades(rng, run(on_side), |_| long);
        group
            .trades
            .extend(run_of_trades(rng, run(all - on_side), |_| !long));
        rng.shuffle(&mut group.trades);
        hold_of_trades(rng, group, long);
        group.unfilled = rng.between(0, group.locked_held(&draft.terms));
    }
    rng.shuffle(&mut draft.groups);
    draft
}

/// As many trades as the run has, each on the side that is drawn for it.
fn run_of_trades(rng: &mut Rng, run: Run, side: impl Fn(&mut Rng) -> bool) -> Vec<Trade> {
    (0..rng.between(run.least_trades, run.most_trades))
        .map(|_| {
            let bought = side(rng);
            let price = rng.between(run.least_price, run.most_price);
            Trade::new(bought, price, rng.between(run.least_lots, run.most_lots))
        })
        .collect()
}

/// A holding on this side that the group's trades reach, all of them or only some.
fn hold_of_trades(rng: &mut Rng, group: &mut Group, long: bool) {
    let side = group.trades.iter().filter(|trade| trade.bought == long);
    let traded: u64 = side.map(|trade| u64::from(trade.lots)).sum();
    let most = traded.min(u64::from(MOST_LOTS)) as u32;
    let net = if rng.one_in(4) {
        most
    } else {
        rng.between(1, most)
    };
    (group.long, group.short) = if long { (net, 0) } else { (0, net) };
}
