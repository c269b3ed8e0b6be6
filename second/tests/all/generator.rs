//! Does the generator reach what it is for, and does it stay the same?

use std::collections::BTreeMap;

use crate::common::naive;
use second::make::{self, Family, Made};
use second::{allot, listing};

const SEED: u64 = 1;
const BOOKS: u64 = 40_000;
const ROOM: usize = 40_000;

/// How often something was seen.
#[derive(Default)]
struct Counts {
    seen: BTreeMap<String, u64>,
}

impl Counts {
    fn add(&mut self, what: String) {
        *self.seen.entry(what).or_default() += 1;
    }

    /// Insists on at least so many of each and prints what was seen.
    fn at_least(&self, floor: u64, names: &[String]) {
        for name in names {
            let seen = self.seen.get(name).copied().unwrap_or(0);
            println!("{name}: {seen}");
            assert!(seen >= floor, "{name}: {seen} seen, {floor} wanted");
        }
    }
}

fn name(family: Family) -> &'static str {
    match family {
        Family::Whole => "whole",
        Family::Edge => "edge",
        Family::Damaged => "damaged",
    }
}

/// What there is to count, counted over all books.
fn counted(count: impl Fn(&mut Counts, &str, &Made)) -> Counts {
    let mut counts = Counts::default();
    for index in 0..BOOKS {
        let made = make::book(SEED, index);
        count(&mut counts, name(made.family), &made);
    }
    counts
}

fn names<T: std::fmt::Display>(prefix: &str, what: &[T]) -> Vec<String> {
    what.iter().map(|one| format!("{prefix} {one}")).collect()
}

#[test]
fn every_refusal_number_is_reached() {
    let counts = counted(|counts, family, made| {
        let number = allot(&made.bytes, ROOM).number;
        counts.add(format!("{family} number {number}"));
        counts.add(format!("{family} books"));
        counts.add(format!("{} gave {number}", made.kind));
    });
    let whole = counts.seen["whole books"];
    assert_eq!(
        counts.seen["whole number 0"], whole,
        "whole books are accepted"
    );
    assert!(whole > BOOKS / 4);
    counts.at_least(
        500,
        &names("damaged number", &[0, 2, 3, 4, 5, 6, 7, 8, 9, 12, 13]),
    );
    counts.at_least(50, &names("damaged number", &[1, 10]));
    counts.at_least(20, &names("edge number", &[1, 10, 12]));
    // Of two rules broken by one field, or by neighbours, the first was given.
    counts.at_least(300, &names("trades short, closing broken gave", &[9]));
    counts.at_least(10, &names("one customer too many gave", &[9, 10]));
    counts.at_least(10, &names("value in Z gave", &[5, 9]));
    counts.at_least(10, &names("comma in value gave", &[4, 5]));
    counts.at_least(20, &names("pending over held gave", &[5, 8]));
    // A stamp that was replaced is bad, or good and another.
    counts.at_least(100, &names("day replaced gave", &[0, 5]));
    counts.at_least(100, &names("time replaced gave", &[0, 5]));
    counts.at_least(10, &names("stamp misspelt gave", &[4, 5]));
    counts.at_least(10, &names("blanks of a trade gave", &[4, 5]));
    counts.at_least(200, &names("parts of a trade gave", &[5]));
    // A term X or a price that was replaced is bad, or good and another.
    counts.at_least(10, &names("X replaced gave", &[0, 5]));
    counts.at_least(200, &names("X elsewhere gave", &[3]));
    counts.at_least(10, &names("other decimals gave", &[4, 5]));
    counts.at_least(10, &names("price replaced gave", &[0, 4, 5]));
    // Seats: a code that was given or is none, and an I where none may stand. Of two rules broken the first was given.
    counts.at_least(200, &names("seat code twice gave", &[13]));
    counts.at_least(200, &names("seat code malformed gave", &[5]));
    counts.at_least(20, &names("fifth seat gave", &[3, 13]));
    for kind in ["no seat", "no seat code", "seat after a trade"] {
        counts.at_least(60, &names(&format!("{kind} gave"), &[3]));
    }
    counts.at_least(20, &names("parts of a seat gave", &[3]));
    // A price that is far from S comes before 9 and after 5.
    counts.at_least(50, &names("price beyond gave", &[5, 12]));
    counts.at_least(10, &names("point moved gave", &[0, 5, 12]));
    counts.at_least(50, &names("price about a bound gave", &[0, 12]));
    let numbers = counts
        .seen
        .keys()
        .filter(|key| key.starts_with("edge number"));
    assert_eq!(numbers.count(), 4, "edge books give 0, 1, 10 and 12 only");
}

#[test]
fn every_standing_is_reached_in_both_lock_directions() {
    let counts = counted(|counts, family, made| {
        let answer = allot(&made.bytes, ROOM);
        if answer.number == 0 {
            let lock = char::from(made.bytes[3]);
            let report = crate::common::report(&answer.report);
            for line in &report.lines {
                let offset = if line.offset > 0 { "some" } else { "none" };
                counts.add(format!("{family} {lock} {} {offset}", line.standing));
            }
            let left = report.residue > 0 && report.total > 0;
            counts.add(format!("{family} {lock} residue {left}"));
        }
    });
    for family in ["whole", "edge", "damaged"] {
        for lock in ["D", "U"] {
            let prefix = format!("{family} {lock}");
            let standings = [
                "P some", "P none", "1 some", "2 some", "3 some", "3 none", "N none",
            ];
            counts.at_least(100, &names(&prefix, &standings));
            counts.at_least(20, &names(&prefix, &["residue true", "residue false"]));
        }
    }
}

/// The value of X of a book that is accepted.
fn decimals(book: &[u8]) -> char {
    char::from(book[7])
}

#[test]
fn every_standing_is_reached_with_both_kinds_of_prices() {
    let counts = counted(|counts, family, made| {
        let answer = allot(&made.bytes, ROOM);
        if answer.number == 0 {
            let x = decimals(&made.bytes);
            counts.add(format!("{family} X {x}"));
            for line in &crate::common::report(&answer.report).lines {
                let offset = if line.offset > 0 { "some" } else { "none" };
                counts.add(format!("{family} X {x} {} {offset}", line.standing));
            }
        }
    });
    for family in ["whole", "edge", "damaged"] {
        counts.at_least(400, &names(family, &["X 0", "X 2"]));
        for x in ["0", "2"] {
            let prefix = format!("{family} X {x}");
            let standings = ["P some", "P none", "1 some", "2 some", "3 some", "N none"];
            counts.at_least(100, &names(&prefix, &standings));
        }
    }
}

/// Silver as sheets have it: whole yuan per kilogram with the edges of Article 24. And both ends of each kind of price,
/// in S and in trades.
#[test]
fn prices_of_real_size_and_at_the_ends_of_their_ranges_are_reached() {
    let ends = ["1", "9999999", "0.01", "99999.99"];
    let counts = counted(|counts, _, made| {
        if allot(&made.bytes, ROOM).number != 0 {
            return;
        }
        let fields = crate::common::fields(&made.bytes);
        let text = |at: usize| std::str::from_utf8(fields[at].1).unwrap();
        let (s, edges) = (text(2), [text(3), text(4), text(5)]);
        let real = s.parse().is_ok_and(|s: u32| (3_000..=12_000).contains(&s));
        if real && edges == ["10.000", "10.000", "5.000"] {
            counts.add("silver in yuan".to_string());
        }
        for (tag, value) in &fields {
            let value = std::str::from_utf8(value).unwrap();
            let price = value.split(' ').next().unwrap();
            if b"SAB".contains(tag) && ends.contains(&price) {
                let name = if *tag == b'S' { "S" } else { "trade" };
                counts.add(format!("{name} {price}"));
            }
        }
    });
    counts.at_least(3_000, &["silver in yuan".to_string()]);
    counts.at_least(50, &names("S", &ends));
    counts.at_least(500, &names("trade", &ends));
}

/// What there is to see of one customer's seats, of an accepted book that was worked out.
fn seen_of_seats(group: &[(u8, &[u8])], person: &naive::Person) -> Vec<String> {
    let head = crate::common::cut(group).0;
    let figures: Vec<[u64; 3]> = (head[1..].chunks(4))
        .map(|seat| [b'K', b'H', b'Q'].map(|tag| crate::common::sum(seat, tag)))
        .collect();
    let [long, short, unfilled] = [b'K', b'H', b'Q'].map(|tag| crate::common::sum(head, tag));
    let standing = person.standing;
    let mut seen = vec![format!("{} seats {standing}", figures.len())];
    let mut see = |what: &str, is: bool| {
        if is {
            seen.push(format!("{what} {standing}"));
        }
    };
    let any = |test: &dyn Fn(&[u64; 3]) -> bool| figures.iter().any(test);
    see(
        "a long seat beside a short one",
        any(&|[k, h, _]| k > h) && any(&|[k, h, _]| h > k),
    );
    let given = person.offset > 0 && figures.len() > 1;
    see(
        "a seat of weight 0",
        given && person.seats.iter().any(|(_, weight, _)| *weight == 0),
    );
    see(
        "part of the weights",
        given && person.offset < person.seats.iter().map(|(_, weight, _)| weight).sum(),
    );
    see("Q above the net", unfilled > long.abs_diff(short));
    see("more than a million", long.max(short) > 1_000_000);
    let own = head[1..].chunks(4).any(|seat| seat[0].1 == person.code);
    see("its own code", own);
    seen
}

/// One to four seats for every standing, and what can be got wrong about them.
#[test]
fn seats_of_every_kind_are_reached() {
    let counts = counted(|counts, _, made| {
        if allot(&made.bytes, ROOM).number != 0 || made.bytes.len() > 5_000 {
            return;
        }
        let worked = naive::work(&made.bytes);
        for _ in 0..worked.seats_settled_by_code {
            counts.add("settled by the seat code".to_string());
        }
        let mut codes = Vec::new();
        let groups = crate::common::parts(&made.bytes).1;
        for (group, person) in groups.iter().zip(&worked.people) {
            for seen in seen_of_seats(&crate::common::fields(group), person) {
                counts.add(seen);
            }
            codes.extend(person.seats.iter().map(|(code, _, _)| code));
        }
        let all = codes.len();
        codes.sort();
        codes.dedup();
        if codes.len() < all {
            counts.add("the same seat code in two customers".to_string());
        }
    });
    for standing in ["P", "1", "2", "3", "N"] {
        let kinds = [1, 2, 3, 4].map(|count| format!("{count} seats {standing}"));
        counts.at_least(500, &kinds);
        let kinds = [
            "a long seat beside a short one",
            "Q above the net",
            "more than a million",
            "its own code",
        ];
        counts.at_least(50, &kinds.map(|kind| format!("{kind} {standing}")));
        if standing != "N" {
            let kinds = ["a seat of weight 0", "part of the weights"];
            counts.at_least(200, &kinds.map(|kind| format!("{kind} {standing}")));
        }
    }
    counts.at_least(
        1_000,
        &[
            "settled by the seat code".to_string(),
            "the same seat code in two customers".to_string(),
        ],
    );
}

/// Where refusals of seats stand: 8 at a seat though not on the sum, 3 at a fifth `I` and at one after a trade, at a `K` straight
/// after `C`.
#[test]
fn seats_are_damaged_in_every_way() {
    let counts = counted(|counts, _, made| {
        let answer = allot(&made.bytes, ROOM);
        let Some(&tag) = made.bytes.get(answer.place as usize) else {
            return;
        };
        let front = crate::common::fields_of_front(&made.bytes[..answer.place as usize]);
        let before = front.last().map_or(' ', |(tag, _)| char::from(*tag));
        let group = front.iter().rposition(|(tag, _)| *tag == b'C');
        let group = group.map_or(&[][..], |at| &front[at..]);
        let seats = group.iter().filter(|(tag, _)| *tag == b'I').count();
        match (answer.number, tag) {
            (3, b'I') => counts.add(format!("3 at I after {before}, {seats} seats")),
            (3, b'K') => counts.add(format!("3 at K after {before}")),
            (5 | 13, b'I') => counts.add(format!("{} at I, {seats} seats", answer.number)),
            (8, _) => {
                let locked = if made.bytes[3] == b'D' { b'K' } else { b'H' };
                let [held, unfilled] = [locked, b'Q'].map(|tag| crate::common::sum(group, tag));
                let here =
                    &crate::common::fields_of_front(&made.bytes[answer.place as usize..])[..1];
                let enough = unfilled + crate::common::sum(here, b'Q') <= held;
                counts.add(format!("8 after {seats} seats, enough in all {enough}"));
            }
            _ => (),
        }
    });
    counts.at_least(20, &["3 at I after Q, 4 seats".to_string()]);
    counts.at_least(20, &names("3 at I after", &["A, 1 seats", "B, 1 seats"]));
    counts.at_least(20, &names("3 at K after", &["C", "Q"]));
    let seats = ["0 seats", "1 seats", "2 seats", "3 seats"];
    counts.at_least(20, &names("5 at I,", &seats));
    counts.at_least(20, &names("13 at I,", &seats[1..]));
    counts.at_least(20, &names("8 after", &["1 seats, enough in all false"]));
    let enough = ["2 seats", "3 seats", "4 seats"]
        .map(|seats| format!("8 after {seats}, enough in all true"));
    counts.at_least(10, &enough);
}

/// Which field the refusals stand at: decimals that are wrong in S and in trades with either X, X itself wrong, X where
/// another term is due, and the other way round.
#[test]
fn decimals_are_damaged_in_every_field() {
    let counts = counted(|counts, _, made| {
        let answer = allot(&made.bytes, ROOM);
        let Some(&tag) = made.bytes.get(answer.place as usize) else {
            return;
        };
        let (number, tag) = (answer.number, char::from(tag));
        if matches!(made.kind, "X replaced" | "X elsewhere") {
            counts.add(format!("{} gave {number} at {tag}", made.kind));
        }
        if matches!(made.kind, "other decimals" | "price replaced") && number > 0 {
            let x = made.bytes.get(7).map_or(' ', |&x| char::from(x));
            counts.add(format!("{} X {x} gave {number} at {tag}", made.kind));
        }
    });
    counts.at_least(20, &names("X replaced gave 5 at", &["X", "S"]));
    counts.at_least(20, &names("X elsewhere gave 3 at", &["X", "S"]));
    for kind in ["other decimals", "price replaced"] {
        for x in ["0", "2"] {
            let prefix = format!("{kind} X {x} gave 5 at");
            counts.at_least(20, &names(&prefix, &["S", "A", "B"]));
        }
    }
}

/// Where a price stands by five times S and by a fifth of it: at the bound, or one fen or yuan inside or outside.
fn by_the_bounds(price: u64, s: u64) -> Option<&'static str> {
    let whole = s.is_multiple_of(5);
    let least = s / 5 + u64::from(!whole);
    match price {
        _ if price == 5 * s => Some("five times"),
        _ if price + 1 == 5 * s => Some("below five times"),
        _ if price == 5 * s + 1 => Some("above five times"),
        _ if price == least && whole => Some("a fifth"),
        _ if price == least => Some("above a broken fifth"),
        _ if price + 1 == least && whole => Some("below a fifth"),
        _ if price + 1 == least => Some("below a broken fifth"),
        _ => None,
    }
}

/// Both bounds of a trade's price are met from either side, in fen and in yuan, whose side the trade is on.
#[test]
fn both_sides_of_every_bound_of_a_price_are_reached() {
    let counts = counted(|counts, _, made| {
        let answer = allot(&made.bytes, ROOM);
        if !matches!(answer.number, 0 | 12) {
            return;
        }
        let x = decimals(&made.bytes);
        let number = |text: &str| text.replace('.', "").parse::<u64>().unwrap();
        let text = |value| std::str::from_utf8(value).unwrap();
        let (mut s, mut held, mut at) = (0, [0, 0], 0);
        for (tag, value) in crate::common::fields_of_front(&made.bytes) {
            match tag {
                b'S' => s = number(text(value)),
                b'C' => held = [0, 0],
                b'K' => held[0] += number(text(value)),
                b'H' => held[1] += number(text(value)),
                b'B' | b'A' => {
                    let price = number(text(value).split(' ').next().unwrap());
                    let side = match held[0].cmp(&held[1]) {
                        std::cmp::Ordering::Equal => "no net",
                        order if order.is_gt() == (tag == b'B') => "net side",
                        _ => "other side",
                    };
                    if let Some(bound) = by_the_bounds(price, s) {
                        counts.add(format!("X {x} {side} {bound}"));
                    }
                }
                _ => (),
            }
            if answer.number == 12 && at == answer.place {
                break;
            }
            at += 3 + value.len() as u64;
        }
    });
    let bounds = [
        "five times",
        "below five times",
        "above five times",
        "a fifth",
        "below a fifth",
        "above a broken fifth",
        "below a broken fifth",
    ];
    for x in ["0", "2"] {
        for side in ["net side", "other side", "no net"] {
            counts.at_least(5, &names(&format!("X {x} {side}"), &bounds));
        }
    }
}

/// At an edge, or beside it by no more than one fen or yuan of the total.
fn nearness(distance: i128) -> Option<&'static str> {
    match distance {
        0 => Some("at"),
        1..=100_000 => Some("above"),
        -100_000..=-1 => Some("below"),
        _ => None,
    }
}

#[test]
fn both_sides_of_every_edge_are_reached() {
    let counts = counted(|counts, family, made| {
        if family == "edge" && allot(&made.bytes, ROOM).number == 0 {
            let worked = naive::work(&made.bytes);
            for (edge, distance) in worked.people.iter().flat_map(|one| &one.distances) {
                if let Some(near) = nearness(*distance) {
                    let x = decimals(&made.bytes);
                    counts.add(format!("X {x} {near} {edge}"));
                }
            }
            for _ in 0..worked.settled_by_code {
                counts.add(format!("{} settled by code", made.kind));
            }
        }
    });
    for x in ["X 0", "X 2"] {
        for near in ["at", "above", "below"] {
            counts.at_least(200, &names(&format!("{x} {near}"), &["L", "U", "V", "0"]));
        }
    }
    counts.at_least(500, &["ties settled by code".to_string()]);
}

/// The lots of all `B` fields, or of all `A` fields.
fn lots_traded(fields: &[(u8, &[u8])], side: u8) -> u64 {
    let of_side = fields.iter().filter(|(tag, _)| *tag == side);
    let lots = of_side.map(|(_, value)| {
        let text = std::str::from_utf8(value).unwrap();
        text.split(' ').nth(1).unwrap().parse::<u64>().unwrap()
    });
    lots.sum()
}

#[test]
fn sizes_and_counts_at_their_edges_are_reached() {
    let counts = counted(|counts, family, made| {
        if family != "edge" {
            return;
        }
        let fields = crate::common::fields(&made.bytes);
        let tagged = |tags: &str| {
            let of_tags = fields
                .iter()
                .filter(|(tag, _)| tags.contains(char::from(*tag)));
            of_tags.count()
        };
        counts.add(format!("bytes {}", made.bytes.len()));
        counts.add(format!("{} of {}", made.kind, tagged("C")));
        counts.add(format!("{} with {} 000", made.kind, tagged("AB") / 1_000));
        let listing = String::from_utf8(listing(&made.bytes)).unwrap();
        let traded = lots_traded(&fields, b'A').max(lots_traded(&fields, b'B'));
        if traded > 1_000_000_000 {
            counts.add("traded past 1,000,000,000".to_string());
        }
        if traded > i32::MAX as u64 {
            counts.add("traded past 31 bits".to_string());
        }
        let report = allot(&made.bytes, ROOM).length;
        counts.add(format!("reports of {} 000", report / 1_000));
        for line in listing.lines().take(2) {
            counts.add(format!("{} in {}", line.len(), &line[..5]));
        }
    });
    counts.at_least(10, &names("customer count of", &[0, 255, 256, 257]));
    counts.at_least(10, &names("bytes", &[59_999, 60_000, 60_001]));
    counts.at_least(10, &names("many trades with", &["1 000", "2 000"]));
    counts.at_least(5, &["traded past 1,000,000,000".to_string()]);
    counts.at_least(1, &["traded past 31 bits".to_string()]);
    // The room that the header names is 33,050 bytes.
    counts.at_least(5, &names("reports of", &["31 000"]));
    // Lines as long as nine digits after `total ` and ten after `left ` make them.
    counts.at_least(5, &["15 in total".to_string(), "15 in left ".to_string()]);
}

/// The stamps of each customer's trades, `20250115 2031`, in the order of the book.
fn stamps(book: &[u8]) -> Vec<Vec<String>> {
    let mut all = Vec::new();
    for group in crate::common::parts(book).1 {
        let fields = crate::common::fields(&group);
        let trades = crate::common::cut(&fields).1.iter().map(|(_, value)| {
            let text = std::str::from_utf8(value).unwrap();
            text.split_once(' ')
                .unwrap()
                .1
                .split_once(' ')
                .unwrap()
                .1
                .to_string()
        });
        all.push(trades.collect());
    }
    all
}

/// A stamp whose text is in the order of time: the hours since 19:50 begin a day.
fn in_time(stamp: &str) -> String {
    let (day, time) = stamp.split_once(' ').unwrap();
    let part = if time >= "1950" { "evening" } else { "later" };
    format!("{day} {part} {time}")
}

#[test]
fn trades_stand_in_every_order() {
    let counts = counted(|counts, family, made| {
        if family == "damaged" {
            return;
        }
        for written in stamps(&made.bytes).iter().filter(|stamps| stamps.len() > 2) {
            let times: Vec<String> = written.iter().map(|stamp| in_time(stamp)).collect();
            let mut different = times.clone();
            different.sort();
            different.dedup();
            let equal = different.len() < times.len();
            let order = if different.len() == 1 {
                "one stamp"
            } else if times.is_sorted() {
                "in time"
            } else if written.is_sorted() {
                "by clock"
            } else if times.is_sorted_by(|one, next| one >= next) {
                "newest first"
            } else {
                "in no order"
            };
            counts.add(format!("{order}, equal stamps {equal}"));
        }
    });
    counts.at_least(1_000, &["one stamp, equal stamps true".to_string()]);
    for order in ["in time", "by clock", "newest first", "in no order"] {
        counts.at_least(
            1_000,
            &names(&format!("{order}, equal stamps"), &[false, true]),
        );
    }
}

/// How a customer's trades on its net side stand, for one that has a net position: `128 out of
/// order, not all count`.
fn on_net_side(group: &[u8]) -> Option<String> {
    let fields = crate::common::fields(group);
    let text = |value| std::str::from_utf8(value).unwrap();
    let (head, trades) = crate::common::cut(&fields);
    let [long, short] = [b'K', b'H'].map(|tag| crate::common::sum(head, tag));
    if long == short {
        return None;
    }
    let side = if long > short { b'B' } else { b'A' };
    let (mut times, mut opened) = (Vec::new(), 0);
    for (_, value) in trades.iter().filter(|(tag, _)| *tag == side) {
        let words: Vec<&str> = text(value).splitn(3, ' ').collect();
        opened += words[1].parse::<u64>().unwrap();
        times.push(in_time(words[2]));
    }
    let order = if times.is_sorted() { "in" } else { "out of" };
    let part = if opened > long.abs_diff(short) {
        "not all"
    } else {
        "all"
    };
    Some(format!("{} {order} order, {part} count", times.len()))
}

#[test]
fn about_128_trades_on_the_net_side_are_reached() {
    let counts = counted(|counts, family, made| {
        if family == "damaged" {
            return;
        }
        let groups = crate::common::parts(&made.bytes).1;
        for seen in groups.iter().filter_map(|group| on_net_side(group)) {
            counts.add(seen);
        }
    });
    for trades in [127, 128, 129] {
        let prefix = trades.to_string();
        counts.at_least(30, &names(&prefix, &["out of order, not all count"]));
        counts.at_least(5, &names(&prefix, &["out of order, all count"]));
        counts.at_least(5, &names(&prefix, &["in order, not all count"]));
    }
}

/// Customers with trades at both of two stamps, on one day or on two running.
#[test]
fn both_sides_of_the_edges_of_a_trading_day_are_reached() {
    let pairs = [
        ("1950", "1949"),
        ("1950", "1951"),
        ("2359", "0000"),
        ("0230", "0900"),
        ("2000", "1949"),
    ];
    let days = ["20000101", "20000229", "20010228", "20360229", "20991231"];
    let counts = counted(|counts, family, made| {
        if family == "damaged" {
            return;
        }
        for stamps in stamps(&made.bytes) {
            let split = stamps.iter().map(|stamp| stamp.split_once(' ').unwrap());
            let all: Vec<(&str, &str)> = split.collect();
            for (one, other) in pairs {
                let of_day =
                    |&(day, time): &(&str, &str)| time == one && all.contains(&(day, other));
                if all.iter().any(of_day) {
                    counts.add(format!("{one} and {other}"));
                }
            }
            for (day, _) in all {
                counts.add(format!("on {day}"));
            }
        }
    });
    counts.at_least(300, &pairs.map(|(one, other)| format!("{one} and {other}")));
    counts.at_least(300, &names("on", &days));
}

#[test]
fn wrong_orders_of_trades_give_other_reports() {
    let counts = counted(|counts, _, made| {
        if allot(&made.bytes, ROOM).number != 0 || made.bytes.len() > 5_000 {
            return;
        }
        let right = naive::work(&made.bytes).report;
        let wrong: [(&str, naive::Newer); 3] = [
            ("by place", naive::by_place),
            ("by clock", naive::by_clock),
            ("earlier place", naive::by_stamp_turned),
        ];
        for (name, newer) in wrong {
            if naive::work_by(newer, &made.bytes).report != right {
                counts.add(format!("shown: {name}"));
            }
        }
    });
    counts.at_least(
        1_000,
        &names("shown:", &["by place", "by clock", "earlier place"]),
    );
}

/// FNV-1a over the bytes of books.
fn checksum(seed: u64, books: u64) -> u64 {
    let bytes = (0..books).flat_map(|index| make::book(seed, index).bytes);
    bytes.fold(0xcbf2_9ce4_8422_2325, |sum, byte| {
        (sum ^ u64::from(byte)).wrapping_mul(0x0100_0000_01b3)
    })
}

#[test]
fn the_same_seed_makes_the_same_books() {
    for index in [0, 1, 999, u64::MAX] {
        assert_eq!(make::book(7, index), make::book(7, index));
    }
    assert_ne!(make::book(7, 0).bytes, make::book(7, 1).bytes);
    assert_ne!(checksum(7, 10), checksum(8, 10));
}

#[test]
fn the_first_1000_books_are_the_known_ones() {
    // A change of the generator changes this sum; change it here only on purpose, since
    // books named by seed and index elsewhere are then other books.
    assert_eq!(checksum(1, 1_000), 12_179_272_748_849_602_768);
}
