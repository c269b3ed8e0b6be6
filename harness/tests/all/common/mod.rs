//! What several test files need: where the product is, a right program, and books to be wrong about.

use std::path::{Path, PathBuf};

use harness::compare::answer_of;
use harness::fields::{fields, groups, value};
use harness::product::Answer;
use harness::rearrange::Arrangement;
use harness::statement::{held, read, Seat};
use harness::trades::words;
use second::columns::Runs;

/// The project's folder.
pub fn top() -> PathBuf {
    Path::new(env!("CARGO_MANIFEST_DIR")).join("..")
}

/// What the product is asked through where it is not linked in.
pub fn emulated() -> Option<PathBuf> {
    let file = top().join("target/emulated/run");
    assert!(
        cfg!(linked) || file.exists(),
        "run `harness/emulated/make` first"
    );
    (!cfg!(linked)).then_some(file)
}

/// The second program in the form of a program that is tried.
pub fn right(book: &[u8], report: &mut [u8]) -> Answer {
    answer_of(second::allot_into(book, report))
}

/// The second program's columns in the form of a viewer that is tried.
pub fn right_view(book: &[u8], standings: &mut [u8], lots: [&mut [u64]; 3]) -> Answer {
    let [offered, pending, offsets] = lots;
    let runs = Runs {
        standings,
        offered,
        pending,
        offsets,
    };
    answer_of(second::columns_into(book, runs))
}

/// What the second program writes of an accepted book.
pub fn report(book: &[u8]) -> Option<Vec<u8>> {
    let answer = second::allot(book, harness::compare::LARGE);
    (answer.number == 0).then_some(answer.report)
}

/// Answers an accepted book with another report, by the rule of number 11; any other book as is right.
pub fn answered_with(
    book: &[u8],
    report: &mut [u8],
    other: impl FnOnce(Vec<u8>) -> Vec<u8>,
) -> Answer {
    let Some(own) = self::report(book) else {
        return right(book, report);
    };
    let other = other(own);
    let length = other.len();
    match report.get_mut(..length) {
        Some(room) => {
            room.copy_from_slice(&other);
            Answer {
                number: 0,
                place: 0,
                length: length as u64,
            }
        }
        None => Answer {
            number: 11,
            place: length as u64,
            length: 0,
        },
    }
}

/// Every field with this tag gets the value that `change` makes of it and of its turn among them.
pub fn with_values(
    bytes: &[u8],
    tag: u8,
    mut change: impl FnMut(usize, &[u8]) -> Vec<u8>,
) -> Vec<u8> {
    let mut changed = Vec::new();
    let mut nth = 0;
    for field in fields(bytes) {
        if bytes[field.start] != tag {
            changed.extend_from_slice(&bytes[field]);
            continue;
        }
        let other = change(nth, &bytes[value(&field)]);
        nth += 1;
        changed.push(tag);
        changed.extend((other.len() as u16).to_be_bytes());
        changed.extend(other);
    }
    changed
}

/// The values of all fields with this tag.
pub fn values(bytes: &[u8], tag: u8) -> Vec<Vec<u8>> {
    let of_tag = fields(bytes)
        .into_iter()
        .filter(|field| bytes[field.start] == tag);
    of_tag.map(|field| bytes[value(&field)].to_vec()).collect()
}

/// A wrong program: equal remainders are settled by the order in the book. Codes that rise in that order make the
/// right program do it.
pub fn ties_by_row_order(book: &[u8], report: &mut [u8]) -> Answer {
    let codes = values(book, b'C');
    let renamed = with_values(book, b'C', |nth, _| format!("{nth:03}").into_bytes());
    // Longer codes can make a book too long.
    let (Some(_), Some(other)) = (self::report(book), self::report(&renamed)) else {
        return right(book, report);
    };
    let named = with_values(&other, b'C', |nth, _| codes[nth].clone());
    answered_with(book, report, |_| named)
}

/// An accepted book with the stamp of every trade replaced, by day and minute of the clock.
fn with_stamps(book: &[u8], other: impl Fn(&str, u32) -> String) -> Vec<u8> {
    let replaced = |_: usize, value: &[u8]| {
        let [price, lots, day, time] = words(value).expect("an accepted trade");
        let text = |word: &[u8]| String::from_utf8_lossy(word).into_owned();
        let number: u32 = text(time).parse().expect("a time");
        let stamp = other(&text(day), 60 * (number / 100) + number % 100);
        [price, lots, stamp.as_bytes()].join(&b' ')
    };
    with_values(&with_values(book, b'B', replaced), b'A', replaced)
}

/// Judges an accepted book as if it were another; a refused one as is right.
fn judged_as(book: &[u8], report: &mut [u8], other: impl FnOnce(&[u8]) -> Vec<u8>) -> Answer {
    match self::report(book) {
        Some(_) => right(&other(book), report),
        None => right(book, report),
    }
}

/// A wrong program: the newest trade is the last in the book. One stamp for all makes the right program do it.
pub fn trades_by_place(book: &[u8], report: &mut [u8]) -> Answer {
    judged_as(book, report, |book| {
        with_stamps(book, |_, _| "20250115 1000".to_string())
    })
}

/// A wrong program: the day is left out, and the minute alone decides.
pub fn trades_by_minute(book: &[u8], report: &mut [u8]) -> Answer {
    judged_as(book, report, |book| {
        with_stamps(book, |_, clock| stamped("20250115", clock))
    })
}

/// A wrong program: the night of a trading day comes after its day, since 0:00 is the first minute.
pub fn trades_by_clock(book: &[u8], report: &mut [u8]) -> Answer {
    judged_as(book, report, |book| with_first_minute(book, 0))
}

/// A wrong program: a trading day begins at 20:00.
pub fn trades_from_20_00(book: &[u8], report: &mut [u8]) -> Answer {
    judged_as(book, report, |book| with_first_minute(book, 20 * 60))
}

/// A wrong program: of equal stamps the earlier place is the newer. With all trades the other way round in the book
/// the right program does it.
pub fn ties_by_the_earlier_place(book: &[u8], report: &mut [u8]) -> Answer {
    judged_as(book, report, |book| {
        let all: Vec<usize> = (0..groups(book).len()).collect();
        let mut turned = Arrangement::of_customers(book, &all);
        turned.trades.iter_mut().for_each(|order| order.reverse());
        turned.of(book)
    })
}

/// The book whose right order is the order that this one would have, were this the first minute of a trading day.
fn with_first_minute(book: &[u8], first: u32) -> Vec<u8> {
    let right_first = 19 * 60 + 50;
    with_stamps(book, |day, clock| {
        stamped(day, (clock + 1_440 - first + right_first) % 1_440)
    })
}

/// A book as far as it has fields, with S and the price of every trade replaced; bytes that are no field stay at the end. Its own X
/// is handed on.
fn with_prices(book: &[u8], other: impl Fn(&str, &str) -> String) -> Vec<u8> {
    let Some(x) = values(book, b'X').into_iter().next() else {
        return book.to_vec();
    };
    let x = String::from_utf8_lossy(&x).into_owned();
    let replaced = |_: usize, value: &[u8]| match std::str::from_utf8(value) {
        Ok(text) => {
            let (price, rest) = text.split_at(text.find(' ').unwrap_or(text.len()));
            (other(&x, price) + rest).into_bytes()
        }
        Err(_) => value.to_vec(),
    };
    let end = fields(book).last().map_or(0, |last| last.end);
    let mut changed = book[..end].to_vec();
    for tag in *b"SBA" {
        changed = with_values(&changed, tag, replaced);
    }
    [&changed, &book[end..]].concat()
}

/// A wrong program: the decimals of a price are not held to X. A price of the other kind is as many fen, or yuan, as it has digits for.
pub fn decimals_not_compared(book: &[u8], report: &mut [u8]) -> Answer {
    let other = with_prices(book, |x, price| {
        let all_digits = |text: &str| !text.is_empty() && text.bytes().all(|b| b.is_ascii_digit());
        match (x, price.split_once('.')) {
            ("0", Some((yuan, fen))) if all_digits(yuan) && all_digits(fen) && fen.len() == 2 => {
                format!("{yuan}{fen}")
            }
            ("2", None) if all_digits(price) && price.len() > 2 => {
                let (yuan, fen) = price.split_at(price.len() - 2);
                format!("{yuan}.{fen}")
            }
            _ => price.to_string(),
        }
    });
    right(&other, report)
}

/// A wrong program: `1` is taken for a good X, as if it were `2`.
pub fn x_of_1_taken(book: &[u8], report: &mut [u8]) -> Answer {
    let other = with_values(book, b'X', |_, value| match value {
        b"1" => b"2".to_vec(),
        _ => value.to_vec(),
    });
    let end = fields(book).last().map_or(0, |last| last.end);
    right(&[&other, &book[end..]].concat(), report)
}

/// A wrong program: with X 0 a price may begin with zeros.
pub fn leading_zeros_taken(book: &[u8], report: &mut [u8]) -> Answer {
    let other = with_prices(book, |x, price| match x {
        "0" => price.trim_start_matches('0').to_string(),
        _ => price.to_string(),
    });
    right(&other, report)
}

/// A wrong program: S is in fen whatever X says, so that in a book with X 0 it is a hundredth of what it is.
pub fn s_always_in_fen(book: &[u8], report: &mut [u8]) -> Answer {
    judged_as(book, report, |book| {
        let whole = values(book, b'X') == [b"0"];
        with_values(book, b'S', |_, value| match value.len() {
            3.. if whole => value[..value.len() - 2].to_vec(),
            _ => value.to_vec(),
        })
    })
}

/// A wrong program: X is wanted after S. With the two in each other's place the right program does it.
pub fn x_after_s(book: &[u8], report: &mut [u8]) -> Answer {
    let fields = fields(book);
    let turned = match fields.as_slice() {
        [first, one, other, ..] => [
            &book[first.clone()],
            &book[other.clone()],
            &book[one.clone()],
            &book[other.end..],
        ]
        .concat(),
        _ => book.to_vec(),
    };
    right(&turned, report)
}

/// A figure without its point.
fn number(value: &[u8]) -> Option<u64> {
    let text = std::str::from_utf8(value).ok()?;
    text.replace('.', "").parse().ok()
}

/// The places of trades with the price of each, and S.
fn prices(book: &[u8]) -> Option<(u64, Vec<(usize, u64)>)> {
    let s = number(values(book, b'S').first()?)?;
    let trades = fields(book)
        .into_iter()
        .filter(|field| b"BA".contains(&book[field.start]));
    let priced = trades.filter_map(|field| {
        let price = book[value(&field)].split(|&byte| byte == b' ').next()?;
        Some((field.start, number(price)?))
    });
    Some((s, priced.collect()))
}

/// The price of the trade that is refused at this place, and S.
fn price_at(book: &[u8], place: u64) -> Option<(u64, u64)> {
    let (s, trades) = prices(book)?;
    let at = trades.iter().find(|(start, _)| *start as u64 == place)?;
    Some((s, at.1))
}

/// A wrong program: five times S itself is refused, and a fifth of it. Shown of books that are accepted.
pub fn bounds_refused(book: &[u8], report: &mut [u8]) -> Answer {
    let at_bound = |(s, trades): (u64, Vec<(usize, u64)>)| {
        let mut trades = trades.into_iter();
        trades.find(|(_, price)| *price == 5 * s || 5 * price == s)
    };
    match (self::report(book), prices(book).and_then(at_bound)) {
        (Some(_), Some((place, _))) => answer_of((12, place as u64, 0)),
        _ => right(book, report),
    }
}

/// Takes a price for S where the right program refuses it with 12 and `taken` says so; then the book is judged on.
fn far_prices_taken(book: &[u8], report: &mut [u8], taken: impl Fn(&[u8], u64) -> bool) -> Answer {
    let mut other = book.to_vec();
    loop {
        let answer = second::allot(&other, report.len());
        if answer.number != 12 || !taken(&other, answer.place) {
            return right(&other, report);
        }
        let s = values(&other, b'S').remove(0);
        let start = answer.place as usize + harness::fields::HEAD;
        let end = start
            + other[start..]
                .iter()
                .position(|&b| b == b' ')
                .expect("a trade");
        let length = end - start;
        // As long as it was, so that places stay: a price of as many bytes cannot always be had, and then the book is as it is.
        if s.len() > length {
            return right(&other, report);
        }
        other.splice(start..end, s.iter().copied());
        let shorter = (length - s.len()) as u16;
        let bytes = [other[start - 2], other[start - 1]];
        let value = u16::from_be_bytes(bytes) - shorter;
        other[start - 2..start].copy_from_slice(&value.to_be_bytes());
    }
}

/// A wrong program: prices up to six times S are taken.
pub fn six_times_s(book: &[u8], report: &mut [u8]) -> Answer {
    far_prices_taken(book, report, |book, place| {
        price_at(book, place).is_some_and(|(s, price)| price > 5 * s && price <= 6 * s)
    })
}

/// A wrong program: a fifth of S is rounded down to a whole fen or yuan.
pub fn a_fifth_rounded_down(book: &[u8], report: &mut [u8]) -> Answer {
    far_prices_taken(book, report, |book, place| {
        price_at(book, place).is_some_and(|(s, price)| price == s / 5)
    })
}

/// A wrong program: prices on the other side than the net position, or without one, are not judged.
pub fn net_side_judged_alone(book: &[u8], report: &mut [u8]) -> Answer {
    far_prices_taken(book, report, |book, place| {
        let at = place as usize;
        let group = groups(book).into_iter().find(|group| group.contains(&at));
        let group = &book[group.expect("a trade is a customer's")];
        let mut held = [b'K', b'H'].map(|tag| {
            let figures = values(group, tag);
            figures
                .iter()
                .filter_map(|value| number(value))
                .sum::<u64>()
        });
        if book[at] == b'A' {
            held.reverse();
        }
        held[0] <= held[1]
    })
}

/// A wrong program: 12 before 5, of a trade whose price is good by itself and far from S.
pub fn twelve_before_five(book: &[u8], report: &mut [u8]) -> Answer {
    let answer = second::allot(book, report.len());
    let is_far = |(s, price): (u64, u64)| {
        (1..=9_999_999).contains(&price) && (price > 5 * s || 5 * price < s)
    };
    let at_trade = book
        .get(answer.place as usize)
        .is_some_and(|tag| b"BA".contains(tag));
    if answer.number == 5 && at_trade && price_at(book, answer.place).is_some_and(is_far) {
        return answer_of((12, answer.place, 0));
    }
    right(book, report)
}

/// A wrong program: seats of equal remainders are settled by their order in the book. Seat codes that rise in that order make the
/// right program do it.
pub fn seat_ties_by_place(book: &[u8], report: &mut [u8]) -> Answer {
    let codes = values(book, b'I');
    let renamed = with_values(book, b'I', |nth, _| format!("{nth:04}").into_bytes());
    let (Some(_), Some(other)) = (self::report(book), self::report(&renamed)) else {
        return right(book, report);
    };
    let named = with_values(&other, b'I', |nth, _| codes[nth].clone());
    answered_with(book, report, |_| named)
}

/// Whole lots by weight, the lots left over one each from the largest remainder on, equal ones by the smaller code. What the weights
/// cannot take goes to the first.
fn shares(lots: u64, weights: &[u64], codes: &[Vec<u8>]) -> Vec<u64> {
    let sum: u64 = weights.iter().sum();
    let mut shares: Vec<u64> = weights.iter().map(|w| lots * w / sum.max(1)).collect();
    let mut order: Vec<usize> = (0..weights.len()).collect();
    let remainder = |at: usize| lots * weights[at] % sum.max(1);
    order.sort_by(|&one, &other| {
        let by_remainder = remainder(other).cmp(&remainder(one));
        by_remainder.then_with(|| codes[one].cmp(&codes[other]))
    });
    let mut left = lots.saturating_sub(shares.iter().sum());
    for at in order.into_iter().cycle() {
        if left == 0 {
            break;
        }
        shares[at] += 1;
        left -= 1;
    }
    shares
}

/// Another division over the seats of every customer that is given something: by what `weight` says of standing and seat.
fn seats_by(book: &[u8], report: &mut [u8], weight: impl Fn(u8, bool, &Seat) -> u64) -> Answer {
    let (Some(own), Ok(customers)) = (self::report(book), held(book)) else {
        return right(book, report);
    };
    let lines = read(&own).expect("a report").lines;
    let given = lines.iter().zip(&customers).flat_map(|(line, held)| {
        let weights: Vec<u64> = (held.seats.iter())
            .map(|seat| weight(line.standing, held.is_long(), seat))
            .collect();
        let codes: Vec<Vec<u8>> = held.seats.iter().map(|seat| seat.code.clone()).collect();
        // So many lots that the loop above is short.
        match line.offset {
            1..=100_000 => shares(line.offset, &weights, &codes),
            _ => line.seats.iter().map(|(_, lots)| *lots).collect(),
        }
    });
    let given: Vec<u64> = given.collect();
    let other = with_values(&own, b'J', |nth, _| given[nth].to_string().into_bytes());
    answered_with(book, report, |_| other)
}

fn on_net_side(is_long: bool, seat: &Seat) -> u64 {
    if is_long {
        seat.long
    } else {
        seat.short
    }
}

/// A wrong program: a tier customer's seats are weighed by their net position, and not by the lots held.
pub fn seats_by_net(book: &[u8], report: &mut [u8]) -> Answer {
    seats_by(book, report, |standing, is_long, seat| match standing {
        b'P' => seat.unfilled,
        _ => on_net_side(is_long, seat).saturating_sub(on_net_side(!is_long, seat)),
    })
}

/// A wrong program: a P customer's seats are weighed by the lots held, as a tier customer's are.
pub fn seats_by_lots_held(book: &[u8], report: &mut [u8]) -> Answer {
    seats_by(book, report, |_, is_long, seat| on_net_side(is_long, seat))
}

/// A wrong program: all seats alike.
pub fn seats_alike(book: &[u8], report: &mut [u8]) -> Answer {
    seats_by(book, report, |_, _, _| 1)
}

/// A wrong program: 8 is asked of the sums. Where each seat's Q is lowered to what it holds the right program goes on.
pub fn eight_on_the_sum(book: &[u8], report: &mut [u8]) -> Answer {
    let answer = second::allot(book, report.len());
    if answer.number != 8 {
        return right(book, report);
    }
    let at = answer.place as usize;
    let mut other = book[..at].to_vec();
    other.extend_from_slice(b"Q\0\x010");
    let end = fields(book).into_iter().find(|field| field.start == at);
    other.extend_from_slice(&book[end.expect("the Q field").end..]);
    let group = groups(book).into_iter().rfind(|group| group.contains(&at));
    let group = &book[group.expect("its group")];
    let sum = |tag| {
        values(group, tag)
            .iter()
            .filter_map(|value| number(value))
            .sum::<u64>()
    };
    let locked = if book[3] == b'D' { b'K' } else { b'H' };
    if sum(b'Q') <= sum(locked) {
        right(&other, report)
    } else {
        right(book, report)
    }
}

/// The book without the seat that begins at a place.
fn without_seat(book: &[u8], place: u64) -> Option<Vec<u8>> {
    let seat = harness::fields::seats(book)
        .into_iter()
        .find(|seat| seat.start as u64 == place)?;
    Some([&book[..seat.start], &book[seat.end..]].concat())
}

/// A wrong program: a fifth seat is taken, and left out of account.
pub fn a_fifth_seat_taken(book: &[u8], report: &mut [u8]) -> Answer {
    let answer = second::allot(book, report.len());
    let at = answer.place as usize;
    let after_q = fields(book)
        .into_iter()
        .any(|field| field.end == at && book[field.start] == b'Q');
    match (
        answer.number,
        book.get(at),
        without_seat(book, answer.place),
    ) {
        (3, Some(b'I'), Some(other)) if after_q => right(&other, report),
        _ => right(book, report),
    }
}

/// A wrong program: a seat code may be given twice, and the second seat is left out of account.
pub fn a_seat_twice_taken(book: &[u8], report: &mut [u8]) -> Answer {
    let answer = second::allot(book, report.len());
    match (answer.number, without_seat(book, answer.place)) {
        (13, Some(other)) => right(&other, report),
        _ => right(book, report),
    }
}

/// A wrong program: a seat code may stand once in the whole book.
pub fn seat_codes_of_the_whole_book(book: &[u8], report: &mut [u8]) -> Answer {
    let mut seen = Vec::new();
    for seat in harness::fields::seats(book) {
        let field = fields(&book[seat.start..]).remove(0);
        let code = &book[seat.start..][value(&field)];
        if seen.contains(&code) && self::report(book).is_some() {
            return answer_of((13, seat.start as u64, 0));
        }
        seen.push(code);
    }
    right(book, report)
}

fn stamped(day: &str, clock: u32) -> String {
    format!("{day} {:02}{:02}", clock / 60, clock % 60)
}
