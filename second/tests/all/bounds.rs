//! Request [4]: a trade's price above five times S or below a fifth of it is 12, at the trade's tag, after 4 and 5 for that field.

use crate::common::{listed, GOLD, GOLD_UP, SILVER};

const NONE: &str = "total 0\nleft 0\nA N 0\n";

/// The answer to a price of a customer without a position, with this X and S, and where its trade stands.
fn answered(x: &str, s: &str, price: &str) -> (String, usize) {
    let terms = format!("DD;X{x};S{s};L8.000;U8.000;V4.000;");
    let front = crate::common::book(&format!("{terms}CA;I1;K0;H0;Q0")).len();
    let listings =
        ["B", "A"].map(|tag| listed(&format!("{terms}CA;I1;K0;H0;Q0;{tag}{price} 1@;Z")));
    assert_eq!(listings[0], listings[1], "S {s}, {price}");
    let [listing, _] = listings;
    (listing, front)
}

fn good(x: &str, s: &str, prices: &[&str]) {
    for price in prices {
        assert_eq!(answered(x, s, price).0, NONE, "S {s}, {price}");
    }
}

fn far(x: &str, s: &str, prices: &[&str]) {
    for price in prices {
        let (listing, place) = answered(x, s, price);
        assert_eq!(
            listing,
            format!("refused 12 at {place}\n"),
            "S {s}, {price}"
        );
    }
}

#[test]
fn the_clerks_price() {
    far("2", "400.00", &["40000.00", "4000.00", "40.00", "4.00"]);
    good("2", "400.00", &["400.00"]);
}

#[test]
fn five_times_s_and_one_fen_more() {
    good("2", "400.00", &["1999.99", "2000.00"]);
    far("2", "400.00", &["2000.01", "2400.00", "99999.99"]);
}

#[test]
fn a_fifth_of_s_and_one_fen_less() {
    good("2", "400.00", &["80.01", "80.00"]);
    far("2", "400.00", &["79.99", "66.67", "0.01"]);
}

/// With S not divisible by five the fifth lies between two prices: the lower is refused.
#[test]
fn a_fifth_that_is_no_whole_fen() {
    for (s, below, above) in [
        ("400.01", "80.00", "80.01"),
        ("400.02", "80.00", "80.01"),
        ("400.03", "80.00", "80.01"),
        ("400.04", "80.00", "80.01"),
        ("0.06", "0.01", "0.02"),
        ("0.09", "0.01", "0.02"),
        ("99999.99", "19999.99", "20000.00"),
    ] {
        far("2", s, &[below]);
        good("2", s, &[above]);
    }
    good("2", "400.05", &["80.01"]);
    far("2", "400.05", &["80.00"]);
}

#[test]
fn the_same_in_yuan() {
    good("0", "8000", &["1600", "8000", "40000"]);
    far(
        "0",
        "8000",
        &["1599", "40001", "800", "80000", "1", "9999999"],
    );
    good("0", "8001", &["1601", "40005"]);
    far("0", "8001", &["1600", "40006"]);
}

/// The ends of what can be written: there is no price below a fifth of the least, and none above five times the most.
#[test]
fn the_least_and_the_most_settlement_price() {
    good("0", "1", &["1", "5"]);
    far("0", "1", &["6", "9999999"]);
    good("0", "5", &["1", "25"]);
    good("0", "6", &["2", "30"]);
    far("0", "6", &["1", "31"]);
    good("0", "1999999", &["9999995", "400000"]);
    far("0", "1999999", &["9999996", "9999999", "399999"]);
    good("0", "2000000", &["9999999", "400000"]);
    good("0", "9999999", &["9999999", "2000000"]);
    far("0", "9999999", &["1999999"]);
    good("2", "0.01", &["0.01", "0.05"]);
    far("2", "0.01", &["0.06"]);
}

/// Whose trade it is does not matter: on the net side counted or not, on the other side, of a customer that is flat or holds nothing.
#[test]
fn every_trade_is_judged() {
    let at = |place: usize| format!("refused 12 at {place}\n");
    for terms in [GOLD, GOLD_UP] {
        for price in ["2000.01", "79.99"] {
            // Counted: the only trade, the newest, and the part of an older one.
            assert_eq!(
                listed(&format!("{terms}CA;I1;K1;H0;Q0;B{price} 1@;Z")),
                at(61)
            );
            assert_eq!(
                listed(&format!("{terms}CA;I1;K1;H0;Q0;B400.00 1@;B{price} 1@;Z")),
                at(86)
            );
            assert_eq!(
                listed(&format!("{terms}CA;I1;K2;H0;Q0;B{price} 5@;B400.00 1@;Z")),
                at(61)
            );
            // Old, by its place and by its day, and so not counted.
            assert_eq!(
                listed(&format!("{terms}CA;I1;K1;H0;Q0;B{price} 1@;B400.00 1@;Z")),
                at(61)
            );
            assert_eq!(
                listed(&format!(
                    "{terms}CA;I1;K0;H1;Q0;A400.00 1@;A{price} 1 20010101 0900;Z"
                )),
                at(86)
            );
            // On the other side, flat, and with nothing held.
            assert_eq!(
                listed(&format!("{terms}CA;I1;K1;H0;Q0;B400.00 1@;A{price} 1@;Z")),
                at(86)
            );
            assert_eq!(
                listed(&format!("{terms}CA;I1;K5;H5;Q0;A{price} 1@;Z")),
                at(61)
            );
            assert_eq!(
                listed(&format!("{terms}CA;I1;K0;H0;Q0;B{price} 1@;Z")),
                at(61)
            );
        }
    }
}

#[test]
fn in_one_field_4_and_5_come_first() {
    for (value, number) in [
        ("40000,00 1@", 4),
        ("40000.00 1,0@", 4),
        ("40000.00 1 2025,115 1000", 4),
        ("40000.00 0@", 5),
        ("40000.00 01@", 5),
        ("40000.00 1000001@", 5),
        ("40000.00 1", 5),
        ("40000.00 1 20250431 1000", 5),
        ("40000.00 1 20250115 2400", 5),
        ("40000.0 1@", 5),
        ("40000 1@", 5),
        ("040000.00 1@", 5),
        ("140000.00 1@", 5),
        ("40000.00 1@", 12),
    ] {
        let book = format!("{GOLD}CA;I1;K0;H0;Q0;B{value};Z");
        assert_eq!(
            listed(&book),
            format!("refused {number} at 61\n"),
            "{value}"
        );
    }
    // Without a point in a book of fen it is 5, and with one in a book of yuan.
    assert_eq!(
        listed(&format!("{SILVER}CA;I1;K0;H0;Q0;B80000.00 1@;Z")),
        "refused 5 at 61\n"
    );
    assert_eq!(
        listed(&format!("{SILVER}CA;I1;K0;H0;Q0;B80000 1@;Z")),
        "refused 12 at 61\n"
    );
}

#[test]
fn it_comes_at_its_own_field() {
    // Before a later field's number, before 9 of its customer and before what closes the group.
    for later in [
        "B4,00 1@;Z",
        "A400.00 0@;Z",
        "B79.99 1@;Z",
        "K1;Z",
        "Z,",
        "Ca;Z",
        "CA;Z",
        "",
    ] {
        let book = format!("{GOLD}CA;I1;K9;H0;Q0;B40000.00 1@;{later}");
        assert_eq!(listed(&book), "refused 12 at 61\n", "{later}");
    }
    // After an earlier field's.
    assert_eq!(
        listed(&format!("{GOLD}CA;I1;K9;H0;Q10;B40000.00 1@;Z")),
        "refused 8 at 57\n"
    );
    assert_eq!(
        listed(&format!("{GOLD}CA;I1;K9;H0;Q0;B400.00 0@;B40000.00 1@;Z")),
        "refused 5 at 61\n"
    );
    // 9 of an earlier customer is an earlier field's.
    let nine = format!("{GOLD}CA;I1;K9;H0;Q0;B400.00 1@;CB;I1;K0;H0;Q0;B40000.00 1@;Z");
    assert_eq!(listed(&nine), "refused 9 at 41\n");
}

#[test]
fn a_value_cut_is_2_and_11_comes_last() {
    let book = crate::common::book(&format!("{GOLD}CA;I1;K0;H0;Q0;B40000.00 1@;Z"));
    let cut = &book[..book.len() - 4];
    assert_eq!(crate::common::listed_bytes(cut), "refused 2 at 61\n");
    assert_eq!(second::allot(&book, 0).number, 12);
}

/// A wrong settlement price makes the first trade far.
#[test]
fn s_that_lost_its_point() {
    let book = |s: &str| format!("DD;X2;S{s};L8.000;U8.000;V4.000;CA;I1;K0;H0;Q0;B400.00 1@;Z");
    assert_eq!(listed(&book("400.00")), NONE);
    assert_eq!(listed(&book("40000.00")), "refused 12 at 63\n");
    assert_eq!(listed(&book("4.00")), "refused 12 at 59\n");
    // Nobody's trade, nothing far.
    assert_eq!(
        listed("DD;X2;S40000.00;L8.000;U8.000;V4.000;Z"),
        "total 0\nleft 0\n"
    );
}

/// All prices about both bounds of every small S, by the request's own words in whole numbers.
#[test]
fn every_small_s() {
    for s in 1..=60_u32 {
        for price in 1..=(5 * s + 3) {
            let wanted = price > 5 * s || 5 * price < s;
            let (listing, _) = answered("0", &s.to_string(), &price.to_string());
            assert_eq!(
                listing.starts_with("refused 12 at "),
                wanted,
                "S {s}, {price}"
            );
        }
    }
}
