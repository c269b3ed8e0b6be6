//! Request [3]: a term `X` after `D` says how many decimals every price in the book has.

use crate::common::{book, listed, naive, GOLD, SILVER, SILVER_UP};

/// Prices with two decimals on both sides of their form: accepted with X 2 alone.
const FEN: [&str; 6] = ["0.01", "1.00", "400.00", "8000.00", "10000.00", "99999.99"];

/// Whole prices on both sides of their form: accepted with X 0 alone.
const YUAN: [&str; 7] = ["1", "9", "10", "400", "8000", "1000000", "9999999"];

/// What is a price by neither.
const NEITHER: [&str; 24] = [
    "",
    "0",
    "00",
    "01",
    "007",
    "0400",
    "00000001",
    "10000000",
    "99999999",
    "400.",
    "400.0",
    "400.000",
    "0.00",
    "00.01",
    "100000.00",
    ".",
    ".5",
    "+400",
    "-400",
    "4e2",
    " 400",
    "400 ",
    "4 00",
    "4294967297",
];

/// The answer to S in a book with this X.
fn in_s(x: &str, price: &str) -> String {
    listed(&format!("DD;X{x};S{price};L8.000;U8.000;V4.000;Z"))
}

/// The answer to a trade's price in a book with this X and S, on the net side, on the other and without a net position.
fn in_trades(x: &str, s: &str, price: &str) -> [String; 3] {
    let terms = format!("DD;X{x};S{s};L8.000;U8.000;V4.000;");
    [
        format!("CA;I1;K1;H0;Q0;B{price} 1@;Z"),
        format!("CA;I1;K1;H0;Q0;A{price} 1@;B{s} 1@;Z"),
        format!("CA;I1;K0;H0;Q0;B{price} 1@;Z"),
    ]
    .map(|group| listed(&format!("{terms}{group}")))
}

/// An S with this X, and where the first trade then stands: behind S and the customer's five fields.
fn first_trade(x: &str) -> (&'static str, usize) {
    if x == "2" {
        ("400.00", 61)
    } else {
        ("400", 58)
    }
}

fn accepts(x: &str, price: &str) {
    assert_eq!(in_s(x, price), "total 0\nleft 0\n", "X {x}, S {price}");
    // S is the same price, so that the trade's is not far from it.
    for listing in in_trades(x, price, price) {
        let line = listing.lines().nth(2).expect("a customer");
        assert_eq!(line, "A N 0", "X {x}, price {price}");
    }
}

fn refuses(x: &str, price: &str, number: u32) {
    let at = |place: usize| format!("refused {number} at {place}\n");
    assert_eq!(in_s(x, price), at(8), "X {x}, S {price}");
    let (s, place) = first_trade(x);
    for listing in in_trades(x, s, price) {
        assert_eq!(listing, at(place), "X {x}, price {price}");
    }
}

#[test]
fn with_x_2_a_price_has_two_decimals() {
    FEN.iter().for_each(|price| accepts("2", price));
    YUAN.iter().for_each(|price| refuses("2", price, 5));
    NEITHER.iter().for_each(|price| refuses("2", price, 5));
}

#[test]
fn with_x_0_a_price_is_a_whole_figure() {
    YUAN.iter().for_each(|price| accepts("0", price));
    FEN.iter().for_each(|price| refuses("0", price, 5));
    NEITHER.iter().for_each(|price| refuses("0", price, 5));
}

/// Every number of digits, with and without a zero in front.
#[test]
fn with_x_0_a_price_has_1_to_7_digits() {
    for digits in 1..=12 {
        for first in ["1", "9"] {
            let price = first.repeat(digits);
            if digits <= 7 {
                accepts("0", &price);
            } else {
                refuses("0", &price, 5);
            }
            refuses("0", &format!("0{price}"), 5);
            refuses("0", &format!("{price}.00"), 5);
        }
    }
}

#[test]
fn a_comma_in_a_price_is_4_whatever_x_is() {
    for x in ["0", "2"] {
        for price in [",", "400,00", "8,000", "8000,", ",8", "8,000.00", "x,"] {
            refuses(x, price, 4);
        }
    }
}

#[test]
fn every_price_of_a_book_has_the_decimals_of_x() {
    // The second trade, or a later customer's, has others.
    let mixed = format!("{SILVER}CA;I1;K1;H0;Q0;B8000 1@;B8000.00 1@;Z");
    assert_eq!(listed(&mixed), "refused 5 at 84\n");
    let later = format!("{SILVER}CA;I1;K0;H0;Q0;A8000 1@;CB;I1;K0;H0;Q0;B400.00 1@;Z");
    assert_eq!(listed(&later), "refused 5 at 104\n");
    let gold = format!("{GOLD}CA;I1;K1;H0;Q0;B400.00 1@;B400 1@;Z");
    assert_eq!(listed(&gold), "refused 5 at 86\n");
    // S is judged before the trades, and X before S.
    assert_eq!(in_s("0", "400.00"), "refused 5 at 8\n");
    assert_eq!(in_s("1", "400.0"), "refused 5 at 4\n");
}

#[test]
fn x_is_one_byte_0_or_2() {
    for value in [
        "", "1", "3", "4", "9", "02", "20", "00", "22", "0.", "2.", ".2", "2 ", " 2", "+2", "-0",
        ",", "2,", "0,0", "O", "o", "Z", "\0", "\u{2}", "two",
    ] {
        for price in ["400.00", "400", "x", "4,00"] {
            assert_eq!(in_s(value, price), "refused 5 at 4\n", "X {value:?}");
        }
    }
    for byte in 0..=255_u8 {
        let mut bytes = book("DD;X2;S400.00;L8.000;U8.000;V4.000;Z");
        bytes[7] = byte;
        let want: &[u8] = match byte {
            b'2' => b"total 0\nleft 0\n",
            b'0' => b"refused 5 at 8\n",
            _ => b"refused 5 at 4\n",
        };
        assert_eq!(second::listing(&bytes), want, "X {byte}");
    }
}

#[test]
fn x_stands_after_d_and_nowhere_else() {
    let rest = "L8.000;U8.000;V4.000;";
    // Missing: every book of the old form.
    assert_eq!(listed(&format!("DD;S400.00;{rest}Z")), "refused 3 at 4\n");
    assert_eq!(listed(&format!("DD;S400;{rest}Z")), "refused 3 at 4\n");
    // Twice, the same or another.
    for again in ["X2", "X0", "X", "X,"] {
        let twice = format!("DD;X2;{again};S400.00;{rest}Z");
        assert_eq!(listed(&twice), "refused 3 at 8\n");
    }
    // Before D, after S, after V, and in a group.
    assert_eq!(
        listed(&format!("X2;DD;S400.00;{rest}Z")),
        "refused 3 at 0\n"
    );
    assert_eq!(
        listed(&format!("DD;S400.00;X2;{rest}Z")),
        "refused 3 at 4\n"
    );
    assert_eq!(
        listed(&format!("DD;X2;S400.00;X2;{rest}Z")),
        "refused 3 at 17\n"
    );
    assert_eq!(listed(&format!("{GOLD}X2;Z")), "refused 3 at 41\n");
    assert_eq!(
        listed(&format!("{GOLD}CA;X2;I1;K0;H0;Q0;Z")),
        "refused 3 at 45\n"
    );
    assert_eq!(
        listed(&format!("{GOLD}CA;I1;K0;H0;Q0;X2;Z")),
        "refused 3 at 61\n"
    );
    // Its value cut is 2, and a small letter is no tag.
    assert_eq!(
        crate::common::listed_bytes(b"D\0\x01DX\0\x01"),
        "refused 2 at 4\n"
    );
    assert_eq!(
        listed(&format!("DD;x2;S400.00;{rest}Z")),
        "refused 3 at 4\n"
    );
}

/// The standing of the only customer of a silver book.
fn standing(terms: &str, customer: &str) -> String {
    let listing = listed(&format!("{terms}CX;I1;{customer};Z"));
    let line = listing.lines().nth(2).expect("a customer's line");
    line.split(' ').nth(1).expect("a standing").to_string()
}

/// S 8000, edges 10, 10 and 5 percent: 800 and 400 yuan, exactly and one yuan beside.
#[test]
fn silver_at_its_edges_and_one_yuan_beside() {
    let long = |price: u32| standing(SILVER, &format!("K10;H0;Q10;B{price} 10@"));
    assert_eq!(
        [8801, 8800, 8799, 8000, 7000].map(long),
        ["P", "P", "N", "N", "N"]
    );
    let short = |price: u32| standing(SILVER, &format!("K0;H10;Q0;A{price} 10@"));
    assert_eq!([8801, 8800, 8799].map(short), ["1", "1", "2"]);
    assert_eq!([8401, 8400, 8399].map(short), ["2", "2", "3"]);
    assert_eq!([8001, 8000, 7999].map(short), ["3", "N", "N"]);
}

#[test]
fn silver_locked_up_is_the_other_way_round() {
    let short = |price: u32| standing(SILVER_UP, &format!("K0;H10;Q10;A{price} 10@"));
    assert_eq!([7199, 7200, 7201, 8000].map(short), ["P", "P", "N", "N"]);
    let long = |price: u32| standing(SILVER_UP, &format!("K10;H0;Q0;B{price} 10@"));
    assert_eq!([7199, 7200, 7201].map(long), ["1", "1", "2"]);
    assert_eq!([7599, 7600, 7601].map(long), ["2", "2", "3"]);
    assert_eq!([7999, 8000, 8001].map(long), ["3", "N", "N"]);
}

/// Document 01's listing in whole yuan: the same rates of S, so the same standings and lots.
#[test]
fn the_listing_in_whole_yuan() {
    let customers = "CW3;I1;K0;H1;Q0;A410 1@;CP2;I1;K4;H0;Q4;B440 4@;CW1;I1;K0;H3;Q0;A440 3@;\
                     CP1;I1;K8;H2;Q6;B440 8@;A440 2@;CW2;I1;K0;H5;Q0;A420 5@;Z";
    let want = "total 9\nleft 1\nW3 3 1\nP2 P 3\nW1 1 3\nP1 P 6\nW2 2 5\n";
    let listing = |x| listed(&format!("DD;X{x};S400;L8.000;U8.000;V4.000;{customers}"));
    assert_eq!(listing("0"), want);
    // The same bytes with X 2 are refused at S.
    assert_eq!(listing("2"), "refused 5 at 8\n");
}

/// Nothing but the prices' scale tells the two kinds apart: points left out of a whole book, and X 0 in place of 2,
/// change no byte of its report.
#[test]
fn a_book_without_its_points_has_the_same_report() {
    let mut compared = 0;
    for index in 0..6_000 {
        let made = second::make::book(21, index).bytes;
        let answer = second::allot(&made, 10_000);
        if answer.number != 0 {
            continue;
        }
        let other = in_the_other_unit(&made);
        // A point in every price can make a book too long.
        if other.len() > 60_000 {
            continue;
        }
        assert_eq!(second::allot(&other, 10_000), answer);
        compared += 1;
    }
    println!("{compared} compared");
    assert!(compared > 3_000, "only {compared} compared");
}

/// Fen as yuan, or yuan as fen: the same numbers.
fn in_the_other_unit(book: &[u8]) -> Vec<u8> {
    let to_yuan = book[7] == b'2';
    let other = |price: &str| {
        let number: u32 = price.replace('.', "").parse().expect("a price");
        if to_yuan {
            number.to_string()
        } else {
            format!("{}.{:02}", number / 100, number % 100)
        }
    };
    let mut bytes = Vec::new();
    for (tag, value) in crate::common::fields(book) {
        let text = String::from_utf8(value.to_vec()).expect("ASCII");
        let text = match tag {
            b'X' => if to_yuan { "0" } else { "2" }.to_string(),
            b'S' => other(&text),
            b'A' | b'B' => {
                let (price, rest) = text.split_once(' ').expect("a trade");
                format!("{} {rest}", other(price))
            }
            _ => text,
        };
        bytes.extend(crate::common::field(tag, text.as_bytes()));
    }
    bytes
}

/// The largest prices and positions: exact, as with two decimals.
#[test]
fn the_largest_gain_in_yuan_is_exact() {
    // S x 99.999 percent is 4,999,950, and x 99.998 percent is 4,999,900.
    let text = "DD;X0;S5000000;L99.999;U99.999;V99.998;\
                CA;I1;K0;H1000000;Q0;A9999950 1000000@;CB;I1;K0;H1000000;Q0;A9999949 1000000@;\
                CC;I1;K0;H1000000;Q0;A9999899 1000000@;CD;I1;K1000000;H0;Q1000000;B9999950 1000000@;\
                CE;I1;K1000000;H0;Q1000000;B9999999 1000000@;Z";
    let want = "total 2000000\nleft 0\nA 1 1000000\nB 2 1000000\nC 3 0\nD P 1000000\nE P 1000000\n";
    assert_eq!(listed(text), want);
    let most = "DD;X0;S9999999;L99.999;U99.999;V0.001;\
                CA;I1;K1000000;H0;Q0;B2000000 1000000@;CB;I1;K0;H1000000;Q0;A9999999 1000000@;\
                CC;I1;K1000000;H0;Q1000000;B9999999 1000000@;Z";
    assert_eq!(listed(most), "total 0\nleft 0\nA N 0\nB N 0\nC N 0\n");
    let least = "DD;X0;S1;L99.999;U99.999;V0.001;\
                 CA;I1;K1000000;H0;Q1000000;B5 1000000@;CB;I1;K0;H1000000;Q0;A5 1000000@;Z";
    assert_eq!(
        listed(least),
        "total 1000000\nleft 0\nA P 1000000\nB 1 1000000\n"
    );
    for text in [text, most, least] {
        let answer = second::allot(&book(text), 10_000);
        let report = naive::work(&book(text)).report;
        assert_eq!(crate::common::report(&answer.report), report);
    }
}
