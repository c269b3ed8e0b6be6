//! Document 01, "Both sides of each edge" and the listing given in full. All trades have
//! one day and time, as request [2] says, and prices two decimals, as request [3] says.

use crate::common::{book, field, listed, listed_bytes, GOLD};
use second::division::{divide, Member};

/// The standing of the only customer of a gold book.
fn standing(customer: &str) -> String {
    let listing = listed(&format!("{GOLD}CX;I1;{customer};Z"));
    let line = listing.lines().nth(2).expect("a customer's line");
    line.split(' ').nth(1).expect("a standing").to_string()
}

fn long(lots: u32, trades: &str) -> String {
    standing(&format!("K{lots};H0;Q{lots};{trades}"))
}

fn sold(price: &str) -> String {
    standing(&format!("K0;H10;Q0;A{price} 10@"))
}

/// The lots of each member, in the order given.
fn divided(quantity: u64, weights: &[(&str, u64)]) -> Vec<u64> {
    let mut members: Vec<Member> = weights
        .iter()
        .enumerate()
        .map(|(who, (code, weight))| Member::new(who, code.as_bytes(), *weight))
        .collect();
    divide(quantity, &mut members);
    members.sort_by_key(|member| member.who);
    members.iter().map(|member| member.lots).collect()
}

#[test]
fn case_1_loss_edge() {
    assert_eq!(long(10, "B432.00 10@"), "P");
    assert_eq!(long(10, "B431.99 10@"), "N");
}

#[test]
fn case_2_edge_of_tier_1() {
    assert_eq!(sold("432.00"), "1");
    assert_eq!(sold("431.99"), "2");
}

#[test]
fn case_3_edge_of_tier_2() {
    assert_eq!(sold("416.00"), "2");
    assert_eq!(sold("415.99"), "3");
}

#[test]
fn case_4_no_gain_is_no_tier() {
    assert_eq!(sold("400.01"), "3");
    assert_eq!(sold("400.00"), "N");
}

#[test]
fn case_5_only_the_newest_trades_count() {
    assert_eq!(long(10, "B450.00 10@;B420.00 10@"), "N");
}

#[test]
fn case_6_only_a_part_of_the_last_trade_counts() {
    assert_eq!(long(15, "B450.00 10@;B420.00 10@"), "N");
    // Were all 20 lots counted, the total would be -70,000 over 15: P. One lot fewer
    // of the newer trade is -48,000, exactly 8 percent.
    assert_eq!(long(15, "B450.00 10@;B420.00 9@"), "P");
}

#[test]
fn case_7_seven_over_5_5_4() {
    assert_eq!(divided(7, &[("A", 5), ("B", 5), ("C", 4)]), [3, 2, 2]);
}

#[test]
fn case_8_five_over_3_3_3() {
    assert_eq!(divided(5, &[("A", 3), ("B", 3), ("C", 3)]), [2, 2, 1]);
    assert_eq!(divided(5, &[("C", 3), ("B", 3), ("A", 3)]), [1, 2, 2]);
}

#[test]
fn case_9_one_over_a_million_and_one() {
    assert_eq!(divided(1, &[("A", 1_000_000), ("B", 1)]), [1, 0]);
    assert_eq!(divided(1, &[("B", 1_000_000), ("A", 1)]), [1, 0]);
}

/// The customers of document 01's listing.
const LISTED: &str = "\
    CW3;I1;K0;H1;Q0;A410.00 1@;\
    CP2;I1;K4;H0;Q4;B440.00 4@;\
    CW1;I1;K0;H3;Q0;A440.00 3@;\
    CP1;I1;K8;H2;Q6;B440.00 8@;A440.00 2@;\
    CW2;I1;K0;H5;Q0;A420.00 5@;Z";

#[test]
fn case_10_the_listing() {
    let want = "total 9\nleft 1\nW3 3 1\nP2 P 3\nW1 1 3\nP1 P 6\nW2 2 5\n";
    assert_eq!(listed(&format!("{GOLD}{LISTED}")), want);
}

#[test]
fn the_listing_with_a_comma_is_refused_4_at_17() {
    let terms = "DD;X2;S400.00;L8,000;U8.000;V4.000;";
    assert_eq!(listed(&format!("{terms}{LISTED}")), "refused 4 at 17\n");
}

#[test]
fn case_11_256_customers_are_accepted_and_the_257th_c_is_10() {
    let customers =
        |count: usize| -> String { (0..count).map(|n| format!("CX{n};I1;K0;H0;Q0;")).collect() };
    let most = listed(&format!("{GOLD}{}Z", customers(256)));
    assert_eq!(most.lines().count(), 2 + 256);
    assert!(most.starts_with("total 0\nleft 0\nX0 N 0\nX1 N 0\n"));
    let before = book(&format!("{GOLD}{}", customers(256))).len();
    let more = listed(&format!("{GOLD}{}Z", customers(257)));
    assert_eq!(more, format!("refused 10 at {before}\n"));
}

/// A book of exactly this many bytes, padded with trades of a customer without a net
/// position: fields of 25 bytes, then five of 25 to 30 that take up the rest.
fn book_of(size: usize) -> Vec<u8> {
    let mut bytes = book(&format!("{GOLD}CX;I1;K0;H0;Q0"));
    let end = field(b'Z', b"");
    while size - bytes.len() - end.len() >= 6 * 25 {
        bytes.extend(book("B400.00 1@"));
    }
    let gap = size - bytes.len() - end.len();
    for nth in 0..5 {
        let length = (gap + nth) / 5;
        let lots = "1".repeat(length - 24);
        bytes.extend(book(&format!("A400.00 {lots}@")));
    }
    bytes.extend(end);
    assert_eq!(bytes.len(), size);
    bytes
}

#[test]
fn case_11_60_000_bytes_are_judged_and_60_001_are_1() {
    for size in [59_999, 60_000] {
        assert_eq!(listed_bytes(&book_of(size)), "total 0\nleft 0\nX N 0\n");
    }
    for size in [60_001, 60_002] {
        assert_eq!(listed_bytes(&book_of(size)), "refused 1 at 0\n");
    }
}
