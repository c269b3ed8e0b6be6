//! Request [2]: the newest trades are found by day, then by minutes since 19:50 around the clock, then by place.

use crate::common::{book, listed, naive, GOLD, GOLD_UP};

/// The standing of a customer who holds 10 lots long and has all of them unfilled, by two trades of 10 lots: the first
/// in the book at a loss of 10 percent, the second without one. P where the first is the newer.
fn first_is_newer(first: &str, second: &str) -> bool {
    let listing = listed(&format!(
        "{GOLD}CX;I1;K10;H0;Q10;B440.00 10 {first};B400.00 10 {second};Z"
    ));
    match listing.as_str() {
        "total 0\nleft 10\nX P 0\n" => true,
        "total 0\nleft 0\nX N 0\n" => false,
        other => panic!("{first}, {second}: {other}"),
    }
}

/// The second stamp is newer wherever the two stand in the book.
fn in_time(older: &str, newer: &str) {
    assert!(!first_is_newer(older, newer), "{older} before {newer}");
    assert!(first_is_newer(newer, older), "{newer} after {older}");
}

#[test]
fn a_trading_day_begins_at_19_50_and_ends_at_19_49() {
    in_time("20250115 1950", "20250115 1949");
    in_time("20250115 1950", "20250115 1951");
    in_time("20250115 1948", "20250115 1949");
    in_time("20250115 1949", "20250116 1950");
}

#[test]
fn midnight_is_within_the_night_session() {
    in_time("20250115 2359", "20250115 0000");
    in_time("20250115 2031", "20250115 0229");
    in_time("20250115 2000", "20250115 2001");
    in_time("20250115 0000", "20250115 0001");
}

#[test]
fn the_night_comes_before_the_day() {
    in_time("20250115 0230", "20250115 0900");
    in_time("20250115 2030", "20250115 0900");
    in_time("20250115 2359", "20250115 1530");
    in_time("20250115 0900", "20250115 1530");
}

#[test]
fn every_minute_follows_the_one_before() {
    let time = |minute: u32| {
        let clock = (19 * 60 + 50 + minute) % 1440;
        format!("20250115 {:02}{:02}", clock / 60, clock % 60)
    };
    for minute in 1..1440 {
        in_time(&time(minute - 1), &time(minute));
    }
    in_time(&time(0), &time(1439));
}

#[test]
fn the_day_decides_before_the_minute() {
    in_time("20250114 1949", "20250115 1950");
    in_time("20250114 0900", "20250115 2100");
    in_time("20250131 1500", "20250201 0900");
    in_time("20241231 1500", "20250101 0900");
    in_time("20000101 1949", "20991231 1950");
    in_time("20000228 0900", "20000229 0900");
    in_time("20000229 0900", "20000301 0900");
    in_time("20990930 1949", "20991001 1950");
}

#[test]
fn of_equal_stamps_the_later_place_is_newer() {
    for stamp in [
        "20250115 1000",
        "20000101 1950",
        "20991231 1949",
        "20240229 0000",
    ] {
        assert!(!first_is_newer(stamp, stamp), "{stamp}");
    }
    // Three of one minute, of which the last two count, whatever stands between them.
    let listing = listed(&format!(
        "{GOLD}CX;I1;K0;H2;Q0;A300.00 1 20250115 1000;A432.00 1 20250115 1000;A999.00 1 20250114 1000;\
         B81.00 1 20250115 1000;A432.00 1 20250115 1000;A999.00 1 20250115 0959;Z"
    ));
    assert_eq!(listing, "total 0\nleft 0\nX 1 0\n");
}

#[test]
fn an_older_day_late_in_the_book_does_not_count() {
    // 432.00 is the edge of tier 1. The trade at 400.00 stands last and is a day older.
    let listing = listed(&format!(
        "{GOLD}CX;I1;K0;H10;Q0;A432.00 10 20250115 0900;A400.00 10 20250114 1949;Z"
    ));
    assert_eq!(listing, "total 0\nleft 0\nX 1 0\n");
    // One lot more than the newer trade has: the needed part of the older one counts.
    let listing = listed(&format!(
        "{GOLD}CX;I1;K0;H11;Q0;A432.00 10 20250115 0900;A400.00 10 20250114 1949;Z"
    ));
    assert_eq!(listing, "total 0\nleft 0\nX 2 0\n");
}

#[test]
fn the_part_that_counts_is_the_oldest_needed_by_time() {
    // Case 6 with the trades the other way round in the book: 10 at 420.00, then 5 of the 10 at 450.00.
    let trades = "B420.00 10 20250115 0900;B450.00 10 20250115 2100";
    assert_eq!(
        listed(&format!("{GOLD}CX;I1;K15;H0;Q15;{trades};Z")),
        "total 0\nleft 0\nX N 0\n"
    );
    let trades = "B420.00 9 20250115 0900;B450.00 10 20250115 2100";
    assert_eq!(
        listed(&format!("{GOLD}CX;I1;K15;H0;Q15;{trades};Z")),
        "total 0\nleft 15\nX P 0\n"
    );
}

/// The order of the book, that of the clock and this one, each with a standing of its own.
#[test]
fn three_orders_give_three_standings() {
    let text = format!(
        "{GOLD}CX;I1;K0;H10;Q0;A440.00 10 20250115 1500;A420.00 10 20250115 2031;A410.00 10 20250115 0900;Z"
    );
    let standing = |newer| naive::work_by(newer, &book(&text)).people[0].standing;
    assert_eq!(standing(naive::by_place), '3');
    assert_eq!(standing(naive::by_clock), '2');
    assert_eq!(standing(naive::by_stamp), '1');
    assert_eq!(listed(&text), "total 0\nleft 0\nX 1 0\n");
}

/// The same when the clock is read without the day: an older day's evening.
#[test]
fn the_clock_without_the_day_is_no_order_either() {
    let text = format!(
        "{GOLD}CX;I1;K0;H10;Q0;A440.00 10 20250116 2031;A420.00 10 20250115 1949;A410.00 10 20250114 2359;Z"
    );
    assert_eq!(listed(&text), "total 0\nleft 0\nX 1 0\n");
}

#[test]
fn locked_up_it_is_the_same_order() {
    let text =
        format!("{GOLD_UP}CX;I1;K0;H10;Q10;A360.00 10 20250115 0900;A400.00 10 20250115 2031;Z");
    assert_eq!(listed(&text), "total 0\nleft 10\nX P 0\n");
    let text =
        format!("{GOLD_UP}CX;I1;K0;H10;Q10;A360.00 10 20250115 2031;A400.00 10 20250115 0900;Z");
    assert_eq!(listed(&text), "total 0\nleft 0\nX N 0\n");
}

#[test]
fn each_customer_has_its_own_order() {
    // The first customer's trades are newer than all of the second's.
    let listing = listed(&format!(
        "{GOLD}CA;I1;K0;H1;Q0;A440.00 1 20250117 0900;A410.00 1 20250117 2100;\
         CB;I1;K0;H1;Q0;A410.00 1 20250101 0900;A420.00 1 20250101 2100;Z"
    ));
    assert_eq!(listing, "total 0\nleft 0\nA 1 0\nB 3 0\n");
}

/// P1's two trades change places. Their stamps differ; with equal ones they would keep their order.
#[test]
fn document_01s_listing_with_trades_in_another_order() {
    let listing = |p1: &str| {
        listed(&format!(
            "{GOLD}CW3;I1;K0;H1;Q0;A410.00 1@;CP2;I1;K4;H0;Q4;B440.00 4@;CW1;I1;K0;H3;Q0;A440.00 3@;\
             CP1;I1;K8;H2;Q6;{p1};CW2;I1;K0;H5;Q0;A420.00 5@;Z"
        ))
    };
    let want = "total 9\nleft 1\nW3 3 1\nP2 P 3\nW1 1 3\nP1 P 6\nW2 2 5\n";
    assert_eq!(listing("B440.00 8@;A440.00 2@"), want);
    let (bought, sold) = ("B440.00 8 20250115 2000", "A440.00 2 20250115 0900");
    assert_eq!(listing(&format!("{bought};{sold}")), want);
    assert_eq!(listing(&format!("{sold};{bought}")), want);
}
