//! Document 01, "Easy ways to get it wrong": each line with a book that shows it.

use crate::common::{listed, GOLD};

#[test]
fn all_opening_trades_are_not_averaged() {
    // Averaged, case 5 would be 435.00, a loss of 8.75 percent, and P.
    let listing = listed(&format!("{GOLD}CX;I1;K10;H0;Q10;B450.00 10@;B420.00 10@;Z"));
    assert_eq!(listing, "total 0\nleft 0\nX N 0\n");
}

#[test]
fn the_grand_total_is_not_divided_once_over_p_customers() {
    // Once, 9 over 4 and 6 would be 3.6 and 5.4: P2 4 and P1 5. By tiers, tier 1's 3
    // go 1 (1.2) and 2 (1.8), tier 2's 5 go 2 (2.14) and 3 (2.86), tier 3's 1 goes to
    // P1: 3 and 6. The residue is 1.
    let listing = listed(&format!(
        "{GOLD}CP2;I1;K4;H0;Q4;B440.00 4@;CP1;I1;K6;H0;Q6;B440.00 6@;\
         CW1;I1;K0;H3;Q0;A440.00 3@;CW2;I1;K0;H5;Q0;A420.00 5@;CW3;I1;K0;H1;Q0;A410.00 1@;Z"
    ));
    let want = "total 9\nleft 1\nP2 P 3\nP1 P 6\nW1 1 3\nW2 2 5\nW3 3 1\n";
    assert_eq!(listing, want);
}

#[test]
fn equal_remainders_are_not_settled_by_book_order() {
    let gainer = "CW;I1;K0;H1;Q0;A410.00 1@";
    let listing = listed(&format!(
        "{GOLD}CP2;I1;K1;H0;Q1;B440.00 1@;CP1;I1;K1;H0;Q1;B440.00 1@;{gainer};Z"
    ));
    assert_eq!(listing, "total 1\nleft 1\nP2 P 0\nP1 P 1\nW 3 1\n");
    // And so on the gaining side.
    let listing = listed(&format!(
        "{GOLD}CG9;I1;K0;H1;Q0;A410.00 1@;CG10;I1;K0;H1;Q0;A410.00 1@;CP;I1;K1;H0;Q1;B440.00 1@;Z"
    ));
    assert_eq!(listing, "total 1\nleft 0\nG9 3 0\nG10 3 1\nP P 1\n");
}

#[test]
fn the_unit_gain_is_not_rounded_to_a_whole_percent() {
    // 431.99 is a gain of 7.9975 percent, and 415.99 one of 3.9975.
    let listing = listed(&format!(
        "{GOLD}CA;I1;K0;H10;Q0;A431.99 10@;CB;I1;K0;H10;Q0;A415.99 10@;CC;I1;K10;H0;Q10;B431.99 10@;Z"
    ));
    assert_eq!(listing, "total 0\nleft 0\nA 2 0\nB 3 0\nC N 0\n");
}

#[test]
fn pending_is_not_counted_above_the_net_position() {
    let listing = listed(&format!(
        "{GOLD}CP;I1;K10;H4;Q10;B440.00 10@;A400.00 4@;CW;I1;K0;H20;Q0;A440.00 20@;Z"
    ));
    assert_eq!(listing, "total 6\nleft 0\nP P 6\nW 1 6\n");
}
