//! The readings of document 01: places where two careful readers could differ, each
//! with a small book. The numbers are those of the list of readings.

use crate::common::{book, field, listed, listed_bytes, report, GOLD, GOLD_UP};
use second::allot;
use second::division::{divide, Member};

/// Gold terms are 41 bytes, so the first customer is at 41.
const FIRST: usize = 41;

/// 256 customers without positions, 16 to 18 bytes each.
fn full() -> String {
    (0..256).map(|n| format!("CX{n};I1;K0;H0;Q0;")).collect()
}

#[test]
fn reading_1_a_comma_in_the_length_bytes_is_no_comma() {
    let ones = "1".repeat(0x2c);
    assert_eq!(listed(&format!("DD;X2;S{ones};Z")), "refused 5 at 8\n");
    let ones = "1".repeat(0x2c00);
    assert_eq!(listed(&format!("DD;X2;S{ones};Z")), "refused 5 at 8\n");
    let with_comma = format!("{},", "1".repeat(0x2b));
    assert_eq!(
        listed(&format!("DD;X2;S{with_comma};Z")),
        "refused 4 at 8\n"
    );
}

#[test]
fn reading_2_a_wrong_tag_with_a_cut_value_is_2() {
    assert_eq!(listed_bytes(b"X\0\x02D"), "refused 2 at 0\n");
    assert_eq!(listed_bytes(b"X\0\x01D"), "refused 3 at 0\n");
    let mut cut = book("DD;X2");
    cut.extend_from_slice(b"X\0\x09400.00");
    assert_eq!(listed_bytes(&cut), "refused 2 at 8\n");
}

#[test]
fn reading_3_bytes_after_z_are_3_at_the_first() {
    for more in [b"Z".as_slice(), b"Z\0", b"Z\0\0", b"\n", b"C\0\x05A"] {
        let bytes = [book(&format!("{GOLD}Z")), more.to_vec()].concat();
        assert_eq!(listed_bytes(&bytes), "refused 3 at 44\n");
    }
}

#[test]
fn reading_4_the_257th_c_is_10_whatever_its_code() {
    let before = book(&format!("{GOLD}{}", full())).len();
    for last in ["CNEW", "CX0", "Cnew", "C", "CABCDEFGHIJKLM", "C,"] {
        let listing = listed(&format!("{GOLD}{}{last};I1;K0;H0;Q0;Z", full()));
        assert_eq!(listing, format!("refused 10 at {before}\n"));
    }
    let cut = [book(&format!("{GOLD}{}", full())), b"C\0\x05NEW".to_vec()].concat();
    assert_eq!(listed_bytes(&cut), format!("refused 2 at {before}\n"));
}

#[test]
fn reading_5_rule_9_belongs_to_the_closing_field() {
    let short = "CA;I1;K2;H0;Q0;B400.00 1@;";
    let closing = book(&format!("{GOLD}{short}")).len();
    let nine = format!("refused 9 at {FIRST}\n");
    // Before the closing field's own 5 and 7, and before Z's 5.
    for close in [
        "Cb;I1;K0;H0;Q0;Z",
        "CA;I1;K0;H0;Q0;Z",
        "C,;Z",
        "Z,",
        "Z0",
        "Z",
    ] {
        assert_eq!(listed(&format!("{GOLD}{short}{close}")), nine);
    }
    // After its 2 and 3.
    for cut in [b"".as_slice(), b"Z\0", b"Z\0\x01", b"C\0\x02B"] {
        let bytes = [book(&format!("{GOLD}{short}")), cut.to_vec()].concat();
        assert_eq!(listed_bytes(&bytes), format!("refused 2 at {closing}\n"));
    }
    let wrong = listed(&format!("{GOLD}{short}K1;Z"));
    assert_eq!(wrong, format!("refused 3 at {closing}\n"));
    // A trade of the same customer is an earlier field.
    let comma = listed(&format!("{GOLD}{short}A400,00 1@;Z"));
    assert_eq!(comma, format!("refused 4 at {closing}\n"));
}

#[test]
fn reading_5_rule_9_comes_before_10() {
    let almost: String = (0..255).map(|n| format!("CX{n};I1;K0;H0;Q0;")).collect();
    let at = book(&format!("{GOLD}{almost}")).len();
    let listing = listed(&format!("{GOLD}{almost}CA;I1;K1;H0;Q0;CB;I1;K0;H0;Q0;Z"));
    assert_eq!(listing, format!("refused 9 at {at}\n"));
}

#[test]
fn reading_6_the_order_of_terms_is_fixed() {
    assert_eq!(
        listed("DD;X2;L8.000;S400.00;U8.000;V4.000;Z"),
        "refused 3 at 8\n"
    );
    assert_eq!(
        listed("DD;S400.00;X2;L8.000;U8.000;V4.000;Z"),
        "refused 3 at 4\n"
    );
    assert_eq!(
        listed("X2;DD;S400.00;L8.000;U8.000;V4.000;Z"),
        "refused 3 at 0\n"
    );
    assert_eq!(
        listed("S400.00;DD;L8.000;U8.000;V4.000;Z"),
        "refused 3 at 0\n"
    );
    assert_eq!(
        listed("DD;X2;S400.00;L8.000;V4.000;U8.000;Z"),
        "refused 3 at 25\n"
    );
    assert_eq!(listed("DD;X2;S400.00;L8.000;U8.000;Z"), "refused 3 at 33\n");
}

#[test]
fn reading_6_a_comma_in_d_x_c_or_z_is_5() {
    assert_eq!(
        listed("D,;X2;S400.00;L8.000;U8.000;V4.000;Z"),
        "refused 5 at 0\n"
    );
    assert_eq!(
        listed("DD;X,;S400.00;L8.000;U8.000;V4.000;Z"),
        "refused 5 at 4\n"
    );
    assert_eq!(
        listed(&format!("{GOLD}CA,B;I1;K0;H0;Q0;Z")),
        "refused 5 at 41\n"
    );
    assert_eq!(listed(&format!("{GOLD}Z,")), "refused 5 at 41\n");
}

#[test]
fn reading_7_without_a_net_position_trades_are_judged_and_ignored() {
    let none = "total 0\nleft 0\nA N 0\n";
    assert_eq!(listed(&format!("{GOLD}CA;I1;K5;H5;Q5;Z")), none);
    assert_eq!(
        listed(&format!("{GOLD}CA;I1;K5;H5;Q0;B999.00 1@;A81.00 1@;Z")),
        none
    );
    assert_eq!(
        listed(&format!("{GOLD}CA;I1;K5;H5;Q6;Z")),
        "refused 8 at 57\n"
    );
    assert_eq!(
        listed(&format!("{GOLD}CA;I1;K5;H5;Q5;B9,00 1@;Z")),
        "refused 4 at 61\n"
    );
    assert_eq!(
        listed(&format!("{GOLD}CA;I1;K5;H5;Q5;B9.00 0@;Z")),
        "refused 5 at 61\n"
    );
}

#[test]
fn reading_8_a_p_customer_with_none_left_never_gets_a_spare_lot() {
    // Tier 1 takes 5 of 1 and 9: remainders 5 and 5, so the spare lot goes to P1 with
    // the smaller code, and P1 has none left. Tier 2's 3 all go to P2.
    let listing = listed(&format!(
        "{GOLD}CP1;I1;K1;H0;Q1;B440.00 1@;CP2;I1;K9;H0;Q9;B440.00 9@;\
         CW1;I1;K0;H5;Q0;A440.00 5@;CW2;I1;K0;H3;Q0;A420.00 3@;Z"
    ));
    assert_eq!(listing, "total 8\nleft 2\nP1 P 1\nP2 P 7\nW1 1 5\nW2 2 3\n");
    let mut members = [
        Member::new(0, b"A", 0),
        Member::new(1, b"B", 2),
        Member::new(2, b"C", 2),
    ];
    divide(3, &mut members);
    members.sort_by_key(|member| member.who);
    assert_eq!(members.map(|member| member.lots), [0, 2, 1]);
}

#[test]
fn reading_9_a_division_of_the_whole_sum_is_exact() {
    let mut members = [
        Member::new(0, b"B", 7),
        Member::new(1, b"A", 0),
        Member::new(2, b"C", 12),
    ];
    divide(19, &mut members);
    members.sort_by_key(|member| member.who);
    assert_eq!(members.map(|member| member.lots), [7, 0, 12]);
}

#[test]
fn reading_10_the_report_is_ascii_without_z_and_may_fill_its_room() {
    let bytes = book(&format!("{GOLD}CAB;I1;K0;H0;Q0;Z"));
    let want = [
        field(b'T', b"0"),
        field(b'R', b"0"),
        field(b'C', b"AB"),
        field(b'E', b"N"),
        field(b'O', b"0"),
        field(b'I', b"1"),
        field(b'J', b"0"),
    ]
    .concat();
    let answer = allot(&bytes, want.len());
    assert_eq!((answer.number, answer.place), (0, 0));
    assert_eq!(answer.length, want.len() as u64);
    assert_eq!(answer.report, want);
}

#[test]
fn reading_11_everyone_else_is_n_also_with_q_above_0() {
    // A gain on the locked side, a loss short of the edge, and the other side with a
    // loss, each with unfilled lots.
    let listing = listed(&format!(
        "{GOLD}CA;I1;K5;H0;Q5;B300.00 5@;CB;I1;K5;H0;Q5;B431.99 5@;CC;I1;K3;H8;Q3;A300.00 8@;Z"
    ));
    assert_eq!(listing, "total 0\nleft 0\nA N 0\nB N 0\nC N 0\n");
    let listing = listed(&format!(
        "{GOLD_UP}CA;I1;K0;H5;Q5;A500.00 5@;CB;I1;K8;H3;Q3;B500.00 8@;Z"
    ));
    assert_eq!(listing, "total 0\nleft 0\nA N 0\nB N 0\n");
}

#[test]
fn reading_12_trades_may_sum_to_more_than_two_thousand_million_lots() {
    let trades = "A0.01 1000000@;".repeat(2_066);
    let text = format!("DD;X2;S0.01;L8.000;U8.000;V4.000;CA;I1;K0;H1000000;Q0;{trades}Z");
    assert!((59_972..=60_000).contains(&book(&text).len()));
    assert_eq!(listed(&text), "total 0\nleft 0\nA N 0\n");
}

#[test]
fn reading_12_in_yuan_trades_may_sum_to_more_lots_than_31_bits_hold() {
    let trades = "A1 1000000@;".repeat(2_305);
    let text = format!("DD;X0;S1;L8.000;U8.000;V4.000;CA;I1;K0;H1000000;Q0;{trades}Z");
    assert!((59_972..=60_000).contains(&book(&text).len()));
    assert_eq!(listed(&text), "total 0\nleft 0\nA N 0\n");
}

#[test]
fn reading_12_total_and_residue_may_have_nine_digits() {
    let customers = |tiers: usize| -> String {
        let pending =
            (tiers..256).map(|n| format!("CP{n};I1;K1000000;H0;Q1000000;B440.00 1000000@;"));
        let gaining = (0..tiers).map(|n| format!("CT{n};I1;K0;H1000000;Q0;A440.00 1000000@;"));
        pending.chain(gaining).collect()
    };
    let half = book(&format!("{GOLD}{}Z", customers(128)));
    let half = report(&allot(&half, 40_000).report);
    assert_eq!((half.total, half.residue), (128_000_000, 0));
    let few = book(&format!("{GOLD}{}Z", customers(1)));
    let few = report(&allot(&few, 40_000).report);
    assert_eq!((few.total, few.residue), (1_000_000, 254_000_000));
    let none = book(&format!("{GOLD}{}Z", customers(0)));
    let none = report(&allot(&none, 40_000).report);
    assert_eq!((none.total, none.residue), (0, 256_000_000));
}

#[test]
fn reading_12_the_largest_gain_at_the_largest_rates_is_exact() {
    let listing = listed(
        "DD;X2;S50000.00;L99.999;U99.999;V99.998;\
         CA;I1;K0;H1000000;Q0;A99999.50 1000000@;CB;I1;K0;H1000000;Q0;A99999.49 1000000@;\
         CC;I1;K0;H1000000;Q0;A99998.99 1000000@;CD;I1;K1000000;H0;Q1000000;B99999.50 1000000@;\
         CE;I1;K1000000;H0;Q1000000;B99999.99 1000000@;Z",
    );
    // 50000.00 x 99.999 percent is 49999.50, and x 99.998 percent is 49999.00, so A is
    // at U, B one fen short of it, and C one fen short of V. Locked down, D and E lose.
    let want = "total 2000000\nleft 0\nA 1 1000000\nB 2 1000000\nC 3 0\n\
                D P 1000000\nE P 1000000\n";
    assert_eq!(listing, want);
}
