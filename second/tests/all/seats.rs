//! Request [5]: "After `C` a group now has 1 to 4 seats", positions added up, the customer's offset divided over its seats.

use crate::common::{book, field, listed, listed_bytes, report, Line, GOLD, GOLD_UP};
use second::allot;

/// The customers of a book's report.
fn lines(text: &str) -> Vec<Line> {
    let answer = allot(&book(text), 40_000);
    assert_eq!(
        answer.number, 0,
        "{text}: {} at {}",
        answer.number, answer.place
    );
    report(&answer.report).lines
}

/// What a report says of one customer, as `P 5: A 3, B 2`.
fn said(text: &str, code: &str) -> String {
    let line = lines(text)
        .into_iter()
        .find(|line| line.code == code.as_bytes())
        .expect("the customer");
    let seats: Vec<String> = (line.seats.iter())
        .map(|(code, lots)| format!("{} {lots}", String::from_utf8_lossy(code)))
        .collect();
    format!("{} {}: {}", line.standing, line.offset, seats.join(", "))
}

fn refused(text: &str) -> String {
    let listing = listed(text);
    listing
        .strip_prefix("refused ")
        .expect("a refusal")
        .trim_end()
        .to_string()
}

/// A gainer of so many lots.
fn gainer(lots: u32) -> String {
    format!("CW;I1;K0;H{lots};Q0;A440.00 {lots}@;")
}

/// A loser of so many lots, all of them pending.
fn loser(lots: u32) -> String {
    format!("CP;I1;K{lots};H0;Q{lots};B440.00 {lots}@;")
}

#[test]
fn the_listing_of_document_01_with_one_seat_each() {
    let text = format!(
        "{GOLD}CW3;I1;K0;H1;Q0;A410.00 1@;CP2;I1;K4;H0;Q4;B440.00 4@;CW1;I1;K0;H3;Q0;A440.00 3@;\
         CP1;I1;K8;H2;Q6;B440.00 8@;A440.00 2@;CW2;I1;K0;H5;Q0;A420.00 5@;Z"
    );
    let want = "total 9\nleft 1\nW3 3 1\nP2 P 3\nW1 1 3\nP1 P 6\nW2 2 5\n";
    assert_eq!(listed(&text), want);
    let bytes = allot(&book(&text), 40_000).report;
    let mut fields = vec![field(b'T', b"9"), field(b'R', b"1")];
    for (code, standing, lots) in [
        ("W3", "3", "1"),
        ("P2", "P", "3"),
        ("W1", "1", "3"),
        ("P1", "P", "6"),
        ("W2", "2", "5"),
    ] {
        fields.push(field(b'C', code.as_bytes()));
        fields.push(field(b'E', standing.as_bytes()));
        fields.push(field(b'O', lots.as_bytes()));
        fields.push(field(b'I', b"1"));
        fields.push(field(b'J', lots.as_bytes()));
    }
    assert_eq!(bytes, fields.concat());
}

#[test]
fn one_to_four_seats_and_no_fifth() {
    let seats =
        |count: usize| -> String { (0..count).map(|n| format!("I{n};K1;H1;Q0;")).collect() };
    for count in 1..=4 {
        let text = format!("{GOLD}CA;{}Z", seats(count));
        assert_eq!(listed(&text), "total 0\nleft 0\nA N 0\n");
    }
    // Each seat is 16 bytes, so the fifth I is at 45 + 4 x 16, whatever its code or what follows.
    for fifth in ["I4;K1;H1;Q0;Z", "I0;Z", "Ia;Z", "I,;Z", "I;Z"] {
        assert_eq!(
            refused(&format!("{GOLD}CA;{}{fifth}", seats(4))),
            "3 at 109"
        );
    }
    // Its value cut is 2.
    let cut = [
        book(&format!("{GOLD}CA;{}", seats(4))),
        b"I\0\x02A".to_vec(),
    ]
    .concat();
    assert_eq!(listed_bytes(&cut), "refused 2 at 109\n");
}

#[test]
fn after_c_only_i_may_stand() {
    for next in [
        "K0;H0;Q0;Z",
        "H0;Z",
        "Q0;Z",
        "B400.00 1@;Z",
        "A400.00 1@;Z",
        "CB;Z",
        "Z",
        "J0;Z",
        "i1;Z",
    ] {
        assert_eq!(refused(&format!("{GOLD}CA;{next}")), "3 at 45", "{next}");
    }
    assert_eq!(refused(&format!("{GOLD}CA")), "2 at 45");
}

#[test]
fn within_a_seat_the_order_is_i_k_h_q() {
    for (seat, place) in [
        ("I1;H0;K0;Q0", 49),
        ("I1;I2;K0;H0;Q0", 49),
        ("I1;Q0;K0;H0", 49),
        ("I1;K0;Q0;H0", 53),
        ("I1;K0;K0;H0;Q0", 53),
        ("I1;K0;H0;B400.00 1@", 57),
        ("I1;K0;H0;I2", 57),
        ("I1;K0;H0;Z", 57),
        ("I1;K0;H0;Q0;K0", 61),
        ("I1;K0;H0;Q0;H0", 61),
        ("I1;K0;H0;Q0;Q0", 61),
        ("I1;K0;H0;Q0;J0", 61),
        ("I1;K0;H0;Q0;D0", 61),
    ] {
        assert_eq!(
            refused(&format!("{GOLD}CA;{seat};Z")),
            format!("3 at {place}"),
            "{seat}"
        );
    }
}

#[test]
fn after_a_trade_no_seat_may_stand() {
    for trade in ["B400.00 1@", "A400.00 1@"] {
        let text = format!("{GOLD}CA;I1;K0;H0;Q0;{trade};I2;K0;H0;Q0;Z");
        assert_eq!(refused(&text), "3 at 86");
    }
    // Nor before the first C.
    assert_eq!(refused(&format!("{GOLD}I1;K0;H0;Q0;Z")), "3 at 41");
}

#[test]
fn a_seat_code_is_formed_as_a_customer_code() {
    let code = |code: &str| format!("{GOLD}CA;I{code};K0;H0;Q0;Z");
    for good in ["0", "9", "A", "Z", "ABCDEFGHIJKL", "012345678901"] {
        assert_eq!(listed(&code(good)), "total 0\nleft 0\nA N 0\n");
    }
    for bad in [
        "",
        "a",
        "ABCDEFGHIJKLM",
        "A B",
        "A,B",
        ",",
        "/",
        ":",
        "[",
        "A\0",
    ] {
        assert_eq!(refused(&code(bad)), "5 at 45", "{bad:?}");
        assert_eq!(
            refused(&format!("{GOLD}CA;I1;K0;H0;Q0;I{bad};K0;H0;Q0;Z")),
            "5 at 61"
        );
    }
}

#[test]
fn number_13_a_seat_code_twice_in_one_customer() {
    assert_eq!(
        refused(&format!("{GOLD}CA;I1;K0;H0;Q0;I1;K0;H0;Q0;Z")),
        "13 at 61"
    );
    assert_eq!(
        refused(&format!("{GOLD}CA;I1;K0;H0;Q0;I2;K0;H0;Q0;I1;K0;H0;Q0;Z")),
        "13 at 77"
    );
    assert_eq!(
        refused(&format!(
            "{GOLD}CA;I1;K0;H0;Q0;I2;K0;H0;Q0;I3;K0;H0;Q0;I2;Z"
        )),
        "13 at 93"
    );
    // Before all that comes later, and after what comes earlier.
    assert_eq!(
        refused(&format!("{GOLD}CA;I1;K9;H0;Q0;I1;K,;Z")),
        "13 at 61"
    );
    assert_eq!(
        refused(&format!("{GOLD}CA;I1;K0;H0;Q1;I1;K0;H0;Q0;Z")),
        "8 at 57"
    );
    // A code that begins another is another, and so is a customer's own.
    let none = "total 0\nleft 0\nA N 0\n";
    assert_eq!(
        listed(&format!("{GOLD}CA;I1;K0;H0;Q0;I11;K0;H0;Q0;IA;K0;H0;Q0;Z")),
        none
    );
}

#[test]
fn the_same_seat_code_in_two_customers_is_good() {
    let text = format!("{GOLD}CA;I1;K0;H0;Q0;I2;K0;H0;Q0;CB;I1;K0;H0;Q0;I2;K0;H0;Q0;Z");
    assert_eq!(listed(&text), "total 0\nleft 0\nA N 0\nB N 0\n");
}

#[test]
fn number_8_is_asked_of_each_seat() {
    // Ten held long in all, and five unfilled in all: but at the second seat two against one.
    let text = format!("{GOLD}CA;I1;K9;H0;Q3;I2;K1;H0;Q2;B440.00 10@;Z");
    assert_eq!(refused(&text), "8 at 73");
    let text = format!("{GOLD_UP}CA;I1;K0;H9;Q3;I2;K0;H1;Q2;A360.00 10@;Z");
    assert_eq!(refused(&text), "8 at 73");
    // More unfilled in all than the other seat holds, each within its own.
    let text = format!("{GOLD}CA;I1;K9;H0;Q9;I2;K1;H0;Q1;B440.00 10@;Z");
    assert_eq!(said(&text, "A"), "P 0: 1 0, 2 0");
    // The first seat that breaks it, before the seats after it are read.
    assert_eq!(refused(&format!("{GOLD}CA;I1;K1;H0;Q2;Ia;Z")), "8 at 57");
}

#[test]
fn number_9_is_asked_of_the_sums() {
    // 5 long and 3 short at another seat: the net is 2.
    let text = |lots: u32| format!("{GOLD}CA;I1;K5;H0;Q0;I2;K0;H3;Q0;B400.00 {lots}@;Z");
    assert_eq!(refused(&text(1)), "9 at 41");
    assert_eq!(listed(&text(2)), "total 0\nleft 0\nA N 0\n");
    // As much long as short in all: no net position, and no trades needed.
    let text = format!("{GOLD}CA;I1;K5;H0;Q5;I2;K0;H5;Q0;Z");
    assert_eq!(listed(&text), "total 0\nleft 0\nA N 0\n");
    // Four seats of a million each.
    let seats: String = (1..=4)
        .map(|n| format!("I{n};K1000000;H0;Q1000000;"))
        .collect();
    let trades = "B440.00 1000000@;".repeat(4);
    let text = format!("{GOLD}CA;{seats}{trades}Z");
    assert_eq!(listed(&text), "total 0\nleft 4000000\nA P 0\n");
    let fewer = format!(
        "{GOLD}CA;{seats}B440.00 999999@;{}Z",
        "B440.00 1000000@;".repeat(3)
    );
    assert_eq!(refused(&fewer), "9 at 41");
}

/// Counted pending is the smaller of all Q and the net, not of each seat's: 4 + 6 unfilled, 10 long and 4 short.
#[test]
fn pending_is_capped_once_for_all_seats() {
    let text = format!(
        "{GOLD}CP;IA;K4;H0;Q4;IB;K6;H0;Q6;IC;K0;H4;Q0;B440.00 10@;{}Z",
        gainer(20)
    );
    // 6 of 10 by Q 4, 6 and 0: 2.4 and 3.6.
    assert_eq!(said(&text, "P"), "P 6: A 2, B 4, C 0");
    assert_eq!(said(&text, "W"), "1 6: 1 6");
}

#[test]
fn a_p_customer_is_divided_by_q() {
    // Lots held are 1 and 9 with the unfilled ones 1 and 1: 1 of 2 goes to the smaller code.
    let text = format!(
        "{GOLD}CP;IB;K1;H0;Q1;IA;K9;H0;Q1;B440.00 10@;{}Z",
        gainer(1)
    );
    assert_eq!(said(&text, "P"), "P 1: B 0, A 1");
    // A seat with Q 0 gets nothing, however much it holds.
    let text = format!(
        "{GOLD}CP;IA;K9;H0;Q0;IB;K2;H0;Q2;B440.00 11@;{}Z",
        gainer(1)
    );
    assert_eq!(said(&text, "P"), "P 1: A 0, B 1");
}

#[test]
fn a_tier_customer_is_divided_by_lots_held_on_the_net_side() {
    // Short 6 and 2, long 4 at the first seat: net 4, offered 4. Of 2 by 6 and 2: 1.5 and 0.5, so the smaller code decides.
    let text = |one: &str, other: &str| {
        format!(
            "{GOLD}CW;I{one};K4;H6;Q4;I{other};K0;H2;Q0;A440.00 8@;{}Z",
            loser(2)
        )
    };
    assert_eq!(said(&text("A", "B"), "W"), "1 2: A 2, B 0");
    assert_eq!(said(&text("B", "A"), "W"), "1 2: B 1, A 1");
    // Locked up the gain is on the long side: by K.
    let text =
        format!("{GOLD_UP}CW;IA;K1;H0;Q0;IB;K3;H1;Q1;B360.00 4@;CP;I1;K0;H2;Q2;A360.00 2@;Z");
    // 2 of net 3, by 1 and 3: 0.5 and 1.5.
    assert_eq!(said(&text, "W"), "1 2: A 1, B 1");
}

#[test]
fn equal_remainders_go_to_the_smaller_seat_code() {
    let text = |codes: [&str; 3]| {
        let seats: String = codes.map(|code| format!("I{code};K0;H3;Q0;")).concat();
        format!("{GOLD}CW;{seats}A440.00 9@;{}Z", loser(5))
    };
    assert_eq!(said(&text(["A", "B", "C"]), "W"), "1 5: A 2, B 2, C 1");
    assert_eq!(said(&text(["C", "B", "A"]), "W"), "1 5: C 1, B 2, A 2");
    // A code that begins a longer one is smaller, and digits come before letters.
    assert_eq!(said(&text(["AA", "A", "A0"]), "W"), "1 5: AA 1, A 2, A0 2");
    assert_eq!(said(&text(["Z", "9", "10"]), "W"), "1 5: Z 1, 9 2, 10 2");
}

/// Whose spare lot it is between customers is told by their codes, and between seats by the seats' own.
#[test]
fn seat_codes_do_not_settle_ties_between_customers() {
    let text = format!(
        "{GOLD}CP2;IA;K1;H0;Q1;B440.00 1@;CP1;IZ;K1;H0;Q1;B440.00 1@;CW;I1;K0;H1;Q0;A410.00 1@;Z"
    );
    assert_eq!(listed(&text), "total 1\nleft 1\nP2 P 0\nP1 P 1\nW 3 1\n");
}

#[test]
fn customers_that_take_no_part_have_0_at_each_seat() {
    let text = format!(
        "{GOLD}CN;IB;K5;H0;Q5;IA;K0;H2;Q0;B300.00 5@;{}{}Z",
        loser(2),
        gainer(2)
    );
    assert_eq!(said(&text, "N"), "N 0: B 0, A 0");
    // A P customer that nothing is left for, too.
    let text = format!("{GOLD}CP;IB;K5;H0;Q5;IA;K2;H0;Q2;B440.00 7@;Z");
    assert_eq!(said(&text, "P"), "P 0: B 0, A 0");
}

/// The example of docs/STATEMENT.md with several seats.
#[test]
fn several_seats_by_hand() {
    let text = format!(
        "{GOLD}CP;IB;K3;H0;Q3;IC;K9;H0;Q3;IA;K3;H0;Q3;B440.00 15@;CN1;IM1;K10;H0;Q10;B431.99 10@;\
         CW;I1;K4;H7;Q4;I2;K0;H2;Q0;A440.00 9@;Z"
    );
    assert_eq!(listed(&text), "total 5\nleft 4\nP P 5\nN1 N 0\nW 1 5\n");
    assert_eq!(said(&text, "P"), "P 5: B 2, C 1, A 2");
    assert_eq!(said(&text, "N1"), "N 0: M1 0");
    assert_eq!(said(&text, "W"), "1 5: 1 4, 2 1");
}

/// The division over seats is done once, of what the tiers came to: not in each tier.
#[test]
fn the_offset_is_divided_once() {
    // Tier 1 gives 1 and tier 2 gives 1: 2 of 2 and 2 is 1 each. In each tier by itself A would have had both.
    let text = format!(
        "{GOLD}CP;IA;K2;H0;Q2;IB;K2;H0;Q2;B440.00 4@;CW1;I1;K0;H1;Q0;A440.00 1@;CW2;I1;K0;H1;Q0;A420.00 1@;Z"
    );
    assert_eq!(said(&text, "P"), "P 2: A 1, B 1");
}

#[test]
fn the_longest_entries_of_a_report() {
    // Four seats of a million lots and codes of twelve bytes: O has seven digits, and each J too.
    let seats = |side: &str, q: u32| -> String {
        let (k, h) = if side == "B" {
            (1_000_000, 0)
        } else {
            (0, 1_000_000)
        };
        (1..=4)
            .map(|n| format!("IABCDEFGHIJK{n};K{k};H{h};Q{q};"))
            .collect()
    };
    let trades = |side: &str| format!("{side}440.00 1000000@;").repeat(4);
    let text = format!(
        "{GOLD}CABCDEFGHIJK1;{}{}CABCDEFGHIJK2;{}{}Z",
        seats("B", 1_000_000),
        trades("B"),
        seats("A", 0),
        trades("A")
    );
    let answer = allot(&book(&text), 40_000);
    assert_eq!(
        answer.length,
        (3 + 7) + (3 + 1) + 2 * (15 + 4 + 10 + 4 * (15 + 10))
    );
    assert_eq!(allot(&book(&text), answer.length as usize - 1).number, 11);
    assert_eq!(
        listed(&text),
        "total 4000000\nleft 0\nABCDEFGHIJK1 P 4000000\nABCDEFGHIJK2 1 4000000\n"
    );
}

/// Seats that change places keep their lots, since ties go by their codes.
#[test]
fn the_order_of_seats_moves_their_lots_with_them() {
    let seats = ["IA;K5;H0;Q3;", "IB;K5;H0;Q3;", "IC;K1;H1;Q1;"];
    let orders = [
        [0, 1, 2],
        [0, 2, 1],
        [1, 0, 2],
        [1, 2, 0],
        [2, 0, 1],
        [2, 1, 0],
    ];
    for order in orders {
        let own: String = order.map(|at| seats[at]).concat();
        let text = format!("{GOLD}CP;{own}B440.00 11@;{}Z", gainer(4));
        let mut given = lines(&text).remove(0).seats;
        given.sort();
        // 4 by 3, 3 and 1: 1.71, 1.71 and 0.57.
        let want = [("A", 2), ("B", 2), ("C", 0)];
        assert_eq!(
            given,
            want.map(|(code, lots)| (code.as_bytes().to_vec(), lots))
        );
    }
}
