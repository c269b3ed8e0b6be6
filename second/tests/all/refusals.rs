//! Every refusal number at its place, and the order of the rules within one field.

use crate::common::{book, listed, listed_bytes, GOLD, GOLD_UP};
use second::{allot, allot_into, Answer};

/// A customer that breaks nothing: 20 bytes, and then its trades.
const GOOD: &str = "CA;I1;K0;H0;Q0;";

fn refused(text: &str) -> String {
    let listing = listed(text);
    let line = listing.strip_prefix("refused ").expect("a refusal");
    line.strip_suffix('\n').expect("a line feed").to_string()
}

/// The answer to one value in a place where a good one makes no refusal.
fn in_term(tag: char, value: &str) -> String {
    let terms = [
        ('D', "D"),
        ('X', "2"),
        ('S', "400.00"),
        ('L', "8.000"),
        ('U', "99.999"),
        ('V', "0.001"),
    ];
    let fields =
        terms.map(|(name, good)| format!("{name}{};", if name == tag { value } else { good }));
    listed(&format!("{}Z", fields.concat()))
}

fn in_lots(tag: char, value: &str) -> String {
    let fields = ['K', 'H', 'Q'].map(|name| {
        let good = if tag == 'Q' && name == 'K' {
            "1000000"
        } else {
            "0"
        };
        format!("{name}{};", if name == tag { value } else { good })
    });
    listed(&format!(
        "{GOLD}CA;I1;{}A400.00 1000000@;B400.00 1000000@;Z",
        fields.concat()
    ))
}

fn in_trade(value: &str) -> String {
    listed(&format!("{GOLD}{GOOD}B{value};Z"))
}

fn is_accepted(listing: &str) -> bool {
    listing.starts_with("total ")
}

fn is_refused(listing: &str, number: u32) -> bool {
    listing.starts_with(&format!("refused {number} at "))
}

#[test]
fn number_1_comes_before_all_others() {
    assert_eq!(listed_bytes(&[0; 60_001]), "refused 1 at 0\n");
    assert_eq!(listed_bytes(&[0; 60_000]), "refused 3 at 0\n");
    assert_eq!(listed_bytes(&[0xff; 60_001]), "refused 1 at 0\n");
    assert_eq!(listed_bytes(&[0xff; 60_000]), "refused 2 at 0\n");
}

#[test]
fn number_2_where_a_field_must_begin() {
    assert_eq!(listed_bytes(b""), "refused 2 at 0\n");
    assert_eq!(listed_bytes(b"D"), "refused 2 at 0\n");
    assert_eq!(listed_bytes(b"D\0"), "refused 2 at 0\n");
    assert_eq!(listed_bytes(b"D\0\x01"), "refused 2 at 0\n");
    assert_eq!(listed_bytes(b"D\0\x01D"), "refused 2 at 4\n");
    assert_eq!(refused(GOLD), "2 at 41");
    assert_eq!(refused(&format!("{GOLD}{GOOD}")), "2 at 61");
}

#[test]
fn number_2_or_3_at_every_cut_of_a_book() {
    let whole = book(&format!("{GOLD}CA;I1;K1;H0;Q1;B440.00 1@;Z"));
    assert!(is_accepted(&listed_bytes(&whole)));
    let begins = [0, 4, 8, 17, 25, 33, 41, 45, 49, 53, 57, 61, 86];
    for cut in 0..whole.len() {
        let at = begins.iter().rev().find(|&&begin| begin <= cut).unwrap();
        assert_eq!(listed_bytes(&whole[..cut]), format!("refused 2 at {at}\n"));
    }
}

#[test]
fn number_2_reads_the_high_length_byte() {
    let bytes = [b"D\x01\x01D".to_vec(), book("S400.00")].concat();
    assert_eq!(listed_bytes(&bytes), "refused 2 at 0\n");
}

#[test]
fn number_3_a_tag_that_does_not_belong_there() {
    assert_eq!(refused("ZD"), "3 at 0");
    assert_eq!(refused("d"), "3 at 0");
    assert_eq!(refused(&format!("{GOLD}V4.000;Z")), "3 at 41");
    assert_eq!(refused(&format!("{GOLD}K0;Z")), "3 at 41");
    assert_eq!(refused(&format!("{GOLD}B400.00 1@;Z")), "3 at 41");
    assert_eq!(refused(&format!("{GOLD}CA;H0;K0;Q0;Z")), "3 at 45");
    assert_eq!(refused(&format!("{GOLD}CA;CB;I1;K0;H0;Q0;Z")), "3 at 45");
    assert_eq!(refused(&format!("{GOLD}CA;I1;K0;H0;Z")), "3 at 57");
    assert_eq!(refused(&format!("{GOLD}{GOOD}Q0;Z")), "3 at 61");
    assert_eq!(refused(&format!("{GOLD}{GOOD}b400.00 1;Z")), "3 at 61");
}

#[test]
fn number_3_comes_before_4_and_5_of_the_field() {
    assert_eq!(refused("X8,000"), "3 at 0");
    assert_eq!(refused("DD;X2;L8,000;Z"), "3 at 8");
}

#[test]
fn number_4_a_comma_in_each_of_its_fields() {
    for (tag, place) in [('S', 8), ('L', 17), ('U', 25), ('V', 34)] {
        for value in [
            ",", "8,000", "400,00", "4,00.00", "8.000,", ",8.000", "x,y", "+5,",
        ] {
            assert_eq!(in_term(tag, value), format!("refused 4 at {place}\n"));
        }
    }
    for tag in ['K', 'H', 'Q'] {
        for value in [",", "1,000", "1,", ",1", "07,", "99999999,9"] {
            assert!(is_refused(&in_lots(tag, value), 4), "{tag} {value}");
        }
    }
    for value in [
        ",",
        "400,00 1@",
        "400.00 1,000@",
        "400.00,1@",
        "400.00 1,@",
        "400.00 1 2025,0115 1000",
        "400.00 1 20250115,1000",
        "400.00 1 20250115 10,00",
        "400.00 1@,",
        "400,00 1",
        "400.00 1,20250431 2400",
        "x,",
    ] {
        assert_eq!(in_trade(value), "refused 4 at 61\n");
        assert_eq!(refused(&format!("{GOLD}{GOOD}A{value};Z")), "4 at 61");
    }
}

#[test]
fn number_5_the_lock_is_one_byte_d_or_u() {
    for value in ["", "X", "d", "DD", "D ", ","] {
        assert_eq!(in_term('D', value), "refused 5 at 0\n");
    }
    assert!(is_accepted(&in_term('D', "U")));
}

#[test]
fn number_5_prices() {
    for value in ["0.01", "0.10", "9.99", "10.00", "99999.99", "400.00"] {
        assert!(is_accepted(&in_term('S', value)), "{value}");
    }
    for value in [
        "",
        ".",
        "0",
        "0.00",
        "00.01",
        "01.00",
        ".50",
        "5",
        "5.",
        "5.0",
        "5.000",
        "100000.00",
        "+5.00",
        "-5.00",
        "5.00 ",
        " 5.00",
        "5.0a",
        "5:00",
        "5..00",
        "5.0.",
        "000400.00",
        "5.00\0",
    ] {
        assert_eq!(in_term('S', value), "refused 5 at 8\n", "{value}");
    }
}

#[test]
fn number_5_rates() {
    for tag in ['L', 'U', 'V'] {
        for value in ["0.002", "8.000", "10.000", "99.998"] {
            assert!(is_accepted(&in_term(tag, value)), "{tag} {value}");
        }
        for value in [
            "", "0.000", "8.00", "8.0000", "08.000", "100.000", ".500", "8", "8.", "8 000",
            "+8.000",
        ] {
            assert!(is_refused(&in_term(tag, value), 5), "{tag} {value}");
        }
    }
    assert!(is_accepted(&in_term('L', "0.001")));
    assert!(is_accepted(&in_term('L', "99.999")));
}

#[test]
fn number_5_lots() {
    for tag in ['K', 'H', 'Q'] {
        for value in ["0", "1", "9", "10", "999999", "1000000"] {
            assert!(is_accepted(&in_lots(tag, value)), "{tag} {value}");
        }
        for value in [
            "",
            "00",
            "07",
            "0000000",
            "1000001",
            "9999999",
            "10000000",
            "00000001",
            "+5",
            "-1",
            " 1",
            "1 ",
            "1.0",
            "a",
            "4294967297",
            "18446744073709551617",
        ] {
            assert!(is_refused(&in_lots(tag, value), 5), "{tag} {value}");
        }
    }
}

#[test]
fn number_5_trades() {
    for value in ["80.00 1@", "2000.00 1000000@", "400.00 999999@"] {
        assert!(is_accepted(&in_trade(value)), "{value}");
    }
    // The ends of the range, with an S that they are not far from.
    for price in ["0.01", "99999.99"] {
        let terms = format!("DD;X2;S{price};L8.000;U8.000;V4.000;");
        let listing = listed(&format!("{terms}{GOOD}B{price} 1@;Z"));
        assert!(is_accepted(&listing), "{price}");
    }
    for value in [
        "",
        " ",
        "@",
        "400.00@",
        "400.00 @",
        "400.00  1@",
        " 400.00 1@",
        "400.00\t1@",
        "400.001@",
        "400.00 0@",
        "400.00 01@",
        "400.00 1000001@",
        "400.00 10000000@",
        "0.00 1@",
        "00.01 1@",
        "400.0 1@",
        "400 1@",
        "400.000 1@",
        "400.00-1@",
        "100000.00 1@",
    ] {
        assert_eq!(in_trade(value), "refused 5 at 61\n", "{value}");
    }
}

#[test]
fn number_5_a_trade_without_a_stamp_or_with_too_much_of_one() {
    for value in [
        // every value of the old form
        "0.01 1",
        "400.00 1",
        "99999.99 1000000",
        // parts that lack, and one more
        "400.00 1 ",
        "400.00 1 20250115",
        "400.00 1 20250115 ",
        "400.00 1 1000",
        "400.00 1 1000 20250115",
        "400.00 20250115 1000",
        "400.00 1@ ",
        "400.00 1@ 1",
        "400.00 1@@",
        "400.00 1@\n",
        "400.00 1@\0",
        // blanks
        "400.00 1  20250115 1000",
        "400.00 1 20250115  1000",
        "400.00 1 202501151000",
        "400.00 120250115 1000",
        "400.00 1\t20250115 1000",
        "400.00 1 20250115\t1000",
        "400.00 1 20250115T1000",
        "400.00 1 2025 0115 1000",
        // digits
        "400.00 1 2025115 1000",
        "400.00 1 020250115 1000",
        "400.00 1 202501150 1000",
        "400.00 1 20250115 900",
        "400.00 1 20250115 10000",
        "400.00 1 20250115 01000",
        "400.00 1 20250115 10:00",
        "400.00 1 2025-1-5 1000",
        "400.00 1 +2025115 1000",
        "400.00 1 2025011a 1000",
        "400.00 1 20250115 +900",
        "400.00 1 20250115  900",
        "400.00 1 20250115 9.00",
        "400.00 1 20250115 100/",
        "400.00 1 20250115 100:",
        "400.00 1 2025011/ 1000",
        "400.00 1 2025011: 1000",
    ] {
        assert_eq!(in_trade(value), "refused 5 at 61\n", "{value}");
    }
}

/// A trade on this day, and one at this time.
fn on(day: &str) -> String {
    in_trade(&format!("400.00 1 {day} 1000"))
}

fn at(time: &str) -> String {
    in_trade(&format!("400.00 1 20250115 {time}"))
}

#[test]
fn number_5_days_of_the_calendar_from_2000_to_2099() {
    for good in [
        "20000101", "20000229", "20001231", "20010228", "20040229", "20240229", "20250131",
        "20250228", "20250331", "20250430", "20250531", "20250630", "20250731", "20250831",
        "20250930", "20251031", "20251130", "20251231", "20960229", "20991231",
    ] {
        assert!(is_accepted(&on(good)), "{good}");
    }
    for bad in [
        "00000000", "00010101", "19990101", "19991231", "20000100", "20000001", "20000230",
        "20010229", "20230229", "20240230", "20250001", "20250100", "20250132", "20250229",
        "20250332", "20250431", "20250532", "20250631", "20250732", "20250832", "20250931",
        "20251032", "20251131", "20251232", "20251301", "20252001", "20259999", "20970229",
        "21000101", "21000228", "21000229", "99991231", "99999999",
    ] {
        assert_eq!(on(bad), "refused 5 at 61\n", "{bad}");
    }
}

/// Every number of eight digits from 19990101 on: as many as the calendar has are days.
#[test]
fn number_5_a_hundred_years_have_36_525_days() {
    let is_day = |day: u32| second::stamp::Stamp::of(day, 0).is_some();
    assert_eq!(
        (19_990_000..=21_010_000).filter(|&day| is_day(day)).count(),
        36_525
    );
    for month in 1..=12 {
        let days = |year: u32| {
            let first = 10_000 * year + 100 * month;
            (first..first + 100).filter(|&day| is_day(day)).count()
        };
        let usual = [31, 28, 31, 30, 31, 30, 31, 31, 30, 31, 30, 31][month as usize - 1];
        for year in 2000..=2099 {
            let more = usize::from(month == 2 && year % 4 == 0);
            assert_eq!(days(year), usual + more, "{year} {month}");
        }
    }
}

#[test]
fn number_5_times_of_the_clock() {
    for good in [
        "0000", "0001", "0059", "0100", "0230", "0900", "0959", "1000", "1949", "1950", "1959",
        "2000", "2300", "2359",
    ] {
        assert!(is_accepted(&at(good)), "{good}");
    }
    for bad in [
        "0060", "0099", "0160", "1960", "1999", "2360", "2399", "2400", "2401", "2459", "9900",
        "9999",
    ] {
        assert_eq!(at(bad), "refused 5 at 61\n", "{bad}");
    }
    let good = (0..=9_999).filter(|&time| second::stamp::Stamp::of(20_250_115, time).is_some());
    assert_eq!(good.count(), 24 * 60);
}

#[test]
fn number_5_stamps_are_judged_on_the_other_side_and_without_a_position() {
    // A holds 1 long, and its sale is on the other side; B holds nothing; C has enough in its newest trade.
    for bad in ["20250431 1000", "20250115 2400", "20250115 1000 "] {
        let other = format!("{GOLD}CA;I1;K1;H0;Q0;B400.00 1@;A400.00 1 {bad};Z");
        assert_eq!(refused(&other), "5 at 86");
        let none = format!("{GOLD}CB;I1;K0;H0;Q0;B400.00 1@;A400.00 1 {bad};Z");
        assert_eq!(refused(&none), "5 at 86");
        let old = format!("{GOLD}CC;I1;K1;H0;Q0;B400.00 1@;B400.00 1 {bad};Z");
        assert_eq!(refused(&old), "5 at 86");
    }
}

#[test]
fn number_5_codes() {
    let code = |code: &str| listed(&format!("{GOLD}C{code};I1;K0;H0;Q0;Z"));
    for good in ["0", "9", "A", "Z", "ABCDEFGHIJKL", "012345678901"] {
        assert_eq!(code(good), format!("total 0\nleft 0\n{good} N 0\n"));
    }
    for bad in [
        "",
        "a",
        "ABCDEFGHIJKLM",
        "A B",
        "A,B",
        "/",
        ":",
        "@",
        "[",
        "A\0",
    ] {
        assert_eq!(code(bad), "refused 5 at 41\n", "{bad}");
    }
}

#[test]
fn number_5_z_has_no_value_and_that_is_judged_before_what_follows() {
    assert_eq!(refused(&format!("{GOLD}Z0")), "5 at 41");
    assert_eq!(refused(&format!("{GOLD}Z0;Z")), "5 at 41");
    assert_eq!(refused(&format!("{GOLD}Z;Z")), "3 at 44");
}

#[test]
fn number_6_u_is_greater_than_v() {
    assert_eq!(refused("DD;X2;S400.00;L8.000;U4.000;V4.000;Z"), "6 at 33");
    assert_eq!(refused("DD;X2;S400.00;L8.000;U4.000;V4.001;Z"), "6 at 33");
    assert!(is_accepted(&listed("DD;X2;S400.00;L8.000;U4.001;V4.000;Z")));
    assert!(is_accepted(&listed(
        "DD;X2;S400.00;L8.000;U10.000;V9.999;Z"
    )));
    // 4 and 5 of V come first.
    assert_eq!(refused("DD;X2;S400.00;L8.000;U4.000;V8,000;Z"), "4 at 33");
    assert_eq!(refused("DD;X2;S400.00;L8.000;U4.000;V8.00;Z"), "5 at 33");
}

#[test]
fn number_7_at_the_second_c() {
    assert_eq!(refused(&format!("{GOLD}{GOOD}{GOOD}Z")), "7 at 61");
    assert_eq!(
        refused(&format!("{GOLD}{GOOD}CB;I1;K0;H0;Q0;CA;I1;K,")),
        "7 at 81"
    );
    assert!(is_accepted(&listed(&format!(
        "{GOLD}{GOOD}CAA;I1;K0;H0;Q0;Z"
    ))));
}

#[test]
fn number_8_q_against_the_locked_side() {
    assert_eq!(refused(&format!("{GOLD}CA;I1;K1;H9;Q2;Z")), "8 at 57");
    assert_eq!(refused(&format!("{GOLD_UP}CA;I1;K9;H1;Q2;Z")), "8 at 57");
    assert!(is_accepted(&listed(&format!(
        "{GOLD}CA;I1;K2;H9;Q2;A400.00 7@;Z"
    ))));
    assert!(is_accepted(&listed(&format!(
        "{GOLD_UP}CA;I1;K9;H2;Q2;B400.00 7@;Z"
    ))));
    // 4 and 5 of Q come first, and 8 comes before the trades and 9.
    assert_eq!(refused(&format!("{GOLD}CA;I1;K1;H0;Q2,;Z")), "4 at 57");
    assert_eq!(refused(&format!("{GOLD}CA;I1;K1;H0;Q02;Z")), "5 at 57");
    assert_eq!(
        refused(&format!("{GOLD}CA;I1;K1;H0;Q2;B4,00 1@;Z")),
        "8 at 57"
    );
}

#[test]
fn number_9_at_the_customers_own_c() {
    assert_eq!(
        refused(&format!("{GOLD}CA;I1;K2;H0;Q0;B400.00 1@;Z")),
        "9 at 41"
    );
    assert_eq!(
        refused(&format!("{GOLD}CA;I1;K2;H0;Q0;A400.00 2@;Z")),
        "9 at 41"
    );
    assert_eq!(
        refused(&format!("{GOLD}CA;I1;K0;H2;Q0;B400.00 2@;A400.00 1@;Z")),
        "9 at 41"
    );
    assert_eq!(
        refused(&format!("{GOLD}{GOOD}CB;I1;K1;H0;Q0;CC;I1;K0;H0;Q0;Z")),
        "9 at 61"
    );
    // Only the net must be reached, by the sum of several trades.
    assert!(is_accepted(&listed(&format!(
        "{GOLD}CA;I1;K5;H3;Q0;B400.00 1@;B400.00 1@;Z"
    ))));
    assert_eq!(
        refused(&format!("{GOLD}CA;I1;K5;H2;Q0;B400.00 1@;B400.00 1@;Z")),
        "9 at 41"
    );
}

#[test]
fn a_book_of_terms_and_z_is_accepted() {
    assert_eq!(listed(&format!("{GOLD}Z")), "total 0\nleft 0\n");
}

#[test]
fn the_first_broken_field_decides() {
    assert_eq!(refused("DX;X1;S4,00;Z"), "5 at 0");
    assert_eq!(refused("DD;X1;S4,00;Z"), "5 at 4");
    assert_eq!(refused("DD;X2;S4,00;L8;Z"), "4 at 8");
    assert_eq!(refused(&format!("{GOLD}CA;I1;Kx;H1,0;Q0;Z")), "5 at 49");
}

/// Document 01's own example has a report of 113 bytes.
fn example() -> Vec<u8> {
    book(&format!(
        "{GOLD}CW3;I1;K0;H1;Q0;A410.00 1@;CP2;I1;K4;H0;Q4;B440.00 4@;CW1;I1;K0;H3;Q0;A440.00 3@;\
         CP1;I1;K8;H2;Q6;B440.00 8@;A440.00 2@;CW2;I1;K0;H5;Q0;A420.00 5@;Z"
    ))
}

#[test]
fn number_11_says_the_length_needed() {
    for room in [0, 1, 112] {
        let refused = Answer {
            number: 11,
            place: 113,
            length: 0,
            report: Vec::new(),
        };
        assert_eq!(allot(&example(), room), refused);
    }
    for room in [113, 114, 100_000] {
        let answer = allot(&example(), room);
        assert_eq!((answer.number, answer.place, answer.length), (0, 0, 113));
        assert_eq!(answer.report.len(), 113);
    }
}

#[test]
fn number_11_comes_last() {
    let answer = allot(&book(&format!("{GOLD}Z0")), 0);
    assert_eq!((answer.number, answer.place, answer.length), (5, 41, 0));
    let answer = allot(&[0; 60_001], 0);
    assert_eq!((answer.number, answer.place, answer.length), (1, 0, 0));
}

#[test]
fn bytes_after_the_report_stay_as_they_were() {
    let report = allot(&example(), 113).report;
    for room in [113, 114, 200] {
        for before in [0x00, 0xa5, 0xff] {
            let mut lent = vec![before; room];
            assert_eq!(allot_into(&example(), &mut lent), (0, 0, 113));
            assert_eq!(lent[..113], report);
            assert!(lent[113..].iter().all(|&byte| byte == before));
        }
    }
}

#[test]
fn on_refusal_no_byte_is_altered() {
    let refused = [
        (example(), 112, (11, 113, 0)),
        (example(), 0, (11, 113, 0)),
        (book("DD;X2;S4,00"), 500, (4, 8, 0)),
        (
            book(&format!("{GOLD}CA;I1;K2;H0;Q0;B400.00 1@;Z")),
            500,
            (9, 41, 0),
        ),
    ];
    for (book, room, want) in refused {
        let mut lent = vec![0x5a; room];
        assert_eq!(allot_into(&book, &mut lent), want);
        assert!(lent.iter().all(|&byte| byte == 0x5a));
    }
}

#[test]
fn the_two_forms_of_the_call_agree() {
    for index in 0..2_000 {
        let book = second::make::book(3, index).bytes;
        let answer = allot(&book, 200);
        let mut lent = [0; 200];
        let (number, place, length) = allot_into(&book, &mut lent);
        assert_eq!(
            (answer.number, answer.place, answer.length),
            (number, place, length)
        );
        assert_eq!(answer.report, lent[..length as usize]);
    }
}
