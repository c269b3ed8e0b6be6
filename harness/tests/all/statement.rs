//! Reports taken apart, and each fact with a statement that breaks it alone.

use harness::rearrange::Arrangement;
use harness::statement::{held, read, Held, Line, Seat, Stated, Statement};

/// Document 01's listing as a report, with one seat for each customer.
const LISTING: &[u8] = b"T\0\x019R\0\x011\
C\0\x02W3E\0\x013O\0\x011I\0\x02M1J\0\x011\
C\0\x02P2E\0\x01PO\0\x013I\0\x02M1J\0\x013\
C\0\x02W1E\0\x011O\0\x013I\0\x02M1J\0\x013\
C\0\x02P1E\0\x01PO\0\x016I\0\x02M1J\0\x016\
C\0\x02W2E\0\x012O\0\x015I\0\x02M1J\0\x015";
/// The book of that listing.
const BOOK: &[u8] = include_bytes!("../../../examples/listing.book");
/// The sample with several seats, and its report.
const SEATS: &[u8] = include_bytes!("../../../examples/seats.book");
const OF_SEATS: &[u8] = b"T\0\x015R\0\x013\
C\0\x02P1E\0\x01PO\0\x015I\0\x02M2J\0\x012I\0\x02M1J\0\x013I\0\x02M3J\0\x010\
C\0\x02W1E\0\x011O\0\x015I\0\x02M2J\0\x012I\0\x02M1J\0\x013\
C\0\x02N1E\0\x01NO\0\x010I\0\x02M1J\0\x010I\0\x02M4J\0\x010";

fn listing() -> Statement {
    read(LISTING).expect("a report")
}

fn customers() -> Vec<Held> {
    held(BOOK).expect("an accepted book")
}

/// Which sentences hold, in their order. That total and residue are what is counted is tried by itself.
fn facts(report: &Statement) -> [bool; 4] {
    let stated = Stated {
        report: report.clone(),
        book: customers(),
    };
    [
        stated.both_sides().is_ok(),
        stated.none_exceeds().is_ok(),
        stated.tiers_in_turn().is_ok(),
        stated.residue_after_all().is_ok(),
    ]
}

fn with_offsets(offsets: [u64; 5], residue: u64) -> Statement {
    let mut statement = listing();
    for (line, offset) in statement.lines.iter_mut().zip(offsets) {
        line.offset = offset;
    }
    let pending = statement.lines.iter().filter(|line| line.standing == b'P');
    statement.total = pending.map(|line| line.offset).sum();
    statement.residue = residue;
    statement
}

#[test]
fn a_report_is_taken_apart() {
    let statement = listing();
    assert_eq!((statement.total, statement.residue), (9, 1));
    let second = Line {
        code: b"P2".to_vec(),
        standing: b'P',
        offset: 3,
        seats: vec![(b"M1".to_vec(), 3)],
    };
    assert_eq!(statement.lines[1], second);
    assert_eq!(statement.lines.len(), 5);
}

#[test]
fn a_customers_stake_is_its_own_lots() {
    let book = customers();
    let seat = |long, short, unfilled| Seat {
        code: b"M1".to_vec(),
        long,
        short,
        unfilled,
    };
    let p1 = Held {
        code: b"P1".to_vec(),
        seats: vec![seat(8, 2, 6)],
    };
    assert_eq!(book[3], p1);
    let lines = listing().lines;
    let stakes = book
        .iter()
        .zip(&lines)
        .map(|(held, line)| held.stake(line.standing));
    assert_eq!(stakes.collect::<Vec<_>>(), [1, 4, 3, 6, 5]);
    // Sums over seats: long 8 and short 2 in all, 4 unfilled.
    let some = Held {
        seats: vec![seat(3, 2, 3), seat(5, 0, 1)],
        ..p1
    };
    assert_eq!(
        b"P123N".map(|standing| some.stake(standing)),
        [4, 6, 6, 6, 0]
    );
    assert_eq!(some.weights(b'P'), [3, 1]);
    assert_eq!(some.weights(b'2'), [3, 5]);
    assert_eq!(some.weights(b'N'), [0, 0]);
    let short = Held {
        seats: vec![seat(1, 2, 0), seat(0, 3, 0)],
        ..some
    };
    assert_eq!(short.weights(b'1'), [2, 3]);
}

#[test]
fn the_report_names_the_books_customers() {
    let same = |book: &[u8]| Stated::read(LISTING, book).is_ok();
    assert!(same(BOOK));
    // the customers in another order, and the first one left out
    let other = |customers: &[usize]| Arrangement::of_customers(BOOK, customers).of(BOOK);
    assert!(!same(&other(&[1, 0, 2, 3, 4])));
    assert!(!same(&other(&[1, 2, 3, 4])));
    assert!(same(&other(&[0, 1, 2, 3, 4])));
}

#[test]
fn the_report_names_the_customers_seats() {
    assert!(Stated::read(OF_SEATS, SEATS).is_ok());
    // another code, the seats in another order, one left out
    let other = |from: &[u8], to: &[u8]| {
        let at = OF_SEATS.windows(from.len()).position(|part| part == from);
        let at = at.expect("a part of the report");
        [&OF_SEATS[..at], to, &OF_SEATS[at + from.len()..]].concat()
    };
    let (m1, m2, m3) = (
        b"I\0\x02M1J\0\x013",
        b"I\0\x02M2J\0\x012",
        b"I\0\x02M3J\0\x010",
    );
    let first = [m2.as_slice(), m1].concat();
    for wrong in [
        other(m3, b"I\0\x02M4J\0\x010"),
        other(&first, &[m1.as_slice(), m2].concat()),
        other(m3, b""),
    ] {
        let told = Stated::read(&wrong, SEATS).expect_err("other seats");
        assert_eq!(told, "the report's seats are not the book's");
    }
}

/// Which sentences of seats hold: within the weights, adding up, none for nobody.
fn facts_of_seats(lots: [u64; 7]) -> [bool; 3] {
    let mut stated = Stated::read(OF_SEATS, SEATS).expect("a report");
    let seats = stated
        .report
        .lines
        .iter_mut()
        .flat_map(|line| &mut line.seats);
    for ((_, own), lots) in seats.zip(lots) {
        *own = lots;
    }
    [
        stated.seats_within().is_ok(),
        stated.seats_add_up().is_ok(),
        stated.seats_of_nobody().is_ok(),
    ]
}

#[test]
fn each_sentence_of_seats_can_be_broken() {
    // P1 has 4, 4 and 0 unfilled at its seats, and W1 holds 3 and 3 short.
    assert_eq!(facts_of_seats([2, 3, 0, 2, 3, 0, 0]), [true; 3]);
    assert_eq!(facts_of_seats([4, 1, 0, 2, 3, 0, 0]), [true; 3]);
    assert_eq!(facts_of_seats([5, 0, 0, 2, 3, 0, 0]), [false, true, true]);
    assert_eq!(facts_of_seats([2, 2, 1, 2, 3, 0, 0]), [false, true, true]);
    assert_eq!(facts_of_seats([2, 3, 0, 1, 4, 0, 0]), [false, true, true]);
    assert_eq!(facts_of_seats([2, 2, 0, 2, 3, 0, 0]), [true, false, true]);
    assert_eq!(facts_of_seats([2, 3, 0, 3, 3, 0, 0]), [true, false, true]);
    // N1 holds lots, and none of them is offset.
    assert_eq!(facts_of_seats([2, 3, 0, 2, 3, 1, 0]), [false, false, false]);
}

#[test]
fn bytes_not_of_the_form_are_no_report() {
    let bad: [&[u8]; 16] = [
        b"",
        b"T\0\x010",
        b"R\0\x010T\0\x010",
        b"T\0\x010R\0\x010Z",
        b"T\0\x010R\0\x010Z\0\0",
        b"T\0\x0200R\0\x010",
        b"T\0\x02+1R\0\x010",
        b"T\0\x010R\0\x010C\0\x01AE\0\x01N",
        b"T\0\x010R\0\x010C\0\x01AE\0\x01XO\0\x010I\0\x011J\0\x010",
        b"T\0\x010R\0\x010C\0\x01aE\0\x01NO\0\x010I\0\x011J\0\x010",
        // no seat, half a one, a code that is none, no number, J before I, and five seats
        b"T\0\x010R\0\x010C\0\x01AE\0\x01NO\0\x010",
        b"T\0\x010R\0\x010C\0\x01AE\0\x01NO\0\x010I\0\x011",
        b"T\0\x010R\0\x010C\0\x01AE\0\x01NO\0\x010I\0\x01aJ\0\x010",
        b"T\0\x010R\0\x010C\0\x01AE\0\x01NO\0\x010I\0\x011J\0\x0200",
        b"T\0\x010R\0\x010C\0\x01AE\0\x01NO\0\x010J\0\x010I\0\x011",
        b"T\0\x010R\0\x010C\0\x01AE\0\x01NO\0\x010I\0\x011J\0\x010I\0\x012J\0\x010I\0\x013J\0\x010I\0\x014J\0\x010I\0\x015J\0\x010",
    ];
    assert!(read(b"T\0\x010R\0\x010C\0\x01AE\0\x01NO\0\x010I\0\x011J\0\x010").is_ok());
    for report in bad {
        assert!(read(report).is_err(), "{}", report.escape_ascii());
    }
}

#[test]
fn all_facts_hold_of_the_listing() {
    assert_eq!(facts(&listing()), [true; 4]);
    assert_eq!(facts(&with_offsets([1, 3, 3, 6, 5], 1)), [true; 4]);
}

#[test]
fn sides_that_are_not_the_total_break_fact_1() {
    let mut invented = listing();
    invented.total = 10;
    assert_eq!(facts(&invented), [false, true, true, true]);
    // The gaining side gives a lot less than the pending side gets.
    assert_eq!(
        facts(&with_offsets([0, 3, 3, 6, 5], 0)),
        [false, true, true, true]
    );
}

#[test]
fn a_residue_is_what_is_left_of_the_counted_pending() {
    let left = |residue| Stated {
        report: Statement {
            residue,
            ..listing()
        },
        book: customers(),
    };
    assert!(left(1).the_residue().is_ok());
    assert!(left(0).the_residue().is_err());
    assert!(left(2).the_residue().is_err());
}

#[test]
fn more_than_its_own_breaks_fact_2() {
    // P1 has 6 counted pending lots and P2 has 4.
    assert_eq!(
        facts(&with_offsets([1, 2, 3, 7, 5], 1)),
        [true, false, true, true]
    );
}

#[test]
fn a_tier_before_its_turn_breaks_fact_3() {
    // W3 of tier 3 gives while W2 of tier 2 has a lot left; then W2 while W1 of tier 1 has.
    assert_eq!(
        facts(&with_offsets([1, 2, 3, 6, 4], 0)),
        [true, true, false, true]
    );
    assert_eq!(
        facts(&with_offsets([0, 2, 2, 5, 5], 0)),
        [true, true, false, true]
    );
}

#[test]
fn a_residue_before_all_is_given_breaks_fact_4() {
    assert_eq!(
        facts(&with_offsets([0, 3, 3, 5, 5], 2)),
        [true, true, true, false]
    );
}
