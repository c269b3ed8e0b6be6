//! Request [10]: the columns of the listing that document 01 gives in full, and runs that are too short.

use crate::common::{book, GOLD};
use second::columns::{columns_into, Runs};

const LISTING: &str =
    "CW3;I1;K0;H1;Q0;A410.00 1@;CP2;I1;K4;H0;Q4;B440.00 4@;CW1;I1;K0;H3;Q0;A440.00 3@;\
    CP1;I1;K8;H2;Q6;B440.00 8@;A440.00 2@;CW2;I1;K0;H5;Q0;A420.00 5@;Z";

struct Filled {
    answer: (u64, u64, u64),
    standings: Vec<u8>,
    lots: [Vec<u64>; 3],
}

/// Lends runs of these places, filled with `x` and 7.
fn columns(text: &str, places: [usize; 4]) -> Filled {
    let mut standings = vec![b'x'; places[0]];
    let mut lots = [1, 2, 3].map(|run| vec![7; places[run]]);
    let [offered, pending, offsets] = &mut lots;
    let runs = Runs {
        standings: &mut standings,
        offered,
        pending,
        offsets,
    };
    let answer = columns_into(&book(text), runs);
    Filled {
        answer,
        standings,
        lots,
    }
}

#[test]
fn the_listing_in_columns() {
    let filled = columns(&format!("{GOLD}{LISTING}"), [5, 6, 5, 7]);
    assert_eq!(filled.answer, (0, 0, 5));
    assert_eq!(filled.standings, b"3P1P2");
    let [offered, pending, offsets] = filled.lots;
    assert_eq!(offered, [1, 0, 3, 0, 5, 7]);
    assert_eq!(pending, [0, 4, 0, 6, 0]);
    assert_eq!(offsets, [1, 3, 3, 6, 5, 7, 7]);
}

#[test]
fn a_short_run_is_11_and_nothing_is_written() {
    for short in 0..4 {
        let mut places = [9; 4];
        places[short] = 4;
        let filled = columns(&format!("{GOLD}{LISTING}"), places);
        assert_eq!(filled.answer, (11, 5, 0));
        assert!(filled.standings.iter().all(|&byte| byte == b'x'));
        assert!(filled.lots.iter().flatten().all(|&lots| lots == 7));
    }
}

#[test]
fn a_refused_book_is_no_11() {
    let filled = columns("DD;Z", [0, 9, 9, 9]);
    assert_eq!(filled.answer, (3, 4, 0));
    assert!(filled.lots.iter().flatten().all(|&lots| lots == 7));
}

#[test]
fn no_customers_need_no_places() {
    assert_eq!(columns(&format!("{GOLD}Z"), [0; 4]).answer, (0, 0, 0));
}
