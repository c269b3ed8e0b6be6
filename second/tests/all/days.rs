//! Lists of days: the figures of Articles 12 and 13 on both sides, each refusal, and what generated lists are like.

use second::days::{list, listing, moves, Kind};

fn flat(metal: &str, last: &str) -> String {
    format!("{metal}\n{}{last}\n", "100.00 100\n".repeat(3))
}

#[test]
fn prices_at_their_figures() {
    for (metal, last, met) in [
        ("gold", "110.00 1", true),
        ("gold", "109.99 1", false),
        ("gold", "90.00 1", true),
        ("gold", "90.01 1", false),
        ("silver", "112.00 1", true),
        ("silver", "111.99 1", false),
        ("silver", "88.00 1", true),
        ("silver", "88.01 1", false),
    ] {
        let wanted = if met {
            "days 4\n4 price3\n"
        } else {
            "days 4\n"
        };
        assert_eq!(
            listing(flat(metal, last).as_bytes()),
            wanted,
            "{metal} {last}"
        );
    }
}

#[test]
fn open_interest_counts_up_alone() {
    assert_eq!(
        moves(flat("gold", "100.00 130").as_bytes()),
        Ok(vec![0, 0, 0, 8])
    );
    assert_eq!(moves(flat("gold", "100.00 129").as_bytes()), Ok(vec![0; 4]));
    assert_eq!(moves(flat("gold", "100.00 1").as_bytes()), Ok(vec![0; 4]));
}

#[test]
fn refusals() {
    for (text, refusal) in [
        ("", (33, 0)),
        ("gold", (33, 0)),
        ("gold\n1.00 1", (33, 1)),
        ("gold\n0.00 1\nx\n", (31, 1)),
        ("gold\n0.00 x\n", (33, 1)),
        ("silver\n1.00 1\n1.00 0\n", (31, 2)),
        ("silver\n1,00 1\n", (33, 1)),
        ("silver\n1.00 01\n", (33, 1)),
        ("silver\n1.00 12345678901\n", (33, 1)),
    ] {
        assert_eq!(moves(text.as_bytes()), Err(refusal), "{text:?}");
    }
    assert_eq!(moves("\n".repeat(2_002).as_bytes()), Err((30, 0)));
    assert_eq!(moves("\n".repeat(2_001).as_bytes()), Err((33, 0)));
}

/// Whole lists and those at the edges are accepted, and every number and every span occurs.
#[test]
fn generated_lists_reach_everything() {
    let (mut numbers, mut spans) = ([0; 34], 0);
    for index in 0..2_000 {
        let (bytes, kind) = list(7, index);
        match moves(&bytes) {
            Ok(days) => spans |= days.iter().fold(0, |all, day| all | day),
            Err((number, _)) => {
                assert_eq!(kind, Kind::Damaged, "index {index}");
                numbers[number as usize] += 1;
            }
        }
    }
    assert_eq!(spans, 63);
    assert!(
        [30, 31, 33].iter().all(|&number| numbers[number] > 10),
        "{numbers:?}"
    );
}
