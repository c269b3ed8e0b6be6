//! Wrong calls and wrong programs over lists of days: each is found by the check that is there for it.

use harness::lists::{Call, Tried};
use harness::product::Answer;
use harness::through;
use second::days::{list, listing, moves};

fn answer(number: u64, place: u64, length: u64) -> Answer {
    Answer {
        number,
        place,
        length,
    }
}

fn right(list: &[u8], run: &mut [u8]) -> Answer {
    match moves(list) {
        Err((number, place)) => answer(number, place, 0),
        Ok(days) if days.len() > run.len() => answer(11, days.len() as u64, 0),
        Ok(days) => {
            run[..days.len()].copy_from_slice(&days);
            answer(0, 0, days.len() as u64)
        }
    }
}

const TRIED: Tried<u8> = Tried {
    name: "moves",
    listing,
    places: moves,
    call: (right, through::Call::Moves),
    list,
    also: Vec::new(),
};

/// How many of the first generated lists find a call right.
fn found_right(mut call: Call<u8>) -> usize {
    (0..LISTS)
        .filter(|&index| TRIED.called(&mut call, &list(5, index).0))
        .count()
}

const LISTS: u64 = 300;

#[test]
fn wrong_calls_are_found() {
    assert_eq!(found_right(right), LISTS as usize);
    let wrong: [(&str, Call<u8>); 8] = [
        ("a place behind the days is written", |list, run| {
            let answer = right(list, run);
            let behind = answer.length as usize;
            if answer.number == 0 && behind < run.len() {
                run[behind] ^= 1;
            }
            answer
        }),
        ("a day is left as it was", |list, run| {
            let first = run.first().copied();
            let answer = right(list, run);
            if let (0, Some(first)) = (answer.number, first) {
                run[0] = first;
            }
            answer
        }),
        ("a refusal leaves something in the run", |list, run| {
            let answer = right(list, run);
            if answer.number != 0 && !run.is_empty() {
                run[0] ^= 1;
            }
            answer
        }),
        ("no room leaves the days that fit", |list, run| {
            let answer = right(list, run);
            if answer.number == 11 {
                let days = moves(list).expect("an accepted list");
                run.copy_from_slice(&days[..run.len()]);
            }
            answer
        }),
        (
            "a run that is just large enough is refused",
            |list, run| match right(list, run).length as usize {
                days if days == run.len() && days > 0 => answer(11, days as u64, 0),
                _ => right(list, run),
            },
        ),
        (
            "no room comes before the list's own numbers",
            |list, run| match run.len() {
                0..=2 => answer(11, 3, 0),
                _ => right(list, run),
            },
        ),
        ("the place of no room is none", |list, run| {
            match right(list, run) {
                Answer { number: 11, .. } => answer(11, 0, 0),
                other => other,
            }
        }),
        ("a refusal has a length", |list, run| {
            match right(list, run) {
                Answer {
                    number: number @ 30..,
                    place,
                    ..
                } => answer(number, place, 1),
                other => other,
            }
        }),
    ];
    for (name, call) in wrong {
        assert!(found_right(call) < LISTS as usize, "{name}");
    }
}

/// A shell script as the program, over an accepted list of one day and a refused one.
fn told(script: &str, list: &[u8]) -> bool {
    TRIED.told(&["sh".into(), "-c".into(), script.into()], list)
}

#[test]
fn wrong_programs_are_found() {
    let (good, bad) = (b"gold\n1.00 1\n", b"gold\n1.00 0\n");
    assert!(told("echo days 1", good));
    assert!(!told("echo days 1; echo", good));
    assert!(!told("echo days 1; exit 1", good));
    assert!(!told("echo days 1; echo moves: >&2", good));
    let line = "refused 31 at 1";
    let right = format!("echo {line}; echo moves: {line}: words >&2; exit 1");
    assert!(told(&right, bad));
    assert!(!told(&right.replace("exit 1", "exit 0"), bad));
    assert!(!told(&right.replace("exit 1", "exit 2"), bad));
    assert!(!told(&right.replace("moves: ", "ladder: "), bad));
    assert!(!told(&right.replace(": words", ""), bad));
    assert!(!told(&right.replace("31", "33"), bad));
}
