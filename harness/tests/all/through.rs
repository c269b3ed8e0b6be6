//! What goes over the pipe: a script in place of `emulated/lend.c` (`stand-in`) keeps the question and answers as it was told.

use std::fs;
use std::os::unix::fs::symlink;
use std::path::{Path, PathBuf};
use std::process::Command;

use harness::guarded::Lent;
use harness::lists::Tried;
use harness::product::{self, Answer};
use harness::program::{Program, Viewer};
use harness::runs::Runs;
use harness::sheets::{reads, writes};
use harness::through::{Call, Through};
use second::days::{list, listing, moves};

/// A folder with a link to the script, the answer that it gives, and the question once it was asked.
struct Script {
    folder: PathBuf,
}

impl Script {
    /// It takes so many bytes, and ends with its answer. A script written here could not be started while another test starts something.
    fn new(name: &str, takes: usize, answer: &[u8]) -> Self {
        let folder = folder(name);
        let script = Path::new(env!("CARGO_MANIFEST_DIR")).join("tests/all/stand-in");
        symlink(script, folder.join("run")).expect("a link");
        fs::write(folder.join("takes"), takes.to_string()).expect("a size");
        fs::write(folder.join("answer"), answer).expect("the answer");
        Script { folder }
    }

    fn asked(&self, call: Call) -> Through {
        Through::new(&self.folder.join("run"), call)
    }

    fn question(&self) -> Vec<u8> {
        fs::read(self.folder.join("question")).expect("the question")
    }
}

impl Drop for Script {
    fn drop(&mut self) {
        fs::remove_dir_all(&self.folder).expect("the folder goes");
    }
}

fn folder(name: &str) -> PathBuf {
    let folder = std::env::temp_dir().join(format!("through-{name}-{}", std::process::id()));
    fs::create_dir_all(&folder).expect("a folder");
    folder
}

fn numbers(numbers: &[u64]) -> Vec<u8> {
    numbers
        .iter()
        .flat_map(|number| number.to_le_bytes())
        .collect()
}

/// What a run of numbers with guards comes to over the pipe.
fn sent(lent: &Lent<u64>) -> Vec<u8> {
    let size = lent.size() as u64;
    [
        numbers(&[size + 128, 64, size]),
        numbers(lent.clone().whole_mut()),
    ]
    .concat()
}

#[test]
fn a_question_has_the_call_the_input_and_all_that_is_lent() {
    let calls = [
        (Call::Allot, 0),
        (Call::Moves, 2),
        (Call::SheetToBook, 4),
        (Call::BookToSheet(b','), 5 + 256 * 44),
        (Call::BookToSheet(255), 5 + 256 * 255),
        (Call::AllotInRows, 7),
    ];
    let before = Lent::<u8>::new(3, 9);
    let bytes = before.clone().whole_mut().to_vec();
    for (call, number) in calls {
        let wanted = [
            &numbers(&[number, 5, 1])[..],
            b"input",
            &numbers(&[131, 64, 3]),
            &bytes,
        ]
        .concat();
        let script = Script::new(
            "bytes",
            wanted.len(),
            &[numbers(&[7, 8, 9]), bytes.clone()].concat(),
        );
        let mut lent = [before.clone()];
        let answers = Program::call(&mut script.asked(call), b"input", &mut lent);
        let answer = Answer {
            number: 7,
            place: 8,
            length: 9,
        };
        assert_eq!((answers, &lent), (Ok(vec![answer]), &[before.clone()]));
        assert_eq!(script.question(), wanted, "{call:?}");
    }
}

#[test]
fn runs_of_numbers_go_over_the_pipe_as_they_stand() {
    for (call, number) in [(Call::Ladder, 3), (Call::Cutback, 6)] {
        let mut lent = [Lent::<u64>::new(2, 4), Lent::new(0, 5)];
        let wanted = [
            numbers(&[number, 1, 2]),
            b"a".to_vec(),
            sent(&lent[0]),
            sent(&lent[1]),
        ]
        .concat();
        let after: Vec<u64> = (0..130).collect();
        let answer = [
            numbers(&[0; 3]),
            numbers(&after),
            numbers(&[1; 3]),
            numbers(&after[..128]),
        ]
        .concat();
        let script = Script::new("numbers", wanted.len(), &answer);
        let answers = script
            .asked(call)
            .call(b"a", &mut lent)
            .expect("two answers");
        assert_eq!(
            answers
                .iter()
                .map(|answer| answer.number)
                .collect::<Vec<_>>(),
            [0, 1]
        );
        assert_eq!(
            lent.each_mut().map(|one| one.whole_mut().to_vec()),
            [after.clone(), after[..128].to_vec()]
        );
        assert_eq!(script.question(), wanted, "{call:?}");
    }
    let mut lent = [Runs::new([1, 1, 1, 1], 6)];
    let script = Script::new("runs", 24, b"");
    assert!(script.asked(Call::Columns).view(b"", &mut lent).is_err());
    assert_eq!(script.question(), numbers(&[1, 0, 1]));
}

const TRIED: Tried<u8> = Tried {
    name: "moves",
    listing,
    places: moves,
    call: (product::moves, Call::Moves),
    list,
    also: Vec::new(),
};

/// The answers of a right call to a list of one day in the runs that it is lent, and the bytes of the question.
fn one_day(list: &[u8]) -> (Vec<u8>, usize) {
    let (mut answers, mut takes) = (Vec::new(), 24 + list.len());
    for room in [0, 0, 1, 2, 2_000] {
        let mut lent = Lent::<u8>::new(room, (list.len() + room) as u64);
        let answer = if room == 0 { [11, 1, 0] } else { [0, 0, 1] };
        lent.room_mut()
            .iter_mut()
            .take(1)
            .for_each(|day| *day = moves(list).expect("a day")[0]);
        answers.extend(numbers(&answer));
        answers.extend(lent.whole_mut().iter());
        takes += 24 + lent.whole_mut().len();
    }
    (answers, takes)
}

/// Every byte that comes back is looked at: numbers, rooms, and guards before and behind them.
#[test]
fn a_guard_that_was_altered_behind_the_pipe_is_found() {
    let list = b"gold\n1.00 1\n";
    let (answers, takes) = one_day(list);
    let called = |answers: &[u8]| {
        let script = Script::new("guards", takes, answers);
        TRIED.called(&mut script.asked(Call::Moves), list)
    };
    assert!(called(&answers));
    // numbers and guards of the first run; guards and room of the last
    let last = answers.len() - 2_128;
    for at in [
        0,
        8,
        16,
        24,
        151,
        last,
        last + 63,
        last + 64,
        last + 65,
        last + 2_063,
        last + 2_064,
        last + 2_127,
    ] {
        let mut wrong = answers.clone();
        wrong[at] ^= 1;
        assert!(!called(&wrong), "byte {at}");
    }
    assert!(!called(&answers[..answers.len() - 1]));
}

#[test]
fn a_program_that_dies_is_found_by_both_calls_of_sheets() {
    let mut dead = Through::new("false".as_ref(), Call::SheetToBook);
    assert!(!reads(&mut dead, b"mark,\n"));
    assert!(!writes(&mut dead, b""));
}

/// The last line and the exit status of a command.
fn ran(command: &str, words: &[&str]) -> (String, Option<i32>) {
    let output = Command::new(command)
        .args(words)
        .output()
        .expect("the command runs");
    let text = String::from_utf8_lossy(&output.stdout);
    (
        text.lines().last().unwrap_or_default().to_string(),
        output.status.code(),
    )
}

/// A program that dies fails the run.
#[test]
fn lists_and_stored_sheets_go_through() {
    let through = ["--through", "false"];
    let words = ["1", "3", "0", "true"];
    let failed = |count| (format!("0 passed, {count} failed"), Some(1));
    let lists = env!("CARGO_BIN_EXE_lists");
    assert_eq!(ran(lists, &[&through[..], &words].concat()), failed(3));
    let folder = folder("stored");
    for way in ["read", "comma", "point"] {
        fs::create_dir_all(folder.join(way)).expect("a folder");
    }
    fs::write(folder.join("read/0.sheet"), b"mark,\n").expect("a sheet");
    fs::write(folder.join("read/0.want"), b"Z\0\0").expect("its book");
    let stored = ["stored", folder.to_str().expect("a name")];
    let sheets = env!("CARGO_BIN_EXE_sheets");
    assert_eq!(ran(sheets, &[&through[..], &stored].concat()), failed(1));
    if cfg!(not(linked)) {
        assert_eq!(ran(sheets, &stored), (String::new(), Some(2)));
    }
    fs::remove_dir_all(folder).expect("the folder goes");
}

/// Calls that are neither linked in nor behind a program are not passed over.
#[test]
fn calls_that_cannot_be_made_are_refused() {
    for command in [
        env!("CARGO_BIN_EXE_lists"),
        env!("CARGO_BIN_EXE_ladders"),
        env!("CARGO_BIN_EXE_sheets"),
    ] {
        assert_eq!(ran(command, &["--through", "false", "1"]).1, Some(2));
        if cfg!(not(linked)) {
            assert_eq!(
                ran(command, &["1", "3", "0", "true"]),
                (String::new(), Some(2))
            );
        }
    }
}
