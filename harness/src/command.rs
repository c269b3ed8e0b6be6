//! What the commands over lists and over sheets have in common: their words, a call in several rooms, a program fed with an input, and the
//! count at the end.

use std::io::Write;
use std::path::Path;
use std::process::{Command, ExitCode, Output, Stdio};

use crate::guarded::{Lent, Place};
use crate::product::Answer;

/// `NAME [--through FILE] SEED CALLS RUNS PROGRAM..`: so many generated inputs through the call and through the program.
pub struct Asked<'a> {
    pub seed: u64,
    pub calls: u64,
    pub runs: u64,
    pub program: &'a [String],
}

/// The file behind `--through`, which is that of `compare` and comes first, since the words of a program go on to the end; and the other words.
pub fn through_and_rest(words: &[String]) -> (Option<&Path>, &[String]) {
    match words {
        [word, file, rest @ ..] if word == "--through" => (Some(Path::new(file)), rest),
        _ => (None, words),
    }
}

/// What the other words ask for; where they are wrong, the usage is said, and the status is there.
pub fn asked<'a>(name: &str, words: &'a [String]) -> Result<Asked<'a>, ExitCode> {
    let numbers: Vec<u64> = words
        .iter()
        .take(3)
        .filter_map(|word| word.parse().ok())
        .collect();
    let program = words.get(3..).filter(|words| !words.is_empty());
    match (&numbers[..], program) {
        (&[seed, calls, runs], Some(program)) => Ok(Asked {
            seed,
            calls,
            runs,
            program,
        }),
        _ => {
            eprintln!("usage: {name} [--through FILE] SEED CALLS RUNS PROGRAM..");
            Err(ExitCode::from(2))
        }
    }
}

/// Says that there is nothing to call.
pub fn not_linked(name: &str) -> ExitCode {
    eprintln!("{name}: the product is x86-64 and cannot be linked in here; see --through in compare --help");
    ExitCode::from(2)
}

/// A call lent these rooms for an input does what a right one does: what it answers, and every place of each room and of the guards around it.
pub fn held<T: Place + PartialEq>(
    input: &[u8],
    rooms: &[usize],
    call: impl FnOnce(&mut [Lent<T>]) -> Result<Vec<Answer>, String>,
    right: impl Fn(&mut [T]) -> Answer,
) -> bool {
    let fresh = |&room: &usize| Lent::new(room, (input.len() + room) as u64);
    let mut lent: Vec<Lent<T>> = rooms.iter().map(fresh).collect();
    let mut after = lent.clone();
    let wanted: Vec<Answer> = after.iter_mut().map(|one| right(one.room_mut())).collect();
    match call(&mut lent) {
        Ok(answers) => answers == wanted && lent == after,
        Err(told) => {
            println!("{told}");
            false
        }
    }
}

/// A program, with more words, and an input; it may stop reading where no more bytes can matter.
pub fn fed(program: &[String], words: &[&str], input: &[u8]) -> Output {
    let mut process = Command::new(&program[0])
        .args(&program[1..])
        .args(words)
        .stdin(Stdio::piped())
        .stdout(Stdio::piped())
        .stderr(Stdio::piped())
        .spawn()
        .expect("the program starts");
    let mut stdin = process.stdin.take().expect("a pipe");
    let _ = stdin.write_all(input);
    drop(stdin);
    process.wait_with_output().expect("the program ends")
}

/// What passed and what failed.
#[derive(Default)]
pub struct Count {
    passed: u64,
    failed: u64,
}

impl Count {
    /// Says what failed.
    pub fn add(&mut self, good: bool, what: impl FnOnce() -> String) {
        if good {
            self.passed += 1;
        } else {
            self.failed += 1;
            println!("FAILED: {}", what());
        }
    }

    /// Passed and failed.
    pub fn counts(&self) -> (u64, u64) {
        (self.passed, self.failed)
    }

    /// The last line, and the status: 0 only if nothing failed and something passed.
    pub fn end(&self) -> ExitCode {
        println!("{} passed, {} failed", self.passed, self.failed);
        ExitCode::from(u8::from(self.failed > 0 || self.passed == 0))
    }
}
