//! The words of the command `compare`.

use std::path::PathBuf;
use std::thread::available_parallelism;

use crate::run::Plan;

pub const USAGE: &str = "\
usage: compare COUNT SEED [FROM] [--threads N] [--folder FOLDER] [--through FILE]

Compares COUNT generated books, those of SEED from index FROM (0) on, through the
product and through the second program: number, place, length and every byte of the
buffer and of the guards around it, in all rooms that matter. Holds every report to
the statement's five sentences, and every accepted book to demand 3: another order of
its customers and of each one's trades, those of equal day and minute aside, and fewer
customers that do not take part, change nothing. Then the same of its columns: every
place of the four runs and of the guards around each, in runs of all sizes.

  --threads N      threads to compare with; as many as there are processors
  --folder FOLDER  where the small book of a difference is written; the current folder
  --through FILE   try a program that is asked over its standard input and output
                   (harness/emulated), in place of the product linked in. A machine
                   that is not x86-64 cannot link it and needs this

The first difference is printed in full, then shrunk to a small book. The last line is
'N passed, M failed', which counts kinds of checks. Runs of 20,000 books or more must
meet every refusal number and make every check; a shorter one counts what it made.
Exit status: 0 all passed, 1 something failed or nothing was compared, 2 wrong words.
";

/// What the command is to do.
#[derive(Clone, Debug, PartialEq, Eq)]
pub struct Words {
    pub plan: Plan,
    pub folder: PathBuf,
    pub through: Option<PathBuf>,
}

/// The words taken apart, or none where they ask for nothing known.
pub fn words(given: &[String]) -> Option<Words> {
    let mut numbers = Vec::new();
    let mut words = Words {
        plan: Plan {
            count: 0,
            seed: 0,
            from: 0,
            threads: available_parallelism().map_or(1, |count| count.get() as u64),
        },
        folder: PathBuf::from("."),
        through: None,
    };
    let mut left = given.iter();
    while let Some(word) = left.next() {
        match word.as_str() {
            "--threads" => words.plan.threads = left.next()?.parse().ok().filter(|&n| n > 0)?,
            "--folder" => words.folder = PathBuf::from(left.next()?),
            "--through" => words.through = Some(PathBuf::from(left.next()?)),
            number => numbers.push(number.parse().ok()?),
        }
    }
    let (count, seed, from) = match *numbers.as_slice() {
        [count, seed] => (count, seed, 0),
        [count, seed, from] => (count, seed, from),
        _ => return None,
    };
    words.plan = Plan {
        count,
        seed,
        from,
        ..words.plan
    };
    Some(words)
}
