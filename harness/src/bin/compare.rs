//! The command: the product beside the second program on generated books.

use std::fs;
use std::io::{self, stderr, IsTerminal, Write};
use std::path::Path;
use std::process::ExitCode;
use std::time::{Duration, Instant};

use harness::compare::{Check, Counts};
use harness::program::Tried;
use harness::run::{run, shrunk, Found, Outcome, Plan, Start};
use harness::text;
use harness::words::{words, Words, USAGE};

/// From so many books on, a check that was not made or a number that did not occur is a failure.
const FULL: u64 = 20_000;

fn main() -> ExitCode {
    let given: Vec<String> = std::env::args().skip(1).collect();
    if given.iter().any(|word| word == "--help") {
        print!("{USAGE}");
        return ExitCode::SUCCESS;
    }
    let Some(words) = words(&given) else {
        eprint!("{USAGE}");
        return ExitCode::from(2);
    };
    if Tried::of(words.through.as_deref()).is_none() {
        eprintln!(
            "compare: the product is x86-64 and cannot be linked in here; see --through in --help"
        );
        return ExitCode::from(2);
    }
    let through = words.through.clone();
    let start = move || Tried::of(through.as_deref()).expect("as before");
    match compared(&words, &start) {
        Ok(true) => ExitCode::SUCCESS,
        Ok(false) => ExitCode::FAILURE,
        Err(error) => {
            eprintln!("compare: {error}");
            ExitCode::FAILURE
        }
    }
}

/// Runs, prints what came of it, and tells whether all passed.
fn compared(words: &Words, start: Start) -> io::Result<bool> {
    let mut progress = Progress::new(words.plan);
    let outcome = run(words.plan, start, &mut |done| progress.tell(done));
    progress.end();
    println!("{}", summary(words.plan, &outcome));
    let (passed, failed) = match &outcome.first {
        Some(found) => {
            show(words, found, &mut start())?;
            // A run that was cut short has passed nothing.
            (0, 1)
        }
        None => tally(&outcome.counts),
    };
    println!("{passed} passed, {failed} failed");
    Ok(failed == 0 && passed > 0)
}

/// One line: how many of what, and how fast.
fn summary(plan: Plan, outcome: &Outcome) -> String {
    let counts = &outcome.counts;
    let numbers = counts.numbers.iter().enumerate().skip(1);
    let refused: Vec<String> = numbers
        .map(|(number, count)| format!("{number}: {count}"))
        .collect();
    let seconds = outcome.time.as_secs_f64();
    format!(
        "seed {} from {}: {} books, accepted {}, refused {} (11 counts calls), rearranged {}, rooms {}, {:.0} books per second, {seconds:.1} s, threads {}",
        plan.seed,
        plan.from,
        counts.books,
        counts.numbers[0],
        refused.join(", "),
        counts.times(Check::Rearranged),
        counts.rooms,
        counts.books as f64 / seconds,
        plan.threads
    )
}

/// The kinds of checks that passed and that failed; one that was not made has not passed.
fn tally(counts: &Counts) -> (u32, u32) {
    let full = counts.books >= FULL;
    let made = Check::ALL.map(|(check, name)| (name, counts.times(check)));
    let numbers = counts.numbers.iter().all(|&count| count > 0);
    let occurred = ("every number from 0 to 13 occurred", u64::from(numbers));
    let (mut passed, mut failed) = (0, 0);
    for (name, times) in made.into_iter().chain([occurred]) {
        let verdict = match (times > 0, full) {
            (true, _) => "ok",
            (false, true) => "FAILED, not once",
            (false, false) => "not met in so few books",
        };
        passed += u32::from(times > 0);
        failed += u32::from(times == 0 && full);
        println!("{verdict}: {name} ({times})");
    }
    (passed, failed)
}

/// Prints a difference in full and shrunk, and writes the small book to a file.
fn show(words: &Words, found: &Found, tried: &mut Tried) -> io::Result<()> {
    let seed = words.plan.seed;
    let (family, kind) = (found.made.family, found.made.kind);
    println!(
        "\nDIFFERENCE at seed {seed}, index {}, family {family:?}, kind {kind}",
        found.index
    );
    println!("{}", text::difference(&found.difference, &found.made.bytes));
    let (small, difference) = shrunk(found, tried);
    println!("SHRUNK\n{}", text::difference(&difference, &small));
    let name = format!("difference-{seed}-{}.book", found.index);
    let file = Path::new(&words.folder).join(name);
    fs::write(&file, &small)?;
    println!("small book written to {}", file.display());
    Ok(())
}

/// How far the run is, on standard error: a line rewritten on a terminal, else a line each ten seconds.
struct Progress {
    plan: Plan,
    began: Instant,
    told: Duration,
    terminal: bool,
}

impl Progress {
    fn new(plan: Plan) -> Self {
        Progress {
            plan,
            began: Instant::now(),
            told: Duration::ZERO,
            terminal: stderr().is_terminal(),
        }
    }

    fn tell(&mut self, done: u64) {
        let now = self.began.elapsed();
        let pause = Duration::from_millis(if self.terminal { 200 } else { 10_000 });
        if now - self.told < pause {
            return;
        }
        self.told = now;
        let rate = done as f64 / now.as_secs_f64();
        let (count, seconds) = (self.plan.count, now.as_secs());
        let line = format!("{done} of {count} books, {rate:.0} per second, {seconds} s");
        if self.terminal {
            eprint!("\r{line}\x1b[K");
            // A progress line that cannot be shown is no reason to stop.
            let _ = stderr().flush();
        } else {
            eprintln!("{line}");
        }
    }

    fn end(&self) {
        if self.terminal {
            eprint!("\r\x1b[K");
        }
    }
}
