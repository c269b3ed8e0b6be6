//! The command itself: its words, its last line and its exit status.

use std::process::{Command, Output};

use harness::words::words;

fn compare(words: &[&str]) -> Output {
    let mut command = Command::new(env!("CARGO_BIN_EXE_compare"));
    command.args(words).output().expect("the command runs")
}

fn last_line(output: &Output) -> String {
    let text = String::from_utf8_lossy(&output.stdout);
    text.lines().last().unwrap_or_default().to_string()
}

fn taken(text: &str) -> Option<(u64, u64, u64, u64)> {
    let given: Vec<String> = text.split(' ').map(str::to_string).collect();
    let plan = words(&given)?.plan;
    Some((plan.count, plan.seed, plan.from, plan.threads))
}

#[test]
fn words_are_count_seed_and_from() {
    assert_eq!(taken("10 7 --threads 3"), Some((10, 7, 0, 3)));
    assert_eq!(taken("--threads 1 10 7 99"), Some((10, 7, 99, 1)));
    for wrong in [
        "",
        "10",
        "10 7 1 2",
        "ten 7",
        "10 7 --threads",
        "10 7 --threads 0",
        "10 7 --fast",
    ] {
        assert_eq!(taken(wrong), None, "{wrong}");
    }
}

#[test]
fn wrong_words_are_status_2_and_help_is_0() {
    assert_eq!(compare(&["10"]).status.code(), Some(2));
    let help = compare(&["--help"]);
    assert_eq!(help.status.code(), Some(0));
    assert!(help.stdout.starts_with(b"usage: compare COUNT SEED"));
}

/// A program that dies at once: printed in full, shrunk, written, counted.
#[test]
fn a_difference_is_shown_and_fails_the_run() {
    let folder = std::env::temp_dir().join(format!("compare-{}", std::process::id()));
    std::fs::create_dir_all(&folder).expect("a folder");
    let place = folder.to_str().expect("a name");
    let output = compare(&["5", "7", "--through", "false", "--folder", place]);
    let text = String::from_utf8_lossy(&output.stdout);
    assert_eq!(output.status.code(), Some(1));
    assert_eq!(last_line(&output), "0 passed, 1 failed");
    assert!(text.contains("DIFFERENCE at seed 7, index 0, "), "{text}");
    assert!(text.contains("SHRUNK"), "{text}");
    let book = folder.join("difference-7-0.book");
    assert!(
        text.contains(&format!("written to {}", book.display())),
        "{text}"
    );
    assert_eq!(std::fs::read(&book).expect("the small book"), b"");
    std::fs::remove_dir_all(&folder).expect("the folder goes");
}

#[test]
fn no_books_are_no_pass() {
    let output = compare(&["0", "7", "--through", "false"]);
    assert_eq!(last_line(&output), "0 passed, 0 failed");
    assert_eq!(output.status.code(), Some(1));
}
