//! Instructions of a call, counted by callgrind: this program is run under valgrind with two counts of calls, and the
//! difference leaves out the start.

use std::env;
use std::hint::black_box;
use std::process::Command;

use crate::books::{self, Book};
use crate::programs::{Program, ROOM};
use crate::timing::Timed;

const FEW: u64 = 2;
const MANY: u64 = 12;

/// Prints instructions a call and their ratio for each book, or says what failed.
pub fn table() -> Result<(), String> {
    println!(
        "{:26} {:>10} {:>10}  ratio {:>10}",
        "instructions", "product", "second", "in rows"
    );
    for book in books::all() {
        let product = counted(Program::Product, &book)?;
        let second = counted(Program::Second, &book)?;
        let rows = counted(Program::InRows, &book)?;
        let ratio = product as f64 / second as f64;
        println!(
            "{:26} {product:>10} {second:>10} {ratio:>6.2} {rows:>10}",
            book.name
        );
    }
    Ok(())
}

/// Runs one program on one book, as the words say: this is what valgrind runs.
pub fn repeat(program: &str, book: &str, count: &str) -> Result<(), String> {
    let mut known = Program::ALL.into_iter();
    let program = known.find(|one| one.name() == program);
    let book = books::all().into_iter().find(|one| one.name == book);
    let (Some(program), Some(book), Ok(count)) = (program, book, count.parse::<u64>()) else {
        return Err(
            "one PROGRAM BOOK COUNT: product, second or rows, a book of the table, a number".into(),
        );
    };
    let mut report = [0; ROOM];
    for _ in 0..count {
        black_box(program.call(black_box(&book.bytes), black_box(&mut report)));
    }
    Ok(())
}

fn counted(program: Program, book: &Book) -> Result<u64, String> {
    let few = under_valgrind(program, book, FEW)?;
    let many = under_valgrind(program, book, MANY)?;
    Ok((many - few) / (MANY - FEW))
}

/// The instructions of a whole run.
fn under_valgrind(program: Program, book: &Book, count: u64) -> Result<u64, String> {
    let this = env::current_exe().map_err(|fault| fault.to_string())?;
    let run = Command::new("valgrind")
        .args(["--tool=callgrind", "--callgrind-out-file=/dev/null"])
        .arg(this)
        .args(["one", program.name(), book.name, &count.to_string()])
        .output()
        .map_err(|fault| format!("valgrind: {fault}"))?;
    let said = String::from_utf8_lossy(&run.stderr);
    let collected = said
        .lines()
        .find_map(|line| line.split("Collected :").nth(1));
    match collected.and_then(|number| number.trim().parse().ok()) {
        Some(number) if run.status.success() => Ok(number),
        _ => Err(format!("valgrind gave no count: {said}")),
    }
}
