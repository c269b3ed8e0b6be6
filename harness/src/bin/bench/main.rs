//! The benchmark: the product beside the second program, on the same books and in one process.
//!
//! `bench` prints times, growth and stack and says which bars are met; its status is 1 where one is missed.
//! `bench layouts` prints the product's times and stack in columns and in rows alone, and `bench sheets` those of comma
//! sheets. `bench instructions` counts
//! instructions by valgrind. `bench one PROGRAM BOOK COUNT` is what valgrind runs. `bench books FOLDER` writes the books
//! to a folder, for the gate's test of the stack.

mod books;
mod instructions;
mod programs;
mod sheets;
mod stack;
mod timing;

use std::env;
use std::fs;
use std::process::ExitCode;

use books::Book;
use programs::Program;
use timing::Times;

/// The bars: how often the second program's time a book may take.
const BARS: [(&str, f64); 9] = [
    ("small", 1.2),
    ("small, one customer", 1.2),
    ("typical", 0.9),
    ("typical, shuffled", 1.3),
    ("typical, four seats", 0.9),
    ("dense", 0.9),
    ("one tier", 0.9),
    ("one customer", 0.9),
    ("one customer, half old", 0.9),
];
const STACK_BAR: usize = 14 * 1024;
/// Where nothing is linked the product could only be emulated, and a time of that says nothing.
const LINKED: bool = cfg!(linked);
/// The product is x86-64 code; elsewhere it is its LLVM code, compiled for the machine (harness/native).
const ITSELF: bool = cfg!(target_arch = "x86_64");
/// How much more a byte may cost at 60 KB than at 6 KB, where trades are in order.
const GROWTH_BAR: f64 = 1.2;

fn main() -> ExitCode {
    let words: Vec<String> = env::args().skip(1).collect();
    let words: Vec<&str> = words.iter().map(String::as_str).collect();
    let done = match words[..] {
        ["books", folder] => written(folder),
        _ if !LINKED => Err(
            "the product is an x86-64 archive, and this program is not: nothing is measured (see harness/native)".into(),
        ),
        [] => everything(),
        ["layouts"] => agreed(&books::all()).map(|()| layouts(&books::all())),
        ["sheets"] => sheets::times().and_then(within),
        ["instructions"] => instructions::table(),
        ["one", program, book, count] => instructions::repeat(program, book, count),
        _ => Err(
            "no words, or: layouts, or: sheets, or: instructions, or: one PROGRAM BOOK COUNT, or: books FOLDER"
                .into(),
        ),
    };
    match done {
        Ok(()) => ExitCode::SUCCESS,
        Err(said) => {
            eprintln!("bench: {said}");
            ExitCode::FAILURE
        }
    }
}

/// Writes each book to a file of the folder, under its name.
fn written(folder: &str) -> Result<(), String> {
    let books = books::all();
    let growing = [
        books::growing(),
        books::growing_shuffled(),
        books::growing_reversed(),
    ]
    .concat();
    for book in books.iter().chain(&growing) {
        let name = book.name.replace([' ', ','], "-");
        fs::write(format!("{folder}/{name}.book"), &book.bytes)
            .map_err(|error| error.to_string())?;
    }
    Ok(())
}

/// Nothing is measured where the programs differ, or where the stack's measure cannot be trusted.
fn everything() -> Result<(), String> {
    let books = books::all();
    let growing = books::growing();
    let shuffled = books::growing_shuffled();
    let reversed = books::growing_reversed();
    for all in [&books, &growing, &shuffled, &reversed] {
        agreed(all)?;
    }
    if !stack::finds_what_is_known() {
        return Err("the measure of the stack does not find what is known".into());
    }
    if !ITSELF {
        println!(
            "The product's code compiled for {}; the product itself is x86-64",
            env::consts::ARCH
        );
    }
    let met = [
        times(&books),
        growth("in order", &growing, Some(GROWTH_BAR)),
        growth("one customer, shuffled", &shuffled, None),
        growth("one customer, reversed", &reversed, None),
        stacks(&books),
        sheets::times()?,
    ];
    layouts(&books);
    within(!met.contains(&false))
}

fn within(met: bool) -> Result<(), String> {
    met.then_some(()).ok_or("a bar is missed".into())
}

fn agreed(books: &[Book]) -> Result<(), String> {
    let differs = books.iter().find(|book| !programs::agree(&book.bytes));
    differs.map_or(Ok(()), |book| {
        Err(format!("the programs differ on the book {}", book.name))
    })
}

/// Prints times and ratios; answers whether the bars are met.
fn times(books: &[Book]) -> bool {
    println!("Nanoseconds a call: median (10th to 90th percentile)");
    let mut met = true;
    for book in books {
        let [product, second] = timing::measure(Program::BOTH, &book.bytes);
        let ratio = product.median / second.median;
        let bar = BARS.iter().find(|bar| bar.0 == book.name).map(|bar| bar.1);
        let (size, product, second) = (book.bytes.len(), shown(product), shown(second));
        let said = verdict(bar.map(|bar| ratio <= bar));
        println!(
            "{:26} {size:>6} bytes  product {product}  second {second}  ratio {ratio:.2} {said}",
            book.name
        );
        met &= bar.is_none_or(|bar| ratio <= bar);
    }
    met
}

pub fn shown(times: Times) -> String {
    format!(
        "{:>8.0} ({:.0} to {:.0})",
        times.median, times.tenth, times.ninetieth
    )
}

pub fn verdict(met: Option<bool>) -> &'static str {
    match met {
        Some(true) => "met",
        Some(false) => "MISSED",
        None => "",
    }
}

/// Prints what a byte costs as the book grows; answers whether the product's growth is within its bar.
fn growth(order: &str, books: &[Book], bar: Option<f64>) -> bool {
    println!("Growth, {order}: nanoseconds a byte");
    let mut costs = Vec::new();
    for book in books {
        let each = timing::measure(Program::BOTH, &book.bytes)
            .map(|times| times.median / book.bytes.len() as f64);
        println!(
            "{:26} product {:.3}  second {:.3}",
            book.name, each[0], each[1]
        );
        costs.push(each[0]);
    }
    let more = costs[costs.len() - 1] / costs[0];
    let met = bar.map(|bar| more <= bar);
    println!("from the first to the last: {more:.2} {}", verdict(met));
    met != Some(false)
}

/// Prints the stack of each call; answers whether the product's is within its bar.
fn stacks(books: &[Book]) -> bool {
    println!("Bytes of stack that a call touches");
    let mut met = true;
    for book in books {
        let [product, second] = Program::BOTH.map(|program| stack::used_by(program, &book.bytes));
        let within = product <= STACK_BAR;
        println!(
            "{:26} product {product:>7}  second {second:>6} {}",
            book.name,
            verdict(Some(within))
        );
        met &= within;
    }
    met
}

/// Prints the product, which works in columns, beside itself worked in rows.
fn layouts(books: &[Book]) {
    println!("Layouts: nanoseconds a call, and bytes of stack");
    for book in books {
        let [columns, rows] = timing::measure(Program::LAYOUTS, &book.bytes);
        let stack = Program::LAYOUTS.map(|program| stack::used_by(program, &book.bytes));
        println!(
            "{:26} columns {}  rows {}  ratio {:.2}  stack {} and {}",
            book.name,
            shown(columns),
            shown(rows),
            columns.median / rows.median,
            stack[0],
            stack[1]
        );
    }
}
