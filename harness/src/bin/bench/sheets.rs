//! Comma sheets (request [8]): sheets of about 60,000 bytes read into books, and written from them, beside the second program.

use harness::product::{book_to_sheet, sheet_to_book};

use crate::books;
use crate::programs::numbers;
use crate::timing::{self, Timed};
use crate::{shown, verdict};

/// How often the second program's time a call may take.
const BAR: f64 = 1.0;
/// Room for every book that a sheet can make.
const ROOM: usize = 120_000;
/// The books of the benchmark whose sheets are measured: of customers with four seats each, of many customers, and of one with many trades.
const NAMES: [&str; 3] = ["typical, four seats", "dense", "one customer"];

/// A call, of the product or of the second program.
#[derive(Clone, Copy)]
pub enum Call {
    ProductReads,
    SecondReads,
    ProductWrites,
    SecondWrites,
}

const READING: [Call; 2] = [Call::ProductReads, Call::SecondReads];
const WRITING: [Call; 2] = [Call::ProductWrites, Call::SecondWrites];

impl Timed for Call {
    type Room = [u8; ROOM];

    fn room() -> Self::Room {
        [0; ROOM]
    }

    fn call(self, input: &[u8], lent: &mut [u8]) -> (u64, u64, u64) {
        match self {
            Call::ProductReads => numbers(sheet_to_book(input, lent)),
            Call::SecondReads => second::sheet::to_book(input, lent),
            Call::ProductWrites => numbers(book_to_sheet(input, b',', lent)),
            Call::SecondWrites => second::sheet::to_sheet(input, b',', lent),
        }
    }
}

/// Prints times and ratios; answers whether the bars are met, or on which input the programs differ.
pub fn times() -> Result<bool, String> {
    println!("Sheets: nanoseconds a call, median (10th to 90th percentile)");
    let mut met = true;
    for (name, pair, input) in inputs() {
        if !agree(pair, &input) {
            return Err(format!("the programs differ on the input {name}"));
        }
        let [product, second] = timing::measure(pair, &input);
        let ratio = product.median / second.median;
        let (size, said) = (input.len(), verdict(Some(ratio <= BAR)));
        let (product, second) = (shown(product), shown(second));
        println!("{name:26} {size:>6} bytes  product {product}  second {second}  ratio {ratio:.2} {said}");
        met &= ratio <= BAR;
    }
    Ok(met)
}

/// What is measured: a name, the pair of calls and their input. A sheet of 60,000 bytes makes a book that is too long, which is written and not
/// judged further; the largest whose book is accepted has 59,997.
fn inputs() -> Vec<(String, [Call; 2], Vec<u8>)> {
    let full = [b"mark,\n", &b"I;M1;0;0;0\n".repeat(5_454)[..]].concat();
    let mut inputs = vec![("read: seats alone".to_string(), READING, full)];
    for book in books::all() {
        if NAMES.contains(&book.name) {
            let mut sheet = vec![0; ROOM];
            let (_, _, length) = second::sheet::to_sheet(&book.bytes, b',', &mut sheet);
            sheet.truncate(length as usize);
            inputs.push((format!("read: {}", book.name), READING, sheet));
            inputs.push((format!("write: {}", book.name), WRITING, book.bytes));
        }
    }
    inputs
}

/// Whether both give the same answer and leave the same bytes in the whole buffer.
fn agree(pair: [Call; 2], input: &[u8]) -> bool {
    let [one, other] = pair.map(|call| {
        let mut lent = vec![0xa5; ROOM];
        (call.call(input, &mut lent), lent)
    });
    one == other
}
