//! Request [8]: comma sheets, read into books and written from them, another way than the product's.
//!
//! One table says what each letter's parts come to in a book ([`parts`]); reading and writing both go by it. A sheet is cut into pieces, all of
//! them are judged, the book's length is added up, and only then is a byte written ([`read`]). A book is judged by this program's own reader and
//! its fields are cut into parts again ([`write`]). [`words`] has what is said of a refusal, and [`told`] all that the program does with an input.

mod mark;
mod parts;
mod read;
#[cfg(test)]
mod tests;
mod told;
mod words;
mod write;

pub use mark::Mark;
pub use read::to_book;
pub use told::{told, Told, Work};
pub use words::words_of_a_book;
pub use write::to_sheet;

/// Number, place and length, as the calls answer them.
pub type Answer = (u64, u64, u64);

/// "1 (place 0) a sheet over 60,000 bytes".
const MOST_BYTES: usize = 60_000;

/// The sheet tool's own numbers; 1 is another one than the book's.
const TOO_LONG: u64 = 1;
const NO_MARK: u64 = 20;
const OTHER_MARK: u64 = 21;
const NO_LINE: u64 = 22;
const NO_ROOM: u64 = 23;
