//! Requests [11] and [12]: the days of a list on which Article 12 or 13 is met, and the locks of Article 17 with
//! Article 18's raise, read another way than the product's.
//!
//! A list is cut into lines at once; a line into words at its blanks; figures are matched against their form byte by
//! byte and then parsed by the standard library ([`lines`]). A change is a fraction of two whole numbers, compared in
//! 128 bits with its sign ([`watch`]). Locks are not followed from day to day: the list is cut into stretches of locked
//! days, and each stretch into runs of one direction ([`ladder`]).

mod ladder;
mod lines;
mod make;
mod make_longer;
mod program;
mod watch;

pub use ladder::{ladder, ladder_listing, Raise, Step};
pub use lines::Refusal;
pub use make::{list, Kind};
pub use make_longer::{longer, swept};
pub use program::Program;
pub use watch::{listing, moves};
