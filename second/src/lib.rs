//! The independent second program for the forced offsetting allotment.
//!
//! The rules are document 01's ("Build definition and exact rules"). A book goes
//! through these steps, one file each:
//!
//! 1. [`cursor`] cuts the book into fields, [`figures`], [`stamp`] and [`code`] read values;
//! 2. [`terms`] and [`reader`] put fields together, trades in the order of time, and give the refusals;
//! 3. [`gain`] walks a customer's trades back, [`standing`] gives P, a tier or N;
//! 4. [`division`] divides whole lots, [`cascade`] does so for the three tiers;
//! 5. [`report`] and [`listing`] write the result, [`columns`] puts it into runs; [`call`] is what callers use.
//!
//! [`sheet`] reads and writes comma sheets. [`make`] generates books from a seed and shares no code with the steps above.

pub mod call;
pub mod cascade;
pub mod code;
pub mod columns;
pub mod cursor;
pub mod cutback;
pub mod days;
pub mod division;
pub mod figures;
pub mod gain;
pub mod listing;
pub mod make;
pub mod reader;
pub mod refusal;
pub mod report;
pub mod sheet;
pub mod stamp;
pub mod standing;
pub mod terms;
pub mod units;

pub use call::{allot, allot_into, Answer};
pub use columns::columns_into;
pub use listing::listing;
