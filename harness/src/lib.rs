//! The product beside the second program. A comparison goes through these steps, one file each:
//!
//! 1. [`guarded`] lends a buffer with guard bytes, [`runs`] four runs; [`program`] calls what is tried with them;
//! 2. [`compare`] holds the answers and every byte against the second program, [`columns`] every place of the runs;
//! 3. [`statement`] takes a report apart and has the five sentences that hold of it, [`rearrange`] tries demand 3, for
//!    which [`trades`] has the stamps of trades;
//! 4. [`run`] does so for many books; [`shrink`] and [`plain`] make a book with a difference small and [`text`] prints it;
//! 5. [`lists`] holds calls and programs on lists of days to it;
//! 6. [`sheets`] holds calls and program on comma sheets, and on books to be written as such, to it;
//!    [`command`] has what their commands share;
//! 7. [`stored`] holds the calls to books that somebody else has read, and to the reports that are stored beside them.

pub mod columns;
pub mod command;
pub mod compare;
pub mod draw;
pub mod fields;
pub mod guarded;
pub mod lists;
pub mod plain;
#[cfg_attr(not(linked), path = "elsewhere.rs")]
pub mod product;
pub mod program;
pub mod rearrange;
pub mod run;
pub mod runs;
pub mod sheets;
pub mod shrink;
pub mod statement;
pub mod stored;
pub mod text;
pub mod through;
pub mod trades;
pub mod words;
