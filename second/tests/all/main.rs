//! All tests of the second program in one binary: a binary for each file takes the gate a link more.

mod books;
mod bounds;
mod cases;
mod columns;
mod common;
mod days;
mod decimals;
mod division;
mod generator;
mod ladder;
mod laws;
mod program;
mod readings;
mod refusals;
mod seats;
mod stamps;
mod wrong_ways;
