//! All tests of the harness in one binary: a binary for each file takes the gate a link more.

mod command;
mod common;
mod cutback;
mod faults;
mod layouts;
mod lists;
mod rearrange;
mod shrink;
mod statement;
mod stored;
mod through;
