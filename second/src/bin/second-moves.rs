//! The days of a list on which Article 12 or 13 is met.

use second::days::{list, listing, Program};

fn main() -> std::process::ExitCode {
    let program = Program {
        name: "second-moves",
        listing,
        list: |seed, index| list(seed, index).0,
    };
    program.run()
}
