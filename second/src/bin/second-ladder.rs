//! What each day of a list in the longer form is on the ladder of locks.

use second::days::{ladder_listing, longer, Program};

fn main() -> std::process::ExitCode {
    let program = Program {
        name: "second-ladder",
        listing: ladder_listing,
        list: |seed, index| longer(seed, index).0,
    };
    program.run()
}
