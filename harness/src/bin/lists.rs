//! The command: the product beside the second program on generated lists of days, by its call and by its program.

use std::env;
use std::process::ExitCode;

use harness::lists::Tried;
use harness::product;
use harness::through::Call;
use second::days::{list, listing, moves};

fn main() -> ExitCode {
    let tried = Tried {
        name: "moves",
        listing,
        places: moves,
        call: (product::moves, Call::Moves),
        list,
        also: Vec::new(),
    };
    let words: Vec<String> = env::args().skip(1).collect();
    tried.command("lists", &words)
}
