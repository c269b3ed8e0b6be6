//! The command: the product beside the second program on generated lists of days in the longer form, by its call and by its program. A small
//! list with every byte replaced goes through the call first.

use std::env;
use std::process::ExitCode;

use harness::lists::Tried;
use harness::product;
use harness::through::Call;
use second::days::{ladder, ladder_listing, longer, swept, Raise, Refusal, Step};

/// The steps as include/frundavel.h has them in a run: the kind in the low byte, and the days running above it.
fn places(list: &[u8]) -> Result<Vec<u64>, Refusal> {
    let place = |step: Step| {
        let (kind, running) = match step {
            Step::None => (0, 0),
            Step::First(Raise::Holds) => (1, 1),
            Step::First(Raise::Fails) => (2, 1),
            Step::First(Raise::NoDay) => (3, 1),
            Step::First(Raise::NoLimit) => (4, 1),
            Step::First(Raise::NoNextLimit) => (5, 1),
            Step::Same(running) => (6, running),
            Step::Reverse => (7, 1),
        };
        kind + 256 * running
    };
    Ok(ladder(list)?.into_iter().map(place).collect())
}

fn main() -> ExitCode {
    let tried = Tried {
        name: "ladder",
        listing: ladder_listing,
        places,
        call: (product::ladder, Call::Ladder),
        list: longer,
        also: swept().collect(),
    };
    let words: Vec<String> = env::args().skip(1).collect();
    tried.command("ladders", &words)
}
