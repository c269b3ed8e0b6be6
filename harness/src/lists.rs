//! Lists of days through a call, in runs of several sizes, and through a program, beside what the second program says of them.

use std::process::ExitCode;

use second::days::{Kind, Refusal};

use crate::command::{asked, fed, held, not_linked, through_and_rest, Asked, Count};
use crate::guarded::{Lent, Place};
use crate::product::Answer;
use crate::program::{tried, Program};
use crate::through::{self, Sent};

/// A call on a list and a lent run.
pub type Call<T> = fn(&[u8], &mut [T]) -> Answer;

/// What is tried, and what the second program has to say of it.
pub struct Tried<T> {
    /// The program's name, as it calls itself.
    pub name: &'static str,
    pub listing: fn(&[u8]) -> String,
    /// What the run holds, a place for each day.
    pub places: fn(&[u8]) -> Result<Vec<T>, Refusal>,
    /// The call where it is linked in, and as it is asked for where it is not.
    pub call: (Call<T>, through::Call),
    pub list: fn(u64, u64) -> (Vec<u8>, Kind),
    /// Lists that go through the call beside the generated ones.
    pub also: Vec<Vec<u8>>,
}

/// The number of no room in a run.
const NO_ROOM: u64 = 11;

impl<T: Place + PartialEq + 'static> Tried<T>
where
    Lent<T>: Sent,
{
    /// The command: so many generated lists through the call and through the program.
    pub fn command(&self, command: &str, words: &[String]) -> ExitCode {
        let (through, words) = through_and_rest(words);
        let asked = match asked(command, words) {
            Ok(asked) => asked,
            Err(status) => return status,
        };
        let mut call = tried(through, self.call.1, self.call.0);
        if call.is_none() && asked.calls > 0 {
            return not_linked(command);
        }
        let called = |list: &[u8]| match &mut call {
            Some(call) => self.called(&mut **call, list),
            None => false,
        };
        self.compared(&asked, called).end()
    }

    fn compared(&self, asked: &Asked, mut called: impl FnMut(&[u8]) -> bool) -> Count {
        let &Asked {
            seed,
            calls,
            runs,
            program,
        } = asked;
        let mut count = Count::default();
        for list in self.also.iter().filter(|_| calls > 0) {
            count.add(called(list), || {
                format!("{:?}", String::from_utf8_lossy(list))
            });
        }
        for index in 0..calls.max(runs) {
            let (bytes, kind) = (self.list)(seed, index);
            let good =
                (index >= calls || called(&bytes)) && (index >= runs || self.told(program, &bytes));
            count.add(good, || {
                format!(
                    "seed {seed}, index {index}, {kind:?}, {} bytes",
                    bytes.len()
                )
            });
        }
        count
    }

    /// A list through a call, in runs of every kind of size.
    pub fn called(&self, call: &mut dyn Program<T>, list: &[u8]) -> bool {
        let wanted = (self.places)(list);
        let days = wanted.as_ref().map_or(3, Vec::len);
        let rooms = [0, days.saturating_sub(1), days, days + 1, 2_000];
        let right = |run: &mut [T]| right(&wanted, run);
        held(list, &rooms, |lent| call.call(list, lent), right)
    }

    /// A list through the program: what it prints, how what it says begins, and its status.
    pub fn told(&self, program: &[String], list: &[u8]) -> bool {
        let out = fed(program, &[], list);
        let wanted = (self.listing)(list);
        let status = i32::from(wanted.starts_with("refused"));
        let said = if status == 0 {
            out.stderr.is_empty()
        } else {
            let front = format!("{}: {}: ", self.name, wanted.trim_end());
            out.stderr.starts_with(front.as_bytes())
        };
        out.stdout == wanted.as_bytes() && out.status.code() == Some(status) && said
    }
}

/// What the second program says of a list, as a call answers it.
fn right<T: Place>(wanted: &Result<Vec<T>, Refusal>, run: &mut [T]) -> Answer {
    let (number, place, length) = match wanted {
        &Err((number, place)) => (number, place, 0),
        Ok(places) if run.len() < places.len() => (NO_ROOM, places.len() as u64, 0),
        Ok(places) => {
            run[..places.len()].copy_from_slice(places);
            (0, 0, places.len() as u64)
        }
    };
    Answer {
        number,
        place,
        length,
    }
}
