//! A program behind standard input and output, asked as `emulated/lend.c` describes.

use std::io::{self, Read, Write};
use std::path::{Path, PathBuf};
use std::process::{Child, ChildStdin, ChildStdout, Command, Stdio};

use crate::guarded::{Lent, Place, GUARD};
use crate::product::Answer;
use crate::program::{Program, Viewer};
use crate::runs::Runs;

/// The calls that can be asked for.
#[derive(Clone, Copy, Debug, PartialEq, Eq)]
pub enum Call {
    Allot,
    Columns,
    Moves,
    Ladder,
    SheetToBook,
    /// With its mark.
    BookToSheet(u8),
    Cutback,
    AllotInRows,
}

pub struct Through {
    file: PathBuf,
    call: Call,
    running: Option<Running>,
}

struct Running {
    child: Child,
    input: ChildStdin,
    output: ChildStdout,
}

impl Through {
    /// The program is started with the first call, and again with the call after one that it died of.
    pub fn new(file: &Path, call: Call) -> Self {
        Through {
            file: file.to_path_buf(),
            call,
            running: None,
        }
    }

    /// From now on another call is asked for.
    pub fn turn_to(&mut self, call: Call) {
        self.call = call;
    }

    fn ask<T: Sent>(&mut self, input: &[u8], lent: &mut [T]) -> io::Result<Vec<Answer>> {
        if self.running.is_none() {
            self.running = Some(Running::start(&self.file)?);
        }
        let running = self.running.as_mut().expect("just started");
        let question = question(self.call, input, lent);
        running.input.write_all(&question)?;
        lent.iter_mut().map(|one| running.answer(one)).collect()
    }

    fn asked<T: Sent>(&mut self, input: &[u8], lent: &mut [T]) -> Result<Vec<Answer>, String> {
        self.ask(input, lent).map_err(|error| {
            let ended = self.running.take().map(Running::end);
            let status = ended.map_or("not started".to_string(), |ended| format!("{ended:?}"));
            format!("{}: {error} ({status})", self.file.display())
        })
    }
}

impl<T> Program<T> for Through
where
    Lent<T>: Sent,
{
    fn call(&mut self, input: &[u8], lent: &mut [Lent<T>]) -> Result<Vec<Answer>, String> {
        self.asked(input, lent)
    }
}

impl Viewer for Through {
    fn view(&mut self, book: &[u8], lent: &mut [Runs]) -> Result<Vec<Answer>, String> {
        self.asked(book, lent)
    }
}

impl Call {
    /// As `emulated/lend.c` has it.
    fn number(self) -> u64 {
        match self {
            Call::Allot => 0,
            Call::Columns => 1,
            Call::Moves => 2,
            Call::Ladder => 3,
            Call::SheetToBook => 4,
            Call::BookToSheet(mark) => 5 + 256 * u64::from(mark),
            Call::Cutback => 6,
            Call::AllotInRows => 7,
        }
    }
}

/// What is lent goes over the pipe and comes back, as `emulated/lend.c` has it.
pub trait Sent {
    fn put(&mut self, bytes: &mut Vec<u8>);

    fn take(&mut self, from: &mut impl Read) -> io::Result<()>;
}

impl Sent for Lent {
    fn put(&mut self, bytes: &mut Vec<u8>) {
        put_sizes(self, bytes);
        bytes.extend_from_slice(self.whole_mut());
    }

    fn take(&mut self, from: &mut impl Read) -> io::Result<()> {
        from.read_exact(self.whole_mut())
    }
}

impl Sent for Lent<u64> {
    fn put(&mut self, bytes: &mut Vec<u8>) {
        put_sizes(self, bytes);
        let places = self.whole_mut().iter();
        bytes.extend(places.flat_map(|place| place.to_le_bytes()));
    }

    fn take(&mut self, from: &mut impl Read) -> io::Result<()> {
        let mut bytes = vec![0; self.whole_mut().len() * u64::BYTES];
        from.read_exact(&mut bytes)?;
        self.whole_mut().copy_from_slice(&u64::places(&bytes));
        Ok(())
    }
}

impl Sent for Runs {
    fn put(&mut self, bytes: &mut Vec<u8>) {
        self.lots.iter_mut().for_each(|run| run.put(bytes));
        self.standings.put(bytes);
    }

    fn take(&mut self, from: &mut impl Read) -> io::Result<()> {
        self.lots.iter_mut().try_for_each(|run| run.take(from))?;
        self.standings.take(from)
    }
}

fn put_sizes<T: Place>(lent: &mut Lent<T>, bytes: &mut Vec<u8>) {
    for number in [lent.size() + 2 * GUARD, GUARD, lent.size()] {
        bytes.extend((number as u64).to_le_bytes());
    }
}

impl Running {
    fn start(file: &Path) -> io::Result<Self> {
        let mut command = Command::new(file);
        let mut child = command
            .stdin(Stdio::piped())
            .stdout(Stdio::piped())
            .spawn()?;
        let pipes = (child.stdin.take(), child.stdout.take());
        let (Some(input), Some(output)) = pipes else {
            return Err(io::Error::other("no pipes"));
        };
        Ok(Running {
            child,
            input,
            output,
        })
    }

    fn answer(&mut self, lent: &mut impl Sent) -> io::Result<Answer> {
        let mut words = [0; 24];
        self.output.read_exact(&mut words)?;
        lent.take(&mut self.output)?;
        let word = |at: usize| u64::from_le_bytes(words[at..at + 8].try_into().expect("8 bytes"));
        Ok(Answer {
            number: word(0),
            place: word(8),
            length: word(16),
        })
    }

    /// A child whose input is closed ends by itself.
    fn end(mut self) -> io::Result<std::process::ExitStatus> {
        drop(self.input);
        self.child.wait()
    }
}

impl Drop for Through {
    fn drop(&mut self) {
        if let Some(running) = self.running.take() {
            // The answers are in; how it ends after them says nothing.
            let _ = running.end();
        }
    }
}

fn question<T: Sent>(call: Call, input: &[u8], lent: &mut [T]) -> Vec<u8> {
    let mut bytes = Vec::new();
    for number in [call.number(), input.len() as u64, lent.len() as u64] {
        bytes.extend(number.to_le_bytes());
    }
    bytes.extend_from_slice(input);
    lent.iter_mut().for_each(|one| one.put(&mut bytes));
    bytes
}
