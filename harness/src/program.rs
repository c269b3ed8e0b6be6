//! What is tried: the product's calls, or wrong programs in the tests.

use std::hint::black_box;
use std::path::Path;

use crate::guarded::{Lent, Place};
use crate::product::{self, Answer};
use crate::runs::Runs;
use crate::through::{Call, Sent, Through};

/// A program that answers an input once for each lent buffer, or for each lent run.
pub trait Program<T = u8> {
    /// The answers in the buffers' order, or what became of the program instead.
    fn call(&mut self, input: &[u8], lent: &mut [Lent<T>]) -> Result<Vec<Answer>, String>;
}

/// A plain call is a program.
impl<T: Place, F: FnMut(&[u8], &mut [T]) -> Answer> Program<T> for F {
    fn call(&mut self, input: &[u8], lent: &mut [Lent<T>]) -> Result<Vec<Answer>, String> {
        let answers = lent.iter_mut().map(|one| {
            let answer = self(input, one.room_mut());
            // A wrong call writes where the compiler takes it that nothing is written.
            black_box(one.whole_mut());
            answer
        });
        Ok(answers.collect())
    }
}

/// A program that answers a book in columns, once for each four runs that are lent.
pub trait Viewer {
    fn view(&mut self, book: &[u8], lent: &mut [Runs]) -> Result<Vec<Answer>, String>;
}

/// A plain call for columns is a viewer: a book, standings, and lots offered, pending and offset.
impl<F: FnMut(&[u8], &mut [u8], [&mut [u64]; 3]) -> Answer> Viewer for F {
    fn view(&mut self, book: &[u8], lent: &mut [Runs]) -> Result<Vec<Answer>, String> {
        let answers = lent.iter_mut().map(|runs| {
            let (standings, lots) = runs.rooms_mut();
            let answer = self(book, standings, lots);
            black_box(runs);
            answer
        });
        Ok(answers.collect())
    }
}

/// A call behind a program that is asked over a pipe, or linked in; none where it cannot be linked in.
pub fn tried<T: Place + 'static>(
    through: Option<&Path>,
    call: Call,
    linked: fn(&[u8], &mut [T]) -> Answer,
) -> Option<Box<dyn Program<T>>>
where
    Lent<T>: Sent,
{
    match through {
        Some(file) => Some(Box::new(Through::new(file, call))),
        None if cfg!(linked) => Some(Box::new(linked)),
        None => None,
    }
}

/// Both calls for a book.
pub struct Tried {
    pub program: Box<dyn Program>,
    pub viewer: Box<dyn Viewer>,
}

impl Tried {
    /// The same of both.
    pub fn of(through: Option<&Path>) -> Option<Self> {
        let viewer: Box<dyn Viewer> = match through {
            Some(file) => Box::new(Through::new(file, Call::Columns)),
            None => Box::new(product::columns),
        };
        let program = tried(through, Call::Allot, product::allot)?;
        Some(Tried { program, viewer })
    }
}
