//! What the programs over lists of days do: the listing of the list on standard input, and generated lists.

use std::io::{self, Read, Write};
use std::process::ExitCode;
use std::{env, fs};

/// A program by its name, with the listing that it prints and the lists that it generates.
pub struct Program {
    pub name: &'static str,
    pub listing: fn(&[u8]) -> String,
    pub list: fn(u64, u64) -> Vec<u8>,
}

impl Program {
    /// Does what the words of the command line ask for.
    pub fn run(&self) -> ExitCode {
        let words: Vec<String> = env::args().skip(1).collect();
        let words: Vec<&str> = words.iter().map(String::as_str).collect();
        let name = self.name;
        let done = match words[..] {
            [] => self.print(),
            ["make", seed, count, folder] => self.make(seed, count, folder),
            _ => {
                eprintln!("usage: {name}\n       {name} make SEED COUNT FOLDER");
                return ExitCode::from(2);
            }
        };
        match done {
            Ok(()) => ExitCode::SUCCESS,
            Err(error) => {
                eprintln!("{name}: {error}");
                ExitCode::FAILURE
            }
        }
    }

    fn print(&self) -> io::Result<()> {
        let mut bytes = Vec::new();
        io::stdin().read_to_end(&mut bytes)?;
        io::stdout().write_all((self.listing)(&bytes).as_bytes())
    }

    /// FOLDER/00000.list with FOLDER/00000.want and so on.
    fn make(&self, seed: &str, count: &str, folder: &str) -> io::Result<()> {
        let number = |word: &str| word.parse::<u64>().map_err(io::Error::other);
        fs::create_dir_all(folder)?;
        for index in 0..number(count)? {
            let bytes = (self.list)(number(seed)?, index);
            fs::write(format!("{folder}/{index:05}.want"), (self.listing)(&bytes))?;
            fs::write(format!("{folder}/{index:05}.list"), bytes)?;
        }
        Ok(())
    }
}
