//! Comma sheets: what the program `sheet` does, and generated sheets and books.

use std::ffi::OsString;
use std::fs::{self, File};
use std::io::{self, Read, Write};
use std::os::fd::AsFd;
use std::path::Path;
use std::process::ExitCode;

use second::make;
use second::sheet::{told, Mark, Told, Work};

const USAGE: &str = "\
Usage: sheet read [FILE]
       sheet write comma|point [FILE]
Reads a sheet and writes its book, or reads a book and writes its sheet.

  --help     print this and end
  --version  print the version and end
";

/// One byte more than a sheet or a book may have.
const MOST_READ: u64 = 60_001;

/// What the words ask for.
enum Asked {
    Text(&'static str),
    Work(Work, Option<OsString>),
    Wrong(String),
}

fn main() -> ExitCode {
    let words: Vec<OsString> = std::env::args_os().skip(1).collect();
    if let [Some("make"), Some(seed), Some(count), Some(folder)] =
        *words.iter().map(|word| word.to_str()).collect::<Vec<_>>()
    {
        return match made(seed, count, folder) {
            Ok(()) => ExitCode::SUCCESS,
            Err(error) => {
                eprintln!("second-sheet: {error}");
                ExitCode::FAILURE
            }
        };
    }
    let done = match asked(&words) {
        Asked::Text(text) => print(text.as_bytes()).map(|()| 0),
        Asked::Wrong(said) => {
            eprintln!("sheet: {said}\nTry 'sheet --help'.");
            Ok(2)
        }
        Asked::Work(work, file) => worked(work, file),
    };
    done.map(ExitCode::from).unwrap_or_else(|said| {
        eprintln!("sheet: {said}");
        ExitCode::from(2)
    })
}

/// The words from the left: the first that is an option, or too many, decides.
fn asked(words: &[OsString]) -> Asked {
    let (mut operands, mut ended) = (Vec::new(), false);
    for word in words {
        let text = word.to_string_lossy();
        match &*text {
            "--" if !ended => ended = true,
            "--help" if !ended => return Asked::Text(USAGE),
            "--version" if !ended => return Asked::Text("second-sheet\n"),
            option if !ended && option.len() > 1 && option.starts_with('-') => {
                return Asked::Wrong(format!("{option}: no such option"));
            }
            _ => operands.push(word),
        }
        if let Err(said) = work(&operands) {
            return Asked::Wrong(said);
        }
    }
    match work(&operands) {
        Ok(Some((work, file))) => Asked::Work(work, file.cloned()),
        Ok(None) if operands.is_empty() => Asked::Wrong("neither read nor write".to_string()),
        Ok(None) => Asked::Wrong("write: neither comma nor point".to_string()),
        Err(said) => Asked::Wrong(said),
    }
}

/// What words without options come to, if they are not too few.
fn work<'a>(operands: &[&'a OsString]) -> Result<Option<(Work, Option<&'a OsString>)>, String> {
    let texts: Vec<_> = operands.iter().map(|word| word.to_string_lossy()).collect();
    let texts: Vec<&str> = texts.iter().map(|text| &**text).collect();
    let (work, files) = match texts[..] {
        [] | ["write"] => return Ok(None),
        ["read", ..] => (Work::Read, &operands[1..]),
        ["write", "comma", ..] => (Work::Write(Mark::Comma), &operands[2..]),
        ["write", "point", ..] => (Work::Write(Mark::Point), &operands[2..]),
        ["write", mark, ..] => return Err(format!("{mark}: neither comma nor point")),
        [other, ..] => return Err(format!("{other}: neither read nor write")),
    };
    match files {
        [] => Ok(Some((work, None))),
        [file] => Ok(Some((work, Some(file)))),
        [_, more, ..] => Err(format!("{}: a second file", more.to_string_lossy())),
    }
}

fn worked(work: Work, file: Option<OsString>) -> Result<u8, String> {
    let Told { status, out, said } = told(work, &input(file)?);
    // Nothing can be said of a standard error that takes nothing.
    let _ = io::stderr().write_all(said.as_bytes());
    print(&out)?;
    Ok(status)
}

/// The bytes of a file, or of standard input where none is named or it is `-`.
fn input(file: Option<OsString>) -> Result<Vec<u8>, String> {
    let named = file.filter(|name| name != "-");
    let name = match &named {
        Some(name) => name.to_string_lossy().into_owned(),
        None => "standard input".to_string(),
    };
    let opened = match &named {
        Some(name) => File::open(Path::new(name)),
        None => io::stdin().as_fd().try_clone_to_owned().map(File::from),
    };
    let mut bytes = Vec::new();
    opened
        .and_then(|file| file.take(MOST_READ).read_to_end(&mut bytes))
        .map_err(|error| format!("{name}: {}", plain(&error)))?;
    Ok(bytes)
}

fn print(bytes: &[u8]) -> Result<(), String> {
    let mut out = io::stdout().lock();
    out.write_all(bytes)
        .and_then(|()| out.flush())
        .map_err(|error| format!("standard output: {}", plain(&error)))
}

/// Generated inputs with what comes of them: sheets in FOLDER/read, books in FOLDER/comma and FOLDER/point.
fn made(seed: &str, count: &str, folder: &str) -> io::Result<()> {
    let number = |word: &str| word.parse::<u64>().map_err(io::Error::other);
    let (seed, count) = (number(seed)?, number(count)?);
    for (way, work) in [
        ("read", Work::Read),
        ("comma", Work::Write(Mark::Comma)),
        ("point", Work::Write(Mark::Point)),
    ] {
        fs::create_dir_all(format!("{folder}/{way}"))?;
        for index in 0..count {
            let (input, suffix) = match work {
                Work::Read => (make::sheets::sheet(seed, index).bytes, "sheet"),
                Work::Write(_) => (make::book(seed, index).bytes, "book"),
            };
            let Told { out, said, .. } = told(work, &input);
            let name = format!("{folder}/{way}/{index:05}");
            fs::write(format!("{name}.{suffix}"), input)?;
            fs::write(format!("{name}.want"), out)?;
            if !said.is_empty() {
                fs::write(format!("{name}.said"), said)?;
            }
        }
    }
    Ok(())
}

/// An error in the system's words alone.
fn plain(error: &io::Error) -> String {
    let text = error.to_string();
    match text.find(" (os error") {
        Some(end) => text[..end].to_string(),
        None => text,
    }
}
