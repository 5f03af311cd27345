//! The commands of the comparison.

use comparison::{compare, normalization, replay, speed, vectors, SUBJECT};
use std::env;
use std::io;
use std::path::Path;
use std::process::ExitCode;

const USAGE: &str = "usage: compare compare [SEED [CALL]]
       compare vectors DIR
       compare normalization FILE DIR
       compare replay FILE...
       compare speed [calls [PART] | entries | growth | docs FOLDER]";

fn main() -> ExitCode {
    let words: Vec<String> = env::args().skip(1).collect();
    let words: Vec<&str> = words.iter().map(String::as_str).collect();
    match act(&words) {
        Ok(code) => code,
        Err(error) => {
            eprintln!("{error}");
            ExitCode::from(2)
        }
    }
}

fn act(words: &[&str]) -> io::Result<ExitCode> {
    match words {
        ["compare"] => Ok(compared(compare::SEED, None)),
        ["compare", seed] => Ok(compared(number(seed)?, None)),
        ["compare", seed, call] => Ok(compared(number(seed)?, Some(call))),
        ["vectors", folder] => vectors::write(Path::new(folder)).map(|_| ExitCode::SUCCESS),
        ["normalization", file, folder] => {
            normalization::write(Path::new(file), Path::new(folder)).map(|_| ExitCode::SUCCESS)
        }
        ["replay", files @ ..] if !files.is_empty() => replayed(files),
        ["speed", words @ ..] => speed::run(words).map(|_| ExitCode::SUCCESS),
        _ => Err(wrong(USAGE)),
    }
}

fn wrong(text: &str) -> io::Error {
    io::Error::new(io::ErrorKind::InvalidInput, text)
}

fn number(seed: &str) -> io::Result<u64> {
    seed.parse().map_err(|_| wrong("SEED is a number"))
}

fn compared(seed: u64, only: Option<&str>) -> ExitCode {
    let run = compare::run(SUBJECT, seed, only);
    run.print(seed);
    ExitCode::from((run.differences() > 0) as u8)
}

fn replayed(files: &[&str]) -> io::Result<ExitCode> {
    let mut counts = replay::Counts::default();
    for file in files {
        replay::file(SUBJECT, Path::new(file), &mut counts)?;
    }
    counts.print();
    Ok(ExitCode::from((counts.wrong() > 0) as u8))
}
