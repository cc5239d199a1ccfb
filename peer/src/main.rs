//! An independent program beside the proved `replay`: it reads the same script on standard
//! input and prints the same lines, by a plain book that keeps lists and no marks.
//!
//! `peer` plays, `peer numbered` plays with the script's line number before each line,
//! `peer counts FILE` plays and writes to a file how often it met what `counts.rs` names,
//! `peer generate SEED CALLS` and `peer outside FILE..` write scripts.

mod book;
mod burst;
mod cells;
mod counts;
mod generate;
mod lookup;
mod outside;
mod packet;
mod play;
mod script;
mod stale;
#[cfg(test)]
mod tests;
mod words;

use play::Player;
use std::io::{self, BufReader, BufWriter, Write};
use std::process::ExitCode;

const USAGE: &str =
    "usage: peer [numbered | counts FILE] | peer generate SEED CALLS | peer outside FILE..";

fn main() -> ExitCode {
    let arguments: Vec<String> = std::env::args().skip(1).collect();
    let words: Vec<&str> = arguments.iter().map(String::as_str).collect();
    let done = match words.as_slice() {
        [] => play(false, None),
        ["numbered"] => play(true, None),
        ["counts", file] => play(false, Some(file)),
        ["generate", seed, calls] => generate(seed, calls),
        ["outside", files @ ..] if !files.is_empty() => outside(files),
        _ => return usage(),
    };
    match done {
        Ok(code) => code,
        Err(error) => {
            eprintln!("peer: {error}");
            ExitCode::from(1)
        }
    }
}

fn usage() -> ExitCode {
    eprintln!("{USAGE}");
    ExitCode::from(2)
}

fn writer() -> BufWriter<io::StdoutLock<'static>> {
    BufWriter::with_capacity(1 << 16, io::stdout().lock())
}

fn play(numbered: bool, counts: Option<&str>) -> io::Result<ExitCode> {
    let mut player = Player::new();
    let mut input = BufReader::with_capacity(1 << 16, io::stdin().lock());
    let ending = play::play(&mut player, &mut input, &mut writer(), numbered)?;
    if let Some(file) = counts {
        std::fs::write(file, player.counts.lines())?;
    }
    match ending {
        play::Ending::Whole => Ok(ExitCode::SUCCESS),
        play::Ending::Outside(line) => {
            eprintln!("peer: line {line}: the cells are a table without a history");
            Ok(ExitCode::from(3))
        }
    }
}

fn generate(seed: &str, calls: &str) -> io::Result<ExitCode> {
    let (Ok(seed), Ok(calls)) = (seed.parse(), calls.parse()) else {
        return Ok(usage());
    };
    generate::generate(seed, calls, &mut writer())?;
    Ok(ExitCode::SUCCESS)
}

fn outside(files: &[&str]) -> io::Result<ExitCode> {
    let mut output = writer();
    for file in files {
        outside::outside(&std::fs::read_to_string(file)?, &mut output)?;
    }
    output.flush()?;
    Ok(ExitCode::SUCCESS)
}
