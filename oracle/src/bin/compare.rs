//! compare SEED COUNT COMMAND..: sends COUNT requests, made from SEED, to COMMAND, which answers the oracle's protocol, and holds each
//! answer to the original's, or to the restated rule where the original can't be asked. Prints how many were compared, by operation, by
//! refusal and by what was found. A difference ends it: the smallest request found that differs is printed with both answers.
//!
//! compare library SEED COUNT COMMAND..: the same with what the library answers.
//!
//! compare every COMMAND..: every truncation and every change of one byte of a small journal and its parts.
//! compare every library COMMAND..: the scans and re-reads of them.
//!
//! compare losses SEED COUNT COMMAND..: journals that a power loss leaves with zeros at the end: each of small ones, and COUNT made from
//! SEED. The original is held to a table first. Prints how many were compared, by line of the table.
//!
//! compare check SEED COUNT COMMAND..: COMMAND is the check program. It is started for each of COUNT inputs, made from SEED, gets it in
//! pieces on its standard input, and must print the text.

use oracle::checking::compare_checks;
use oracle::comparison::{compare, Counts};
use oracle::every;
use oracle::generate::{self, Make, Numbers};
use oracle::losses::compare_losses;
use std::process::ExitCode;

fn main() -> ExitCode {
    match run() {
        Ok(()) => ExitCode::SUCCESS,
        Err(message) => {
            eprintln!("compare: {message}");
            ExitCode::FAILURE
        }
    }
}

const USAGE: &str = "usage: compare [library|check|losses] SEED COUNT COMMAND.. or compare every [library] COMMAND..";

fn number(word: Option<&String>) -> Result<u64, String> {
    word.and_then(|word| word.parse().ok()).ok_or_else(|| USAGE.to_string())
}

/// The requests that a seed makes, one after the other.
fn made(make: Make, seed: u64, count: u64) -> impl Iterator<Item = Vec<u8>> {
    let mut numbers = Numbers::new(seed);
    (0..count as usize).map(move |turn| make(&mut numbers, turn))
}

/// Compares COUNT requests that SEED makes.
fn seeded(make: Make, words: &[String]) -> Result<Counts, String> {
    let (seed, count) = (number(words.first())?, number(words.get(1))?);
    compare(move || made(make, seed, count), words.get(2..).unwrap_or_default())
}

/// Compares what the check program prints.
fn checks(words: &[String]) -> Result<Counts, String> {
    let (seed, count) = (number(words.first())?, number(words.get(1))?);
    compare_checks(seed, count as usize, words.get(2..).unwrap_or_default())
}

/// Compares the journals that power losses leave.
fn losses(words: &[String]) -> Result<(), String> {
    let (seed, count) = (number(words.first())?, number(words.get(1))?);
    let lines = compare_losses(seed, count, words.get(2..).unwrap_or_default())?;
    for (line, count) in &lines {
        println!("{}: {count}", line.name());
    }
    println!("{} losses compared, no difference", lines.values().sum::<u64>());
    Ok(())
}

/// Whether the first word is this one, and then the words behind it.
fn behind<'a>(words: &'a [String], word: &str) -> Option<&'a [String]> {
    words.split_first().and_then(|(first, rest)| (first == word).then_some(rest))
}

fn run() -> Result<(), String> {
    let words: Vec<String> = std::env::args().skip(1).collect();
    let rest = words.get(1..).unwrap_or_default();
    if let Some(words) = behind(&words, "losses") {
        return losses(words);
    }
    let counts = match words.first().map(String::as_str) {
        Some("library") => seeded(generate::library, rest)?,
        Some("check") => checks(rest)?,
        Some("every") => match behind(rest, "library") {
            Some(command) => compare(every::library, command)?,
            None => compare(every::requests, rest)?,
        },
        _ => seeded(generate::request, &words)?,
    };
    for ((name, refusal, found), count) in &counts {
        println!("{name} {refusal}{found}: {count}");
    }
    println!("{} requests compared, no difference", counts.values().sum::<u64>());
    Ok(())
}
