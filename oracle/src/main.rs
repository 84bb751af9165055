//! The oracle: reads requests from standard input until it ends, and writes the original's answer to each.
//!
//! oracle expected: writes what the port must answer, also where the original can't be asked.
//! oracle check: reads an input of the check program, and prints what that must print.

use oracle::{check, frames, operations, restated};
use std::io::{BufReader, BufWriter, Read, Write};
use std::process::ExitCode;

fn main() -> ExitCode {
    let words: Vec<String> = std::env::args().skip(1).collect();
    let done = match words.iter().map(String::as_str).collect::<Vec<_>>().as_slice() {
        [] => answer_all(operations::answer),
        ["expected"] => answer_all(|request| Ok(restated::expected(request)?.answer)),
        ["check"] => print_check(),
        _ => Err("usage: oracle [expected|check]".to_string()),
    };
    match done {
        Ok(()) => ExitCode::SUCCESS,
        Err(message) => {
            eprintln!("oracle: {message}");
            ExitCode::from(2)
        }
    }
}

/// Prints the text for one input.
fn print_check() -> Result<(), String> {
    let mut input = Vec::new();
    std::io::stdin().read_to_end(&mut input).map_err(|err| format!("cannot read the input: {err}"))?;
    print!("{}", check::text(&input)?.text);
    Ok(())
}

/// Answers each request until the input ends.
fn answer_all(answer: fn(&[u8]) -> Result<Vec<u8>, String>) -> Result<(), String> {
    let mut input = BufReader::new(std::io::stdin().lock());
    let mut output = BufWriter::new(std::io::stdout().lock());
    while let Some(request) = frames::read(&mut input)? {
        frames::write(&mut output, &answer(&request)?)?;
        // Whoever waits for this answer before asking again gets it now.
        if input.buffer().is_empty() {
            output.flush().map_err(|err| format!("cannot write an answer: {err}"))?;
        }
    }
    output.flush().map_err(|err| format!("cannot write an answer: {err}"))
}
