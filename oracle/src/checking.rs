//! The check program itself, started anew for each input, which it gets in pieces; what it prints is held to the text.

use crate::check;
use crate::comparison::{lines, Counts};
use crate::frames::Answer;
use crate::generate::{check_input, Numbers};
use crate::operations::{self, CHECK};
use crate::pieces;
use crate::port;
use crate::shrink::shrink;
use std::io::{Read, Write};
use std::process::Stdio;
use std::sync::mpsc::channel;
use std::time::Duration;

/// How long the program's output is waited for.
const PATIENCE: Duration = Duration::from_secs(20);

/// How many bytes there are at most in the input that is much longer than the program reads.
const LONGEST_INPUT: u64 = 4 << 20;

/// What a command prints for an input that it gets in pieces of these sizes, again and again. None where it doesn't end in time or is ended
/// by a signal.
fn printed(command: &[String], input: &[u8], sizes: &[usize]) -> Option<Vec<u8>> {
    let mut child = port::start(command, Stdio::null()).ok()?;
    let (mut to, mut from) = (child.stdin.take()?, child.stdout.take()?);
    let (input, sizes) = (input.to_vec(), sizes.to_vec());
    let writer = std::thread::spawn(move || {
        let (mut rest, mut sizes) = (&input[..], sizes.iter().cycle());
        while let (false, Some(size)) = (rest.is_empty(), sizes.next()) {
            let (piece, behind) = rest.split_at((*size).clamp(1, rest.len()));
            // A program that knows its answer needn't read on.
            if to.write_all(piece).and_then(|()| to.flush()).is_err() {
                return;
            }
            rest = behind;
        }
    });
    let (read, output) = channel();
    std::thread::spawn(move || {
        let mut bytes = Vec::new();
        let _ = from.read_to_end(&mut bytes);
        let _ = read.send(bytes);
    });
    let bytes = output.recv_timeout(PATIENCE);
    if bytes.is_err() {
        let _ = child.kill();
    }
    let ended = child.wait().ok()?;
    let _ = writer.join();
    bytes.ok().filter(|_| ended.code().is_some())
}

/// What the command answers to a request of the operation `check`.
fn ask(command: &[String], request: &[u8]) -> Option<Vec<u8>> {
    let printed = printed(command, request.get(5..)?, &[usize::MAX])?;
    Some(Answer::new(0, 0).run(&printed).done())
}

/// The next input: the first of a hundred is much longer than the program reads.
fn next_input(numbers: &mut Numbers, turn: usize) -> Vec<u8> {
    let mut input = check_input(numbers, turn);
    if turn % 100 == 0 {
        let more = (LONGEST_INPUT / 2 + numbers.next() % (LONGEST_INPUT / 2)) as usize;
        input.resize(input.len() + more, numbers.next() as u8);
    }
    input
}

/// Sizes of pieces: all at once, single bytes, or any.
fn sizes(numbers: &mut Numbers, length: usize) -> Vec<usize> {
    let any = |numbers: &mut Numbers, most: usize| 1 + (numbers.next() % most.max(1) as u64) as usize;
    match numbers.next() % 5 {
        0 => vec![length.max(1)],
        1 if length < 20_000 => vec![1],
        2 => vec![1, 1, 1, 1, 1, 1, 1, 1, any(numbers, length)],
        3 => vec![4096],
        _ => (0..5).map(|_| any(numbers, length / 2)).collect(),
    }
}

/// Compares what the command prints for so many inputs.
pub fn compare_checks(seed: u64, count: usize, command: &[String]) -> Result<Counts, String> {
    let (mut numbers, mut counts) = (Numbers::new(seed), Counts::new());
    for turn in 0..count {
        let input = next_input(&mut numbers, turn);
        let sizes = sizes(&mut numbers, input.len());
        let right = check::text(&input)?.text;
        let said = printed(command, &input, &sizes);
        let request = pieces::check(&input);
        if said.as_deref() != Some(right.as_bytes()) {
            let first = format!("a difference, met with an input of {} bytes in pieces of {sizes:?}", input.len());
            return Err(match shrink(&request, &mut |request| ask(command, request)) {
                Some(found) => format!("{first}\n{}", lines(&found)),
                None => format!("{first}; in one piece there is none\nexpected {right}printed  {}", text(said)),
            });
        }
        let answer = Answer::new(0, 0).run(right.as_bytes()).done();
        *counts.entry((operations::name(&[CHECK]), 0, operations::found(&request, &answer))).or_default() += 1;
    }
    Ok(counts)
}

fn text(printed: Option<Vec<u8>>) -> String {
    printed.map_or("nothing in time".to_string(), |bytes| String::from_utf8_lossy(&bytes).to_string())
}
