//! Requests sent to a port one behind the other, and each of its answers held to what it must be.

use crate::operations::CHECK;
use crate::port::{self, Port};
use crate::restated::expected;
use crate::shrink::{shrink, Different};
use crate::{frames, operations};
use std::collections::BTreeMap;
use std::io::{BufWriter, Write};
use std::process::Stdio;
use std::time::Duration;

/// How many answers there were, by operation, refusal and what was found.
pub type Counts = BTreeMap<(&'static str, u8, String), u64>;

/// How long an answer is waited for.
const PATIENCE: Duration = Duration::from_secs(20);

/// Zeros in a row that are printed as their number.
const MANY_ZEROS: usize = 24;

/// Compares the answers to requests, which are made twice, so that none is kept. A difference is an error, whose text has the smallest
/// request found that differs.
pub fn compare<R: Iterator<Item = Vec<u8>>>(requests: impl Fn() -> R + Send + 'static, command: &[String]) -> Result<Counts, String> {
    let mut port = port::start(command, Stdio::inherit())?;
    let mut input = BufWriter::new(port.stdin.take().ok_or("the port has no input")?);
    let answers = port::answers(port.stdout.take().ok_or("the port has no output")?);
    let again = requests();
    let sender = std::thread::spawn(move || {
        // A port that ends early is found by its answers.
        let _ = requests().try_for_each(|request| frames::write(&mut input, &request));
        let _ = input.flush();
    });
    let mut counts = Counts::new();
    for request in again {
        let right = expected(&request)?;
        let answer = answers.recv_timeout(PATIENCE).ok();
        if answer.as_ref() != Some(&right.answer) {
            let _ = port.kill();
            let _ = port.wait();
            let first = Different { request, expected: right.answer, restated: right.restated, answer, tries: 0 };
            return Err(told(first, command));
        }
        let refusal = right.answer.first().copied().unwrap_or(0);
        let found = operations::found(&request, &right.answer);
        *counts.entry((operations::name(&request), refusal, found)).or_default() += 1;
    }
    sender.join().map_err(|_| "the sender failed")?;
    if answers.recv_timeout(PATIENCE).is_ok() {
        return Err("the port answers more than it was asked".to_string());
    }
    let ended = port.wait().map_err(|err| format!("the port does not end: {err}"))?;
    if ended.success() { Ok(counts) } else { Err(format!("the port ends with {ended}")) }
}

/// A difference, told with the smallest request found that differs.
fn told(first: Different, command: &[String]) -> String {
    let mut port = Port::new(command);
    let mut ask = |request: &[u8]| match port.is_lost() {
        // What is lost can't be shown to differ: no further request is taken.
        true => Some(expected(request).map(|right| right.answer).unwrap_or_default()),
        false => port.ask(request),
    };
    match shrink(&first.request, &mut ask) {
        Some(found) => format!("a difference, met with a request of {} bytes\n{}", first.request.len(), lines(&found)),
        None => format!("a difference that isn't there when it is asked for alone\n{}", lines(&first)),
    }
}

/// The place of the first byte that differs.
pub(crate) fn first_difference(one: &[u8], other: &[u8]) -> usize {
    one.iter().zip(other).position(|(one, other)| one != other).unwrap_or(one.len().min(other.len()))
}

/// A request that differs, with both answers; of a check their texts too.
pub(crate) fn lines(found: &Different) -> String {
    let name = operations::name(&found.request);
    let says = if found.restated { "restated" } else { "original" };
    let shown = |answer: &[u8]| match found.request.first() {
        Some(&CHECK) => format!("{}\n         {:?}", hex(answer), String::from_utf8_lossy(answer.get(13..).unwrap_or_default())),
        _ => hex(answer),
    };
    let (port, at) = match &found.answer {
        Some(answer) => (shown(answer), format!("the answers differ from byte {} on", first_difference(answer, &found.expected))),
        None => ("nothing".to_string(), "the port ends or is silent".to_string()),
    };
    let (length, tries) = (found.request.len(), found.tries);
    let request = hex(&found.request);
    format!("{name}, {length} bytes after {tries} tries; {at}\nrequest  {request}\n{says} {}\nport     {port}", shown(&found.expected))
}

/// Bytes as hex; of many zeros in a row, how many there are.
pub(crate) fn hex(bytes: &[u8]) -> String {
    let mut text = String::new();
    let mut rest = bytes;
    while let Some(first) = rest.first() {
        let zeros = rest.iter().take_while(|byte| **byte == 0).count();
        if zeros >= MANY_ZEROS {
            text += &format!("[{zeros} zeros]");
            rest = &rest[zeros..];
        } else {
            text += &format!("{first:02x}");
            rest = &rest[1..];
        }
    }
    text
}

#[cfg(test)]
mod tests {
    use super::{first_difference, hex};

    #[test]
    fn many_zeros_are_counted() {
        assert_eq!(hex(&[1, 0, 255]), "0100ff");
        assert_eq!(hex(&[&[1][..], &[0; 24], &[2]].concat()), "01[24 zeros]02");
        assert_eq!(hex(&[0; 23]), "00".repeat(23));
    }

    #[test]
    fn the_first_difference_is_found() {
        assert_eq!(first_difference(&[1, 2, 3], &[1, 3, 3]), 1);
        assert_eq!(first_difference(&[1, 2], &[1, 2, 3]), 2);
    }
}
