//! Ports that are wrong in one way, and the smallest request that shows it.

use oracle::generate::{self, Numbers};
use oracle::operations::{INSERT, SCAN, TAKE};
use oracle::restated::expected;
use oracle::shrink::{shrink, Different};
use std::process::{Command, Output};

fn right(request: &[u8]) -> Vec<u8> {
    expected(request).expect("the request is one").answer
}

/// The smallest request found that shows what is wrong, from the first that shows it.
fn smallest(operation: u8, wrong: fn(&[u8], Vec<u8>) -> Option<Vec<u8>>) -> Different {
    let mut ask = |request: &[u8]| wrong(request, right(request));
    let mut numbers = Numbers::new(7);
    let made = (0..10_000).map(|turn| generate::of(operation, &mut numbers, turn));
    let first = made.into_iter().find(|request| ask(request) != Some(right(request)));
    let found = shrink(&first.expect("some request shows it"), &mut ask).expect("it differs");
    assert_eq!(found.expected, right(&found.request));
    assert_ne!(found.answer, Some(found.expected.clone()));
    found
}

#[test]
fn a_wrong_refusal() {
    let found = smallest(SCAN, |_, mut answer| {
        answer[0] = if answer[0] == 11 { 12 } else { answer[0] };
        Some(answer)
    });
    // A prefix, no room, and twelve bytes of which one isn't zero.
    assert_eq!(found.request.len(), 1 + 17 + 4 + 4 + 12_288 + 12);
    assert_eq!(found.request[found.request.len() - 12..].iter().filter(|byte| **byte != 0).count(), 1);
}

#[test]
fn dead_bytes_that_do_not_count_the_header() {
    let found = smallest(INSERT, |_, mut answer| {
        let dead = u64::from_le_bytes(answer[17..25].try_into().expect("eight bytes"));
        answer[17..25].copy_from_slice(&dead.saturating_sub(12).to_le_bytes());
        Some(answer)
    });
    // Room for one entry, none in use, and one dead byte.
    assert_eq!(found.request, [&[INSERT, 1, 0, 0, 0], &[0; 24][..], &[0; 8], &[1, 0, 0, 0, 0, 0, 0, 0], &[0; 24]].concat());
}

#[test]
fn a_port_that_ends() {
    let found = smallest(TAKE, |request, answer| (request[1] != 8 || answer[9] == 0).then_some(answer));
    assert_eq!(found.answer, None);
    assert_eq!(found.request, [&[TAKE, 8], &[0; 16][..], &[8, 0, 0, 0], &[0; 8]].concat());
}

#[test]
fn a_port_that_is_right() {
    let request = [&[TAKE, 8], &[0; 16][..], &[8, 0, 0, 0], &[0; 8]].concat();
    assert!(shrink(&request, &mut |request| Some(right(request))).is_none());
}

fn compare(words: &[&str]) -> Output {
    let (compare, oracle) = (env!("CARGO_BIN_EXE_compare"), env!("CARGO_BIN_EXE_oracle"));
    let words = words.iter().map(|word| if *word == "ORACLE" { oracle } else { word });
    Command::new(compare).args(words).output().expect("compare runs")
}

#[test]
fn a_comparison_that_finds_nothing() {
    let output = compare(&["7", "500", "ORACLE", "expected"]);
    assert!(output.status.success());
    assert!(String::from_utf8_lossy(&output.stdout).ends_with("500 requests compared, no difference\n"));
}

#[test]
fn a_comparison_that_finds_something() {
    // The oracle says 255 where the original can't be asked: to a port that isn't an answer.
    let output = compare(&["7", "500", "ORACLE"]);
    assert_eq!(output.status.code(), Some(1));
    let said = String::from_utf8_lossy(&output.stderr);
    assert!(said.starts_with("compare: a difference, met with a request of "), "{said}");
    assert!(said.contains("\nport     ff0000000000000000\n"), "{said}");
    // What ends at once is told too.
    let output = compare(&["7", "500", "false"]);
    assert!(String::from_utf8_lossy(&output.stderr).ends_with("\nport     nothing\n"));
}
