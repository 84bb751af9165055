//! list SEED COUNT REQUESTS ANSWERS: writes COUNT requests to the file REQUESTS, and what the port must answer to the file ANSWERS: first
//! the edges, then damaged journals, then requests of all operations, made from SEED. Prints how many there are of each operation, and of
//! how many the answer is restated.
//!
//! list library SEED COUNT REQUESTS ANSWERS: COUNT requests that the library answers, and the original's answers. One that the
//! original can't be asked is left out.
//!
//! list check FOLDER: writes inputs of the check program as FOLDER/NAME.request, and what it must print as FOLDER/NAME.answer.

use oracle::edges::edges;
use oracle::generate::{self, Numbers};
use oracle::operations::{self, CHECK, SCAN};
use oracle::restated::expected;
use oracle::samples::samples;
use oracle::{check, frames};
use std::collections::BTreeMap;
use std::process::ExitCode;

/// How many bytes a long request has, and how many of them a list holds at most.
const LONG: usize = 12_000;
const MOST_LONG: usize = 350;

/// How many journals from the generator stand behind the edges, of which each third is asked as a check.
const JOURNALS: usize = 75;

/// Above this a generated request is left out, so that few of them don't fill the list.
const LONGEST: usize = 20_000;

fn main() -> ExitCode {
    match run() {
        Ok(()) => ExitCode::SUCCESS,
        Err(message) => {
            eprintln!("list: {message}");
            ExitCode::FAILURE
        }
    }
}

const USAGE: &str = "usage: list [library] SEED COUNT REQUESTS ANSWERS or list check FOLDER";

fn write(file: &str, bytes: &[u8]) -> Result<(), String> {
    std::fs::write(file, bytes).map_err(|err| format!("cannot write {file}: {err}"))
}

/// Requests and their answers, as they are written.
#[derive(Default)]
struct List {
    requests: Vec<u8>,
    answers: Vec<u8>,
    /// How many, how many of them are long, and how many are restated.
    count: usize,
    long: usize,
    restated: usize,
    names: BTreeMap<&'static str, usize>,
}

impl List {
    fn add(&mut self, request: &[u8]) -> Result<(), String> {
        let right = expected(request)?;
        frames::write(&mut self.requests, request)?;
        frames::write(&mut self.answers, &right.answer)?;
        self.count += 1;
        self.long += usize::from(request.len() > LONG);
        self.restated += usize::from(right.restated);
        *self.names.entry(operations::name(request)).or_default() += 1;
        Ok(())
    }

    /// Adds a generated request, unless it is too long or one long request too many.
    fn add_made(&mut self, request: &[u8]) -> Result<(), String> {
        let fits = request.len() <= LONG || self.long < MOST_LONG && request.len() <= LONGEST;
        if fits { self.add(request) } else { Ok(()) }
    }

    fn write(&self, requests: &str, answers: &str) -> Result<(), String> {
        write(requests, &self.requests)?;
        write(answers, &self.answers)
    }

    fn tell(&self) {
        for (name, count) in &self.names {
            println!("{name}: {count}");
        }
        println!("{} requests, {} of them restated, {} above {LONG} bytes", self.count, self.restated, self.long);
        println!("{} bytes of requests, {} bytes of answers", self.requests.len(), self.answers.len());
    }
}

/// The edges, journals from the generator, and requests of all operations.
fn plain(seed: u64, count: usize) -> Result<List, String> {
    let (mut list, mut numbers) = (List::default(), Numbers::new(seed));
    for edge in edges() {
        list.add(&edge.request)?;
    }
    println!("{} edges, {} of them restated", list.count, list.restated);
    for turn in 0..JOURNALS {
        let operation = if turn % 3 == 2 { CHECK } else { SCAN };
        list.add_made(&generate::of(operation, &mut numbers, turn / 3))?;
    }
    let mut turn = 0;
    while list.count < count {
        list.add_made(&generate::request(&mut numbers, turn))?;
        turn += 1;
    }
    Ok(list)
}

/// What the library answers, and the original too.
fn library(seed: u64, count: usize) -> Result<List, String> {
    let (mut list, mut numbers) = (List::default(), Numbers::new(seed));
    let mut turn = 0;
    while list.count < count {
        let request = generate::library(&mut numbers, turn);
        turn += 1;
        if !expected(&request)?.restated {
            list.add(&request)?;
        }
    }
    Ok(list)
}

/// Writes the check program's inputs and what it must print.
fn checks(folder: &str) -> Result<(), String> {
    std::fs::create_dir_all(folder).map_err(|err| format!("cannot make {folder}: {err}"))?;
    let (mut bytes, mut restated) = (0, 0);
    let all = samples();
    for (name, input) in &all {
        let right = check::text(input)?;
        write(&format!("{folder}/{name}.request"), input)?;
        write(&format!("{folder}/{name}.answer"), right.text.as_bytes())?;
        bytes += input.len() + right.text.len();
        restated += usize::from(right.restated);
    }
    println!("{} inputs, {restated} of them restated, {bytes} bytes", all.len());
    Ok(())
}

fn run() -> Result<(), String> {
    let words: Vec<String> = std::env::args().skip(1).collect();
    let number = |word: &str| word.parse::<u64>().map_err(|_| format!("{word} is no number"));
    let (make, words): (fn(u64, usize) -> Result<List, String>, _) = match words.as_slice() {
        [word, folder] if word == "check" => return checks(folder),
        [word, rest @ ..] if word == "library" => (library, rest),
        rest => (plain, rest),
    };
    let [seed, count, requests, answers] = words else {
        return Err(USAGE.to_string());
    };
    let list = make(number(seed)?, number(count)? as usize)?;
    list.write(requests, answers)?;
    list.tell();
    Ok(())
}
