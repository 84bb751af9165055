//! A smaller request that a port still answers wrongly: fewer bytes, or as many and fewer of them that aren't 0, or as many of both and a
//! smaller sum. The fields are known, so a request stays one; and a journal's records, slots and header are changed with their CRC-32s.

use crate::layout::{Part, Parts, ENTRY_LEN};
use crate::operations::{CHECK, REREAD, SCAN};
use crate::pieces;
use crate::restated::expected;

mod journals;

/// How many requests are tried at most.
const MOST_TRIES: u32 = 4000;

/// How many pieces of one size are tried at a run's end, and at its start.
const MOST_PIECES: usize = 128;

/// A request that the port answers wrongly.
pub struct Different {
    pub request: Vec<u8>,
    /// What it must answer, and whether the original has no say in it.
    pub expected: Vec<u8>,
    pub restated: bool,
    /// What it answers; none where it ends or is silent.
    pub answer: Option<Vec<u8>>,
    /// How many requests were tried.
    pub tries: u32,
}

/// Asks a port: its answer, or none where it ends or is silent.
pub type Ask<'a> = &'a mut dyn FnMut(&[u8]) -> Option<Vec<u8>>;

struct Search<'a> {
    ask: Ask<'a>,
    best: Parts,
    found: Different,
}

/// How large a request is.
fn size(request: &[u8]) -> (usize, usize, usize) {
    let sum = request.iter().map(|byte| usize::from(*byte)).sum();
    (request.len(), request.iter().filter(|byte| **byte != 0).count(), sum)
}

/// The request with the port's answer, where it is a request and the answer is wrong.
fn different(ask: Ask, request: &[u8]) -> Option<Different> {
    let right = expected(request).ok()?;
    let answer = ask(request);
    let wrong = answer.as_ref() != Some(&right.answer);
    wrong.then(|| Different { request: request.to_vec(), expected: right.answer, restated: right.restated, answer, tries: 0 })
}

impl Search<'_> {
    fn is_over(&self) -> bool {
        self.found.tries >= MOST_TRIES
    }

    /// Takes a smaller request in the place of the best one, if it still differs.
    fn try_parts(&mut self, parts: Parts) -> bool {
        let request = parts.request();
        if self.is_over() || size(&request) >= size(&self.found.request) {
            return false;
        }
        let tries = self.found.tries + 1;
        self.found.tries = tries;
        let Some(found) = different(self.ask, &request) else {
            return false;
        };
        (self.best, self.found) = (parts, Different { tries, ..found });
        true
    }

    fn try_bytes(&mut self, at: usize, bytes: Vec<u8>) -> bool {
        self.try_parts(self.best.with(at, bytes))
    }

    fn bytes(&self, at: usize) -> Vec<u8> {
        self.best.parts[at].bytes().to_vec()
    }

    /// Pieces of one size taken out of a part, or zeroed in it.
    fn pieces(&mut self, at: usize, size: usize, zero: bool) {
        let count = self.bytes(at).len() / size;
        let last = count.saturating_sub(MOST_PIECES);
        let from_the_end = (0..count).rev().filter(|n| *n >= last || *n < MOST_PIECES);
        for n in from_the_end {
            let mut bytes = self.bytes(at);
            let piece = n * size..((n + 1) * size).min(bytes.len());
            if piece.start >= bytes.len() {
                continue;
            }
            match zero {
                true => bytes[piece].fill(0),
                false => drop(bytes.drain(piece)),
            }
            self.try_bytes(at, bytes);
        }
    }

    /// Halves, quarters and so on, down to one unit.
    fn halves(&mut self, at: usize, unit: usize, zero: bool) {
        let mut units = self.bytes(at).len() / unit;
        while units > 0 && !self.is_over() {
            self.pieces(at, units * unit, zero);
            units /= 2;
        }
    }

    /// A number made smaller: 0, 1, half of it, one less; a long field, zeroed by pieces.
    fn number(&mut self, at: usize) {
        let bytes = self.bytes(at);
        if bytes.len() > 8 {
            return self.halves(at, 1, true);
        }
        let number = bytes.iter().rev().fold(0u64, |number, byte| number << 8 | u64::from(*byte));
        for smaller in [0, 1, number / 2, number.saturating_sub(1)] {
            if self.try_bytes(at, smaller.to_le_bytes()[..bytes.len()].to_vec()) {
                return;
            }
        }
        self.halves(at, 1, true);
    }

    fn part(&mut self, at: usize) {
        match self.best.parts[at] {
            Part::Fixed(_) => self.number(at),
            Part::Run(_) => {
                self.halves(at, 1, false);
                self.halves(at, 1, true);
            }
            Part::Index(_) => {
                self.halves(at, ENTRY_LEN, false);
                self.halves(at, 1, true);
            }
        }
    }

    /// What can be taken out of a journal so that the rest of it stands.
    fn journal(&mut self) {
        let moves = match self.best.operation {
            SCAN | CHECK => journals::smaller_journals,
            REREAD => journals::smaller_rereads,
            _ => return,
        };
        let (mut next, mut smaller) = (0, moves(&self.best));
        while next < smaller.len() && !self.is_over() {
            match self.try_parts(smaller[next].clone()) {
                true => smaller = moves(&self.best),
                false => next += 1,
            }
        }
    }

    /// Each way in turn, until none helps.
    fn run(&mut self) {
        loop {
            let before = self.best.clone();
            self.journal();
            for at in 0..self.best.parts.len() {
                self.part(at);
            }
            if self.best == before || self.is_over() {
                return;
            }
        }
    }
}

/// The smallest request found that the port answers wrongly; none where it answers this one right when asked alone.
pub fn shrink(request: &[u8], ask: Ask) -> Option<Different> {
    let found = different(ask, request)?;
    let Some(best) = Parts::new(request) else {
        return Some(found);
    };
    let mut search = Search { ask, best, found };
    search.run();
    Some(search.found)
}
