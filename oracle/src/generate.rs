//! Requests for the comparison, from a seed: well-formed ones, and the same damaged, cut, or with a field at its edge.

use crate::operations::{BODY, CHECK, CRC, HEADER, INSERT, LOOKUP, NEWEST, PREFIX, PUT, RECORD, REREAD, SCAN, SEAL, SEEN, SLOT, SLOTS, TAKE};

mod checks;
mod cursors;
mod entries;
mod fronts;
mod losses;
mod parts;
mod records;
mod rereads;
mod scans;

pub(crate) use checks::next_input as check_input;
pub(crate) use losses::next as loss;
pub(crate) use scans::ends;

/// Makes the request of a turn.
pub type Make = fn(&mut Numbers, usize) -> Vec<u8>;

/// Numbers at the edges of what the formats hold.
const EDGES: [u64; 10] = [
    0,
    1,
    2,
    12_287,
    12_288,
    u32::MAX as u64,
    i64::MAX as u64,
    i64::MAX as u64 + 1,
    u64::MAX - 1,
    u64::MAX,
];

/// A stream of numbers that the seed fixes (splitmix64).
pub struct Numbers(u64);

impl Numbers {
    pub fn new(seed: u64) -> Self {
        Self(seed)
    }

    pub fn next(&mut self) -> u64 {
        self.0 = self.0.wrapping_add(0x9E37_79B9_7F4A_7C15);
        let mut x = self.0;
        x = (x ^ (x >> 30)).wrapping_mul(0xBF58_476D_1CE4_E5B9);
        x = (x ^ (x >> 27)).wrapping_mul(0x94D0_49BB_1331_11EB);
        x ^ (x >> 31)
    }

    fn below(&mut self, end: u64) -> u64 {
        self.next() % end
    }

    fn one_in(&mut self, n: u64) -> bool {
        self.below(n) == 0
    }

    fn pick<T: Copy>(&mut self, from: &[T]) -> T {
        from[self.below(from.len() as u64) as usize]
    }

    fn bytes(&mut self, count: u64) -> Vec<u8> {
        (0..count).map(|_| self.next() as u8).collect()
    }

    /// A number: at an edge, small, or any.
    fn number(&mut self) -> u64 {
        match self.below(3) {
            0 => self.pick(&EDGES),
            1 => self.below(1000),
            _ => self.next(),
        }
    }
}

/// A request of one operation.
pub fn of(operation: u8, numbers: &mut Numbers, turn: usize) -> Vec<u8> {
    match operation {
        CRC => parts::crc(numbers),
        HEADER => parts::header(numbers),
        SLOT => parts::slot(numbers),
        NEWEST => parts::newest(numbers),
        SLOTS => parts::slots(numbers),
        PREFIX => parts::prefix(numbers),
        RECORD => records::record(numbers),
        SEAL => records::seal(numbers),
        BODY => records::body(numbers),
        SEEN => records::seen(numbers),
        SCAN => scans::request(numbers, turn),
        REREAD => rereads::request(numbers),
        CHECK => checks::request(numbers, turn),
        TAKE => cursors::take(numbers),
        PUT => cursors::put(numbers),
        INSERT => entries::insert(numbers),
        _ => entries::lookup(numbers),
    }
}

/// Of each operation, how many of fifty requests are its. Few of those that have a prefix, which is long.
const SHARES: [(u8, usize); 17] = [
    (CRC, 2),
    (HEADER, 3),
    (SLOT, 3),
    (NEWEST, 3),
    (SLOTS, 2),
    (PREFIX, 1),
    (RECORD, 4),
    (SEAL, 3),
    (BODY, 3),
    (SEEN, 4),
    (SCAN, 5),
    (REREAD, 4),
    (CHECK, 4),
    (TAKE, 2),
    (PUT, 2),
    (INSERT, 3),
    (LOOKUP, 2),
];

/// The operation of a turn. The requests of one operation don't stand in a row.
fn operation(turn: usize) -> u8 {
    let mut place = turn * 7 % 50;
    for (operation, share) in SHARES {
        if place < share {
            return operation;
        }
        place -= share;
    }
    LOOKUP
}

/// The next request of all operations.
pub fn request(numbers: &mut Numbers, turn: usize) -> Vec<u8> {
    of(operation(turn), numbers, turn)
}

/// What the library answers, in turn: five scans, two re-reads, and one of each other operation that it has.
const LIBRARY: [u8; 12] = [SCAN, SCAN, REREAD, RECORD, SCAN, SEAL, SCAN, REREAD, SLOTS, SCAN, CRC, PREFIX];

/// The next request of those that the library answers. A scan's kind of journal goes by the scans before it.
pub fn library(numbers: &mut Numbers, turn: usize) -> Vec<u8> {
    let (round, place) = (turn / LIBRARY.len(), turn % LIBRARY.len());
    let scans = |operations: &[u8]| operations.iter().filter(|operation| **operation == SCAN).count();
    of(LIBRARY[place], numbers, round * scans(&LIBRARY) + scans(&LIBRARY[..place]))
}

#[cfg(test)]
mod tests {
    use super::{operation, request, Numbers, SHARES};

    #[test]
    fn each_operation_has_its_share() {
        for (one, share) in SHARES {
            assert_eq!((0..50).filter(|turn| operation(*turn) == one).count(), share);
        }
    }

    #[test]
    fn requests_are_short_in_the_mean() {
        let mut numbers = Numbers::new(7);
        let bytes: usize = (0..5000).map(|turn| request(&mut numbers, turn).len()).sum();
        assert!(bytes / 5000 < 3000, "{}", bytes / 5000);
    }
}
