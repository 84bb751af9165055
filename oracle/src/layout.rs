//! The fields of each operation's request, as the shrinking takes a request apart and puts it together.

use crate::operations::{BODY, CHECK, CRC, HEADER, INSERT, LOOKUP, NEWEST, PREFIX, PUT, RECORD, REREAD, SCAN, SEAL, SEEN, SLOT, SLOTS, TAKE};

/// A field: so many bytes, a run, or an index.
#[derive(Clone, Copy)]
enum Kind {
    Fixed(usize),
    Run,
    Index,
}

use Kind::{Fixed, Index, Run};

/// The fields of a request behind its operation's number.
fn kinds(operation: u8) -> Option<&'static [Kind]> {
    Some(match operation {
        HEADER | SLOT | BODY | CHECK => &[Run],
        CRC | NEWEST => &[Run, Run],
        SLOTS => &[Fixed(8), Fixed(8), Fixed(8), Fixed(8), Fixed(8), Fixed(1)],
        PREFIX => &[Fixed(8), Fixed(4), Fixed(8), Fixed(8), Fixed(52), Fixed(52), Run],
        RECORD => &[Fixed(1), Fixed(8), Fixed(8), Fixed(8), Fixed(1), Fixed(8), Run, Run],
        SEAL => &[Fixed(8), Run],
        SEEN => &[Fixed(8), Fixed(8), Run],
        SCAN => &[Fixed(1), Fixed(8), Fixed(8), Index, Run],
        REREAD => &[Fixed(8), Fixed(8), Fixed(8), Fixed(8), Run],
        TAKE => &[Fixed(1), Fixed(8), Fixed(8), Run],
        PUT => &[Fixed(1), Fixed(8), Fixed(8), Run, Run],
        INSERT => &[Index, Fixed(8), Fixed(8), Fixed(8), Fixed(8), Fixed(8)],
        LOOKUP => &[Index, Fixed(8), Fixed(8)],
        _ => return None,
    })
}

/// How many bytes an entry has.
pub(crate) const ENTRY_LEN: usize = 24;

/// A field with its bytes, without the length in front of them.
#[derive(Clone, PartialEq, Debug)]
pub(crate) enum Part {
    Fixed(Vec<u8>),
    Run(Vec<u8>),
    Index(Vec<u8>),
}

impl Part {
    pub(crate) fn bytes(&self) -> &[u8] {
        match self {
            Self::Fixed(bytes) | Self::Run(bytes) | Self::Index(bytes) => bytes,
        }
    }

    /// The same field with other bytes.
    pub(crate) fn with(&self, bytes: Vec<u8>) -> Self {
        match self {
            Self::Fixed(_) => Self::Fixed(bytes),
            Self::Run(_) => Self::Run(bytes),
            Self::Index(_) => Self::Index(bytes),
        }
    }

    fn length(&self) -> Option<u32> {
        match self {
            Self::Fixed(_) => None,
            Self::Run(bytes) => Some(bytes.len() as u32),
            Self::Index(bytes) => Some((bytes.len() / ENTRY_LEN) as u32),
        }
    }
}

/// A request taken apart.
#[derive(Clone, PartialEq, Debug)]
pub(crate) struct Parts {
    pub(crate) operation: u8,
    pub(crate) parts: Vec<Part>,
}

fn split<'a>(bytes: &mut &'a [u8], count: usize) -> Option<&'a [u8]> {
    let (taken, rest) = bytes.split_at_checked(count)?;
    *bytes = rest;
    Some(taken)
}

/// So many bytes as a length in front says, in units of so many.
fn counted(bytes: &mut &[u8], unit: usize) -> Option<Vec<u8>> {
    let length = u32::from_le_bytes(split(bytes, 4)?.try_into().ok()?) as usize;
    Some(split(bytes, length.checked_mul(unit)?)?.to_vec())
}

impl Parts {
    /// A request's parts, where it is one.
    pub(crate) fn new(request: &[u8]) -> Option<Self> {
        let (operation, mut rest) = request.split_first()?;
        let mut parts = Vec::new();
        for kind in kinds(*operation)? {
            parts.push(match kind {
                Fixed(count) => Part::Fixed(split(&mut rest, *count)?.to_vec()),
                Run => Part::Run(counted(&mut rest, 1)?),
                Index => Part::Index(counted(&mut rest, ENTRY_LEN)?),
            });
        }
        rest.is_empty().then_some(Self { operation: *operation, parts })
    }

    /// The request, with the lengths that its parts have.
    pub(crate) fn request(&self) -> Vec<u8> {
        let mut request = vec![self.operation];
        for part in &self.parts {
            request.extend(part.length().into_iter().flat_map(u32::to_le_bytes));
            request.extend_from_slice(part.bytes());
        }
        request
    }

    /// The same with other bytes in one part.
    pub(crate) fn with(&self, at: usize, bytes: Vec<u8>) -> Self {
        let mut other = self.clone();
        other.parts[at] = self.parts[at].with(bytes);
        other
    }
}

#[cfg(test)]
mod tests {
    use super::Parts;
    use crate::generate::{self, Numbers};

    #[test]
    fn each_request_is_put_together_again() {
        let mut numbers = Numbers::new(3);
        for turn in 0..500 {
            let request = generate::request(&mut numbers, turn);
            assert_eq!(Parts::new(&request).expect("a request").request(), request);
        }
    }
}
