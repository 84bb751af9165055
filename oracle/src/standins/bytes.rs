//! For the crate `bytes`: bytes whose front can be passed over.

/// Bytes, of which the first `passed` no longer count.
#[derive(Debug, Clone)]
pub struct Bytes {
    all: Vec<u8>,
    passed: usize,
}

impl Bytes {
    pub fn as_slice(&self) -> &[u8] {
        &self.all[self.passed..]
    }
}

impl From<Vec<u8>> for Bytes {
    fn from(all: Vec<u8>) -> Self {
        Self { all, passed: 0 }
    }
}

impl PartialEq for Bytes {
    fn eq(&self, other: &Self) -> bool {
        self.as_slice() == other.as_slice()
    }
}

impl Eq for Bytes {}

pub trait Buf {
    /// Passes over the next `count` bytes, of which there must be so many.
    fn advance(&mut self, count: usize);
}

impl Buf for Bytes {
    fn advance(&mut self, count: usize) {
        assert!(count <= self.as_slice().len(), "advance past the end");
        self.passed += count;
    }
}
