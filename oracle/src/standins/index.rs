//! For `crate::file::index`: where each message's record is, in the order in which the numbers first appeared.

use crate::file::format::IndexEntry;
use std::collections::HashMap;

#[derive(Debug)]
pub struct Index {
    entries: Vec<(u64, IndexEntry)>,
    places: HashMap<u64, usize>,
}

impl Index {
    pub fn new() -> Self {
        Self { entries: Vec::new(), places: HashMap::new() }
    }

    /// Files a record under a message number, and answers the entry that it replaces.
    pub fn insert(&mut self, seq: u64, entry: IndexEntry) -> Option<IndexEntry> {
        if let Some(place) = self.places.get(&seq) {
            return Some(std::mem::replace(&mut self.entries[*place].1, entry));
        }
        self.places.insert(seq, self.entries.len());
        self.entries.push((seq, entry));
        None
    }

    /// The entries, in order of first appearance.
    pub fn entries(&self) -> &[(u64, IndexEntry)] {
        &self.entries
    }
}
