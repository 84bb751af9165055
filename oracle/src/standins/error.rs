//! For `ironfix_core::error`: the errors that the journal's functions answer.

#[derive(Debug)]
pub enum StoreError {
    Corrupted { reason: String },
    Io(String),
    StoreFailed { seq_num: u64, reason: String },
}
