//! For `ironfix_core::message`: the type code, by the rule of this port: 1 to 8 bytes, each 0x21 to 0x7E. Like the original's own, it is
//! held in place, not on the heap.

/// The longest type code, in bytes.
pub const MSG_TYPE_MAX_LEN: usize = 8;

#[derive(Debug, Clone, PartialEq, Eq)]
pub struct MsgType {
    /// The code's bytes, and zeros behind them.
    bytes: [u8; MSG_TYPE_MAX_LEN],
    length: usize,
}

/// A code that the rule refuses.
#[derive(Debug)]
pub struct BadCode;

impl MsgType {
    pub fn new(code: &str) -> Result<Self, BadCode> {
        if code.is_empty() || !code.bytes().all(|byte| (0x21..=0x7E).contains(&byte)) {
            return Err(BadCode);
        }
        let mut bytes = [0; MSG_TYPE_MAX_LEN];
        bytes.get_mut(..code.len()).ok_or(BadCode)?.copy_from_slice(code.as_bytes());
        Ok(Self { bytes, length: code.len() })
    }

    pub fn as_str(&self) -> &str {
        std::str::from_utf8(&self.bytes[..self.length]).unwrap_or_default()
    }
}
