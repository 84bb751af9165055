//! Frames, and the fields inside them: little-endian numbers, and runs of bytes with their length in front.

use std::io::{ErrorKind, Read, Write};

/// The longest request or answer, in bytes.
pub const LONGEST: usize = 1 << 18;

/// Reads one frame; `None` where the input ends before it.
pub fn read(input: &mut impl Read) -> Result<Option<Vec<u8>>, String> {
    let mut length = [0u8; 4];
    let mut have = 0;
    while have < length.len() {
        match input.read(&mut length[have..]) {
            Ok(0) if have == 0 => return Ok(None),
            Ok(0) => return Err("the input ends inside a frame".to_string()),
            Ok(count) => have += count,
            Err(err) if err.kind() == ErrorKind::Interrupted => {}
            Err(err) => return Err(format!("cannot read a request: {err}")),
        }
    }
    let length = u32::from_le_bytes(length) as usize;
    if length > LONGEST {
        return Err(format!("a frame of {length} bytes is above {LONGEST}"));
    }
    let mut frame = vec![0; length];
    input
        .read_exact(&mut frame)
        .map_err(|_| "the input ends inside a frame".to_string())?;
    Ok(Some(frame))
}

/// Writes one frame.
pub fn write(output: &mut impl Write, frame: &[u8]) -> Result<(), String> {
    if frame.len() > LONGEST {
        return Err(format!("a frame of {} bytes is above {LONGEST}", frame.len()));
    }
    output
        .write_all(&(frame.len() as u32).to_le_bytes())
        .and_then(|()| output.write_all(frame))
        .map_err(|err| format!("cannot write an answer: {err}"))
}

/// The fields of a request, front to back.
pub struct Fields<'a> {
    rest: &'a [u8],
}

impl<'a> Fields<'a> {
    pub fn new(request: &'a [u8]) -> Self {
        Self { rest: request }
    }

    fn take(&mut self, count: usize) -> Result<&'a [u8], String> {
        if count > self.rest.len() {
            return Err("a request ends inside a field".to_string());
        }
        let (taken, rest) = self.rest.split_at(count);
        self.rest = rest;
        Ok(taken)
    }

    fn number(&mut self, width: usize) -> Result<u64, String> {
        let bytes = self.take(width)?;
        Ok(bytes.iter().rev().fold(0, |number, byte| number << 8 | u64::from(*byte)))
    }

    pub fn u8(&mut self) -> Result<u8, String> {
        Ok(self.number(1)? as u8)
    }

    pub fn u32(&mut self) -> Result<u32, String> {
        Ok(self.number(4)? as u32)
    }

    pub fn u64(&mut self) -> Result<u64, String> {
        self.number(8)
    }

    /// A yes, 1, or a no, 0.
    pub fn flag(&mut self) -> Result<bool, String> {
        match self.u8()? {
            0 => Ok(false),
            1 => Ok(true),
            other => Err(format!("a request has {other} for a yes or no")),
        }
    }

    /// So many bytes.
    pub fn array<const N: usize>(&mut self) -> Result<[u8; N], String> {
        let mut bytes = [0; N];
        bytes.copy_from_slice(self.take(N)?);
        Ok(bytes)
    }

    /// A run: its length as a u32, then its bytes.
    pub fn run(&mut self) -> Result<&'a [u8], String> {
        let count = self.number(4)? as usize;
        self.take(count)
    }

    /// Nothing may be left.
    pub fn end(self) -> Result<(), String> {
        match self.rest.len() {
            0 => Ok(()),
            left => Err(format!("a request has {left} bytes too many")),
        }
    }
}

/// The number of an answer to a request that the original can't be asked.
pub const NOT_ASKED: u8 = 255;

/// An answer: the refusal's number and place (both 0 where there is none), then the operation's own fields.
pub struct Answer {
    bytes: Vec<u8>,
}

impl Answer {
    pub fn new(number: u8, place: u64) -> Self {
        Self { bytes: vec![number] }.u64(place)
    }

    pub fn u8(mut self, number: u8) -> Self {
        self.bytes.push(number);
        self
    }

    pub fn u32(mut self, number: u32) -> Self {
        self.bytes.extend_from_slice(&number.to_le_bytes());
        self
    }

    pub fn u64(mut self, number: u64) -> Self {
        self.bytes.extend_from_slice(&number.to_le_bytes());
        self
    }

    /// Bytes whose number the operation fixes.
    pub fn array(mut self, bytes: &[u8]) -> Self {
        self.bytes.extend_from_slice(bytes);
        self
    }

    /// Bytes with their number in front.
    pub fn run(self, bytes: &[u8]) -> Self {
        self.u32(bytes.len() as u32).array(bytes)
    }

    pub fn done(self) -> Vec<u8> {
        self.bytes
    }
}
