//! Readers of bytes.

use std::io::{self, Read as _};

use crate::Error;

/// A place from which bytes are taken in order.
pub trait Read<'de> {
    /// Takes the next `count` bytes, or fails when there are fewer.
    fn take(&mut self, count: usize) -> Result<Vec<u8>, Error>;
}

fn cut_short() -> Error {
    Error::Io(io::Error::new(io::ErrorKind::UnexpectedEof, "a value is cut short"))
}

/// Bytes from something that implements `io::Read`.
#[derive(Debug)]
pub struct IoReader<R> {
    reader: R,
}

impl<R: io::Read> IoReader<R> {
    /// Reads from `reader`, and never more than a value needs.
    pub fn new(reader: R) -> Self {
        IoReader { reader }
    }
}

impl<'de, R: io::Read> Read<'de> for IoReader<R> {
    fn take(&mut self, count: usize) -> Result<Vec<u8>, Error> {
        let mut bytes = Vec::new();
        let mut part = self.reader.by_ref().take(count as u64);
        part.read_to_end(&mut bytes)?;
        if bytes.len() == count {
            Ok(bytes)
        } else {
            Err(cut_short())
        }
    }
}

/// Bytes from a slice.
#[derive(Debug)]
pub struct SliceReader<'s> {
    slice: &'s [u8],
}

impl<'s> SliceReader<'s> {
    /// Reads from the beginning of `slice`.
    pub fn new(slice: &'s [u8]) -> Self {
        SliceReader { slice }
    }

    /// What has not been taken yet.
    pub fn rest(&self) -> &'s [u8] {
        self.slice
    }
}

impl<'s> Read<'s> for SliceReader<'s> {
    fn take(&mut self, count: usize) -> Result<Vec<u8>, Error> {
        if count > self.slice.len() {
            return Err(cut_short());
        }
        let (first, rest) = self.slice.split_at(count);
        self.slice = rest;
        Ok(first.to_vec())
    }
}
