//! Parts of packets and of events, read from the front and appended at the end (RFC 4251, section 5), and the lines of records.

use crate::stop::{Stop, WRITE_FAULT};
use std::io::Write;

/// Bytes that are still to be read. A part that can't be read is `None`.
#[derive(Clone, Copy)]
pub struct Fields<'a>(pub &'a [u8]);

impl<'a> Fields<'a> {
    pub fn bytes(&mut self, count: usize) -> Option<&'a [u8]> {
        let (front, rest) = self.0.split_at_checked(count)?;
        self.0 = rest;
        Some(front)
    }

    pub fn byte(&mut self) -> Option<u8> {
        Some(self.bytes(1)?[0])
    }

    /// Each byte but 0 is true.
    pub fn flag(&mut self) -> Option<bool> {
        Some(self.byte()? != 0)
    }

    pub fn number(&mut self) -> Option<u32> {
        Some(u32::from_be_bytes(self.bytes(4)?.try_into().ok()?))
    }

    pub fn long(&mut self) -> Option<u64> {
        Some(u64::from_be_bytes(self.bytes(8)?.try_into().ok()?))
    }

    pub fn string(&mut self) -> Option<&'a [u8]> {
        let count = self.number()?;
        self.bytes(count as usize)
    }

    /// A string in UTF-8.
    pub fn text(&mut self) -> Option<&'a [u8]> {
        self.string().filter(|bytes| std::str::from_utf8(bytes).is_ok())
    }

    /// A number of parts that have at least so many bytes each; a number above what the bytes behind it hold can't be read.
    pub fn count(&mut self, least: usize) -> Option<usize> {
        let count = self.number()? as usize;
        (count <= self.0.len() / least).then_some(count)
    }

    /// Whether nothing is left.
    pub fn end(&self) -> Option<()> {
        self.0.is_empty().then_some(())
    }

    /// All bytes that are left.
    pub fn rest(&mut self) -> &'a [u8] {
        std::mem::take(&mut self.0)
    }

    /// The bytes that a reader takes, if it can read them.
    pub fn taken(&mut self, read: impl FnOnce(&mut Self) -> Option<()>) -> Option<&'a [u8]> {
        let before = self.0;
        read(self)?;
        Some(&before[..before.len() - self.0.len()])
    }
}

/// The names of a list without the empty ones.
pub fn names(list: &[u8]) -> impl Iterator<Item = &[u8]> {
    list.split(|byte| *byte == b',').filter(|name| !name.is_empty())
}

/// Appends parts.
pub trait Put {
    fn number(&mut self, number: u32);
    fn string(&mut self, bytes: &[u8]);
}

impl Put for Vec<u8> {
    fn number(&mut self, number: u32) {
        self.extend_from_slice(&number.to_be_bytes());
    }

    fn string(&mut self, bytes: &[u8]) {
        self.number(bytes.len() as u32);
        self.extend_from_slice(bytes);
    }
}

const HEX: [[u8; 2]; 256] = {
    let digits = b"0123456789abcdef";
    let mut table = [[0; 2]; 256];
    let mut byte = 0;
    while byte < 256 {
        table[byte] = [digits[byte >> 4], digits[byte & 15]];
        byte += 1;
    }
    table
};

/// Where records go, each as a line that is handed on at once.
pub struct Lines<'a> {
    out: &'a mut dyn Write,
    record: Vec<u8>,
    /// As long as the longest line so far.
    line: Vec<u8>,
}

impl<'a> Lines<'a> {
    pub fn new(out: &'a mut dyn Write) -> Self {
        Lines { out, record: Vec::new(), line: Vec::new() }
    }

    /// The record of this number whose fields are put.
    pub fn record(&mut self, number: u8, put: impl FnOnce(&mut Vec<u8>)) -> Result<(), Stop> {
        self.record.clear();
        self.record.push(number);
        put(&mut self.record);
        let digits = 2 * self.record.len();
        if self.line.len() <= digits {
            self.line.resize(digits + 1, 0);
        }
        for (pair, byte) in self.line.as_chunks_mut().0.iter_mut().zip(&self.record) {
            *pair = HEX[usize::from(*byte)];
        }
        self.line[digits] = b'\n';
        self.out.write_all(&self.line[..=digits]).map_err(|_| WRITE_FAULT)
    }

    /// The packet of this number for the transport.
    pub fn packet(&mut self, number: u8, put: impl FnOnce(&mut Vec<u8>)) -> Result<(), Stop> {
        self.record(0x01, |record| {
            record.push(number);
            put(record);
        })
    }

    /// A ticket's answer; ticket 0 gets none.
    pub fn resolved(&mut self, ticket: u32, resolution: u8, put: impl FnOnce(&mut Vec<u8>)) -> Result<(), Stop> {
        if ticket == 0 {
            return Ok(());
        }
        self.record(0x04, |record| {
            record.number(ticket);
            record.push(resolution);
            put(record);
        })
    }
}
