//! The frames of a capture that is read from a file or a pipe.

use crate::ip_captures::{CaptureErrorFields, CaptureFields, Frame, Interface, RecordFields};
use alloc::vec::Vec;
use std::io::{Error, ErrorKind, Read};

/// How many bytes are read at once.
const PART: usize = 65_536;
/// The length of the longest file header in bytes.
const FILE_HEADER: usize = 24;
/// Values of `kind` in `RecordFields`.
const FRAME: u8 = 0;
const BLOCK: u8 = 1;
const ERROR: u8 = 4;

/// Reads the frames of a capture from any reader, such as a file or a pipe, and holds a part of the capture in memory: at most
/// the longest record and 65,560 bytes. Skips the other blocks of pcapng.
#[derive(Debug)]
pub struct FrameReader<'m, R> {
    reader: R,
    capture: CaptureFields<'m>,
    record: RecordFields,
    bytes: Vec<u8>,
    start: usize,
}

/// Returns what is wrong with a capture.
fn error_of(fields: &CaptureErrorFields) -> Error {
    match fields.error() {
        Some(error) => Error::new(ErrorKind::InvalidData, error),
        None => Error::new(ErrorKind::UnexpectedEof, "the capture is truncated"),
    }
}

impl<'m, R: Read> FrameReader<'m, R> {
    /// Begins to read a capture. Records may state at most `limit` captured bytes, blocks have at most so many, and a section of
    /// pcapng describes at most as many interfaces as there are places.
    pub fn new(reader: R, limit: u32, interfaces: &'m mut [Interface]) -> Result<Self, Error> {
        let capture = CaptureFields {
            interfaces,
            interface_count: 0,
            offset: 0,
            limit,
            snap_len: 0,
            link_type: 0,
            form: 0,
            byte_order: 0,
        };
        let error = CaptureErrorFields::none();
        let record = RecordFields {
            offset: 0,
            len: 0,
            record_len: 0,
            needed: 0,
            time: 0,
            error,
            original_len: 0,
            interface: 0,
            block_type: 0,
            link_type: 0,
            has_time: 0,
            kind: FRAME,
        };
        let mut it = FrameReader {
            reader,
            capture,
            record,
            bytes: Vec::new(),
            start: 0,
        };
        it.fill(FILE_HEADER)?;
        let mut error = CaptureErrorFields::none();
        if !it.capture.begin(&it.bytes, &mut error) {
            return Err(error_of(&error));
        }
        it.start = it.capture.offset as usize;
        Ok(it)
    }

    /// Reads on until there are so many bytes from the next record on. Returns whether there are.
    fn fill(&mut self, needed: usize) -> Result<bool, Error> {
        self.bytes.drain(..self.start);
        self.start = 0;
        while self.bytes.len() < needed {
            let len = self.bytes.len();
            self.bytes.resize(len + PART, 0);
            let read = self.reader.read(&mut self.bytes[len..]);
            self.bytes.truncate(len + *read.as_ref().unwrap_or(&0));
            match read {
                Ok(0) => return Ok(false),
                Ok(_) => {}
                Err(error) if error.kind() == ErrorKind::Interrupted => {}
                Err(error) => return Err(error),
            }
        }
        Ok(true)
    }

    /// Returns the next frame, or `None` where the capture ends. An error of kind `UnexpectedEof` reports that it is truncated, and
    /// one of kind `InvalidData` has the [`CaptureError`](crate::captures::CaptureError).
    pub fn next_frame(&mut self) -> Result<Option<Frame<'_>>, Error> {
        loop {
            self.capture
                .next(&self.bytes[self.start..], &mut self.record);
            match self.record.kind {
                FRAME => break,
                BLOCK => self.start += self.record.record_len,
                ERROR => return Err(error_of(&self.record.error)),
                _ => {
                    let has_more = self.fill(self.record.needed.max(1))?;
                    if !has_more && self.bytes.is_empty() {
                        return Ok(None);
                    }
                    if !has_more {
                        return Err(error_of(&CaptureErrorFields::none()));
                    }
                }
            }
        }
        let record = self.record;
        let from = self.start + record.offset;
        self.start += record.record_len;
        Ok(Some(Frame {
            captured: &self.bytes[from..from + record.len],
            original_len: record.original_len,
            time: (record.has_time == 1).then_some(record.time),
            interface: record.interface,
            link_type: record.link_type,
            record_len: record.record_len,
        }))
    }
}
