//! An input: numbers and limits in its first bytes, followed by the bytes with which all calls are made.
use diff::ours::Start;

/// The number of bytes before those for the calls.
pub const HEAD_LEN: usize = 8;

/// The arguments of the calls.
pub struct Input<'a> {
    /// The number of the first header of a chain.
    pub start: u8,
    /// The number after linked headers, and the next header of a new header.
    pub last: u8,
    /// Whether our side reads through the standard library's reader over bytes.
    pub is_over: bool,
    pub limit: Start,
    pub bytes: &'a [u8],
}

impl<'a> Input<'a> {
    /// Parses an input. None is shorter than its head.
    pub fn new(input: &'a [u8]) -> Option<Input<'a>> {
        let (head, bytes) = input.split_first_chunk::<HEAD_LEN>()?;
        let [start, last, kind, before, max_high, max_low, offset_high, offset_low] = *head;
        Some(Input {
            start,
            last,
            is_over: kind & 1 == 1,
            limit: Start {
                source: (kind >> 1) % 3,
                max_len: u16::from_be_bytes([max_high, max_low]).into(),
                layer_offset: u16::from_be_bytes([offset_high, offset_low]).into(),
                before,
            },
            bytes,
        })
    }

    /// Returns the bytes of the input.
    #[cfg(not(afl))]
    pub fn to_bytes(&self) -> Vec<u8> {
        let kind = u8::from(self.is_over) | self.limit.source << 1;
        let mut input = vec![self.start, self.last, kind, self.limit.before];
        input.extend((self.limit.max_len as u16).to_be_bytes());
        input.extend((self.limit.layer_offset as u16).to_be_bytes());
        input.extend(self.bytes);
        input
    }
}
