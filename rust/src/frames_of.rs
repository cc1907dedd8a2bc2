//! The frames of captures, one after another.

use crate::ip_captures::{Capture, CaptureError, Frame, Interface, Next};
use core::fmt;

/// An iterator over the frames of a capture whose bytes are in memory. Skips the other blocks of pcapng.
///
/// ```
/// use wolfaren::captures::{Frames, Interface, Next};
/// use wolfaren::dissect::dissect;
///
/// /// Returns how many frames of raw IP have extension headers.
/// fn with_headers(capture: &[u8]) -> Option<usize> {
///     let mut interfaces = [Interface::default(); 64];
///     let mut frames = Frames::new(capture, 262_144, &mut interfaces).ok()?;
///     let raw = frames.by_ref().filter(|frame| frame.link_type == 101);
///     let count = raw.filter(|frame| dissect(frame.captured).header_count > 0).count();
///     (frames.end() == Some(Next::Ended)).then_some(count)
/// }
///
/// assert_eq!(with_headers(b"GIF89a: this is no capture"), None);
/// ```
pub struct Frames<'a, 'm> {
    capture: Option<Capture<'m>>,
    rest: &'a [u8],
    end: Option<Next<'a>>,
}

impl fmt::Debug for Frames<'_, '_> {
    fn fmt(&self, f: &mut fmt::Formatter<'_>) -> fmt::Result {
        f.debug_struct("Frames")
            .field("capture", &self.capture)
            .field("end", &self.end)
            .finish_non_exhaustive()
    }
}

impl<'a, 'm> Frames<'a, 'm> {
    /// Returns the frames of the capture that begins with `bytes`, as [`Capture::begin`] reads it, or an error if they begin
    /// no capture.
    pub fn new(
        bytes: &'a [u8],
        limit: u32,
        interfaces: &'m mut [Interface],
    ) -> Result<Self, CaptureError> {
        let capture = Capture::begin(bytes, limit, interfaces)?;
        let start = capture.as_ref().map_or(0, |it| it.offset() as usize);
        let end = capture.is_none().then_some(Next::Needs(24));
        Ok(Frames {
            capture,
            rest: &bytes[start..],
            end,
        })
    }

    /// Returns why there are no more frames: `Ended`, `Needs` if the capture is truncated, or `Error`. `None` before
    /// `next` has returned `None`.
    pub fn end(&self) -> Option<Next<'a>> {
        self.end
    }

    /// Returns the bytes after the last frame.
    pub fn rest(&self) -> &'a [u8] {
        self.rest
    }
}

impl<'a> Iterator for Frames<'a, '_> {
    type Item = Frame<'a>;

    fn next(&mut self) -> Option<Frame<'a>> {
        let capture = self.capture.as_mut()?;
        loop {
            match capture.next(self.rest) {
                Next::Frame(frame) => {
                    self.rest = &self.rest[frame.record_len..];
                    return Some(frame);
                }
                Next::Block(block) => self.rest = &self.rest[block.record_len..],
                end => {
                    self.end = Some(end);
                    return None;
                }
            }
        }
    }
}
