//! What Rattle's standard library has, and Rust's doesn't, or only with `std`.

use alloc::vec::Vec;
use core::net::{Ipv4Addr, Ipv6Addr};
use core::str::FromStr;

pub(crate) use io::Error as AllocError;
#[cfg(feature = "std")]
pub use std::io;

/// Memory requested for a vector.
pub(crate) trait ReserveBytes {
    /// Makes room for so many more bytes, or returns an error.
    fn reserve_bytes(&mut self, count: usize) -> Result<(), AllocError>;
}

impl ReserveBytes for Vec<u8> {
    #[inline(always)]
    fn reserve_bytes(&mut self, count: usize) -> Result<(), AllocError> {
        match self.try_reserve(count) {
            Ok(()) => Ok(()),
            Err(_) => Err(AllocError::from(io::ErrorKind::OutOfMemory)),
        }
    }
}

/// Returns the bytes from an index on, as many as the array has. Panics if there are fewer.
#[inline(always)]
pub(crate) fn bytes_at<const N: usize>(bytes: &[u8], start: usize) -> [u8; N] {
    match bytes[start..start + N].try_into() {
        Ok(found) => found,
        Err(_) => unreachable!(),
    }
}

/// A text of bytes parsed.
pub(crate) trait ParseText: Sized {
    /// Parses the whole text.
    fn parse_text(text: &[u8]) -> Result<Self, NotParsed>;
}

/// The error of a text that isn't one.
pub(crate) struct NotParsed;

impl ParseText for Ipv4Addr {
    fn parse_text(text: &[u8]) -> Result<Ipv4Addr, NotParsed> {
        parse(text)
    }
}

impl ParseText for Ipv6Addr {
    fn parse_text(text: &[u8]) -> Result<Ipv6Addr, NotParsed> {
        parse(text)
    }
}

fn parse<T: FromStr>(text: &[u8]) -> Result<T, NotParsed> {
    let text = core::str::from_utf8(text).map_err(|_| NotParsed)?;
    text.parse().map_err(|_| NotParsed)
}

/// The part of `std::io` that reads need, for targets without it.
#[cfg(not(feature = "std"))]
pub mod io {
    use core::fmt;

    /// Why a read or a request for memory failed.
    #[derive(Clone, Copy, Debug, PartialEq, Eq)]
    #[non_exhaustive]
    pub enum ErrorKind {
        /// Too few bytes are left.
        UnexpectedEof,
        /// There is no memory.
        OutOfMemory,
        /// Any other reason.
        Other,
    }

    /// The error of a read or of a request for memory.
    #[derive(Debug)]
    pub struct Error(ErrorKind);

    /// The result of a read.
    pub type Result<T> = core::result::Result<T, Error>;

    impl Error {
        /// Returns why it failed.
        pub fn kind(&self) -> ErrorKind {
            self.0
        }
    }

    impl From<ErrorKind> for Error {
        fn from(kind: ErrorKind) -> Error {
            Error(kind)
        }
    }

    impl fmt::Display for Error {
        fn fmt(&self, f: &mut fmt::Formatter<'_>) -> fmt::Result {
            f.write_str(match self.0 {
                ErrorKind::UnexpectedEof => "failed to fill whole buffer",
                ErrorKind::OutOfMemory => "out of memory",
                ErrorKind::Other => "other error",
            })
        }
    }

    impl core::error::Error for Error {}

    /// A reader.
    pub trait Read {
        /// Fills the buffer with the next bytes, or returns an error.
        fn read_exact(&mut self, buf: &mut [u8]) -> Result<()>;
    }

    impl Read for &[u8] {
        fn read_exact(&mut self, buf: &mut [u8]) -> Result<()> {
            let Some((front, rest)) = self.split_at_checked(buf.len()) else {
                return Err(ErrorKind::UnexpectedEof.into());
            };
            buf.copy_from_slice(front);
            *self = rest;
            Ok(())
        }
    }

    impl<R: Read + ?Sized> Read for &mut R {
        fn read_exact(&mut self, buf: &mut [u8]) -> Result<()> {
            (**self).read_exact(buf)
        }
    }
}
