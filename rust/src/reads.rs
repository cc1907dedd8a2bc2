//! Every reader of the standard library is one of exactly as many bytes as requested.

use crate::ip_base::io::ExactRead;
use crate::plain::io;

impl<R: io::Read> ExactRead for R {
    #[inline(always)]
    fn read_exact(&mut self, buf: &mut [u8]) -> io::Result<()> {
        io::Read::read_exact(self, buf)
    }
}
