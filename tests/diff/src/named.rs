//! The known differences, listed in docs/DIFFERENCES.md, that a result can have.

/// A known difference. A result that has it equals the original's in everything else.
#[derive(Clone, Copy, Debug, PartialEq, Eq, PartialOrd, Ord)]
pub enum Difference {
    /// The original's iterator reads past the end of a chain that a lax parse ended at an error. It was stopped at
    /// the end of the chain.
    IteratorReadsOn,
    /// The original's `write` panics from number 0 if there are no hop-by-hop options. It wasn't called.
    WriteFromZeroPanics,
    /// The original's strict parse of an IPv6 packet says that the payload length bounds its headers, even if that
    /// is 0 and the slice bounds them. The source in its answer was replaced.
    StrictSourceIsPayloadLength,
    /// The original parses headers after that of a later fragment. Its results were cut off there.
    EndsAtLaterFragment,
    /// The original rejects an IPv4 packet with missing bytes or a total length of 0. It got a copy with the length of
    /// the bytes.
    AcceptsOtherLengths,
}

impl Difference {
    /// Returns a description of the difference.
    pub fn words(self) -> &'static str {
        match self {
            Difference::IteratorReadsOn => {
                "the iterator reads past the end of a chain that ended at an error"
            }
            Difference::WriteFromZeroPanics => {
                "`write` panics from number 0 if there are no hop-by-hop options"
            }
            Difference::StrictSourceIsPayloadLength => {
                "a strict IPv6 parse names the payload length as the source of a header's length error although it is 0"
            }
            Difference::EndsAtLaterFragment => {
                "a dissection ends after the header of a later fragment"
            }
            Difference::AcceptsOtherLengths => {
                "a dissection accepts an IPv4 packet with missing bytes or a total length of 0"
            }
        }
    }
}
