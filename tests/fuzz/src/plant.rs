//! A difference planted by a test, to check that it is found.
use crate::calls::Answer;
use crate::input::Input;

/// The call whose result on our side is falsified.
pub struct Plant(Option<String>);

/// The name of a difference that occurs only for some inputs, none of which is a seed.
const HIDDEN: &str = "hidden";

impl Plant {
    /// Returns what the environment plants: the name of a call in FUZZ_PLANT, or nothing.
    pub fn from_environment() -> Plant {
        Plant(std::env::var("FUZZ_PLANT").ok())
    }

    /// Falsifies our result of a call if that is planted.
    pub fn in_answer(&self, call: &str, input: &Input<'_>, answer: Answer) -> Answer {
        match &self.0 {
            Some(planted) if planted == call => wrong(answer),
            Some(planted) if planted == HIDDEN && is_hidden(input.bytes) => wrong(answer),
            _ => answer,
        }
    }
}

fn wrong(answer: Answer) -> Answer {
    match answer {
        Answer::Digest(digest) => Answer::Digest(digest ^ 1),
        Answer::Header(mut header) => {
            header.header.next_header ^= 1;
            Answer::Header(header)
        }
        Answer::Read(mut read) => {
            read.read.next_header ^= 1;
            Answer::Read(read)
        }
    }
}

/// Whether the last bytes are the first bytes of an IPv6 header, which the fuzzer's dictionary has.
fn is_hidden(bytes: &[u8]) -> bool {
    bytes.ends_with(&[0x60, 0, 0, 0])
}
