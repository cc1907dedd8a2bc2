//! Makes all calls on an input on both sides, and finds the first difference.
use crate::calls::{Answer, Call};
use crate::input::Input;
use crate::plant::Plant;
use diff::forms::hex_of;
use std::fmt;

/// A call whose results differ, with both results.
pub struct Difference {
    call: &'static str,
    input: String,
    ours: Answer,
    original: Answer,
}

impl fmt::Display for Difference {
    fn fmt(&self, f: &mut fmt::Formatter<'_>) -> fmt::Result {
        write!(
            f,
            "a difference: {} {}\nthe original: {:x?}\nours: {:x?}",
            self.call, self.input, self.original, self.ours
        )
    }
}

/// Formats an input.
pub fn words(input: &Input<'_>) -> String {
    let Input {
        start,
        last,
        is_over,
        limit,
        bytes,
    } = input;
    let bytes = hex_of(bytes, false);
    format!("from {start}, last {last}, over a reader {is_over}, limit {limit:?}, bytes {bytes}")
}

/// Makes all calls on an input.
pub fn compare(calls: &[Call], plant: &Plant, input: &[u8]) -> Result<(), Difference> {
    let Some(input) = Input::new(input) else {
        return Ok(());
    };
    for call in calls {
        if !call.alike.holds(&input) {
            continue;
        }
        let ours = plant.in_answer(call.name, &input, call.sides.ours(&input));
        let original = call.sides.original(&input);
        if ours != original {
            return Err(Difference {
                call: call.name,
                input: words(&input),
                ours,
                original,
            });
        }
    }
    Ok(())
}
