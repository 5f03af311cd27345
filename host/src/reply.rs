//! What a reply says, in the types of this crate.
//!
//! Nothing here can panic, not even on a reply that the contracts of the functions exclude: a length is held to the
//! buffer, and bytes that are not UTF-8 become an empty text.

use crate::sys::Reply;
use crate::{Refusal, Tone};
use std::str;

impl Reply {
    /// The reply itself, or why the call is refused.
    pub fn answer(self) -> Result<Reply, Refusal> {
        match self.code {
            0 => Ok(self),
            // No call replies with a number above 7; the test `declarations` looks where the numbers are made.
            number => Err(Refusal::from_number(number).unwrap_or(Refusal::Argument)),
        }
    }

    /// The output in the buffer that was lent for the call.
    pub fn output(self, lent: &[u8]) -> &[u8] {
        usize::try_from(self.length).ok().and_then(|length| lent.get(..length)).unwrap_or_default()
    }

    /// The output as text. Every output is UTF-8, which the test `replay` looks at.
    pub fn text(self, lent: &[u8]) -> &str {
        str::from_utf8(self.output(lent)).unwrap_or_default()
    }

    /// The tone.
    pub fn tone(self) -> Tone {
        Tone::from_number(self.tone).unwrap_or_default()
    }
}
