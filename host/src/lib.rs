//! Pe̍h-ōe-jī syllables: stripping, composing, keying and aligning.
//!
//! The work is done by `librobinflint.a`, whose functions are proved to meet their contracts. This crate calls them
//! and gives their answers Rust's types. It has no dependencies.
//!
//! ```
//! use robinflint::{strip, telex, Entry, Kind, Mode, Refusal, Settings, Syllable, Tone};
//!
//! let stripped = strip("á")?;
//! assert_eq!((stripped.text.as_str(), stripped.tone), ("a", Tone::T2));
//!
//! assert_eq!(Syllable::from_raw("oo2")?.compose()?, "ó\u{358}");
//! assert_eq!(telex("a", 's', Mode::Telex, &Settings::default())?, "á");
//!
//! let mut keyings = Entry::new("tâi oân")?.keyings(Kind::Numeric)?;
//! while let Some(keying) = keyings.next() {
//!     println!("{keying}");
//! }
//! # Ok::<(), Refusal>(())
//! ```
//!
//! - A text is UTF-8 of at most 256 bytes, an entry of at most 1,024, in a table of 903 code points that covers
//!   Latin letters and their marks. Anything else is a [`Refusal`], never a panic.
//! - For texts that may be ill-formed there is a form on bytes beside each function: [`strip_bytes`] and its like.
//! - Each function allocates its result and nothing else. [`calls`] has the same calls on a lent buffer, without
//!   allocation, and [`Keyings`] lends one buffer for all keyings of an entry.

#![deny(missing_docs)]
#![deny(unsafe_code)]
#![deny(unsafe_op_in_unsafe_fn)]
// What could panic, so that no input can.
#![deny(clippy::arithmetic_side_effects, clippy::indexing_slicing, clippy::string_slice)]
#![deny(clippy::expect_used, clippy::panic, clippy::unwrap_used, clippy::unreachable)]

#[allow(unsafe_code)]
pub mod calls;
mod entry;
mod refusal;
mod reply;
mod syllable;
#[allow(unsafe_code)]
pub mod sys;
mod telex;
mod tone;

pub use entry::{Entry, Keyings, Kind, OwnedKeyings};
pub use refusal::Refusal;
pub use syllable::{
    compose, compose_bytes, strip, strip_bytes, tone_letter, tone_letter_bytes, Stripped, Syllable,
};
pub use telex::{telex, telex_bytes, Mode, Settings};
pub use tone::Tone;
