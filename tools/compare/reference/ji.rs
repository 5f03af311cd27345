//! The root of the crate khiin_ji. The modules are the Rust's own files,
//! linked in by reference.sh; this root is all that is added to them.
#![allow(warnings)]

mod macros;
pub mod lomaji;
pub mod tone;
pub mod unicode;

pub use lomaji::{poj_syl_to_key_sequences, poj_syl_to_key_sequences_oo};
pub use tone::Tone;
// The comparison asks the same normalisation crate that the modules use.
pub use unicode_normalization;
