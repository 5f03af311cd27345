//! Holds the C functions of Robinflint to the Rust that they port. The fuzzer in
//! tools/fuzz takes what must be answered from here as well.

#[cfg(feature = "archives")]
mod archive;
pub mod call;
pub mod compare;
mod digest;
pub mod entries;
mod inputs;
pub mod normalization;
pub mod oracle;
mod random;
mod record;
pub mod replay;
pub mod rules;
mod slab;
pub mod speed;
pub mod standin;
#[rustfmt::skip]
mod tables;
mod tuned;
pub mod vectors;

use call::Subject;

/// The side that is compared.
#[cfg(feature = "archives")]
pub const SUBJECT: &dyn Subject = &archive::Archive;
#[cfg(not(feature = "archives"))]
pub const SUBJECT: &dyn Subject = &standin::StandIn;

/// Whether the side that is compared has the listing.
#[cfg(feature = "archives")]
pub const LISTS: bool = archive::LISTS;
#[cfg(not(feature = "archives"))]
pub const LISTS: bool = true;
