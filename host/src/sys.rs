//! The C functions, as `include/robinflint.h` declares them.
//!
//! [`calls`](crate::calls) makes them safe to call. What a caller of the functions here owes stands at the head of
//! the header. The test `declarations` holds this file, the header and the Rattle source to each other.

/// The numbers that a call replies with. A number that a call does not give is 0; a refusal has every number but
/// `code` 0.
#[repr(C)]
#[derive(Clone, Copy, Debug, Default, PartialEq, Eq)]
pub struct Reply {
    /// 0, or the number of the [`Refusal`](crate::Refusal).
    pub code: u64,
    /// Bytes of output; of the tone letter 1, or 0 where there is none.
    pub length: u64,
    /// How many there are of which the call gives one.
    pub count: u64,
    /// Bytes of a record's body, with which its raw input begins.
    pub body: u64,
    /// 0 (none) to 9.
    pub tone: u64,
    /// 0 or 1.
    pub khin: u64,
    /// In bytes.
    pub position: u64,
}

/// Bytes that a text, and a part of an entry, may have.
pub const TEXT_MOST: usize = 256;
/// Bytes that an entry may have.
pub const ENTRY_MOST: usize = 1024;
/// Parts that an entry may have.
pub const PARTS_MOST: usize = 16;

/// Bytes of the longest output of `rf_strip`: the text U+01D9, 128 times.
pub const STRIP_ROOM: usize = 640;
/// Bytes of the longest output of `rf_from_raw`: 256 keys.
pub const FROM_RAW_ROOM: usize = 256;
/// Bytes of the longest output of `rf_align`: 256 keys and the same text as target.
pub const ALIGN_ROOM: usize = 256;
/// Bytes of the longest output of `rf_candidate` that is known: the text U+01D9, 128 times.
pub const CANDIDATE_ROOM: usize = 641;
/// Bytes of the longest output of `rf_compose` that is known: the body U+0344 twice and `onn` 84 times, tone 8, khin.
pub const COMPOSE_ROOM: usize = 516;
/// Bytes of the longest output of `rf_keying` that is known: an entry of U+01D9 128 times in each of three parts, and
/// in a fourth 126 times and then `a`; numeric or telex.
pub const KEYING_ROOM: usize = 2555;
/// Bytes of the longest output of `rf_telex` that is known: the text U+01D9 127 times and U+01D8, and the key of
/// tone 2.
pub const TELEX_ROOM: usize = 639;

#[rustfmt::skip]
extern "C" {
    /// The text without its tone marks, and its tone.
    pub fn rf_strip(text: *const u8, text_len: usize, out: *mut u8, out_len: usize) -> Reply;
    /// Where the tone letter of a text stands.
    pub fn rf_tone_letter(text: *const u8, text_len: usize) -> Reply;
    /// The record of raw keys.
    pub fn rf_from_raw(keys: *const u8, keys_len: usize, out: *mut u8, out_len: usize) -> Reply;
    /// One of the records that a composed syllable may be typed as.
    pub fn rf_candidate(text: *const u8, text_len: usize, position: u64, out: *mut u8, out_len: usize) -> Reply;
    /// The record of the keys that were typed for a syllable.
    pub fn rf_align(keys: *const u8, keys_len: usize, target: *const u8, target_len: usize, out: *mut u8, out_len: usize) -> Reply;
    /// What a record is written as.
    pub fn rf_compose(raw: *const u8, raw_len: usize, body: *const u8, body_len: usize, tone: u64, khin: u64, out: *mut u8, out_len: usize) -> Reply;
    /// One keying of a dictionary entry.
    pub fn rf_keying(entry: *const u8, entry_len: usize, kind: u64, position: u64, out: *mut u8, out_len: usize) -> Reply;
    /// What a text becomes when a key is typed.
    pub fn rf_telex(text: *const u8, text_len: usize, key: u64, mode: u64, tone_keys: *const [u8; 7], out: *mut u8, out_len: usize) -> Reply;
}
