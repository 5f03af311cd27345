//! The eight calls on byte slices and a lent buffer, as the C functions have them, made safe.
//!
//! The rest of the crate stands on them. They allocate nothing: use them where a call may not, or where the buffer is
//! already there. On a refusal no byte of the buffer has changed, and on success the bytes behind the output are as
//! they were. The `_ROOM` constants of [`sys`] say what to lend.
//!
//! ```
//! use robinflint::{calls, sys, Refusal, Tone};
//!
//! let mut buffer = [0; sys::STRIP_ROOM];
//! let reply = calls::strip("á".as_bytes(), &mut buffer)?;
//! assert_eq!((reply.text(&buffer), reply.tone()), ("a", Tone::T2));
//!
//! // "ah" takes two bytes: one is not enough, and is left as it was.
//! let mut short = [b'?'];
//! assert_eq!(calls::strip(b"ah", &mut short), Err(Refusal::NoRoom));
//! assert_eq!(short, [b'?']);
//! # Ok::<(), Refusal>(())
//! ```

use crate::sys::{self, Reply};
use crate::{Kind, Mode, Refusal, Tone};

/// `length` and `tone`: the text without its tone marks, in NFD. Refuses with 2, 3, 4, 7.
pub fn strip(text: &[u8], out: &mut [u8]) -> Result<Reply, Refusal> {
    // SAFETY: each pointer and the length behind it are of one slice; `out` is borrowed alone, so it overlaps no text.
    unsafe { sys::rf_strip(text.as_ptr(), text.len(), out.as_mut_ptr(), out.len()) }.answer()
}

/// `length` 1 and `position`, or `length` 0 where there is no tone letter. Refuses with 2, 3, 4.
pub fn tone_letter(text: &[u8]) -> Result<Reply, Refusal> {
    // SAFETY: the pointer and the length are of one slice, and nothing is written.
    unsafe { sys::rf_tone_letter(text.as_ptr(), text.len()) }.answer()
}

/// `length`, `body`, `tone` and `khin`: the record of raw keys, its raw input in `out`. Refuses with 2, 4, 7.
pub fn from_raw(keys: &[u8], out: &mut [u8]) -> Result<Reply, Refusal> {
    // SAFETY: each pointer and the length behind it are of one slice; `out` is borrowed alone, so it overlaps no text.
    unsafe { sys::rf_from_raw(keys.as_ptr(), keys.len(), out.as_mut_ptr(), out.len()) }.answer()
}

/// `length`, `body`, `tone`, `khin` and `count`: the record at the position of those that a syllable may be typed as.
/// Refuses with 2, 3, 4, 6, 7.
pub fn candidate(text: &[u8], position: u64, out: &mut [u8]) -> Result<Reply, Refusal> {
    // SAFETY: each pointer and the length behind it are of one slice; `out` is borrowed alone, so it overlaps no text.
    unsafe { sys::rf_candidate(text.as_ptr(), text.len(), position, out.as_mut_ptr(), out.len()) }.answer()
}

/// `length`, `body` and `tone`: the record of the keys that were typed for the target; `length` 0 where there are
/// none. Refuses with 2, 4 for the keys, then 2, 3, 4 for the target, then 7.
pub fn align(keys: &[u8], target: &[u8], out: &mut [u8]) -> Result<Reply, Refusal> {
    // SAFETY: each pointer and the length behind it are of one slice; `out` is borrowed alone, so it overlaps no text.
    unsafe {
        sys::rf_align(keys.as_ptr(), keys.len(), target.as_ptr(), target.len(), out.as_mut_ptr(), out.len())
    }
    .answer()
}

/// `length`: what a record is written as. Refuses with 2, 3, 4 for the raw input, then for the body, then with 7.
pub fn compose(raw: &[u8], body: &[u8], tone: Tone, khin: bool, out: &mut [u8]) -> Result<Reply, Refusal> {
    // SAFETY: each pointer and the length behind it are of one slice; `out` is borrowed alone, so it overlaps no text.
    unsafe {
        sys::rf_compose(
            raw.as_ptr(),
            raw.len(),
            body.as_ptr(),
            body.len(),
            tone.number(),
            u64::from(khin),
            out.as_mut_ptr(),
            out.len(),
        )
    }
    .answer()
}

/// `length` and `count`: the keying at the position of an entry's list of a kind. Refuses with 2, 3, 4, 5, 6, 7.
pub fn keying(entry: &[u8], kind: Kind, position: u64, out: &mut [u8]) -> Result<Reply, Refusal> {
    // SAFETY: each pointer and the length behind it are of one slice; `out` is borrowed alone, so it overlaps no text.
    unsafe {
        sys::rf_keying(entry.as_ptr(), entry.len(), kind.number(), position, out.as_mut_ptr(), out.len())
    }
    .answer()
}

/// `length`: what a text becomes when a key is typed. `tone_keys` are those of the tones 2 3 5 6 7 8 9. Refuses with
/// 1, 2, 3, 4, 7.
pub fn telex(
    text: &[u8],
    key: char,
    mode: Mode,
    tone_keys: &[u8; 7],
    out: &mut [u8],
) -> Result<Reply, Refusal> {
    // SAFETY: each pointer and the length behind it are of one slice, and `tone_keys` are seven bytes; `out` is
    // borrowed alone, so it overlaps none of them.
    unsafe {
        sys::rf_telex(
            text.as_ptr(),
            text.len(),
            u64::from(key),
            mode.number(),
            tone_keys,
            out.as_mut_ptr(),
            out.len(),
        )
    }
    .answer()
}
