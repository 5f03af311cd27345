//! The archives: the only place that knows the C functions.

use crate::call::{Call, Question, Reply, Subject};

#[rustfmt::skip]
extern "C" {
    fn rf_strip(text: *const u8, text_len: usize, out: *mut u8, out_len: usize) -> Reply;
    fn rf_tone_letter(text: *const u8, text_len: usize) -> Reply;
    fn rf_from_raw(keys: *const u8, keys_len: usize, out: *mut u8, out_len: usize) -> Reply;
    fn rf_compose(raw: *const u8, raw_len: usize, body: *const u8, body_len: usize, tone: u64, khin: u64, out: *mut u8, out_len: usize) -> Reply;
    fn rf_candidate(text: *const u8, text_len: usize, position: u64, out: *mut u8, out_len: usize) -> Reply;
    fn rf_keying(entry: *const u8, entry_len: usize, kind: u64, position: u64, out: *mut u8, out_len: usize) -> Reply;
    fn rf_telex(text: *const u8, text_len: usize, key: u64, mode: u64, tone_keys: *const [u8; 7], out: *mut u8, out_len: usize) -> Reply;
    fn rf_align(keys: *const u8, keys_len: usize, target: *const u8, target_len: usize, out: *mut u8, out_len: usize) -> Reply;
    fn wb_nfd(text: *const u8, text_len: usize, out: *mut u8, out_len: usize) -> Reply;
    fn wb_nfc(text: *const u8, text_len: usize, out: *mut u8, out_len: usize) -> Reply;
    fn wb_strip_khin(text: *const u8, text_len: usize) -> Reply;
    fn wb_has_tone_letter(text: *const u8, text_len: usize) -> Reply;
    fn wb_keys(text: *const u8, text_len: usize, form: u64, kind: u64, out: *mut u8, out_len: usize) -> Reply;
    #[cfg(listing)]
    fn wb_listing(entry: *const u8, entry_len: usize, from: u64, out: *mut u8, out_len: usize) -> Reply;
}

// Safety of all calls: a slice gives a pointer and the length that belongs to it,
// and the texts and `out` never overlap.

#[inline(always)]
pub fn strip(text: &[u8], out: &mut [u8]) -> Reply {
    unsafe { rf_strip(text.as_ptr(), text.len(), out.as_mut_ptr(), out.len()) }
}

#[inline(always)]
pub fn tone_letter(text: &[u8]) -> Reply {
    unsafe { rf_tone_letter(text.as_ptr(), text.len()) }
}

#[inline(always)]
pub fn nfd(text: &[u8], out: &mut [u8]) -> Reply {
    unsafe { wb_nfd(text.as_ptr(), text.len(), out.as_mut_ptr(), out.len()) }
}

#[inline(always)]
pub fn nfc(text: &[u8], out: &mut [u8]) -> Reply {
    unsafe { wb_nfc(text.as_ptr(), text.len(), out.as_mut_ptr(), out.len()) }
}

#[inline(always)]
pub fn from_raw(keys: &[u8], out: &mut [u8]) -> Reply {
    unsafe { rf_from_raw(keys.as_ptr(), keys.len(), out.as_mut_ptr(), out.len()) }
}

#[inline(always)]
pub fn compose(raw: &[u8], body: &[u8], tone: u64, khin: u64, out: &mut [u8]) -> Reply {
    unsafe {
        rf_compose(
            raw.as_ptr(),
            raw.len(),
            body.as_ptr(),
            body.len(),
            tone,
            khin,
            out.as_mut_ptr(),
            out.len(),
        )
    }
}

#[inline(always)]
pub fn candidate(text: &[u8], position: u64, out: &mut [u8]) -> Reply {
    unsafe { rf_candidate(text.as_ptr(), text.len(), position, out.as_mut_ptr(), out.len()) }
}

#[inline(always)]
pub fn keying(entry: &[u8], kind: u64, position: u64, out: &mut [u8]) -> Reply {
    unsafe { rf_keying(entry.as_ptr(), entry.len(), kind, position, out.as_mut_ptr(), out.len()) }
}

#[inline(always)]
pub fn telex(text: &[u8], key: u64, mode: u64, tone_keys: &[u8; 7], out: &mut [u8]) -> Reply {
    unsafe { rf_telex(text.as_ptr(), text.len(), key, mode, tone_keys, out.as_mut_ptr(), out.len()) }
}

#[inline(always)]
pub fn align(keys: &[u8], target: &[u8], out: &mut [u8]) -> Reply {
    unsafe { rf_align(keys.as_ptr(), keys.len(), target.as_ptr(), target.len(), out.as_mut_ptr(), out.len()) }
}

/// Whether the archive has the listing.
pub const LISTS: bool = cfg!(listing);

#[cfg(not(listing))]
pub fn listing(_: &[u8], _: u64, _: &mut [u8]) -> Reply {
    unreachable!("the archive has no listing, and nothing asks for one")
}

#[cfg(listing)]
#[inline(always)]
pub fn listing(entry: &[u8], from: u64, out: &mut [u8]) -> Reply {
    unsafe { wb_listing(entry.as_ptr(), entry.len(), from, out.as_mut_ptr(), out.len()) }
}

pub struct Archive;

impl Subject for Archive {
    fn name(&self) -> &'static str {
        "archives"
    }

    fn call(&self, question: Question, out: &mut [u8]) -> Reply {
        let Question { call, text, second } = question;
        match call {
            Call::Strip => strip(text, out),
            Call::ToneLetter => tone_letter(text),
            Call::Nfd => nfd(text, out),
            Call::Nfc => nfc(text, out),
            Call::StripKhin => unsafe { wb_strip_khin(text.as_ptr(), text.len()) },
            Call::HasToneLetter => unsafe { wb_has_tone_letter(text.as_ptr(), text.len()) },
            Call::Keys { form, kind } => unsafe {
                wb_keys(text.as_ptr(), text.len(), form, kind, out.as_mut_ptr(), out.len())
            },
            Call::FromRaw => from_raw(text, out),
            Call::Compose { tone, khin } => compose(text, second, tone, khin, out),
            Call::Candidate { position } => candidate(text, position, out),
            Call::Keying { kind, position } => keying(text, kind, position, out),
            Call::Telex { key, mode } => telex(text, key, mode, second.try_into().unwrap(), out),
            Call::Align => align(text, second, out),
            Call::Listing { from } => listing(text, from, out),
        }
    }
}
