//! Makes a call at the C boundary with a buffer between guard bytes, and looks at every byte afterwards.

// Each file of tests uses a part of this one.
#![allow(dead_code)]

use robinflint::sys::{self, Reply};

const GUARD: usize = 64;

/// The keys of document 01's examples, for the tones 2 3 5 6 7 8 9.
pub const TONE_KEYS: [u8; 7] = *b"sflxjjw";

/// A call with all that it is given but the buffer.
#[derive(Clone, Copy, Debug)]
pub enum Call<'a> {
    Strip { text: &'a [u8] },
    ToneLetter { text: &'a [u8] },
    FromRaw { keys: &'a [u8] },
    Compose { raw: &'a [u8], body: &'a [u8], tone: u64, khin: u64 },
    Candidate { text: &'a [u8], position: u64 },
    Keying { entry: &'a [u8], kind: u64, position: u64 },
    Align { keys: &'a [u8], target: &'a [u8] },
    Telex { text: &'a [u8], key: u64, mode: u64, tone_keys: [u8; 7] },
}

impl<'a> Call<'a> {
    /// The texts of the call, the second one empty where there is none.
    fn texts(self) -> (&'a [u8], &'a [u8]) {
        match self {
            Call::Strip { text }
            | Call::ToneLetter { text }
            | Call::Candidate { text, .. }
            | Call::Telex { text, .. } => (text, &[]),
            Call::FromRaw { keys } => (keys, &[]),
            Call::Keying { entry, .. } => (entry, &[]),
            Call::Compose { raw, body, .. } => (raw, body),
            Call::Align { keys, target } => (keys, target),
        }
    }

    /// The room that the header tells a caller to lend.
    pub fn room(self) -> usize {
        match self {
            Call::Strip { .. } => sys::STRIP_ROOM,
            Call::ToneLetter { .. } => 0,
            Call::FromRaw { .. } => sys::FROM_RAW_ROOM,
            Call::Compose { .. } => sys::COMPOSE_ROOM,
            Call::Candidate { .. } => sys::CANDIDATE_ROOM,
            Call::Keying { .. } => sys::KEYING_ROOM,
            Call::Align { .. } => sys::ALIGN_ROOM,
            Call::Telex { .. } => sys::TELEX_ROOM,
        }
    }

    /// Whether the reply's length is that of an output.
    fn writes(self) -> bool {
        !matches!(self, Call::ToneLetter { .. })
    }

    fn make(self, first: &[u8], second: &[u8], out: &mut [u8]) -> Reply {
        let (a, a_len, b, b_len) = (first.as_ptr(), first.len(), second.as_ptr(), second.len());
        let (o, o_len) = (out.as_mut_ptr(), out.len());
        // SAFETY: each pointer and the length behind it are of one slice; `out` is borrowed alone.
        unsafe {
            match self {
                Call::Strip { .. } => sys::rf_strip(a, a_len, o, o_len),
                Call::ToneLetter { .. } => sys::rf_tone_letter(a, a_len),
                Call::FromRaw { .. } => sys::rf_from_raw(a, a_len, o, o_len),
                Call::Compose { tone, khin, .. } => sys::rf_compose(a, a_len, b, b_len, tone, khin, o, o_len),
                Call::Candidate { position, .. } => sys::rf_candidate(a, a_len, position, o, o_len),
                Call::Keying { kind, position, .. } => sys::rf_keying(a, a_len, kind, position, o, o_len),
                Call::Align { .. } => sys::rf_align(a, a_len, b, b_len, o, o_len),
                Call::Telex { key, mode, tone_keys, .. } => {
                    sys::rf_telex(a, a_len, key, mode, &tone_keys, o, o_len)
                }
            }
        }
    }
}

/// What a call answered.
#[derive(Debug, PartialEq, Eq)]
pub struct Seen {
    pub reply: Reply,
    pub out: Vec<u8>,
}

/// A byte that stands in no well-formed UTF-8, so that no right output can look like it.
fn fill(at: usize) -> u8 {
    0xF8 + (at % 8) as u8
}

/// Makes the call with `room` bytes lent. Panics where a byte has changed that may not: of the guards, behind the
/// output, of the texts, and of the whole buffer on a refusal, whose other numbers have to be 0.
pub fn ask(call: Call, room: usize) -> Seen {
    let clean: Vec<u8> = (0..GUARD + room + GUARD).map(fill).collect();
    let mut bytes = clean.clone();
    let (first, second) = call.texts();
    // Copies, so that a write to a text would be seen.
    let (one, two) = (first.to_vec(), second.to_vec());
    let reply = call.make(&one, &two, &mut bytes[GUARD..GUARD + room]);
    if reply.code != 0 {
        assert_eq!(reply, Reply { code: reply.code, ..Reply::default() }, "{call:?}");
    }
    let written = if reply.code == 0 && call.writes() { reply.length as usize } else { 0 };
    assert!(written <= room, "{call:?} says {written} bytes of {room}");
    let end = GUARD + written;
    assert!(bytes[..GUARD] == clean[..GUARD], "{call:?} changed a byte before the buffer");
    assert!(bytes[end..] == clean[end..], "{call:?} changed a byte behind the output");
    assert!(one == first && two == second, "{call:?} changed a text");
    Seen { reply, out: bytes[GUARD..end].to_vec() }
}

/// The answer of a call that has to be accepted, with the room that the header names.
pub fn accepted(call: Call) -> Seen {
    let seen = ask(call, call.room());
    assert_eq!(seen.reply.code, 0, "{call:?}");
    seen
}

/// Holds a call to a refusal other than 7, with the room that the header names, and with none: every other refusal comes
/// before 7.
pub fn refused(call: Call, code: u64) {
    assert_eq!(ask(call, call.room()).reply.code, code, "{call:?}");
    assert_eq!(ask(call, 0).reply.code, code, "{call:?} with no room");
}

/// Lends the call exactly its output's length, and one byte less, which has to be 7.
pub fn full_and_short(call: Call) {
    let seen = accepted(call);
    let length = seen.out.len();
    assert!(length > 0, "{call:?} has no output to be short of");
    assert_eq!(ask(call, length), seen, "exactly full");
    assert_eq!(ask(call, length - 1).reply.code, 7, "{call:?} one byte short");
    assert_eq!(ask(call, 0).reply.code, 7, "{call:?} with no room");
}
