//! What the fuzzer's C files ask for: the answer that is expected, and that of
//! the hand-tuned Rust. `fuzz.h` declares the same.

// The hand-tuned Rust is compiled into this crate a second time, because only
// this crate is built with coverage: its branches then guide the search, and
// those of the expected answer's regular expressions do not.
#[path = "../../compare/src"]
mod compared {
    #[rustfmt::skip]
    pub mod tables;
    // The listing and the normal forms are no calls of the archive.
    #[allow(dead_code, unused_imports)]
    pub mod tuned;
}

mod memory;

use compared::{tables, tuned};
use comparison::call::{self, Call, Question, Reply};
use comparison::oracle::{self, Answer};
use std::cell::RefCell;
use std::slice;

#[global_allocator]
static MEMORY: memory::Plain = memory::Plain;

/// A call, as the C side gives it.
#[repr(C)]
pub struct Asked {
    /// The call's place in the header's order.
    call: u64,
    numbers: [u64; 2],
    text: *const u8,
    text_len: usize,
    second: *const u8,
    second_len: usize,
}

/// What must be answered. The output is there until the next question.
#[repr(C)]
pub struct Expected {
    reply: Reply,
    out: *const u8,
    out_len: usize,
    /// Not 0 where the Rust draws its answer by chance and this is document 01's.
    chance: u64,
}

/// # Safety
/// `from` reaches `len` bytes; with length 0 it may be null.
unsafe fn bytes<'a>(from: *const u8, len: usize) -> &'a [u8] {
    if len == 0 {
        return &[];
    }
    slice::from_raw_parts(from, len)
}

/// # Safety
/// As for `bytes`, and nobody else has the buffer.
unsafe fn buffer<'a>(from: *mut u8, len: usize) -> &'a mut [u8] {
    if len == 0 {
        return &mut [];
    }
    slice::from_raw_parts_mut(from, len)
}

impl Asked {
    fn call(&self) -> Call {
        let [first, second] = self.numbers;
        match self.call {
            0 => Call::Strip,
            1 => Call::ToneLetter,
            2 => Call::FromRaw,
            3 => Call::Candidate { position: first },
            4 => Call::Align,
            5 => Call::Compose { tone: first, khin: second },
            6 => Call::Keying { kind: first, position: second },
            7 => Call::Telex { key: first, mode: second },
            _ => unreachable!("there are eight calls"),
        }
    }

    /// # Safety
    /// The pointers reach as many bytes as the lengths say.
    unsafe fn question(&self) -> Question<'_> {
        let (text, second) = (bytes(self.text, self.text_len), bytes(self.second, self.second_len));
        Question { call: self.call(), text, second }
    }
}

/// The answer to the last question, whole and as the lent buffer allows.
struct Kept {
    whole: Answer,
    given: Answer,
}

thread_local! {
    static KEPT: RefCell<Kept> = RefCell::new(Kept { whole: Answer::refusal(0), given: Answer::refusal(0) });
}

/// Keeps the answer to a question and says how many bytes its output takes.
///
/// # Safety
/// The pointers of the question reach as many bytes as its lengths say.
#[no_mangle]
pub unsafe extern "C" fn expected_ask(asked: &Asked) -> usize {
    let answer = oracle::answer(asked.question());
    let size = answer.out.len();
    KEPT.with_borrow_mut(|kept| kept.whole = answer);
    size
}

/// The answer that was kept, with `room` bytes lent.
#[no_mangle]
pub extern "C" fn expected_within(room: usize) -> Expected {
    KEPT.with_borrow_mut(|kept| {
        kept.given = kept.whole.within(room);
        let Answer { reply, out, chance } = &kept.given;
        Expected { reply: *reply, out: out.as_ptr(), out_len: out.len(), chance: *chance as u64 }
    })
}

/// The hand-tuned Rust's answer. The comparison's own list of calls has the listing and the normal forms
/// besides; named here, their branches would count as ones that the search has yet to reach.
///
/// # Safety
/// The pointers reach as many bytes as the lengths say, and nobody else has the buffer.
#[no_mangle]
pub unsafe extern "C" fn tuned_call(asked: &Asked, out: *mut u8, room: usize) -> Reply {
    let (question, out) = (asked.question(), buffer(out, room));
    let Question { call, text, second } = question;
    match call {
        Call::Strip => tuned::strip(text, out),
        Call::ToneLetter => tuned::tone_letter(text),
        Call::FromRaw => tuned::from_raw(text, out),
        Call::Compose { tone, khin } => tuned::compose(text, second, tone, khin, out),
        Call::Candidate { position } => tuned::candidate(text, position, out),
        Call::Keying { kind, position } => tuned::keying(text, kind, position, out),
        Call::Telex { key, mode } => tuned::telex(text, key, mode, second.try_into().unwrap(), out),
        Call::Align => tuned::align(text, second, out),
        _ => unreachable!("the fuzzer asks the eight calls"),
    }
}
