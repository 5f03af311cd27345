//! Lends a buffer with guards around it and looks at every byte afterwards.

use crate::call::{Question, Reply, Subject};
use crate::oracle::Answer;

const GUARD: usize = 64;
/// The largest buffer that is lent.
pub const ROOM: usize = 1 << 16;
/// So many bytes from the begin of the buffer on are looked at, however few are lent.
const NEAR: usize = 1024;

/// Bytes that stand in no well-formed UTF-8, so that no right output can look like them.
fn fill(at: usize) -> u8 {
    0xF8 + (at % 8) as u8
}

pub struct Slab {
    bytes: Vec<u8>,
    clean: Vec<u8>,
    text: Vec<u8>,
    second: Vec<u8>,
}

/// What a call did, and whether it was right.
pub struct Seen {
    pub reply: Reply,
    pub out: Vec<u8>,
    /// What is wrong, or nothing.
    pub wrong: Option<&'static str>,
}

impl Slab {
    pub fn new() -> Slab {
        let clean: Vec<u8> = (0..GUARD + ROOM + GUARD).map(fill).collect();
        Slab { bytes: clean.clone(), clean, text: Vec::new(), second: Vec::new() }
    }

    /// Makes the call with `room` bytes lent and holds it to `want`.
    pub fn call(&mut self, subject: &dyn Subject, question: Question, room: usize, want: &Answer) -> Seen {
        self.text.clear();
        self.text.extend_from_slice(question.text);
        self.second.clear();
        self.second.extend_from_slice(question.second);
        let copy = Question { call: question.call, text: &self.text, second: &self.second };
        let reply = subject.call(copy, &mut self.bytes[GUARD..GUARD + room]);
        let wrong = self.wrong(question, room, &reply, want);
        let writes = reply.code == 0 && question.call.writes();
        let shown = if writes { room.min(reply.length as usize) } else { 0 };
        let out = self.bytes[GUARD..GUARD + shown].to_vec();
        self.restore(room, wrong.is_some());
        Seen { reply, out, wrong }
    }

    fn wrong(&self, question: Question, room: usize, reply: &Reply, want: &Answer) -> Option<&'static str> {
        let end = GUARD + want.out.len();
        let until = GUARD + room.max(NEAR) + GUARD;
        if *reply != want.reply {
            return Some("reply");
        }
        if self.bytes[GUARD..end] != want.out {
            return Some("output");
        }
        if self.bytes[end..until] != self.clean[end..until] {
            return Some("bytes behind the output");
        }
        if self.bytes[..GUARD] != self.clean[..GUARD] {
            return Some("bytes before the buffer");
        }
        if self.text != question.text || self.second != question.second {
            return Some("the text itself");
        }
        None
    }

    fn restore(&mut self, room: usize, everything: bool) {
        let part = if everything { 0..self.clean.len() } else { GUARD..GUARD + room };
        self.bytes[part.clone()].copy_from_slice(&self.clean[part]);
    }
}
