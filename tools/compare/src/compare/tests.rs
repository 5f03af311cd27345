use super::*;
use crate::inputs;
use crate::standin::StandIn;

/// What a fault makes of a reply and of the lent buffer.
type Fault = fn(Question, &mut [u8], Reply) -> Reply;

/// The stand-in with one fault.
struct Faulty(Fault);

impl Subject for Faulty {
    fn name(&self) -> &'static str {
        "faulty stand-in"
    }

    fn call(&self, question: Question, out: &mut [u8]) -> Reply {
        let reply = StandIn.call(question, out);
        (self.0)(question, out, reply)
    }
}

fn differences_of_ji(subject: &dyn Subject) -> u64 {
    let mut run = Run::new(subject);
    for text in inputs::edges() {
        run.feed(Calls::WRITING, &text);
        run.feed(Calls::KHIN, &text);
    }
    inputs::tuples(&inputs::telling(), 2, &mut |text| run.feed(Calls::WRITING, text));
    for text in
        ["", "o", "ng", "hm", "ho\u{e1}n", "x", "O\u{358}\u{358}", "o\u{324}\u{358}", "--a", "\u{b7}a"]
    {
        run.feed(Calls::ALL, text.as_bytes());
    }
    run.differences()
}

fn differences_of_khiin(subject: &dyn Subject) -> u64 {
    let mut run = Run::new(subject);
    of_khiin::small(&mut run);
    run.differences()
}

#[test]
fn the_stand_in_passes() {
    assert_eq!(differences_of_ji(&StandIn), 0);
    assert_eq!(differences_of_khiin(&StandIn), 0);
}

/// The tone letter by itself: the Rust takes some 0.1 ms for each text.
#[test]
fn the_tone_letter_passes() {
    let mut run = Run::new(&StandIn);
    inputs::tuples(&inputs::telling(), 2, &mut |text| run.feed(Calls::LETTER, text));
    inputs::tuples(&inputs::letters()[..14], 3, &mut |text| run.feed(Calls::LETTER, text));
    for text in inputs::edges() {
        run.feed(Calls::LETTER, &text);
    }
    assert_eq!(run.differences(), 0);
}

fn is(question: Question, number: usize) -> bool {
    question.call.number() == number
}

/// Faults that any call can have.
const FAULTS: [(&str, Fault); 7] = [
    ("count in a refusal", |_, _, r| Reply { count: r.count + (r.code == 4) as u64, ..r }),
    ("4 given as 3", |_, _, r| Reply { code: if r.code == 4 { 3 } else { r.code }, ..r }),
    ("7 given as 2", |_, _, r| Reply { code: if r.code == 7 { 2 } else { r.code }, ..r }),
    ("first byte wrong", |_, out, r| {
        if r.code == 0 && !out.is_empty() && r.length > 0 {
            out[0] ^= 1;
        }
        r
    }),
    ("a byte behind the output", |_, out, r| {
        if r.code == 0 && (r.length as usize) < out.len() {
            out[r.length as usize] = 0;
        }
        r
    }),
    ("written in spite of a refusal", |_, out, r| {
        if r.code == 7 && !out.is_empty() {
            out[0] = b'a';
        }
        r
    }),
    ("one byte past the buffer", |question, out, r| {
        if question.call.writes() && r.code == 0 {
            // Safety: the slab's guard lies there.
            unsafe { *out.as_mut_ptr().add(out.len()) = 0 };
        }
        r
    }),
];

#[test]
fn every_fault_of_ji_is_found() {
    let faults: [(&str, Fault); 5] = [
        ("tone 4 lost", |_, _, r| Reply { tone: if r.tone == 4 { 1 } else { r.tone }, ..r }),
        ("a field that is not given", |_, _, r| Reply { body: r.length, ..r }),
        ("position off by one", |question, _, r| Reply {
            position: r.position + is(question, 1) as u64,
            ..r
        }),
        ("khin lost", |_, _, r| Reply { khin: 0, ..r }),
        ("the other hash order", |question, out, r| {
            if let (Call::Keys { form: 1, .. }, b"Oo\xCD\x98", 0) =
                (question.call, &out[..out.len().min(4)], r.code)
            {
                out[2..4].copy_from_slice(b"o1");
            }
            r
        }),
    ];
    for (name, fault) in FAULTS.into_iter().chain(faults) {
        assert!(differences_of_ji(&Faulty(fault)) > 0, "{name}");
    }
}

/// Swaps the first such bytes of the output for others of the same length.
fn swap(out: &mut [u8], reply: Reply, from: &[u8], to: &[u8]) -> Reply {
    if reply.code == 0 {
        let out = &mut out[..reply.length as usize];
        if let Some(at) = out.windows(from.len()).position(|part| part == from) {
            out[at..at + from.len()].copy_from_slice(to);
        }
    }
    reply
}

#[test]
fn every_fault_of_khiin_is_found() {
    let faults: [(&str, Fault); 20] = [
        ("from_raw: 0 as a tone", |question, _, r| {
            let zero = is(question, 7) && question.text.ends_with(b"0") && r.code == 0;
            Reply { body: r.body - zero as u64, ..r }
        }),
        ("from_raw: 4 before 2", |question, _, r| {
            let wrong = is(question, 7) && r.code == 2 && !question.text.is_ascii();
            Reply { code: if wrong { 4 } else { r.code }, ..r }
        }),
        ("compose: the body's fault first", |question, _, r| {
            let wrong = is(question, 8) && r.code == 4 && question.second.len() > 256;
            Reply { code: if wrong { 2 } else { r.code }, ..r }
        }),
        ("compose: no swap", |question, out, r| {
            if is(question, 8) {
                swap(out, r, b"\xCC\x8D\xCC\xA4", b"\xCC\xA4\xCC\x8D")
            } else {
                r
            }
        }),
        ("compose: the capital sign lost", |question, out, r| {
            if is(question, 8) {
                swap(out, r, "\u{1d3a}".as_bytes(), "\u{207f}".as_bytes())
            } else {
                r
            }
        }),
        ("candidate: the body with its digit", |question, _, r| {
            let wrong = is(question, 9) && r.khin == 1;
            Reply { body: r.body + wrong as u64, ..r }
        }),
        ("candidate: khin lost", |question, _, r| Reply { khin: r.khin * !is(question, 9) as u64, ..r }),
        ("candidate: 6 as 7", |question, _, r| {
            let wrong = is(question, 9) && r.code == 6;
            Reply { code: if wrong { 7 } else { r.code }, ..r }
        }),
        ("keying: the count of the other kind", |question, _, r| match question.call {
            Call::Keying { kind: 0, .. } if r.count == 1 => Reply { count: 2, ..r },
            _ => r,
        }),
        ("keying: x for tone 6", |question, out, r| match question.call {
            Call::Keying { kind: 2, .. } if r.code == 0 => swap(out, r, b"6", b"x"),
            _ => r,
        }),
        ("keying: 5 for a long entry", |question, _, r| {
            let wrong = is(question, 10) && r.code == 2;
            Reply { code: if wrong { 5 } else { r.code }, ..r }
        }),
        ("keying: 2 for a long part", |question, _, r| {
            let wrong = is(question, 10) && r.code == 5;
            Reply { code: if wrong { 2 } else { r.code }, ..r }
        }),
        ("keying: first part fastest", |question, out, r| match question.call {
            Call::Keying { kind, position } if r.count == 4 && (position == 1 || position == 2) => {
                let call = Call::Keying { kind, position: 3 - position };
                let mut longer = [0; 3000];
                let other = StandIn.call(call.of(question.text), &mut longer);
                let size = out.len().min(other.length as usize);
                out[..size].copy_from_slice(&longer[..size]);
                Reply { length: size as u64, ..r }
            }
            _ => r,
        }),
        ("telex: settings ignored in mode 0", |question, out, r| match question.call {
            Call::Telex { key, mode: 0 } if r.code == 1 => {
                let call = Call::Telex { key, mode: 0 };
                StandIn.call(Question { call, text: question.text, second: b"sflxjjw" }, out)
            }
            _ => r,
        }),
        ("telex: tone 7 for a stopped body", |question, out, r| {
            if is(question, 11) {
                swap(out, r, "a\u{30d}h".as_bytes(), "\u{101}ah".as_bytes())
            } else {
                r
            }
        }),
        ("align: the target's fault first", |question, _, r| {
            let wrong = is(question, 12) && r.code == 4 && question.second.len() > 256;
            Reply { code: if wrong { 2 } else { r.code }, ..r }
        }),
        ("align: none, whatever is shared", |question, _, r| {
            if is(question, 12) && r.code == 0 {
                Reply::default()
            } else {
                r
            }
        }),
        ("align: never grown", |question, _, r| match question.text {
            [b'a', _, b'1'] if is(question, 12) && r.length == 2 => {
                Reply { length: 1, body: 1, tone: 0, ..r }
            }
            _ => r,
        }),
        ("align: the second candidate not tried", |question, _, r| match question.text {
            [b'o', b'o'] if is(question, 12) && r.length == 2 => Reply { length: 1, body: 1, ..r },
            _ => r,
        }),
        ("listing: the position not moved on", |question, _, r| match question.call {
            Call::Listing { from } => Reply { position: from, ..r },
            _ => r,
        }),
    ];
    for (name, fault) in FAULTS.into_iter().chain(faults) {
        assert!(differences_of_khiin(&Faulty(fault)) > 0, "{name}");
    }
}
