//! The answers of the Rust that `crates/replay/stdin` holds, given to the C functions and to the functions of the
//! crate. The format of the records is in `tools/compare/README.md`.

mod common;

use common::{ask, Call, Seen};
use robinflint::sys::Reply;
use robinflint::{compose_bytes, strip_bytes, telex_bytes, tone_letter_bytes};
use robinflint::{Entry, Kind, Mode, Refusal, Settings, Syllable, Tone};
use std::fs;

const HEADER: usize = 36;

/// The calls by their numbers in the records. Those of the workbench are no part of the archive.
const NAMES: [(&str, bool); 13] = [
    ("strip", true),
    ("tone_letter", true),
    ("nfd", false),
    ("nfc", false),
    ("strip_khin", false),
    ("has_tone_letter", false),
    ("keys", false),
    ("from_raw", true),
    ("compose", true),
    ("candidate", true),
    ("keying", true),
    ("telex", true),
    ("align", true),
];

struct Record<'a> {
    number: usize,
    first: u64,
    second: u64,
    position: u64,
    text: &'a [u8],
    other: &'a [u8],
    room: usize,
    want: Seen,
}

/// The record at the front of `from`, and what follows it.
fn read_record(from: &[u8]) -> (Record<'_>, &[u8]) {
    let (head, rest) = from.split_at(HEADER);
    let small = |at: usize| usize::from(u16::from_le_bytes([head[at], head[at + 1]]));
    let large = |at: usize| u64::from_le_bytes(head[at..at + 8].try_into().unwrap());
    let (text, rest) = rest.split_at(small(4));
    let (other, rest) = rest.split_at(small(6));
    let (out, rest) = rest.split_at(small(18));
    let reply = Reply {
        code: u64::from(head[3]),
        length: small(10) as u64,
        count: large(28),
        body: small(12) as u64,
        tone: u64::from(head[14]),
        khin: u64::from(head[15]),
        position: small(16) as u64,
    };
    let record = Record {
        number: usize::from(head[0]),
        first: u64::from(head[1]),
        second: u64::from(head[2]),
        position: large(20),
        text,
        other,
        room: small(8),
        want: Seen { reply, out: out.to_vec() },
    };
    (record, rest)
}

fn call_of<'a>(record: &Record<'a>) -> Option<Call<'a>> {
    let Record { first, second, position, text, other, .. } = *record;
    Some(match NAMES[record.number].0 {
        "strip" => Call::Strip { text },
        "tone_letter" => Call::ToneLetter { text },
        "from_raw" => Call::FromRaw { keys: text },
        "compose" => Call::Compose { raw: text, body: other, tone: first, khin: second },
        "candidate" => Call::Candidate { text, position },
        "keying" => Call::Keying { entry: text, kind: first, position },
        "telex" => Call::Telex { text, key: second, mode: first, tone_keys: other.try_into().unwrap() },
        "align" => Call::Align { keys: text, target: other },
        _ => return None,
    })
}

/// Gives each record of a call of the archive to `look`, and returns how many there were of each call.
fn each_record(mut look: impl FnMut(Call, usize, &Seen)) -> [u64; NAMES.len()] {
    let path = concat!(env!("CARGO_MANIFEST_DIR"), "/../crates/replay/stdin");
    let bytes = fs::read(path).unwrap_or_else(|error| panic!("{path}: {error}"));
    let mut counts = [0; NAMES.len()];
    let mut rest = &bytes[..];
    while !rest.is_empty() {
        let (record, next) = read_record(rest);
        counts[record.number] += 1;
        if let Some(call) = call_of(&record) {
            look(call, record.room, &record.want);
        }
        rest = next;
    }
    counts
}

/// Holds the numbers of records to those that the program `replay` prints, so that none is passed over.
fn hold_to_the_listing(counts: [u64; NAMES.len()]) {
    let path = concat!(env!("CARGO_MANIFEST_DIR"), "/../crates/replay/stdout");
    let printed = fs::read_to_string(path).unwrap_or_else(|error| panic!("{path}: {error}"));
    for ((name, exported), count) in NAMES.into_iter().zip(counts) {
        assert!(printed.lines().any(|line| line == format!("{name} {count} 0")), "{name} {count}");
        assert!(!exported || count > 3000, "{name} {count}");
    }
}

#[test]
fn the_c_functions_answer_as_recorded() {
    let counts =
        each_record(|call, room, want| assert_eq!(ask(call, room), *want, "{call:?} with {room} bytes"));
    hold_to_the_listing(counts);
}

/// What the crate makes of a call, with the numbers and bytes that a reply would have. A call that the types of the
/// crate cannot express is `None`: a number that is no tone, kind or mode.
fn through_the_crate(call: Call) -> Option<Result<Seen, Refusal>> {
    Some(match call {
        Call::Strip { text } => strip_bytes(text).map(|stripped| Seen {
            reply: Reply {
                length: stripped.text.len() as u64,
                tone: stripped.tone.number(),
                ..Reply::default()
            },
            out: stripped.text.into_bytes(),
        }),
        Call::ToneLetter { text } => tone_letter_bytes(text).map(|place| Seen {
            reply: Reply {
                length: u64::from(place.is_some()),
                position: place.unwrap_or(0) as u64,
                ..Reply::default()
            },
            out: Vec::new(),
        }),
        Call::FromRaw { keys } => Syllable::from_raw_bytes(keys).map(|syllable| seen_record(&syllable, 0)),
        Call::Compose { raw, body, tone, khin } => {
            let khin = [false, true].into_iter().find(|flag| u64::from(*flag) == khin)?;
            compose_bytes(raw, body, Tone::from_number(tone)?, khin).map(seen_text)
        }
        Call::Candidate { text, position } => Syllable::candidates_bytes(text).and_then(|all| {
            let at = usize::try_from(position).ok().and_then(|position| all.get(position));
            at.map(|syllable| seen_record(syllable, all.len())).ok_or(Refusal::Position)
        }),
        Call::Keying { entry, kind, position } => {
            let kind = Kind::ALL.into_iter().find(|one| one.number() == kind)?;
            Entry::from_bytes(entry).and_then(|entry| {
                let mut seen = seen_text(entry.keying(kind, position)?);
                seen.reply.count = entry.count(kind)?;
                Ok(seen)
            })
        }
        Call::Align { keys, target } => Syllable::align_bytes(keys, target).map(|aligned| match aligned {
            None => Seen { reply: Reply::default(), out: Vec::new() },
            Some((length, syllable)) => {
                assert_eq!(length, syllable.raw().len());
                seen_record(&syllable, 0)
            }
        }),
        Call::Telex { text, key, mode, tone_keys } => {
            let mode = [Mode::Numeric, Mode::Telex].into_iter().find(|one| one.number() == mode)?;
            let key = u32::try_from(key).ok().and_then(char::from_u32)?;
            let [t2, t3, t5, t6, t7, t8, t9] = tone_keys.map(char::from);
            telex_bytes(text, key, mode, &Settings { t2, t3, t5, t6, t7, t8, t9 }).map(seen_text)
        }
    })
}

fn seen_text(text: String) -> Seen {
    Seen { reply: Reply { length: text.len() as u64, ..Reply::default() }, out: text.into_bytes() }
}

/// A record; `count` is 0 of a call that can only give one.
fn seen_record(syllable: &Syllable, count: usize) -> Seen {
    let reply = Reply {
        length: syllable.raw().len() as u64,
        count: count as u64,
        body: syllable.body().len() as u64,
        tone: syllable.tone().number(),
        khin: u64::from(syllable.khin()),
        ..Reply::default()
    };
    Seen { reply, out: syllable.raw().as_bytes().to_vec() }
}

#[test]
fn the_crate_answers_as_recorded() {
    let mut inexpressible = 0;
    let counts = each_record(|call, _, want| {
        // The crate lends room for every output, so that a record of a buffer too short says nothing about it.
        if want.reply.code == Refusal::NoRoom.number() {
            return;
        }
        match through_the_crate(call) {
            None => {
                inexpressible += 1;
                assert_eq!(want.reply.code, Refusal::Argument.number(), "{call:?}");
            }
            Some(Err(refusal)) => assert_eq!(refusal.number(), want.reply.code, "{call:?}"),
            Some(Ok(seen)) => assert_eq!(seen, *want, "{call:?}"),
        }
    });
    hold_to_the_listing(counts);
    assert!(inexpressible > 0);
}
