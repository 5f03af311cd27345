//! What answers when the archives are not linked: for strip, NFD and NFC the
//! hand-tuned version, for the other calls plain code after document 01. It
//! tests the comparison itself, and is one more reading of the document.

mod entry;
mod syllable;
mod telex;

use crate::call::{Call, Question, Reply, Subject};
use crate::oracle;
use crate::rules;
use crate::tuned;

pub struct StandIn;

impl Subject for StandIn {
    fn name(&self) -> &'static str {
        "stand-in"
    }

    fn call(&self, question: Question, out: &mut [u8]) -> Reply {
        let text = question.text;
        match question.call {
            Call::Strip => tuned::strip(text, out),
            Call::Nfd => tuned::nfd(text, out),
            Call::Nfc => tuned::nfc(text, out),
            Call::StripKhin => strip_khin(text),
            Call::Listing { from } => entry::listing(text, from, out),
            _ => match rules::accept(&question) {
                Err(code) => Reply::refusal(code),
                Ok((text, body)) => accepted(question, text, body, out),
            },
        }
    }
}

fn accepted(question: Question, text: &str, body: &str, out: &mut [u8]) -> Reply {
    match question.call {
        Call::ToneLetter => match tone_letter(text) {
            Some(place) => Reply { length: 1, position: place as u64, ..Reply::default() },
            None => Reply::default(),
        },
        Call::HasToneLetter => Reply { length: has_tone_letter(text) as u64, ..Reply::default() },
        Call::Keys { form, kind } => written(&keys(text, form, kind), Reply::default(), out),
        Call::FromRaw => syllable::from_raw(text).reply(0, out),
        Call::Compose { tone, khin } => {
            written(&syllable::compose(text, body, tone, khin == 1), Reply::default(), out)
        }
        Call::Candidate { position } => {
            let all = syllable::from_composed(text);
            match all.iter().enumerate().find(|(at, _)| *at as u64 == position) {
                Some((_, record)) => record.reply(all.len() as u64, out),
                None => Reply::refusal(6),
            }
        }
        Call::Keying { kind, position } => entry::keying(text, kind, position, out),
        Call::Telex { key, mode } => {
            written(&telex::step(text, key as u8 as char, mode, question.second), Reply::default(), out)
        }
        Call::Align => syllable::align(text, body).reply(0, out),
        _ => unreachable!(),
    }
}

/// Writes a text if it fits, and adds its length to the reply.
fn written(text: &str, reply: Reply, out: &mut [u8]) -> Reply {
    let Some(place) = out.get_mut(..text.len()) else { return Reply::refusal(7) };
    place.copy_from_slice(text.as_bytes());
    Reply { length: text.len() as u64, ..reply }
}

fn strip_khin(text: &[u8]) -> Reply {
    let khin = matches!(text, [b'-', b'-', ..] | [0xC2, 0xB7, ..]);
    let position = 2 * khin as u64;
    Reply { length: text.len() as u64 - position, khin: khin as u64, position, ..Reply::default() }
}

fn tone_letter(text: &str) -> Option<usize> {
    let low = text.as_bytes().to_ascii_lowercase();
    let second =
        low.windows(3).position(|w| w[0] == b'o' && b"ae".contains(&w[1]) && b"ptkhmni".contains(&w[2]));
    if let Some(place) = second {
        return Some(place + 1);
    }
    let letters: [&[u8]; 8] = [b"o", b"a", b"e", b"u", b"i", b"ng", b"n", b"m"];
    letters.iter().find_map(|letter| low.windows(letter.len()).position(|w| w == *letter))
}

fn has_tone_letter(text: &str) -> bool {
    let mut plain = [0; 640];
    let size = tuned::nfd(text.as_bytes(), &mut plain).length as usize;
    tone_letter(std::str::from_utf8(&plain[..size]).unwrap()).is_some()
}

/// The text without its tone marks, and the tone.
fn strip(text: &str) -> (String, u64) {
    let mut plain = [0; 640];
    let stripped = tuned::strip(text.as_bytes(), &mut plain);
    (String::from_utf8(plain[..stripped.length as usize].to_vec()).unwrap(), stripped.tone)
}

fn keys(text: &str, form: u64, kind: u64) -> String {
    let (rest, tone) = strip(text);
    let mut keyed = oracle::replace_all(&rest, form, &[0, 1, 2, 3, 4, 5]);
    match kind {
        1 => keyed.push(b"0123456789"[tone as usize] as char),
        2 => keyed.push(b"01sf4l6jjw"[tone as usize] as char),
        _ => (),
    }
    keyed
}
