//! Syllables after document 01.

use super::{strip, tone_letter, written};
use crate::call::Reply;
use khiin_ji::unicode_normalization::UnicodeNormalization;

/// A syllable record; the body is the beginning of the raw input.
pub struct Record {
    raw: String,
    body: usize,
    tone: u64,
    khin: bool,
}

impl Record {
    pub fn reply(&self, count: u64, out: &mut [u8]) -> Reply {
        let numbers = Reply {
            count,
            body: self.body as u64,
            tone: self.tone,
            khin: self.khin as u64,
            ..Reply::default()
        };
        written(&self.raw, numbers, out)
    }
}

/// A last key 1 to 9 is the tone and leaves the body.
pub fn from_raw(keys: &str) -> Record {
    let tone = match keys.bytes().last() {
        Some(digit @ b'1'..=b'9') => digit - b'0',
        _ => 0,
    };
    let body = keys.len() - (tone > 0) as usize;
    Record { raw: keys.to_string(), body, tone: tone as u64, khin: false }
}

const DOT: char = '\u{358}';
const BELOW: char = '\u{324}';

/// One pass: each `a` with `b` behind it becomes the letter with the mark.
fn pass(text: String, a: char, b: char, letter: char, mark: char) -> String {
    text.replace(&format!("{a}{b}"), &format!("{letter}{mark}"))
}

/// The sixteen vowel passes: o before u or o takes 0358, o or u behind e takes 0324.
fn vowels(body: &str) -> String {
    let mut text = body.to_string();
    for second in ['u', 'o'] {
        for first in ['o', 'O'] {
            for second in [second, second.to_ascii_uppercase()] {
                text = pass(text, first, second, first, DOT);
            }
        }
    }
    for second in ['o', 'u'] {
        for second in [second, second.to_ascii_uppercase()] {
            for first in ['e', 'E'] {
                text = pass(text, first, second, second, BELOW);
            }
        }
    }
    text
}

/// Whether the text ends in one of the twelve and then nn, in either case.
fn ends_nasal(text: &str) -> bool {
    let low = text.to_ascii_lowercase();
    let before = low.strip_suffix("nn").and_then(|rest| rest.chars().last());
    before.is_some_and(|letter| letter == DOT || "aeiouptkhm".contains(letter))
}

fn nasals(text: String) -> String {
    if !ends_nasal(&text) {
        return text;
    }
    text.replace("nn", "\u{207f}")
        .replace("nN", "\u{207f}")
        .replace("Nn", "\u{207f}")
        .replace("NN", "\u{1d3a}")
}

/// Every such sign goes and one stands at the end, unless one stands there already.
fn to_end(text: String, sign: char) -> String {
    if !text.contains(sign) || text.ends_with(sign) {
        return text;
    }
    let mut rest: String = text.chars().filter(|&c| c != sign).collect();
    rest.push(sign);
    rest
}

/// The O rules: an o before the sign, or before h and the sign, takes 0358.
fn dotted(text: String) -> String {
    let behind = [
        ("O", "\u{1d3a}"),
        ("O", "\u{207f}"),
        ("o", "\u{207f}"),
        ("O", "H\u{1d3a}"),
        ("O", "h\u{207f}"),
        ("o", "h\u{207f}"),
    ];
    behind.iter().fold(text, |text, (o, end)| text.replace(&format!("{o}{end}"), &format!("{o}{DOT}{end}")))
}

/// NFC, then 0324 030D swapped.
fn encoded(text: &str) -> String {
    text.nfc().collect::<String>().replace("\u{324}\u{30d}", "\u{30d}\u{324}")
}

fn mark(tone: u64) -> Option<char> {
    [
        None,
        None,
        Some('\u{301}'),
        Some('\u{300}'),
        None,
        Some('\u{302}'),
        Some('\u{303}'),
        Some('\u{304}'),
        Some('\u{30d}'),
        Some('\u{306}'),
    ][tone as usize]
}

pub fn compose(raw: &str, body: &str, tone: u64, khin: bool) -> String {
    let spelled = dotted(to_end(to_end(nasals(vowels(body)), '\u{207f}'), '\u{1d3a}'));
    let text = if khin { format!("--{spelled}") } else { spelled };
    let Some(mark) = mark(tone) else { return encoded(&text) };
    match tone_letter(&text) {
        Some(place) => encoded(&format!("{}{mark}{}", &text[..=place], &text[place + 1..])),
        None => raw.to_string(),
    }
}

pub fn from_composed(text: &str) -> Vec<Record> {
    if text.is_empty() {
        return vec![from_raw("")];
    }
    let (rest, tone) = strip(text);
    let without = rest.strip_prefix("--").or_else(|| rest.strip_prefix('\u{b7}'));
    let khin = without.is_some();
    let mut bare = without.unwrap_or(&rest).to_string();
    for letter in ['u', 'U', 'o', 'O'] {
        let e = if letter.is_uppercase() { 'E' } else { 'e' };
        bare = bare.replace(&format!("{letter}{BELOW}"), &format!("{e}{}", letter.to_ascii_lowercase()));
    }
    let vowels: &[&str] = if bare.contains(DOT) { &["u", "o"] } else { &["u"] };
    let record = |vowel: &&str| {
        let body = bare.replace('\u{207f}', "nn").replace(DOT, vowel);
        let raw = format!("{body}{tone}{}", if khin { "0" } else { "" });
        Record { raw, body: body.len(), tone, khin }
    };
    vowels.iter().map(record).collect()
}

/// The record of the keys that were typed for the target: of none where none were.
pub fn align(keys: &str, target: &str) -> Record {
    let shared = |record: &Record| {
        let lower = |text: &str| text.to_ascii_lowercase().into_bytes();
        lower(keys).iter().zip(lower(&record.raw)).take_while(|(key, byte)| *key == byte).count()
    };
    let all = from_composed(target);
    // Of equal ones the later.
    let (prefix, tone) = all.iter().map(|record| (shared(record), record.tone)).max().unwrap();
    let digit = b"0123456789"[tone as usize];
    let grows = prefix > 0 && tone > 0 && keys.as_bytes().get(prefix + 1) == Some(&digit);
    from_raw(&keys[..prefix + grows as usize])
}
