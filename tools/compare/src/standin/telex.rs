//! The telex step after document 01.

use super::syllable::compose;
use super::{has_tone_letter, strip};

/// The tones that have a key, in the order of the settings.
const TONES: [u64; 7] = [2, 3, 5, 6, 7, 8, 9];
/// In the order in which keys are tried.
const TRIED: [u64; 7] = [2, 3, 5, 6, 7, 9, 8];

/// The seven tone keys at work.
struct Settings([char; 7]);

impl Settings {
    fn new(mode: u64, keys: &[u8]) -> Settings {
        let keys = if mode == 0 { b"2356789" } else { keys };
        Settings(std::array::from_fn(|i| keys[i] as char))
    }

    fn key(&self, tone: u64) -> Option<char> {
        TONES.iter().position(|&t| t == tone).map(|at| self.0[at])
    }

    fn tone(&self, key: char) -> Option<u64> {
        TRIED.into_iter().find(|&tone| self.key(tone) == Some(key))
    }
}

/// The text without its last `count` code points.
fn shortened(text: &str, count: usize) -> String {
    let size = text.chars().count();
    text.chars().take(size - count).collect()
}

/// e before the key, in the key's case.
fn with_e(rest: String, key: char) -> String {
    let e = if key.is_ascii_uppercase() { 'E' } else { 'e' };
    format!("{rest}{e}{key}")
}

/// Whether the body ends in p, t, k or h when no nasal sign is counted.
fn stopped(body: &str) -> bool {
    let low = body.to_lowercase().replace(['\u{207f}', '\u{1d3a}'], "").replace("nn", "");
    low.ends_with(['p', 't', 'k', 'h'])
}

pub fn step(text: &str, key: char, mode: u64, keys: &[u8]) -> String {
    let settings = Settings::new(mode, keys);
    let (rest, tone) = strip(text);
    let low = key.to_ascii_lowercase();
    if settings.key(tone) == Some(low) {
        return format!("{rest}{key}");
    }
    let ends = |end: [&str; 2]| text.ends_with(end[0]) || text.ends_with(end[1]);
    let after_nasal = low == 'n' && ends(["\u{207f}", "\u{1d3a}"]);
    let after_dot = (low == 'u' || low == 'o') && ends(["o\u{358}", "O\u{358}"]);
    if after_nasal || after_dot {
        return format!("{}{key}", shortened(&rest, 1));
    }
    if low == 'o' && ends(["o\u{324}", "O\u{324}"]) || low == 'u' && ends(["\u{1e73}", "\u{1e72}"]) {
        return with_e(shortened(&rest, 2), key);
    }
    let grown = if key == ' ' { rest.clone() } else { format!("{rest}{key}") };
    let (body, tone) = match settings.tone(low) {
        _ if tone == 1 && !has_tone_letter(text) => (grown, 0),
        Some(named) => {
            let tone = shared(&settings, Some(low), named, &rest);
            (rest.clone(), tone)
        }
        None => {
            let tone = shared(&settings, settings.key(tone), tone, &grown);
            (grown, tone)
        }
    };
    compose(&format!("{rest}{key}"), &body, tone, false)
}

/// The tone, unless it comes from the key of tone 8: then the body's end decides.
fn shared(settings: &Settings, key: Option<char>, tone: u64, body: &str) -> u64 {
    let eighth = settings.key(8).unwrap();
    if key != Some(eighth) {
        tone
    } else if stopped(body) {
        8
    } else {
        settings.tone(eighth).unwrap()
    }
}
