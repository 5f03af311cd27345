//! The place of the tone letter: pattern by pattern, eight bytes at a time.

use super::entry::equal;
use super::*;

/// Makes small letters of capitals. No other byte becomes a letter that is looked for.
const SMALL: u64 = 0x2020_2020_2020_2020;

/// Where the tone letter of a text stands, in bytes, or that there is none.
#[inline(never)]
pub fn tone_letter(text: &[u8]) -> Reply {
    if let Some(reply) = refusal_of(text) {
        return reply;
    }
    let place = if text.len() <= 8 { in_word(word_of(text) | SMALL) } else { in_text(text) };
    match place {
        Some(place) => Reply { length: 1, position: place as u64, ..Reply::default() },
        None => Reply::default(),
    }
}

/// The place in a text of up to eight bytes, spaces behind them.
#[inline(always)]
fn in_word(word: u64) -> Option<usize> {
    let is = |byte| equal(word, byte);
    let place = |found: u64| Some(found.trailing_zeros() as usize / 8);
    let o = is(b'o');
    if o != 0 {
        let second = o << 8 & (is(b'a') | is(b'e'));
        if second == 0 {
            return place(o);
        }
        let last = is(b'p') | is(b't') | is(b'k') | is(b'h') | is(b'm') | is(b'n') | is(b'i');
        let three = second & last >> 8;
        return place(if three != 0 { three } else { o });
    }
    for vowel in *b"aeui" {
        let found = is(vowel);
        if found != 0 {
            return place(found);
        }
    }
    let n = is(b'n');
    let found = if n != 0 { n } else { is(b'm') };
    let ng = n & is(b'g') >> 8;
    match found {
        0 => None,
        _ => place(if ng != 0 { ng } else { found }),
    }
}

/// The place in a text of more than eight bytes.
#[inline(never)]
fn in_text(text: &[u8]) -> Option<usize> {
    let small = |at: usize| text.get(at).map_or(0, |byte| byte | 0x20);
    if let Some(first) = find(text, 0, b'o') {
        let mut o = Some(first);
        while let Some(at) = o {
            let second = matches!(small(at + 1), b'a' | b'e');
            if second && matches!(small(at + 2), b'p' | b't' | b'k' | b'h' | b'm' | b'n' | b'i') {
                return Some(at + 1);
            }
            o = find(text, at + 1, b'o');
        }
        return Some(first);
    }
    if let Some(vowel) = b"aeui".iter().find_map(|&vowel| find(text, 0, vowel)) {
        return Some(vowel);
    }
    let first = find(text, 0, b'n');
    let mut n = first;
    while let Some(at) = n {
        if small(at + 1) == b'g' {
            return Some(at);
        }
        n = find(text, at + 1, b'n');
    }
    first.or_else(|| find(text, 0, b'm'))
}

/// Where a letter, small or capital, stands first from `from` on. The text has more
/// than eight bytes, and the last eight are read as a whole.
#[inline(always)]
fn find(text: &[u8], from: usize, letter: u8) -> Option<usize> {
    let read = |at: usize| u64::from_le_bytes(text[at..at + 8].try_into().unwrap()) | SMALL;
    let (mut at, end) = (from, text.len() - 8);
    while at < end {
        let found = equal(read(at), letter);
        if found != 0 {
            return Some(at + found.trailing_zeros() as usize / 8);
        }
        at += 8;
    }
    if at >= text.len() {
        return None;
    }
    // The bytes before `at` are passed over.
    let found = equal(read(end), letter) >> (8 * (at - end)) << (8 * (at - end));
    (found != 0).then(|| end + found.trailing_zeros() as usize / 8)
}
