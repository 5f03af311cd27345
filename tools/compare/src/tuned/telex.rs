//! The telex step.

use super::compose::composed;
use super::*;

/// Where the key of a tone stands in the settings; 7 for a tone that has none.
const PLACE: [u8; 10] = [7, 7, 0, 1, 7, 2, 3, 4, 5, 6];
const NUMERIC: [u8; 7] = *b"2356789";
/// The key of tone 8 in the settings.
const EIGHTH: usize = 5;

const ONES: u64 = 0x0001_0101_0101_0101;

/// Whether seven keys are all in 21-7E, looked at together.
#[inline(always)]
fn settings_fit(keys: &[u8; 7]) -> bool {
    let mut bytes = [0; 8];
    bytes[..7].copy_from_slice(keys);
    let keys = u64::from_le_bytes(bytes);
    let high = ONES << 7;
    // A byte above 7E carries into its high bit; one below 21 borrows from the bit set there.
    (keys | (keys + ONES)) & high == 0 && ((keys | high) - 0x21 * ONES) & high == high
}

/// The tone that a key is tried for first.
#[inline(always)]
fn tone_of(keys: &[u8; 7], key: u8) -> Option<u64> {
    let tried =
        [(keys[0], 2), (keys[1], 3), (keys[2], 5), (keys[3], 6), (keys[4], 7), (keys[6], 9), (keys[5], 8)];
    tried.iter().find(|tried| tried.0 == key).map(|tried| tried.1)
}

/// Whether a body ends in p, t, k or h, with no regard to ⁿ, ᴺ and nn.
#[inline(always)]
fn stopped(body: &[u8]) -> bool {
    let (mut rest, mut odd) = (body, false);
    loop {
        match rest {
            [front @ .., b'n' | b'N'] => {
                rest = front;
                odd = !odd;
            }
            [front @ .., 0xE2, 0x81, 0xBF] | [front @ .., 0xE1, 0xB4, 0xBA] => rest = front,
            [.., last] => return !odd && matches!(last | 0x20, b'p' | b't' | b'k' | b'h'),
            [] => return false,
        }
    }
}

/// Whether one of the letters is in it that can take a tone mark.
#[inline(always)]
fn has_letter(text: &[u8]) -> bool {
    text.iter().any(|byte| matches!(byte | 0x20, b'o' | b'a' | b'e' | b'u' | b'i' | b'n' | b'm'))
}

/// A key typed behind a text.
#[inline(never)]
pub fn telex(text: &[u8], key: u64, mode: u64, keys: &[u8; 7], out: &mut [u8]) -> Reply {
    if mode > 1 || !(0x20..=0x7E).contains(&key) || !settings_fit(keys) {
        return Reply::refusal(1);
    }
    if text.len() > MOST {
        return Reply::refusal(2);
    }
    let front = front::<true>(text, &STRIP_LOW, &STRIP_HIGH);
    let mut plain = Scratch::<ROOM>::new();
    let start = plain.start();
    // Safety: a stripped text leaves room for the key and for an e before it.
    unsafe {
        let Some(stripped) = strip_on(text, &front, start) else { return refuse(text) };
        let tone = settled(stripped.mark, stripped.bytes);
        let keys = if mode == 0 { &NUMERIC } else { keys };
        typed(text, start, stripped.size, tone, key as u8, keys, out)
    }
}

/// The branches in the Rust's order. The stripped text is at `start`.
///
/// # Safety
/// So many bytes are readable there, and two more may be written behind them.
#[inline(always)]
unsafe fn typed(
    text: &[u8],
    start: *mut u8,
    size: usize,
    tone: u64,
    key: u8,
    keys: &[u8; 7],
    out: &mut [u8],
) -> Reply {
    let low = key.to_ascii_lowercase();
    let place = PLACE[tone as usize] as usize;
    let own = if place < 7 { keys[place] } else { b' ' };
    if own == low && place < 7 {
        *start.add(size) = key;
        return answer(start, start.add(size + 1), out);
    }
    if let Some((kept, e)) = opened(text, size, low) {
        // The key stands for the sign, or e and the key for the letter and 0324.
        let at = start.add(kept);
        *at = if e { b'E' | key & 0x20 } else { key };
        *at.add(1) = key;
        return answer(start, at.add(1 + e as usize), out);
    }
    *start.add(size) = key;
    let raw = std::slice::from_raw_parts(start, size + 1);
    let (rest, grown) = (&raw[..size], if key == b' ' { &raw[..size] } else { raw });
    // A text of tone 1 has no tone mark, so that its stripped text is its NFD.
    if tone == 1 && !has_letter(rest) {
        return composed(raw, grown, 0, false, out);
    }
    let (body, tone_key, tone) = match tone_of(keys, low) {
        Some(named) => (rest, low, named),
        None => (grown, own, tone),
    };
    composed(raw, body, shared(keys, tone_key, tone, body), false, out)
}

/// How much of the stripped text is kept, and whether an e follows, where the key
/// opens a sign or a letter at the end of the text as it was given.
#[inline(always)]
fn opened(text: &[u8], size: usize, low: u8) -> Option<(usize, bool)> {
    match low {
        b'n' if text.ends_with(&[0xE2, 0x81, 0xBF]) || text.ends_with(&[0xE1, 0xB4, 0xBA]) => {
            Some((size - 3, false))
        }
        b'u' | b'o' => match text {
            [.., b'o' | b'O', 0xCD, 0x98] => Some((size - 2, false)),
            [.., b'o' | b'O', 0xCC, 0xA4] if low == b'o' => Some((size - 3, true)),
            [.., 0xE1, 0xB9, 0xB2 | 0xB3] if low == b'u' => Some((size - 3, true)),
            _ => None,
        },
        _ => None,
    }
}

/// The tone, unless it comes by the key of tone 8: then the end of the body decides.
#[inline(always)]
fn shared(keys: &[u8; 7], key: u8, tone: u64, body: &[u8]) -> u64 {
    if key != keys[EIGHTH] {
        tone
    } else if stopped(body) {
        8
    } else {
        // There is always one: the key of tone 8 itself.
        tone_of(keys, key).unwrap_or(8)
    }
}
