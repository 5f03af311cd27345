//! from_raw, the candidates, and the alignment.

use super::*;

/// A last key 1 to 9 is the tone and leaves the body.
#[inline(never)]
pub fn from_raw(keys: &[u8], out: &mut [u8]) -> Reply {
    if keys.len() > MOST {
        return Reply::refusal(2);
    }
    if !keys.is_ascii() {
        return Reply::refusal(4);
    }
    if keys.len() > out.len() {
        return Reply::refusal(7);
    }
    record_of(keys, out)
}

/// Writes the keys, for which `out` has room, and gives their record.
#[inline(always)]
fn record_of(keys: &[u8], out: &mut [u8]) -> Reply {
    let digit = keys.last().map_or(0, |last| last.wrapping_sub(b'0'));
    let tone = if digit <= 9 { digit as u64 } else { 0 };
    // Safety: both have so many bytes.
    unsafe { hand_over(keys.as_ptr(), out.as_mut_ptr(), keys.len()) };
    let size = keys.len() as u64;
    Reply { length: size, body: size - (tone > 0) as u64, tone, ..Reply::default() }
}

/// One of a text's candidates.
#[inline(never)]
pub fn candidate(text: &[u8], position: u64, out: &mut [u8]) -> Reply {
    if text.is_empty() {
        return if position == 0 { Reply { count: 1, ..Reply::default() } } else { Reply::refusal(6) };
    }
    let front = front::<true>(text, &STRIP_LOW, &STRIP_HIGH);
    if front.at == text.len() && front.bytes & HIGH_BITS == 0 {
        return short(&front, position, out);
    }
    if text.len() > MOST {
        return Reply::refusal(2);
    }
    let (mut plain, mut raw) = (Scratch::<ROOM>::new(), Scratch::<{ ROOM + 8 }>::new());
    // Safety: a body is no longer than the stripped text: what it adds to a letter
    // with 0324, a byte, it takes from the mark, two bytes. Two digits come behind it.
    unsafe {
        let Some(stripped) = strip_on(text, &front, plain.start()) else { return refuse(text) };
        let tone = settled(stripped.mark, stripped.bytes);
        let (bare, khin) = without_khin(stripped.bytes);
        let start = raw.start();
        let vowel = if position == 0 { b'u' } else { b'o' };
        let (end, dotted) = respell(bare, vowel, start);
        let count = 1 + dotted as u64;
        if position >= count {
            return Reply::refusal(6);
        }
        *end = b'0' + tone as u8;
        *end.add(1) = b'0';
        let body = end.offset_from(start) as usize;
        let size = body + 1 + khin as usize;
        if size > out.len() {
            return Reply::refusal(7);
        }
        hand_over(start, out.as_mut_ptr(), size);
        record(size, count, body, tone, khin)
    }
}

#[inline(always)]
fn record(size: usize, count: u64, body: usize, tone: u64, khin: bool) -> Reply {
    Reply { length: size as u64, count, body: body as u64, tone, khin: khin as u64, position: 0, code: 0 }
}

/// The one candidate of a short text whose stripped text is ASCII, in a register.
#[inline(always)]
fn short(front: &Front, position: u64, out: &mut [u8]) -> Reply {
    if position > 0 {
        return Reply::refusal(6);
    }
    let tone = settled(front.tone, &front.bytes.to_le_bytes()[..front.size]);
    let khin = front.bytes as u16 == u16::from_le_bytes(*b"--") && front.size >= 2;
    let body = front.size - 2 * khin as usize;
    let size = body + 1 + khin as usize;
    if size > out.len() {
        return Reply::refusal(7);
    }
    put_word(spelled(front, tone, khin, body), size, out);
    record(size, 1, body, tone, khin)
}

/// The raw input of that candidate.
#[inline(always)]
fn spelled(front: &Front, tone: u64, khin: bool, body: usize) -> u128 {
    let digits = (b'0' as u128) << 8 | (b'0' as u128 + tone as u128);
    let bytes = (front.bytes >> (16 * khin as u32)) as u128;
    bytes | digits << (8 * body)
}

#[inline(always)]
fn without_khin(text: &[u8]) -> (&[u8], bool) {
    match text {
        [b'-', b'-', bare @ ..] | [0xC2, 0xB7, bare @ ..] => (bare, true),
        _ => (text, false),
    }
}

/// Writes a stripped text as from_composed does, 0358 as `vowel`. Hands back
/// where it ends and whether 0358 was in it.
///
/// One pass does what the Rust's passes do: no letter that one of them writes
/// stands before a 0324 that a later one looks for.
///
/// # Safety
/// The text is of the table; its length may be written at `to`, and eight bytes more.
#[inline(always)]
unsafe fn respell(text: &[u8], vowel: u8, to: *mut u8) -> (*mut u8, bool) {
    let (begin, end) = (text.as_ptr(), text.as_ptr().add(text.len()));
    let (mut from, mut to, mut dotted) = (begin, to, false);
    while from < end {
        let run = copy_ascii(from, end, to);
        from = from.add(run);
        to = to.add(run);
        if run > 0 && (run == 8 || from == end || *from < 0x80) {
            continue;
        }
        match (*from, *from.add(1)) {
            (0xCD, 0x98) => {
                *to = vowel;
                to = to.add(1);
                from = from.add(2);
                dotted = true;
            }
            (0xCC, 0xA4) if from > begin && matches!(*from.sub(1) | 0x20, b'o' | b'u') => {
                let letter = *from.sub(1);
                *to.sub(1) = b'E' | letter & 0x20;
                *to = letter | 0x20;
                to = to.add(1);
                from = from.add(2);
            }
            (0xE2, 0x81) => {
                *to = b'n';
                *to.add(1) = b'n';
                to = to.add(2);
                from = from.add(3);
            }
            (lead, _) => {
                let size = if lead < 0xE0 { 2 } else { 3 };
                ptr::copy_nonoverlapping(from, to, size);
                to = to.add(size);
                from = from.add(size);
            }
        }
    }
    (to, dotted)
}

/// The keys that were typed for the target, and their record.
#[inline(never)]
pub fn align(keys: &[u8], target: &[u8], out: &mut [u8]) -> Reply {
    if keys.len() > MOST {
        return Reply::refusal(2);
    }
    if !keys.is_ascii() {
        return Reply::refusal(4);
    }
    if target.is_empty() {
        return Reply::default();
    }
    let front = front::<true>(target, &STRIP_LOW, &STRIP_HIGH);
    let (prefix, tone) = if front.at == target.len() && front.bytes & HIGH_BITS == 0 {
        shared_short(keys, &front)
    } else {
        if target.len() > MOST {
            return Reply::refusal(2);
        }
        let Some(shared) = shared_long(keys, target, &front) else { return refuse(target) };
        shared
    };
    let grows = prefix > 0 && keys.get(prefix + 1) == Some(&(b'0' + tone as u8));
    let size = prefix + grows as usize;
    if size > out.len() {
        return Reply::refusal(7);
    }
    record_of(&keys[..size], out)
}

/// How many keys are shared with the one candidate of a short text, and its tone.
#[inline(always)]
fn shared_short(keys: &[u8], front: &Front) -> (usize, u64) {
    let tone = settled(front.tone, &front.bytes.to_le_bytes()[..front.size]);
    let khin = front.bytes as u16 == u16::from_le_bytes(*b"--") && front.size >= 2;
    let body = front.size - 2 * khin as usize;
    let raw = spelled(front, tone, khin, body);
    let size = body + 1 + khin as usize;
    if keys.len() > 8 {
        return (shared(keys, &raw.to_le_bytes()[..size]), tone);
    }
    // Bytes of zero fill both words.
    let apart = lowered(word_of(keys)) ^ lowered(raw as u64);
    (size.min(keys.len()).min(apart.trailing_zeros() as usize / 8), tone)
}

/// Eight ASCII bytes, the capitals among them in lower case.
#[inline(always)]
fn lowered(word: u64) -> u64 {
    let from_a = word + 0x3F3F_3F3F_3F3F_3F3F;
    let behind_z = word + 0x2525_2525_2525_2525;
    word | (from_a & !behind_z & HIGH_BITS) >> 2
}

#[inline(always)]
fn shared(keys: &[u8], raw: &[u8]) -> usize {
    keys.iter().zip(raw).take_while(|(key, byte)| key.eq_ignore_ascii_case(byte)).count()
}

/// How many keys are shared with the nearest candidate of any text, and its tone.
/// Nothing for a text that is refused.
#[inline(always)]
fn shared_long(keys: &[u8], target: &[u8], front: &Front) -> Option<(usize, u64)> {
    let (mut plain, mut raw) = (Scratch::<ROOM>::new(), Scratch::<{ ROOM + 8 }>::new());
    // Safety: as in `candidate`.
    unsafe {
        let stripped = strip_on(target, front, plain.start())?;
        let tone = settled(stripped.mark, stripped.bytes);
        let (bare, khin) = without_khin(stripped.bytes);
        let start = raw.start();
        let with = |vowel| {
            let (end, dotted) = respell(bare, vowel, start);
            *end = b'0' + tone as u8;
            *end.add(1) = b'0';
            let size = end.offset_from(start) as usize + 1 + khin as usize;
            (shared(keys, std::slice::from_raw_parts(start, size)), dotted)
        };
        let (prefix, dotted) = with(b'u');
        let prefix = if dotted { prefix.max(with(b'o').0) } else { prefix };
        Some((prefix, tone))
    }
}
