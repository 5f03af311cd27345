//! The refusals of document 01. The Rust has none of them, so they are written
//! here from the document.

use crate::call::{Call, Question};

/// The longest text.
pub const MOST: usize = 256;
/// The longest dictionary entry.
pub const MOST_OF_ENTRY: usize = 1024;
/// The most parts of an entry.
pub const PARTS: usize = 16;

/// The first and last code points of the table's ranges.
pub const RANGES: [(u32, u32); 10] = [
    (0x0000, 0x007F),
    (0x00B7, 0x00B7),
    (0x00C0, 0x024F),
    (0x0292, 0x0292),
    (0x0300, 0x036F),
    (0x1D3A, 0x1D3A),
    (0x1E00, 0x1EFF),
    (0x207F, 0x207F),
    (0x2260, 0x2260),
    (0x226E, 0x226F),
];

pub fn inside(point: char) -> bool {
    RANGES.iter().any(|&(first, last)| (first..=last).contains(&(point as u32)))
}

/// Every code point of the table, in order.
pub fn table() -> Vec<char> {
    RANGES.iter().flat_map(|&(first, last)| first..=last).filter_map(char::from_u32).collect()
}

/// The texts as the Rust may see them, or the number of the refusal. What only
/// the answer decides, 6 and 7, is not looked at here.
pub fn accept<'a>(question: &Question<'a>) -> Result<(&'a str, &'a str), u64> {
    if !numbers_fit(question) {
        return Err(1);
    }
    let first = match question.call {
        Call::FromRaw | Call::Align => keys(question.text)?,
        Call::Keying { .. } | Call::Listing { .. } => entry(question.text)?,
        _ => text(question.text)?,
    };
    let second = match question.call {
        Call::Compose { .. } | Call::Align => text(question.second)?,
        _ => "",
    };
    Ok((first, second))
}

fn numbers_fit(question: &Question) -> bool {
    match question.call {
        Call::Keys { form, kind } => form <= 1 && kind <= 2,
        Call::Compose { tone, khin } => tone <= 9 && khin <= 1,
        Call::Keying { kind, .. } => kind <= 2,
        Call::Telex { key, mode } => {
            let settings = question.second.iter().all(|setting| (0x21..=0x7E).contains(setting));
            mode <= 1 && (0x20..=0x7E).contains(&key) && settings
        }
        _ => true,
    }
}

/// A text: 2, 3, 4.
pub fn text(bytes: &[u8]) -> Result<&str, u64> {
    within(bytes, MOST)
}

/// A smaller number wins: 3 is given wherever the ill-formed part stands, even
/// behind a code point outside the table.
fn within(bytes: &[u8], most: usize) -> Result<&str, u64> {
    if bytes.len() > most {
        return Err(2);
    }
    let text = std::str::from_utf8(bytes).map_err(|_| 3u64)?;
    if !text.chars().all(inside) {
        return Err(4);
    }
    Ok(text)
}

/// A raw-key text: a byte above 7F is 4, and 3 is never given.
fn keys(bytes: &[u8]) -> Result<&str, u64> {
    if bytes.len() > MOST {
        return Err(2);
    }
    if !bytes.is_ascii() {
        return Err(4);
    }
    Ok(std::str::from_utf8(bytes).unwrap())
}

/// A dictionary entry: 2, 3, 4, 5.
pub fn entry(bytes: &[u8]) -> Result<&str, u64> {
    let entry = within(bytes, MOST_OF_ENTRY)?;
    let parts: Vec<&str> = entry.split(' ').collect();
    if parts.len() > PARTS || parts.iter().any(|part| part.len() > MOST) {
        return Err(5);
    }
    Ok(entry)
}

#[cfg(test)]
mod tests {
    use super::*;

    const LONG: [u8; 257] = [b'a'; 257];
    const ILL: &[u8] = &[0xC3];
    const OUTSIDE: &[u8] = "\u{250}".as_bytes();

    fn code(call: Call, text: &[u8], second: &[u8]) -> u64 {
        accept(&Question { call, text, second }).err().unwrap_or(0)
    }

    #[test]
    fn compose_looks_at_its_numbers_then_at_its_texts_in_order() {
        let good = Call::Compose { tone: 9, khin: 1 };
        for (call, raw, body, want) in [
            (good, &LONG[..256], &LONG[..256], 0),
            (Call::Compose { tone: 10, khin: 0 }, &LONG[..], ILL, 1),
            (Call::Compose { tone: 0, khin: 2 }, ILL, OUTSIDE, 1),
            (good, &LONG, ILL, 2),
            (good, ILL, &LONG, 3),
            (good, OUTSIDE, &LONG, 4),
            (good, b"a", &LONG, 2),
            (good, b"a", ILL, 3),
            (good, b"a", OUTSIDE, 4),
        ] {
            assert_eq!(code(call, raw, body), want);
        }
    }

    #[test]
    fn raw_keys_are_never_ill_formed() {
        assert_eq!(code(Call::FromRaw, ILL, b""), 4);
        assert_eq!(code(Call::FromRaw, &[0x7F], b""), 0);
        assert_eq!(code(Call::FromRaw, &[0x80], b""), 4);
        assert_eq!(code(Call::FromRaw, &[0xFF; 257], b""), 2);
    }

    #[test]
    fn alignment_looks_at_its_keys_then_at_its_target() {
        for (keys, target, want) in [
            (&LONG[..256], &LONG[..256], 0),
            (&LONG, ILL, 2),
            (ILL, &LONG, 4),
            (OUTSIDE, ILL, 4),
            (b"a", &LONG, 2),
            (b"a", ILL, 3),
            (b"a", OUTSIDE, 4),
        ] {
            assert_eq!(code(Call::Align, keys, target), want);
        }
    }

    #[test]
    fn an_entry_is_long_then_ill_formed_then_outside_then_has_wrong_parts() {
        let call = Call::Keying { kind: 0, position: u64::MAX };
        let parts = |count: usize| vec![b' '; count - 1];
        assert_eq!(code(call, &parts(16), b""), 0);
        assert_eq!(code(call, &parts(17), b""), 5);
        assert_eq!(code(call, &LONG[..256], b""), 0);
        assert_eq!(code(call, &LONG, b""), 5);
        assert_eq!(code(call, &[b'a'; 1025], b""), 2);
        assert_eq!(code(call, &[&parts(17)[..], OUTSIDE].concat(), b""), 4);
        assert_eq!(code(call, &[&parts(17)[..], OUTSIDE, ILL].concat(), b""), 3);
        assert_eq!(code(Call::Keying { kind: 3, position: 0 }, &[b'a'; 1025], b""), 1);
    }

    #[test]
    fn settings_count_in_mode_0_too() {
        let call = |key, mode| Call::Telex { key, mode };
        for (setting, want) in [(0x20, 1), (0x21, 0), (0x7E, 0), (0x7F, 1)] {
            for place in 0..7 {
                let mut settings = *b"sflxjjw";
                settings[place] = setting;
                assert_eq!(code(call(0x20, 0), b"a", &settings), want);
                assert_eq!(code(call(0x7E, 1), b"a", &settings), want);
            }
        }
        for (key, mode) in [(0x1F, 0), (0x7F, 1), (0x61, 2), ((1 << 32) + 0x61, 0)] {
            assert_eq!(code(call(key, mode), &LONG, b"sflxjjw"), 1);
        }
    }
}
