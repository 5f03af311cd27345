//! No input makes the crate panic, and a `&str` and its bytes are answered alike.

use robinflint::{
    compose, compose_bytes, strip, strip_bytes, telex, telex_bytes, tone_letter, tone_letter_bytes,
};
use robinflint::{Entry, Kind, Mode, Refusal, Settings, Syllable, Tone};
use std::error::Error;

/// A small generator (xorshift), so that a run is the same each time.
struct Random(u64);

impl Random {
    fn below(&mut self, bound: usize) -> usize {
        self.0 ^= self.0 << 13;
        self.0 ^= self.0 >> 7;
        self.0 ^= self.0 << 17;
        (self.0 % bound as u64) as usize
    }

    fn bytes(&mut self, most: usize) -> Vec<u8> {
        let pieces: [&[u8]; 16] = [
            b"a",
            b"o",
            b"nn",
            b"h",
            b" ",
            b"--",
            b"5",
            b"0",
            b"\xC3",
            b"\xFF",
            b"\x00",
            "\u{358}".as_bytes(),
            "\u{301}".as_bytes(),
            "\u{207f}".as_bytes(),
            "\u{1d9}".as_bytes(),
            "\u{6f22}".as_bytes(),
        ];
        let mut bytes = Vec::new();
        for _ in 0..self.below(most) {
            bytes.extend_from_slice(pieces[self.below(pieces.len())]);
        }
        bytes
    }

    fn tone(&mut self) -> Tone {
        Tone::ALL[self.below(Tone::ALL.len())]
    }

    /// A character of any kind, most often an ASCII one.
    fn character(&mut self) -> char {
        let bound = if self.below(4) == 0 { 0x11_0000 } else { 0x80 };
        char::from_u32(self.below(bound) as u32).unwrap_or('\u{fffd}')
    }

    fn settings(&mut self) -> Settings {
        if self.below(2) == 0 {
            return Settings::default();
        }
        let mut key = || self.character();
        Settings { t2: key(), t3: key(), t5: key(), t6: key(), t7: key(), t8: key(), t9: key() }
    }
}

/// Every call of the crate on the same bytes.
fn every_call(first: &[u8], second: &[u8], random: &mut Random) {
    let (tone, khin, position) = (random.tone(), random.below(2) == 0, random.0);
    let (key, settings) = (random.character(), random.settings());
    let _ = strip_bytes(first);
    let _ = tone_letter_bytes(first);
    let _ = compose_bytes(first, second, tone, khin);
    let _ = Syllable::align_bytes(first, second);
    for mode in [Mode::Numeric, Mode::Telex] {
        let _ = telex_bytes(first, key, mode, &settings);
    }
    let mut records = Syllable::candidates_bytes(first).unwrap_or_default();
    records.extend(Syllable::from_raw_bytes(first));
    for record in records {
        assert!(record.raw().starts_with(record.body()) && record.body().len() == record.body_len());
        let _ = record.compose();
    }
    let entry = match Entry::from_bytes(first) {
        Ok(entry) => entry,
        Err(_) => return,
    };
    for kind in Kind::ALL {
        let count = entry.count(kind).unwrap();
        assert!(entry.keying(kind, count - 1).is_ok());
        assert_eq!(entry.keying(kind, position).is_ok(), position < count);
        assert_eq!(entry.keyings(kind).unwrap().into_iter().take(20).count() as u64, count.min(20));
    }
    let text = std::str::from_utf8(first).expect("an entry that was taken is well formed");
    assert_eq!(Entry::new(text), Ok(entry));
}

#[test]
fn nothing_panics() {
    let mut random = Random(0x9E37_79B9_7F4A_7C15);
    for turn in 0..3000 {
        let most = if turn % 10 == 0 { 400 } else { 12 };
        let (first, second) = (random.bytes(most), random.bytes(most));
        every_call(&first, &second, &mut random);
    }
}

#[test]
fn a_text_and_its_bytes_are_answered_alike() {
    let settings = Settings::default();
    for text in ["", "\u{e1}", "--\u{e1}", "hoan2", "o\u{358}", "\u{6f22}", &"a".repeat(257)] {
        let bytes = text.as_bytes();
        assert_eq!(strip(text), strip_bytes(bytes));
        assert_eq!(tone_letter(text), tone_letter_bytes(bytes));
        assert_eq!(compose(text, text, Tone::T2, true), compose_bytes(bytes, bytes, Tone::T2, true));
        assert_eq!(Syllable::from_raw(text), Syllable::from_raw_bytes(bytes));
        assert_eq!(Syllable::candidates(text), Syllable::candidates_bytes(bytes));
        assert_eq!(Syllable::align("a1", text), Syllable::align_bytes(b"a1", bytes));
        assert_eq!(Entry::new(text), Entry::from_bytes(bytes));
        assert_eq!(telex(text, 's', Mode::Telex, &settings), telex_bytes(bytes, 's', Mode::Telex, &settings));
    }
}

#[test]
fn settings_are_checked_in_both_modes() {
    // U+0173 and U+1073 end in the byte 73, which is s.
    for wrong in [' ', '\u{7f}', '\0', '\u{80}', '\u{ff}', '\u{173}', '\u{1073}', '\u{10ffff}'] {
        for mode in [Mode::Numeric, Mode::Telex] {
            let settings = Settings { t9: wrong, ..Settings::default() };
            assert_eq!(telex("a", 's', mode, &settings), Err(Refusal::Argument), "{wrong:?}");
        }
        let typed = telex("a", wrong, Mode::Telex, &Settings::default());
        assert_eq!(typed.is_ok(), wrong == ' ', "{wrong:?}");
    }
}

#[test]
fn a_refusal_is_an_error_with_its_number_and_its_words() {
    let mut words = Vec::new();
    for (number, refusal) in (1..).zip(Refusal::ALL) {
        assert_eq!((refusal.number(), Refusal::from_number(number)), (number, Some(refusal)));
        let error: Box<dyn Error> = refusal.into();
        words.push(error.to_string());
    }
    words.dedup();
    assert_eq!(words.len(), 7);
    assert_eq!((Refusal::from_number(0), Refusal::from_number(8)), (None, None));
}
