//! What a call must answer: by document 01's rules where it refuses, else by
//! the unchanged Rust.

use crate::call::{Call, Question, Reply};
use crate::entries::Lists;
use crate::rules;
use khiin::config::ToneMode;
use khiin::{Settings, Syllable};
use khiin_ji::lomaji;
use khiin_ji::unicode_normalization::UnicodeNormalization;
use std::collections::BTreeSet;

/// An answer as a buffer without bound would get it.
#[derive(Clone, Debug, PartialEq, Eq)]
pub struct Answer {
    pub reply: Reply,
    pub out: Vec<u8>,
    /// The Rust folds over a hash map and this text shows it: its answer is chance.
    pub chance: bool,
}

impl Answer {
    pub fn refusal(code: u64) -> Answer {
        Answer { reply: Reply::refusal(code), out: Vec::new(), chance: false }
    }

    fn numbers(reply: Reply) -> Answer {
        Answer { reply, out: Vec::new(), chance: false }
    }

    pub fn text(out: String, tone: u64) -> Answer {
        let reply = Reply { length: out.len() as u64, tone, ..Reply::default() };
        Answer { reply, out: out.into_bytes(), chance: false }
    }

    /// A syllable record, one of `count`.
    fn record(syllable: &Syllable, count: usize) -> Answer {
        assert!(syllable.raw().starts_with(syllable.body()), "the body begins the raw input: {syllable:?}");
        let reply = Reply {
            length: syllable.raw().len() as u64,
            count: count as u64,
            body: syllable.body().len() as u64,
            tone: syllable.tone(),
            khin: syllable.khin() as u64,
            ..Reply::default()
        };
        Answer { reply, out: syllable.raw().as_bytes().to_vec(), chance: false }
    }

    /// The answer with `room` bytes lent: refusal 7 where it does not fit.
    pub fn within(&self, room: usize) -> Answer {
        if self.out.len() > room {
            return Answer::refusal(7);
        }
        self.clone()
    }
}

/// The answer to any call but a listing, whose output depends on the room.
pub fn answer(question: Question) -> Answer {
    if question.call == Call::StripKhin {
        return strip_khin(question.text);
    }
    match rules::accept(&question) {
        Err(code) => Answer::refusal(code),
        Ok((text, body)) => accepted(question, text, body),
    }
}

fn accepted(question: Question, text: &str, body: &str) -> Answer {
    match question.call {
        Call::Strip => {
            let (rest, tone) = lomaji::strip_tone_diacritic(text);
            Answer::text(rest, tone as u64)
        }
        Call::ToneLetter => tone_letter(lomaji::get_tone_position(text)),
        Call::Nfd => Answer::text(text.nfd().collect(), 0),
        Call::Nfc => Answer::text(text.nfc().collect(), 0),
        Call::HasToneLetter => {
            let length = lomaji::has_tone_letter(text) as u64;
            Answer::numbers(Reply { length, ..Reply::default() })
        }
        Call::Keys { form, kind } => keys(text, form).swap_remove(kind as usize),
        Call::FromRaw => Answer::record(&Syllable::from_raw(text), 0),
        Call::Compose { tone, khin } => Answer::text(Syllable::new(text, body, tone, khin == 1).compose(), 0),
        Call::Candidate { position } => at(&candidates(text), position),
        Call::Keying { kind, position } => Lists::of(text).keying(kind, position),
        Call::Telex { key, mode } => {
            let key = char::from_u32(key as u32).unwrap();
            Answer::text(settings(mode, question.second).telex(text, key), 0)
        }
        Call::Align => aligned(text, body),
        Call::StripKhin | Call::Listing { .. } => unreachable!(),
    }
}

/// The settings of the Rust for a mode and seven tone keys.
pub fn settings(mode: u64, keys: &[u8]) -> Settings {
    let mode = if mode == 0 { ToneMode::Numeric } else { ToneMode::Telex };
    Settings::new(mode, std::array::from_fn(|i| keys[i] as char))
}

/// The records of a text's candidates.
pub fn candidates(text: &str) -> Vec<Answer> {
    let all = Syllable::from_composed(text);
    all.iter().map(|syllable| Answer::record(syllable, all.len())).collect()
}

/// The record of the aligned keys; "no alignment" has nothing but zeros.
fn aligned(keys: &str, target: &str) -> Answer {
    match Syllable::align(keys, target) {
        Some((length, syllable)) => {
            assert_eq!(length, syllable.raw().len());
            Answer::record(&syllable, 0)
        }
        None => Answer::numbers(Reply::default()),
    }
}

/// The answer at a position, which is refused where there is none.
pub fn at(answers: &[Answer], position: u64) -> Answer {
    if position < answers.len() as u64 {
        answers[position as usize].clone()
    } else {
        Answer::refusal(6)
    }
}

fn tone_letter(place: Option<usize>) -> Answer {
    Answer::numbers(match place {
        Some(place) => Reply { length: 1, position: place as u64, ..Reply::default() },
        None => Reply::default(),
    })
}

/// The Rust works on a `String`; bytes that are none get what its two tests say of bytes.
fn strip_khin(text: &[u8]) -> Answer {
    let (khin, rest) = match std::str::from_utf8(text) {
        Ok(text) => {
            let mut rest = text.to_string();
            let khin = lomaji::strip_khin(&mut rest);
            assert!(text.ends_with(&rest));
            (khin, rest.len())
        }
        Err(_) => {
            let khin = text.starts_with(b"--") || text.starts_with("\u{b7}".as_bytes());
            (khin, if khin { text.len() - 2 } else { text.len() })
        }
    };
    let position = (text.len() - rest) as u64;
    Answer::numbers(Reply { length: rest as u64, khin: khin as u64, position, ..Reply::default() })
}

/// The three kinds of one form: detoned, numeric, telex.
pub fn keys(text: &str, form: u64) -> Vec<Answer> {
    let given = if form == 0 {
        lomaji::poj_syl_to_key_sequences(text)
    } else {
        lomaji::poj_syl_to_key_sequences_oo(text)
    };
    let given = [given.2, given.0, given.1];
    let (rest, tone) = lomaji::strip_tone_diacritic(text);
    if !depends_on_order(&rest, form) {
        return given.into_iter().map(|out| Answer::text(out, 0)).collect();
    }
    let outcomes = outcomes(&rest, form);
    assert!(outcomes.contains(&given[0]), "the Rust keyed {rest:?} outside its orders: {:?}", given[0]);
    let chosen = replace_all(&rest, form, &[0, 1, 2, 3, 4, 5]);
    let (digit, letter) = (tail(&given[1], &given[0]), tail(&given[2], &given[0]));
    assert_eq!(digit, (tone as u64).to_string());
    let all = [chosen.clone(), chosen.clone() + digit, chosen + letter];
    all.into_iter().map(|out| Answer { chance: outcomes.len() > 1, ..Answer::text(out, 0) }).collect()
}

/// What `longer` adds to `shorter`.
fn tail<'a>(longer: &'a str, shorter: &str) -> &'a str {
    &longer[shorter.len()..]
}

/// The replacements in document 01's order.
pub fn replacements(form: u64) -> [(&'static str, &'static str); 6] {
    let (small, capital) = if form == 0 { ("ou", "Ou") } else { ("oo", "Oo") };
    [
        ("o\u{358}", small),
        ("O\u{358}", capital),
        ("\u{207f}", "nn"),
        ("\u{1d3a}", "NN"),
        ("o\u{324}", "eo"),
        ("u\u{324}", "eu"),
    ]
}

pub fn replace_all(rest: &str, form: u64, order: &[usize]) -> String {
    let pairs = replacements(form);
    order.iter().fold(rest.to_string(), |text, &i| text.replace(pairs[i].0, pairs[i].1))
}

/// The two least places where the order of the replacements shows. A test
/// below tries all orders on all short texts and finds no third.
pub fn depends_on_order(rest: &str, form: u64) -> bool {
    rest.contains("o\u{324}\u{358}") || form == 1 && rest.contains("O\u{358}\u{358}")
}

/// What the 720 orders make of a text, without repeats, in byte order. Orders
/// that began with the same replacements are followed together while they agree.
pub fn outcomes(rest: &str, form: u64) -> Vec<String> {
    let pairs = replacements(form);
    let mut reached = BTreeSet::from([(0u8, rest.to_string())]);
    for _ in 0..pairs.len() {
        reached = reached.iter().flat_map(|(done, text)| next(&pairs, *done, text)).collect();
    }
    reached.into_iter().map(|(_, text)| text).collect()
}

/// One more replacement, whichever of those not yet done.
fn next(pairs: &[(&str, &str); 6], done: u8, text: &str) -> Vec<(u8, String)> {
    let left = (0..pairs.len()).filter(|i| done >> i & 1 == 0);
    left.map(|i| (done | 1 << i, text.replace(pairs[i].0, pairs[i].1))).collect()
}

#[cfg(test)]
mod tests {
    use super::*;

    /// All orders of 0 to 5, one by one.
    fn orders() -> Vec<Vec<usize>> {
        let mut all = vec![vec![]];
        for item in 0..6 {
            all = all.iter().flat_map(|order| (0..=item).map(|at| with(order, at, item))).collect();
        }
        all
    }

    fn with(order: &[usize], at: usize, item: usize) -> Vec<usize> {
        let mut longer = order.to_vec();
        longer.insert(at, item);
        longer
    }

    fn text(call: Call, text: &str, second: &str) -> String {
        let question = Question { call, text: text.as_bytes(), second: second.as_bytes() };
        String::from_utf8(answer(question).out).unwrap()
    }

    /// Document 01's examples of the calls of khiin, starred or not.
    #[test]
    fn the_rust_answers_as_the_examples_say() {
        for (keys, want) in [
            ("oo2", "\u{f3}\u{358}"),
            ("eo8", "o\u{30d}\u{324}"),
            ("onn1", "o\u{358}\u{207f}"),
            ("x2", "x2"),
            ("Eo1", "o\u{324}"),
            ("hoan2", "ho\u{e1}n"),
        ] {
            let record = answer(Call::FromRaw.of(keys.as_bytes())).reply;
            assert_eq!((record.body as usize, record.khin), (keys.len() - 1, 0));
            let call = Call::Compose { tone: record.tone, khin: 0 };
            assert_eq!(text(call, keys, &keys[..record.body as usize]), want);
        }
        assert_eq!(text(Call::Candidate { position: 0 }, "--\u{e1}", ""), "a20");
        for (given, key, want) in [
            ("a", b's', "\u{e1}"),
            ("ah", b'j', "a\u{30d}h"),
            ("\u{101}", b'j', "aj"),
            ("a\u{207f}", b'n', "an"),
            ("t", b's', "ts"),
        ] {
            assert_eq!(text(Call::Telex { key: key as u64, mode: 1 }, given, "sflxjjw"), want);
        }
    }

    #[test]
    fn outcomes_are_those_of_the_720_orders() {
        let all = orders();
        assert_eq!(all.iter().collect::<BTreeSet<_>>().len(), 720);
        for text in [
            "",
            "o\u{324}\u{358}",
            "O\u{358}\u{358}o\u{324}\u{358}u\u{324}",
            "o\u{358}\u{207f}",
            "u\u{324}\u{1d3a}O\u{358}",
        ] {
            for form in 0..2 {
                let each: BTreeSet<String> = all.iter().map(|order| replace_all(text, form, order)).collect();
                assert_eq!(each.into_iter().collect::<Vec<_>>(), outcomes(text, form));
            }
        }
    }

    /// Every text in canonical order of up to five code points over all that the
    /// replacements read or write. (A stripped text is always in that order.)
    #[test]
    fn no_third_place_depends_on_order() {
        let alphabet: Vec<char> = "oOuUenN\u{324}\u{358}\u{207f}\u{1d3a}".chars().collect();
        let mut texts = vec![String::new()];
        for _ in 0..5 {
            texts =
                texts.iter().flat_map(|text| alphabet.iter().map(move |c| format!("{text}{c}"))).collect();
            texts.retain(|text| text.nfd().eq(text.chars()));
            for text in &texts {
                for form in 0..2 {
                    assert_eq!(
                        outcomes(text, form).len() > 1,
                        depends_on_order(text, form),
                        "{text:?} {form}"
                    );
                }
            }
        }
    }
}
