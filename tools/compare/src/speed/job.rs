//! A call with its texts, and the three sides that answer it.

#[cfg(feature = "archives")]
use super::calls::Archives;
use super::calls::{Calls, Tuned};
use super::driver::{self, Maker, Placed, Placement, Side, Time};
use crate::call::Reply;
use crate::inputs::SETTINGS;
use crate::oracle;
use crate::tuned;
use khiin::db::models::{keyings, Input};
use khiin::Syllable;
use khiin_ji::lomaji;
use khiin_ji::unicode_normalization::UnicodeNormalization;
use std::hint::black_box;

/// The lent buffer: more than any listing of four parts takes. Longer ones are
/// listed in several calls.
pub const ROOM: usize = 1 << 15;

#[derive(Clone, Copy, PartialEq)]
pub enum What {
    Strip,
    ToneLetter,
    Nfd,
    Nfc,
    FromRaw,
    /// With a tone; the second text is the body.
    Compose(u64),
    Candidate(u64),
    /// The key is typed behind the text.
    Telex(u64),
    /// The text is the keys, the second text the target.
    Align,
    Keying(u64, u64),
    /// Every keying of every kind, a call for each.
    EveryKeying,
    /// Every line of the listing.
    Listing,
}

/// What one row measures.
#[derive(Clone)]
pub struct Job {
    pub name: String,
    pub what: What,
    pub text: Vec<u8>,
    pub second: Vec<u8>,
    pub room: usize,
    /// The refusal that it gets, or 0.
    pub refusal: u64,
    /// Whether the Rust is measured too; it knows no refusals.
    pub rust: bool,
}

/// The times of the three sides of a row, of which the archives and the Rust may be
/// left out.
#[derive(Clone, Copy)]
pub struct Row {
    pub archive: Option<Time>,
    pub tuned: Time,
    pub rust: Option<Time>,
}

impl Row {
    /// The times of one of `count` things that were done.
    pub fn each(self, count: u64) -> Row {
        let each = |time: Time| time.each(count as f64);
        Row { archive: self.archive.map(each), tuned: each(self.tuned), rust: self.rust.map(each) }
    }
}

impl Job {
    pub fn new(name: &str, what: What, text: &str) -> Job {
        let text = text.as_bytes().to_vec();
        Job { name: name.to_string(), what, text, second: Vec::new(), room: ROOM, refusal: 0, rust: true }
    }

    /// With a second text.
    pub fn and(self, second: &str) -> Job {
        Job { second: second.as_bytes().to_vec(), ..self }
    }

    /// Raw keys that end in their tone, and the body before it.
    pub fn composing(name: &str, raw: &str) -> Job {
        let (body, digit) = raw.split_at(raw.len() - 1);
        Job::new(name, What::Compose(digit.parse().expect("a digit")), raw).and(body)
    }

    /// The bytes that the call reads; a body is a part of its raw input.
    pub fn bytes(&self) -> usize {
        match self.what {
            What::Compose(_) => self.text.len(),
            _ => self.text.len() + self.second.len(),
        }
    }

    pub fn measure(&self) -> Row {
        self.check();
        let tuned: Maker = Box::new(|placement| lent(Tuned::new(), self, placement));
        let rust: Option<Maker> =
            self.rust.then(|| Box::new(|placement: &Placement| reference(self, placement)) as Maker);
        let found = driver::times(&[archive(self), Some(tuned), rust]);
        Row { archive: found[0], tuned: found[1].expect("measured"), rust: found[2] }
    }

    /// What one side answers, with the bytes of its last call.
    fn answer(&self, calls: impl Calls) -> (Reply, Vec<u8>) {
        let mut out = vec![0; self.room];
        let (text, second) = (&self.text[..], &self.second[..]);
        let reply = match self.what {
            What::EveryKeying => every_keying(calls, text, &mut out),
            What::Listing => listed(calls, text, lines(text), &mut out),
            what => answered(calls, what, text, second, &mut out),
        };
        out.truncate(if self.what == What::ToneLetter { 0 } else { reply.length as usize });
        (reply, out)
    }

    /// Only what both sides answer alike, and refuse as the row says, is measured.
    pub fn check(&self) {
        let answer = self.answer(Tuned::new());
        assert_eq!(answer.0.code, self.refusal, "{}", self.name);
        #[cfg(feature = "archives")]
        if crate::LISTS || self.what != What::Listing {
            assert_eq!(self.answer(Archives), answer, "{}", self.name);
        }
    }
}

#[cfg(feature = "archives")]
fn archive(job: &Job) -> Option<Maker<'_>> {
    let lists = crate::LISTS || job.what != What::Listing;
    lists.then(|| Box::new(|placement: &Placement| lent(Archives, job, placement)) as Maker)
}

#[cfg(not(feature = "archives"))]
fn archive(_: &Job) -> Option<Maker<'_>> {
    None
}

/// Bytes in, bytes out to a lent buffer, as the C side has it. Each call has a
/// loop of its own, as `what` is known before it begins.
fn lent<'a>(calls: impl Calls + 'a, job: &'a Job, placement: &Placement) -> Side<'a> {
    macro_rules! side {
        ($what:expr) => {
            lending(job, placement, move |text, second, out| answered(calls, $what, text, second, out))
        };
    }
    match job.what {
        What::Strip => side!(What::Strip),
        What::ToneLetter => side!(What::ToneLetter),
        What::Nfd => side!(What::Nfd),
        What::Nfc => side!(What::Nfc),
        What::FromRaw => side!(What::FromRaw),
        What::Compose(tone) => side!(What::Compose(black_box(tone))),
        What::Candidate(position) => side!(What::Candidate(black_box(position))),
        What::Telex(key) => side!(What::Telex(black_box(key))),
        What::Align => side!(What::Align),
        What::Keying(kind, position) => side!(What::Keying(black_box(kind), black_box(position))),
        What::EveryKeying => lending(job, placement, move |entry, _, out| every_keying(calls, entry, out)),
        What::Listing => {
            let lines = lines(&job.text);
            lending(job, placement, move |entry, _, out| listed(calls, entry, lines, out))
        }
    }
}

/// Makes a call over and over with its texts and the buffer at their places.
fn lending<'a>(
    job: &Job,
    placement: &Placement,
    act: impl Fn(&[u8], &[u8], &mut [u8]) -> Reply + 'a,
) -> Side<'a> {
    let text = Placed::text(&job.text, placement.text);
    let second = Placed::text(&job.second, placement.second);
    let mut out = Placed::room(job.room, placement.out);
    Box::new(move |times| {
        let (text, second, out) = (text.get(), second.get(), out.get_mut());
        for _ in 0..times {
            // The reply stays where the call wrote it, as it does for a caller who reads its numbers there. Moving it
            // would time how the copy meets the stores that made it.
            black_box(&act(black_box(text), second, black_box(&mut *out)));
        }
    })
}

/// One call that is no list.
#[inline(always)]
fn answered(calls: impl Calls, what: What, text: &[u8], second: &[u8], out: &mut [u8]) -> Reply {
    match what {
        What::Strip => calls.strip(text, out),
        What::ToneLetter => calls.tone_letter(text),
        What::Nfd => calls.nfd(text, out),
        What::Nfc => calls.nfc(text, out),
        What::FromRaw => calls.from_raw(text, out),
        What::Compose(tone) => calls.compose(text, black_box(second), tone, black_box(0), out),
        What::Candidate(position) => calls.candidate(text, position, out),
        What::Telex(key) => calls.telex(text, key, black_box(1), black_box(&SETTINGS[0]), out),
        What::Align => calls.align(text, black_box(second), out),
        What::Keying(kind, position) => calls.keying(text, kind, position, out),
        What::EveryKeying | What::Listing => unreachable!("lists have loops of their own"),
    }
}

/// The kinds in the order of a listing: numeric, telex, detoned.
pub const KINDS: [u64; 3] = [1, 2, 0];

/// Every keying of an entry; the first reply of a kind says how many there are.
#[inline(always)]
fn every_keying(calls: impl Calls, entry: &[u8], out: &mut [u8]) -> Reply {
    let mut last = Reply::default();
    for kind in KINDS {
        let mut position = 0;
        loop {
            last = calls.keying(black_box(entry), kind, position, black_box(&mut *out));
            position += 1;
            if position >= last.count {
                break;
            }
        }
    }
    last
}

/// Every line of an entry's listing, as many to a call as the buffer holds.
#[inline(always)]
fn listed(calls: impl Calls, entry: &[u8], lines: u64, out: &mut [u8]) -> Reply {
    let mut last = Reply::default();
    while last.position < lines {
        last = calls.listing(black_box(entry), last.position, black_box(&mut *out));
    }
    last
}

/// How many keyings an entry has together.
pub fn count(entry: &[u8]) -> u64 {
    let mut out = vec![0; ROOM];
    KINDS.iter().map(|&kind| tuned::keying(entry, kind, 0, &mut out).count).sum()
}

/// How many lines its listing has.
fn lines(entry: &[u8]) -> u64 {
    1 + count(entry)
}

fn repeated<'a, T>(text: Placed, act: impl Fn(&str) -> T + 'a) -> Side<'a> {
    Box::new(move |times| {
        let text = std::str::from_utf8(text.get()).expect("the Rust is given checked texts");
        for _ in 0..times {
            black_box(act(black_box(text)));
        }
    })
}

/// A checked text in, what the Rust returns out.
fn reference<'a>(job: &'a Job, placement: &Placement) -> Side<'a> {
    let text = Placed::text(&job.text, placement.text);
    let second = std::str::from_utf8(&job.second).expect("the Rust is given checked texts");
    match job.what {
        What::Strip => repeated(text, |text| lomaji::strip_tone_diacritic(text).0),
        What::ToneLetter => repeated(text, lomaji::get_tone_position),
        What::Nfd => repeated(text, |text| text.nfd().collect::<String>()),
        What::Nfc => repeated(text, |text| text.nfc().collect::<String>()),
        What::FromRaw => repeated(text, Syllable::from_raw),
        What::Compose(tone) => {
            let raw = std::str::from_utf8(&job.text).expect("the Rust is given checked texts");
            let syllable = Syllable::new(raw, second, tone, false);
            repeated(text, move |_| black_box(&syllable).compose())
        }
        What::Candidate(_) => repeated(text, Syllable::from_composed),
        What::Telex(key) => {
            let settings = oracle::settings(1, &SETTINGS[0]);
            repeated(text, move |text| black_box(&settings).telex(text, black_box(key as u8 as char)))
        }
        What::Align => repeated(text, move |text| Syllable::align(text, black_box(second))),
        What::Keying(..) | What::EveryKeying | What::Listing => {
            let input = input(text.get());
            repeated(text, move |_| keyings(black_box(&input)))
        }
    }
}

/// An entry as the Rust takes it.
pub fn input(entry: &[u8]) -> Input {
    let entry = String::from_utf8(entry.to_vec()).expect("the Rust is given checked texts");
    Input { id: 0, n_syls: entry.split(' ').count(), input: entry, p: 0.0 }
}
