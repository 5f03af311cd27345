//! The lists of the calls of khiin: document 01's examples first, then the bounds
//! and the refusals, then short texts in full and random ones.

use super::Lists;
use crate::call::{Call, Question};
use crate::entries::Lists as Keyings;
use crate::inputs::{self, Maker, Style, FAR, SETTINGS, STYLES};
use crate::oracle;
use crate::rules;

pub fn add(lists: &mut Lists, maker: &mut Maker) {
    from_raw(lists, maker);
    compose(lists, maker);
    candidate(lists, maker);
    keying(lists, maker);
    telex(lists, maker);
}

/// Texts for each of the refusals 2, 3 and 4: each fault alone, the nearest text
/// without it, and each with a later one, which it comes before.
fn faulty_texts() -> Vec<Vec<u8>> {
    let end = |size: usize, tail: &[u8]| [&vec![b'o'; size - tail.len()], tail].concat();
    vec![
        b"a".to_vec(),
        end(256, b""),
        end(257, b""),
        end(257, &[0xFF]),
        end(257, "\u{250}".as_bytes()),
        vec![0xC3],
        ["\u{250}".as_bytes(), &[0xC3]].concat(),
        "\u{24f}".into(),
        "\u{250}".into(),
    ]
}

impl Lists {
    /// One record whose buffer is exactly full or, for a refusal, one with some
    /// bytes lent and one with none.
    fn refused_too(&mut self, question: Question) {
        let answer = oracle::answer(question);
        if answer.chance {
            return;
        }
        self.add(question, answer.out.len(), &answer);
        if answer.reply.code != 0 {
            self.add(question, 24, &answer);
        }
    }
}

/// The keys of document 01's examples of compose.
const EXAMPLES: [&str; 6] = ["oo2", "eo8", "onn1", "x2", "Eo1", "hoan2"];

// ---- from_raw

fn from_raw(lists: &mut Lists, maker: &mut Maker) {
    let call = Call::FromRaw;
    for keys in EXAMPLES.into_iter().chain(["", "a20", "0", "9", "10", "a1i", "12345"]) {
        lists.around(call, keys.as_bytes());
    }
    for text in faulty_texts().iter().chain(&inputs::raw_edges()) {
        if text.len() <= 300 {
            lists.refused_too(call.of(text));
        }
    }
    lists.around(call, &[b'7'; 256]);
    for byte in 0..=255 {
        lists.refused_too(call.of(&[byte]));
        lists.full(call, &[b'a', byte]);
    }
    inputs::byte_tuples(b"0123456789aN -/:\x00\x7F\x80\xC3\xFF", 3, &mut |keys| lists.full(call, keys));
    inputs::byte_tuples(b"0159aN -/:", 4, &mut |keys| lists.full(call, keys));
    for turn in 0..300 {
        let size = maker.random.below([8, 40, 257][turn % 3]);
        let mut keys = maker.text(Style::Ascii, size);
        keys.extend([b'0' + (turn % 10) as u8].iter().filter(|_| size < 256));
        lists.full(call, &keys);
    }
}

// ---- compose

fn asked<'a>(raw: &'a [u8], body: &'a [u8], tone: u64, khin: u64) -> Question<'a> {
    Question { call: Call::Compose { tone, khin }, text: raw, second: body }
}

fn compose(lists: &mut Lists, maker: &mut Maker) {
    for keys in EXAMPLES {
        let (body, tone) = keys.split_at(keys.len() - 1);
        lists.with_rooms(asked(keys.as_bytes(), body.as_bytes(), tone.parse().unwrap(), 0));
    }
    easily_missed(lists);
    compose_refusals(lists);
    for body in inputs::longest_bodies().iter().take(8) {
        lists.with_rooms(asked(b"x", body, 8, 1));
        lists.exact(asked(b"x", body, 0, 0));
    }
    for body in ["a", "hoan", "ng", "eo", "eu", "oo", "hm", "x", "", "-", "ONN", "oann", "iaunn"] {
        for tone in 0..10 {
            for khin in 0..2 {
                lists.exact(asked(b"raw0", body.as_bytes(), tone, khin));
            }
        }
    }
    compose_short(lists, maker);
    compose_syllables(lists);
    for turn in 0..500 {
        let size = 1 + maker.random.below(8);
        let (body, raw) = (maker.pieces(STYLES[turn % STYLES.len()], size), maker.pieces(Style::Letters, 2));
        lists.exact(asked(&raw, &body, maker.random.below(10) as u64, maker.random.below(2) as u64));
    }
    for turn in 0..60 {
        let body = maker.text(STYLES[turn % STYLES.len()], [40, 128, 256][turn % 3]);
        lists.exact(asked(b"x2", &body, [0, 2, 8, 9][turn % 4], (turn % 2) as u64));
    }
}

/// Where a reader of document 01 may slip.
#[rustfmt::skip]
fn easily_missed(lists: &mut Lists) {
    for body in [
        "eou", "ooo", "Eeo", "eeo", "oou", "oxoan", "mn", "\u{1e73}", "u\u{324}", "nnann", "annn", "aNnNN",
        "oNN", "ohNN", "oHnn", "OhNN", "OHNN", "Ohnn", "ohnn", "a\u{207f}h", "\u{207f}\u{1d3a}a",
        "a\u{207f}\u{1d3a}", "\u{1d3a}a\u{207f}", "eonn", "eunn", "oonn", "o\u{358}nn", "k", "\u{344}",
        "o\u{324}\u{30d}", "\u{f3}", "--a",
    ] {
        for tone in [0, 2, 8] {
            for khin in 0..2 {
                lists.exact(asked(format!("{body}{tone}").as_bytes(), body.as_bytes(), tone, khin));
            }
        }
    }
}

/// Each fault of the numbers, of the raw input and of the body, with each other one.
fn compose_refusals(lists: &mut Lists) {
    let texts = faulty_texts();
    for raw in &texts {
        for body in &texts {
            lists.refused_too(asked(raw, body, 2, 0));
        }
        for (tone, khin) in [(9, 1), (10, 0), (9, 2), (255, 255)] {
            lists.refused_too(asked(raw, b"a", tone, khin));
            lists.refused_too(asked(b"a", raw, tone, khin));
        }
    }
    for tone in [0, 1, 9, 10, 11, 255] {
        for khin in [0, 1, 2, 255] {
            lists.refused_too(asked(b"x2", b"a", tone, khin));
        }
    }
    for text in inputs::edges() {
        if text.len() < 20 {
            lists.bounded(asked(b"x2", &text, 0, 0));
            lists.bounded(asked(&text, b"x", 2, 0));
        }
    }
}

fn compose_short(lists: &mut Lists, maker: &mut Maker) {
    let mut tones = |body: &[u8]| {
        let marked = maker.random.pick(&[2, 3, 5, 6, 7, 8, 9]);
        lists.exact(asked(b"raw", body, marked, maker.random.below(2) as u64));
    };
    inputs::tuples(&rules::table(), 1, &mut tones);
    inputs::tuples(&inputs::spelling(), 2, &mut tones);
    inputs::tuples(&inputs::spelling()[..14], 3, &mut tones);
    inputs::tuples(&['o', 'O', 'e', 'E', 'u', 'N'], 4, &mut tones);
    let nasals = ['o', 'n', 'N', 'h', '\u{207f}'];
    inputs::tuples(&nasals, 4, &mut |body| lists.exact(asked(b"", body, 1, 0)));
}

/// The candidates of one in seven of the well-formed syllables.
fn compose_syllables(lists: &mut Lists) {
    let mut count = 0;
    inputs::syllables(&mut |text| {
        count += 1;
        if count % 7 == 1 {
            for record in oracle::candidates(std::str::from_utf8(text).unwrap()) {
                let body = &record.out[..record.reply.body as usize];
                lists.exact(asked(&record.out, body, record.reply.tone, 0));
            }
        }
    });
}

// ---- candidate

fn at(text: &[u8], position: u64) -> Question<'_> {
    Call::Candidate { position }.of(text)
}

fn candidate(lists: &mut Lists, maker: &mut Maker) {
    lists.with_rooms(at("--\u{e1}".as_bytes(), 0));
    for text in [
        "",
        "\u{f3}\u{358}",
        "o\u{e2}n",
        "-\u{301}-a",
        "--",
        "\u{b7}",
        "\u{b7}--a",
        "ah",
        "\u{301}",
        "\u{1d3a}o\u{207f}",
        "O\u{324}\u{358}",
    ] {
        for position in [0, 1, 2, u32::MAX as u64, 1 << 32, u64::MAX] {
            lists.with_rooms(at(text.as_bytes(), position));
        }
    }
    for text in faulty_texts() {
        for position in [0, 1, u64::MAX] {
            lists.refused_too(at(&text, position));
        }
    }
    for text in inputs::edges() {
        if text.len() <= 260 && text.len() != 255 {
            lists.bounded(at(&text, (text.len() % 2) as u64));
        }
    }
    for text in ["\u{1d9}", "\u{344}", "o\u{358}", "\u{207f}", "u\u{324}"] {
        let long = text.repeat(256 / text.len());
        lists.with_rooms(at(long.as_bytes(), 0));
        lists.with_rooms(at(long.as_bytes(), 1));
    }
    candidate_short(lists);
    for turn in 0..400 {
        let size = 1 + maker.random.below(8);
        let text = maker.pieces(STYLES[turn % STYLES.len()], size);
        lists.exact(at(&text, 0));
        lists.bounded(at(&text, maker.random.pick(&FAR)));
        let copy = maker.damaged(&text);
        lists.bounded(at(&copy, 0));
    }
}

fn candidate_short(lists: &mut Lists) {
    inputs::tuples(&rules::table(), 1, &mut |text| lists.exact(at(text, 0)));
    inputs::tuples(&inputs::telling(), 2, &mut |text| lists.exact(at(text, 0)));
    inputs::tuples(&inputs::composed()[..12], 3, &mut |text| {
        lists.exact(at(text, 0));
        // The second one, where there is one.
        if text.windows(2).any(|pair| pair == [0xCD, 0x98]) {
            lists.exact(at(text, 1));
        }
    });
    let mut count = 0;
    inputs::syllables(&mut |text| {
        count += 1;
        if count % 8 == 1 {
            let khin = ["", "--", "\u{b7}"][count / 8 % 3];
            lists.exact(at(&[khin.as_bytes(), text].concat(), 0));
        }
    });
}

// ---- keying

fn keyed(entry: &[u8], kind: u64, position: u64) -> Question<'_> {
    Call::Keying { kind, position }.of(entry)
}

/// Every keying of an entry, and the position behind them.
fn every_keying(lists: &mut Lists, entry: &str) {
    let keyings = Keyings::of(entry);
    for kind in [1, 2, 0] {
        for position in 0..=keyings.count(kind) {
            lists.exact(keyed(entry.as_bytes(), kind, position));
        }
    }
}

fn keying(lists: &mut Lists, maker: &mut Maker) {
    every_keying(lists, "t\u{e2}i o\u{e2}n");
    for entry in ["", " ", "a\u{358}", "a\u{358} ", "\u{f3}\u{358}", "O\u{358}n", "h\u{f1}", "t\u{e2}i"] {
        every_keying(lists, entry);
        lists.with_rooms(keyed(entry.as_bytes(), 1, 0));
    }
    every_keying(lists, "b\u{f3}\u{358} s\u{f4}\u{358} k\u{f2}\u{358} l\u{14d}\u{358}");
    keying_refusals(lists);
    for size in 0..=3 {
        inputs::tuples(&inputs::entries(), size, &mut |entry| {
            every_keying(lists, std::str::from_utf8(entry).unwrap())
        });
    }
    for turn in 0..1300 {
        let entry = maker.entry(1 + turn % 17);
        let kind = (turn % 3) as u64;
        let position = match rules::entry(&entry) {
            Ok(entry) => maker.random.next() % Keyings::of(entry).count(kind),
            Err(_) => 0,
        };
        lists.bounded(keyed(&entry, kind, position));
    }
    for turn in 0..300 {
        let entry = maker.entry(1 + turn % 4);
        let copy = maker.damaged(&entry);
        lists.bounded(keyed(&copy, (turn % 3) as u64, 0));
    }
    keying_syllables(lists, maker);
}

/// One in nine of the well-formed syllables, with the one nine before it as another part.
fn keying_syllables(lists: &mut Lists, maker: &mut Maker) {
    let (mut count, mut before) = (0, Vec::new());
    inputs::syllables(&mut |text| {
        count += 1;
        if count % 9 == 1 {
            let entry = [&before[..], b" ", text].concat();
            let kind = (count / 9 % 3) as u64;
            let keyings = Keyings::of(rules::entry(&entry).expect("two syllables are an entry"));
            lists.exact(keyed(&entry, kind, maker.random.next() % keyings.count(kind)));
            before = text.to_vec();
        }
    });
}

/// Entries for each of the refusals 2 to 5: each fault alone, the nearest entry
/// without it, and each with a later one, which it comes before.
fn faulty_entries() -> Vec<Vec<u8>> {
    let long = |size: usize, tail: &[u8]| {
        let parts = [vec![b'o'; 255], vec![b'o'; 255], vec![b'o'; 255], vec![b'o'; size - 768 - tail.len()]];
        [&parts.join(&b' ')[..], tail].concat()
    };
    vec![
        b"a b".to_vec(),
        long(1024, b""),
        long(1025, b""),
        long(1025, &[0xFF]),
        [&[b' '; 1000][..], &[0xFF; 25]].concat(),
        b"a \xC3".to_vec(),
        [&[b' '; 16][..], "\u{250}".as_bytes(), &[0xC3]].concat(),
        "a \u{24f}".into(),
        "a \u{250}".into(),
        [&[b' '; 16][..], "\u{250}".as_bytes()].concat(),
        vec![b' '; 15],
        vec![b' '; 16],
        [&[b'o'; 256][..], b" a"].concat(),
        [&[b'o'; 257][..], b" a"].concat(),
        [b"a ", &[b'o'; 257][..]].concat(),
    ]
}

/// Each refusal, the nearest entries without it, and each with a later one.
fn keying_refusals(lists: &mut Lists) {
    let sixteen = ["o\u{358}"; 16].join(" ");
    for kind in 0..4 {
        for position in [0, 1, 65_535, 65_536, u32::MAX as u64, 1 << 32, (1 << 32) + 1, 1 << 63, u64::MAX] {
            lists.refused_too(keyed(sixteen.as_bytes(), kind, position));
            lists.refused_too(keyed(b"a b", kind, position));
        }
    }
    for entry in faulty_entries() {
        for (kind, position) in [(2, 0), (3, 0), (0, u64::MAX), (255, u64::MAX)] {
            lists.refused_too(keyed(&entry, kind, position));
        }
    }
    for (turn, entry) in inputs::entry_edges().into_iter().enumerate() {
        // Of the long ones a few do, and they say no more at another position or with another kind.
        let few = match entry.len() {
            0..=99 => 1,
            100..=299 => 3,
            300..=1030 => 5,
            _ => continue,
        };
        if turn % few == 0 {
            lists.bounded(keyed(&entry, (turn % 3) as u64, 0));
        }
        if turn % few == 0 && entry.len() < 300 {
            lists.refused_too(keyed(&entry, 3, 0));
            lists.bounded(keyed(&entry, 1, u64::MAX));
        }
    }
    // The longest keyings: with room, full, a byte short.
    let parts = [128, 128, 128, 126].map(|count| "\u{1d9}".repeat(count)).join(" ") + "a";
    for kind in 0..3 {
        lists.with_rooms(keyed(parts.as_bytes(), kind, 0));
    }
    for text in inputs::edges() {
        if text.len() < 8 {
            lists.bounded(keyed(&text, 1, 0));
        }
    }
}

// ---- telex

fn typed<'a>(text: &'a [u8], key: u8, mode: u64, keys: &'a [u8; 7]) -> Question<'a> {
    Question { call: Call::Telex { key: key as u64, mode }, text, second: keys }
}

fn telex(lists: &mut Lists, maker: &mut Maker) {
    let usual = &SETTINGS[0];
    for (text, key) in [("a", b's'), ("ah", b'j'), ("\u{101}", b'j'), ("a\u{207f}", b'n'), ("t", b's')] {
        lists.with_rooms(typed(text.as_bytes(), key, 1, usual));
    }
    for (text, key) in [
        ("\u{101}", b'h'),
        ("a\u{30d}h", b'n'),
        ("\u{e1}", b'S'),
        ("u\u{324}", b'u'),
        ("\u{1e73}", b'u'),
        ("\u{f3}\u{358}", b'o'),
        ("o\u{358}", b'o'),
        ("O\u{324}", b'O'),
        ("a", b' '),
        ("", b' '),
        ("x", b' '),
        ("hoan", b's'),
        ("a\u{207f}", b'h'),
    ] {
        lists.with_rooms(typed(text.as_bytes(), key, 1, usual));
    }
    telex_refusals(lists);
    for end in inputs::typed() {
        for key in 0x20..=0x7E {
            lists.exact(typed(end.as_bytes(), key, 1, usual));
        }
        for (turn, settings) in SETTINGS.iter().enumerate() {
            for key in [settings[turn % 7].to_ascii_lowercase(), settings[5].to_ascii_lowercase(), b'n'] {
                lists.exact(typed(end.as_bytes(), key, (turn % 8 > 0) as u64, settings));
            }
        }
    }
    inputs::tuples(&rules::table(), 1, &mut |text| lists.exact(typed(text, b'j', 1, usual)));
    telex_syllables(lists, maker);
    for turn in 0..600 {
        let size = maker.random.below(8);
        let text = maker.pieces(STYLES[turn % STYLES.len()], size);
        let settings = maker.settings();
        let key = maker.random.pick(&[settings[turn % 7], b'n', b'o', b'u', b'h', b'A', b'~', b' ']);
        lists.exact(typed(&text, key, (turn % 4 > 0) as u64, &settings));
    }
    for turn in 0..60 {
        let text = maker.text(STYLES[turn % STYLES.len()], [40, 128, 256][turn % 3]);
        let settings = maker.settings();
        lists.exact(typed(&text, maker.random.pick(b"sjno "), 1, &settings));
    }
}

fn telex_syllables(lists: &mut Lists, maker: &mut Maker) {
    let mut count = 0;
    inputs::syllables(&mut |text| {
        count += 1;
        if count % 12 == 1 {
            let settings = maker.settings();
            lists.exact(typed(text, maker.random.pick(b"sflxjjwnhou"), 1, &SETTINGS[0]));
            lists.exact(typed(text, maker.random.pick(&settings), 1, &settings));
        }
    });
}

/// Wrong numbers with every text, each fault of the text with each later one.
fn telex_refusals(lists: &mut Lists) {
    let usual = &SETTINGS[0];
    for text in faulty_texts() {
        for (key, mode) in [
            (b's', 0),
            (b's', 1),
            (b's', 2),
            (0x1F, 1),
            (0x20, 1),
            (0x7E, 1),
            (0x7F, 1),
            (0x7F, 2),
            (255, 255),
        ] {
            lists.refused_too(typed(&text, key, mode, usual));
        }
    }
    for place in 0..7 {
        for setting in [0, 0x20, 0x21, 0x7E, 0x7F, 0xFF] {
            let mut settings = *usual;
            settings[place] = setting;
            for (text, mode) in [(&b"a"[..], 0), (b"a", 1), (&[0xC3], 0)] {
                lists.refused_too(typed(text, b's', mode, &settings));
            }
        }
    }
    for text in inputs::edges() {
        if text.len() < 20 {
            lists.bounded(typed(&text, b's', 1, usual));
        }
    }
    for unit in ["\u{1d9}", "\u{344}", "onn", "o", "\u{207f}"] {
        lists.with_rooms(typed(unit.repeat(256 / unit.len()).as_bytes(), b'j', 1, usual));
    }
    for text in inputs::longest() {
        for key in [b's', b'j', b'a'] {
            lists.with_rooms(typed(text.as_bytes(), key, 1, usual));
        }
    }
}

// ---- alignment

fn both<'a>(keys: &'a [u8], target: &'a [u8]) -> Question<'a> {
    Question { call: Call::Align, text: keys, second: target }
}

pub fn align(lists: &mut Lists, maker: &mut Maker) {
    for (keys, target) in [
        ("a1i1", "a"),
        ("b", "a"),
        ("ax1", "a"),
        ("o11", "o\u{358}"),
        ("a2x2", "\u{e1}"),
        ("--a2", "--\u{e1}"),
        ("hoan2", "ho\u{e1}n"),
        ("oo2", "\u{f3}\u{358}"),
        ("ou2", "\u{f3}\u{358}"),
        ("a20", "--\u{e1}"),
        ("A1", "a"),
        ("1", ""),
        ("", "a"),
        ("", ""),
    ] {
        lists.with_rooms(both(keys.as_bytes(), target.as_bytes()));
    }
    align_refusals(lists);
    align_short(lists);
    align_syllables(lists, maker);
    for turn in 0..300 {
        let target = maker.pieces(STYLES[turn % STYLES.len()], 1 + turn % 8);
        let record = oracle::candidates(std::str::from_utf8(&target).unwrap()).pop().unwrap();
        let keys: Vec<u8> = record.out.iter().filter(|byte| byte.is_ascii()).copied().collect();
        for keys in inputs::typed_keys(&keys, maker) {
            lists.exact(both(&keys, &target));
        }
        let copy = maker.damaged(&target);
        lists.bounded(both(&keys, &copy));
    }
}

/// Each fault of the keys with each of the target, and every bound of both.
fn align_refusals(lists: &mut Lists) {
    let texts = faulty_texts();
    for keys in &texts {
        for target in &texts {
            lists.refused_too(both(keys, target));
        }
    }
    for keys in inputs::raw_edges() {
        if keys.len() <= 300 {
            lists.refused_too(both(&keys, b"o"));
        }
    }
    for target in inputs::edges() {
        if target.len() <= 260 && target.len() != 255 {
            lists.bounded(both(b"o2", &target));
        }
    }
    for byte in 0..=255 {
        lists.refused_too(both(&[byte], b"a"));
        lists.refused_too(both(&[b'a', byte, b'1'], b"a"));
    }
    for text in ["\u{1d9}", "\u{344}", "o\u{358}", "\u{207f}", "u\u{324}", "o"] {
        let long = text.repeat(256 / text.len());
        for record in oracle::candidates(&long) {
            let keys: Vec<u8> = record.out.iter().filter(|byte| byte.is_ascii()).copied().collect();
            lists.with_rooms(both(&keys[..keys.len().min(256)], long.as_bytes()));
        }
    }
}

fn align_short(lists: &mut Lists) {
    for target in inputs::aligned() {
        for size in 0..=2 {
            inputs::byte_tuples(&inputs::KEYS[..12], size, &mut |keys| {
                lists.exact(both(keys, target.as_bytes()))
            });
        }
    }
    for target in inputs::aligned().iter().take(12) {
        inputs::byte_tuples(&inputs::KEYS[..7], 3, &mut |keys| lists.exact(both(keys, target.as_bytes())));
    }
}

/// One in thirty-one of the well-formed syllables, so that every tone and case is
/// met, with keys as they may be typed.
fn align_syllables(lists: &mut Lists, maker: &mut Maker) {
    let mut count = 0;
    inputs::syllables(&mut |text| {
        count += 1;
        if count % 31 != 1 {
            return;
        }
        let khin = ["", "", "--", "\u{b7}"][count / 31 % 4];
        let target = [khin.as_bytes(), text].concat();
        for record in oracle::candidates(std::str::from_utf8(&target).unwrap()) {
            lists.exact(both(&record.out, &target));
            let typed = inputs::typed_keys(&record.out, maker);
            lists.with_rooms(both(&typed[count / 31 % typed.len()], &target));
        }
    });
}
