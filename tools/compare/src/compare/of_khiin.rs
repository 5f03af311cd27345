//! The texts and numbers that the calls of khiin are given.

use super::Run;
use crate::call::{Call, Question};
use crate::entries::{Lines, Lists};
use crate::inputs::{self, Maker, Style, FAR, SETTINGS, STYLES};
use crate::oracle::{self, Answer};
use crate::random::Random;
use crate::rules;

/// The families of each call or, where one is named, of that call alone. Each
/// family draws from a seed of its own, as those of ji do.
pub fn run(run: &mut Run, seed: u64, only: Option<&str>) {
    let wanted = |call| only.unwrap_or(call) == call;
    if wanted("from_raw") {
        raw_short(run);
        raw_random(run, &mut Maker::new(seed ^ 11));
    }
    if wanted("candidate") {
        candidates_short(run, &mut Random(seed ^ 12));
        candidates_of_syllables(run, &mut Random(seed ^ 13));
        candidates_random(run, &mut Maker::new(seed ^ 14));
    }
    if wanted("keying") {
        entries_short(run, &mut Random(seed ^ 15));
        entries_of_syllables(run, &mut Random(seed ^ 16));
        entries_random(run, &mut Maker::new(seed ^ 17));
        entries_at_bounds(run, &mut Maker::new(seed ^ 18));
    }
    if wanted("listing") {
        listings(run, &mut Maker::new(seed ^ 19));
    }
    if wanted("compose") {
        compose_short(run, &mut Maker::new(seed ^ 20));
        compose_syllables(run, &mut Random(seed ^ 21));
        compose_random(run, &mut Maker::new(seed ^ 22));
        compose_at_bounds(run, &mut Maker::new(seed ^ 23));
    }
    if wanted("telex") {
        telex_points(run);
        telex_short(run, &mut Maker::new(seed ^ 24));
        telex_syllables(run, &mut Maker::new(seed ^ 25));
        telex_random(run, &mut Maker::new(seed ^ 26));
        telex_at_bounds(run, &mut Maker::new(seed ^ 27));
    }
    if wanted("align") {
        align_short(run);
        align_syllables(run, &mut Maker::new(seed ^ 28));
        align_random(run, &mut Maker::new(seed ^ 29));
        align_at_bounds(run, &mut Maker::new(seed ^ 30));
    }
}

/// A few of each call, for the tests of the comparison.
#[cfg(test)]
pub fn small(run: &mut Run) {
    let maker = &mut Maker::new(1);
    for keys in inputs::raw_edges() {
        raw(run, &keys);
    }
    for text in inputs::faults() {
        candidates(run, &text, &mut maker.random);
        compose(run, &text, &[b'o'; 257], 2, 0);
        telex(run, &text, b'j' as u64, 1, &SETTINGS[0]);
    }
    inputs::tuples(&inputs::composed(), 2, &mut |text| candidates(run, text, &mut maker.random));
    inputs::tuples(&inputs::entries(), 3, &mut |text| entry(run, text, &mut maker.random));
    for text in inputs::entry_edges().iter().step_by(5) {
        entry(run, text, &mut maker.random);
        listing(run, text, &mut maker.random);
    }
    entry(run, "\u{f1} a".as_bytes(), &mut maker.random);
    for body in ["a", "eo", "eoann", "ONN", "hoan"] {
        every_tone(run, body.as_bytes(), maker);
    }
    for text in inputs::typed() {
        for key in [b'j', b's', b'n'] {
            telex(run, text.as_bytes(), key as u64, 1, &SETTINGS[0]);
        }
    }
    telex(run, b"ah", b'j' as u64, 1, &SETTINGS[0]);
    telex(run, b"a", b's' as u64, 0, b"sflxjj ");
    for target in inputs::aligned() {
        for size in 0..=3 {
            inputs::byte_tuples(&inputs::KEYS[..6], size, &mut |keys| align(run, keys, target.as_bytes()));
        }
    }
    for text in inputs::faults() {
        align(run, &text, &[b'o'; 257]);
        align(run, b"o", &text);
    }
}

// ---- from_raw

fn raw(run: &mut Run, keys: &[u8]) {
    run.ask(Call::FromRaw.of(keys));
}

fn raw_short(run: &mut Run) {
    raw(run, b"");
    let all: Vec<u8> = (0..=255).collect();
    for size in 1..=2 {
        inputs::byte_tuples(&all, size, &mut |keys| raw(run, keys));
    }
    let telling = b"0123456789anO-/: \x00\x7F\x80\xC3\xFF";
    for size in 3..=4 {
        inputs::byte_tuples(telling, size, &mut |keys| raw(run, keys));
    }
    for keys in inputs::raw_edges() {
        raw(run, &keys);
    }
    run.family("from_raw: every sequence of 1 or 2 bytes, of 3 or 4 telling ones, the bounds");
}

fn raw_random(run: &mut Run, maker: &mut Maker) {
    for size in 0..=rules::MOST {
        for turn in 0..2000 {
            let mut keys = maker.text(Style::Ascii, size);
            if let (Some(last), 0..=2) = (keys.last_mut(), turn % 4) {
                *last = b'0' + maker.random.below(10) as u8;
            }
            if turn % 8 == 7 && size > 0 {
                keys[maker.random.below(size)] = 0x80 + maker.random.below(128) as u8;
            }
            raw(run, &keys);
        }
    }
    run.family(
        "from_raw: random keys of every length from 0 to 256 bytes, one in eight with a byte above 7F",
    );
}

// ---- candidates

/// Every position of a text's candidates, the one behind them, and one far off.
fn candidates(run: &mut Run, text: &[u8], random: &mut Random) {
    let far = random.pick(&FAR);
    let at = |position| Call::Candidate { position }.of(text);
    let Ok(good) = rules::text(text) else {
        run.ask(at(0));
        run.ask(at(far));
        return;
    };
    let answers = oracle::candidates(good);
    for position in (0..=answers.len() as u64).chain([far]) {
        run.check(at(position), &oracle::at(&answers, position));
    }
}

fn candidates_short(run: &mut Run, random: &mut Random) {
    candidates(run, b"", random);
    inputs::scalars(&mut |text| run.ask(Call::Candidate { position: 0 }.of(text)));
    run.family("candidate: every code point of Unicode alone");
    inputs::tuples(&rules::table(), 1, &mut |text| candidates(run, text, random));
    for size in 2..=3 {
        inputs::tuples(&inputs::telling(), size, &mut |text| candidates(run, text, random));
    }
    run.family("candidate: every pair and triple over the telling alphabet, at every position");
    for (size, letters) in [(4, 14), (5, 9)] {
        inputs::tuples(&inputs::composed()[..letters], size, &mut |text| candidates(run, text, random));
    }
    run.family("candidate: every text of 4 or 5 over what from_composed looks at");
}

fn candidates_of_syllables(run: &mut Run, random: &mut Random) {
    inputs::syllables(&mut |text| {
        let khin = random.pick(&["", "", "--", "\u{b7}", "-", "---"]);
        candidates(run, &[khin.as_bytes(), text].concat(), random);
    });
    run.family("candidate: every well-formed syllable, decomposed and composed, with and without khin");
}

fn candidates_random(run: &mut Run, maker: &mut Maker) {
    for turn in 0..150_000 {
        let size = 1 + maker.random.below(12);
        let text = maker.pieces(STYLES[turn % STYLES.len()], size);
        candidates(run, &text, &mut maker.random);
    }
    for size in 0..=260 {
        for turn in 0..56 {
            let text = maker.text(STYLES[turn % STYLES.len()], size);
            candidates(run, &text, &mut maker.random);
        }
    }
    for turn in 0..60_000 {
        let size = maker.random.below(if turn % 4 == 0 { 257 } else { 24 });
        let text = maker.text(STYLES[turn % STYLES.len()], size);
        let copy = maker.damaged(&text);
        candidates(run, &copy, &mut maker.random);
    }
    for text in inputs::edges() {
        candidates(run, &text, &mut maker.random);
    }
    run.family("candidate: random texts of every length, damaged ones, the bounds");
}

// ---- entries

/// Positions of a list: all of a short one, else its ends and some between; the
/// one behind it, and one far off.
fn positions(count: u64, random: &mut Random) -> Vec<u64> {
    let mut all: Vec<u64> = if count <= 8 {
        (0..count).collect()
    } else {
        let between = [0; 3].map(|_| random.next() % count);
        [0, 1, between[0], between[1], between[2], count - 1].to_vec()
    };
    all.extend([count, random.pick(&FAR)]);
    all
}

/// Every kind of an entry at several positions.
fn entry(run: &mut Run, text: &[u8], random: &mut Random) {
    let Ok(good) = rules::entry(text) else {
        for kind in 0..3 {
            run.ask(Call::Keying { kind, position: random.pick(&[0, 0, 1, 1 << 32, u64::MAX]) }.of(text));
        }
        return;
    };
    let lists = Lists::of(good);
    run.count_entry(lists.whole);
    for kind in 0..3 {
        for position in positions(lists.count(kind), random) {
            run.check(Call::Keying { kind, position }.of(text), &lists.keying(kind, position));
        }
    }
}

fn entries_short(run: &mut Run, random: &mut Random) {
    for (size, letters) in [(0, 9), (1, 9), (2, 9), (3, 9), (4, 9), (5, 9), (6, 5)] {
        inputs::tuples(&inputs::entries()[..letters], size, &mut |text| entry(run, text, random));
    }
    run.family("keying: every entry of up to 6 over what keys and parts");
    inputs::tuples(&rules::table(), 1, &mut |text| {
        entry(run, text, random);
        entry(run, &[text, b" ", text].concat(), random);
        entry(run, &[text, "\u{358} o".as_bytes()].concat(), random);
    });
    run.family("keying: every code point of the table as a part, and with 0358");
}

fn entries_of_syllables(run: &mut Run, random: &mut Random) {
    inputs::syllables(&mut |text| entry(run, text, random));
    run.family("keying: every well-formed syllable alone, decomposed and composed");
}

fn entries_random(run: &mut Run, maker: &mut Maker) {
    for turn in 0..32_000 {
        let text = maker.entry(1 + [0, 1, 1, 2, 2, 3, 4, 5, 6, 7, 8, 10, 12, 14, 15, 16][turn % 16]);
        entry(run, &text, &mut maker.random);
    }
    run.family("keying: random entries of 1 to 17 parts");
    for turn in 0..20_000 {
        let count = 1 + maker.random.below(6);
        let text = maker.entry(count);
        let copy = maker.damaged(&text);
        entry(run, &copy, &mut maker.random);
        if turn % 10 == 0 {
            let size = maker.random.below(1030);
            let text = maker.text(STYLES[turn / 10 % STYLES.len()], size);
            entry(run, &text, &mut maker.random);
        }
    }
    run.family("keying: damaged entries, and random texts of up to 1,030 bytes as entries");
}

/// Wrong kinds win over every fault of the entry and of the position.
fn entries_at_bounds(run: &mut Run, maker: &mut Maker) {
    for text in inputs::entry_edges().iter().chain(&inputs::edges()) {
        entry(run, text, &mut maker.random);
    }
    for text in inputs::entry_edges().iter().step_by(7) {
        for kind in [3, 4, 255, 256, 257, 258, 1 << 32, (1 << 32) + 1, 1 << 63, u64::MAX] {
            for position in [0, 1, u64::MAX] {
                run.ask(Call::Keying { kind, position }.of(text));
            }
        }
    }
    run.family("keying: entries at the bounds, wrong kinds");
}

/// Line numbers and buffers for the listing of one entry.
fn listing(run: &mut Run, text: &[u8], random: &mut Random) {
    let lines = Lines::of(text);
    let count = lines.count();
    let starts = [0, 1, random.next() % count, count - 1, count, count + 1, random.pick(&FAR)];
    for from in starts {
        let room = random.pick(&[0, 1, 9, 10, 11, 40, 200, 2600]);
        let full = lines.answer(from, 1500).out.len();
        for room in [room, full, full.saturating_sub(1)] {
            let question = Call::Listing { from }.of(text);
            run.check_listing(question, room, &lines.answer(from, room));
        }
    }
}

fn listings(run: &mut Run, maker: &mut Maker) {
    for size in 0..=4 {
        inputs::tuples(&inputs::entries()[..7], size, &mut |text| listing(run, text, &mut maker.random));
    }
    for turn in 0..6_000 {
        let text = maker.entry(1 + turn % 17);
        listing(run, &text, &mut maker.random);
        if turn % 4 == 0 {
            let copy = maker.damaged(&text);
            listing(run, &copy, &mut maker.random);
        }
    }
    for text in inputs::entry_edges() {
        listing(run, &text, &mut maker.random);
    }
    run.family("listing: short entries, random ones, those at the bounds, from several lines on");
}

// ---- compose

fn compose(run: &mut Run, raw: &[u8], body: &[u8], tone: u64, khin: u64) {
    run.ask(Question { call: Call::Compose { tone, khin }, text: raw, second: body });
}

/// Some raw input that has nothing to do with the body.
fn other_raw(maker: &mut Maker) -> Vec<u8> {
    let size = maker.random.below(6);
    let style = maker.random.pick(&STYLES);
    maker.pieces(style, size)
}

fn every_tone(run: &mut Run, body: &[u8], maker: &mut Maker) {
    let raw = other_raw(maker);
    for tone in 0..10 {
        for khin in 0..2 {
            compose(run, &raw, body, tone, khin);
        }
    }
}

/// One tone without a mark and one with a mark.
fn two_tones(run: &mut Run, body: &[u8], maker: &mut Maker) {
    let raw = other_raw(maker);
    let (plain, marked) = (maker.random.pick(&[0, 1, 4]), maker.random.pick(&[2, 3, 5, 6, 7, 8, 8, 9]));
    compose(run, &raw, body, plain, maker.random.below(2) as u64);
    compose(run, &raw, body, marked, maker.random.below(2) as u64);
}

fn compose_short(run: &mut Run, maker: &mut Maker) {
    every_tone(run, b"", maker);
    inputs::tuples(&rules::table(), 1, &mut |body| every_tone(run, body, maker));
    inputs::tuples(&inputs::spelling(), 2, &mut |body| every_tone(run, body, maker));
    run.family(
        "compose: every code point of the table and every telling pair, in every tone, with and without khin",
    );
    let spelling = inputs::spelling();
    inputs::tuples(&spelling[..18], 3, &mut |body| two_tones(run, body, maker));
    inputs::tuples(&spelling[..9], 4, &mut |body| two_tones(run, body, maker));
    inputs::tuples(&spelling[..6], 5, &mut |body| two_tones(run, body, maker));
    inputs::tuples(&['o', 'n', 'N', 'h', 'O', '\u{207f}', '\u{1d3a}'], 5, &mut |body| {
        two_tones(run, body, maker)
    });
    run.family("compose: every text of 3 to 5 over what it replaces, one tone with a mark and one without");
}

/// The records of every well-formed syllable, which compose must take back.
fn compose_syllables(run: &mut Run, random: &mut Random) {
    let mut count = 0;
    inputs::syllables(&mut |text| {
        count += 1;
        // The decomposed and the composed syllable have the same candidates.
        if count % 2 == 0 {
            return;
        }
        let text = std::str::from_utf8(text).unwrap();
        for answer in oracle::candidates(text) {
            let Answer { reply, out: raw, .. } = answer;
            let khin = random.once_in(8) as u64;
            compose(run, &raw, &raw[..reply.body as usize], reply.tone, khin);
        }
    });
    run.family("compose: the candidates of every well-formed syllable");
}

fn compose_random(run: &mut Run, maker: &mut Maker) {
    for turn in 0..100_000 {
        let style = [Style::Keying, Style::Letters, Style::Syllables, Style::Ascii, Style::Any][turn % 5];
        let size = 1 + maker.random.below(7);
        let body = maker.pieces(style, size);
        let raw = other_raw(maker);
        compose(run, &raw, &body, maker.random.below(10) as u64, maker.random.below(2) as u64);
    }
    let spelling = inputs::spelling();
    for _ in 0..70_000 {
        let size = 3 + maker.random.below(10);
        let body: String = (0..size).map(|_| maker.random.pick(&spelling)).collect();
        let raw = other_raw(maker);
        compose(run, &raw, body.as_bytes(), maker.random.below(10) as u64, maker.random.below(2) as u64);
    }
    for size in 0..=rules::MOST {
        for turn in 0..28 {
            let body = maker.text(STYLES[turn % STYLES.len()], size);
            let other = maker.random.below(257);
            let raw = maker.text(STYLES[turn / 7 % STYLES.len()], other);
            compose(run, &raw, &body, maker.random.below(10) as u64, maker.random.below(2) as u64);
        }
    }
    run.family("compose: random bodies of every length, with another raw input");
}

/// Bodies whose answers are the longest, wrong numbers, and each fault of one
/// text beside each fault of the other.
fn compose_at_bounds(run: &mut Run, maker: &mut Maker) {
    for body in inputs::longest_bodies() {
        every_tone(run, &body, maker);
    }
    let texts = inputs::faults();
    for raw in &texts {
        for body in &texts {
            for (tone, khin) in [(0, 0), (2, 1), (8, 0), (10, 0), (0, 2)] {
                compose(run, raw, body, tone, khin);
            }
        }
    }
    let wrong = [0, 1, 2, 9, 10, 11, 255, 256, 258, 1 << 32, (1 << 32) + 2, 1 << 63, u64::MAX];
    for tone in wrong {
        for khin in wrong {
            for (raw, body) in [(&b"a2"[..], &b"a"[..]), (b"", b""), (&[0xFF], b"a"), (b"a", &[0xFF])] {
                compose(run, raw, body, tone, khin);
            }
        }
    }
    for text in inputs::edges().iter().step_by(3) {
        compose(run, b"x2", text, 0, 0);
        compose(run, text, b"x", 2, 0);
        compose(run, text, b"x", 0, 1);
    }
    run.family("compose: the bounds, wrong numbers, faults of both texts");
}

// ---- the telex step

fn telex(run: &mut Run, text: &[u8], key: u64, mode: u64, keys: &[u8; 7]) {
    run.ask(Question { call: Call::Telex { key, mode }, text, second: keys });
}

const KEYS: std::ops::RangeInclusive<u64> = 0x20..=0x7E;

fn telex_points(run: &mut Run) {
    for (mode, settings) in [(1, SETTINGS[0]), (1, SETTINGS[2]), (0, SETTINGS[0])] {
        inputs::tuples(&rules::table(), 1, &mut |text| {
            for key in KEYS {
                telex(run, text, key, mode, &settings);
            }
        });
    }
    run.family(
        "telex: every code point of the table with every key, in both modes and with shared and capital keys",
    );
}

fn telex_short(run: &mut Run, maker: &mut Maker) {
    for end in inputs::typed() {
        for key in KEYS {
            for begin in ["", "k"] {
                let (mode, settings) = (maker.random.below(4).min(1) as u64, maker.settings());
                telex(run, format!("{begin}{end}").as_bytes(), key, mode, &settings);
            }
        }
        for begin in inputs::typed() {
            for key in *b"sjnuoeNOU hZ" {
                let settings = maker.random.pick(&SETTINGS);
                telex(run, format!("{begin}{end}").as_bytes(), key as u64, 1, &settings);
            }
        }
    }
    run.family("telex: every telling end and pair of ends, with sixteen settings and random ones");
}

fn telex_syllables(run: &mut Run, maker: &mut Maker) {
    let mut count = 0;
    inputs::syllables(&mut |text| {
        count += 1;
        let tone_key = maker.random.pick(b"sflxjjw") as u64;
        telex(run, text, tone_key, 1, &SETTINGS[0]);
        if count % 2 == 0 {
            let settings = maker.settings();
            let key = maker.random.pick(&settings).to_ascii_lowercase() as u64;
            telex(run, text, key, 1, &settings);
            telex(run, text, 0x20 + maker.random.below(0x5F) as u64, count / 2 % 2, &settings);
        }
    });
    run.family("telex: every well-formed syllable with a usual tone key; composed, with other settings too");
}

fn telex_random(run: &mut Run, maker: &mut Maker) {
    for turn in 0..60_000 {
        let size = maker.random.below(8);
        let text = maker.pieces(STYLES[turn % STYLES.len()], size);
        let settings = maker.settings();
        let key = match turn % 3 {
            0 => maker.random.pick(&settings),
            1 => maker.random.pick(b"nuoaNUO eh"),
            _ => 0x20 + maker.random.below(0x5F) as u8,
        };
        telex(run, &text, key as u64, (turn % 5 > 0) as u64, &settings);
    }
    for size in 0..=rules::MOST {
        for turn in 0..14 {
            let text = maker.text(STYLES[turn % STYLES.len()], size);
            let settings = maker.settings();
            let key = maker.random.pick(&[settings[0], settings[5], b'n', b'o', b'u', b'a', b' ', b'S']);
            telex(run, &text, key as u64, (turn % 5 > 0) as u64, &settings);
        }
    }
    run.family("telex: random texts of every length with random keys and settings");
}

/// Wrong numbers win over every fault of the text, and settings count in mode 0 too.
fn telex_at_bounds(run: &mut Run, maker: &mut Maker) {
    let texts = inputs::faults();
    let wrong =
        [0, 0x1F, 0x20, 0x21, 0x7E, 0x7F, 0x80, 0xFF, 0x100, 0x173, 1 << 32, (1 << 32) + 0x73, u64::MAX];
    for text in texts.iter().step_by(2) {
        for key in wrong {
            for mode in [0, 1, 2, 256, 1 << 32, u64::MAX] {
                telex(run, text, key, mode, &SETTINGS[0]);
            }
        }
    }
    for place in 0..7 {
        for setting in [0, 0x1F, 0x20, 0x21, 0x7E, 0x7F, 0x80, 0xFF] {
            let mut settings = SETTINGS[0];
            settings[place] = setting;
            for mode in 0..3 {
                for text in [&b"a"[..], b"", &[0xC3], &[b'a'; 257]] {
                    telex(run, text, b's' as u64, mode, &settings);
                }
            }
        }
    }
    for text in inputs::edges().iter().chain(&inputs::longest_bodies()) {
        let settings = maker.settings();
        let key = maker.random.pick(b"sjno ") as u64;
        telex(run, text, key, 1, &settings);
        telex(run, text, b'j' as u64, 1, &SETTINGS[0]);
    }
    for text in inputs::longest() {
        for key in KEYS {
            telex(run, text.as_bytes(), key, 1, &SETTINGS[0]);
        }
    }
    run.family("telex: the bounds, wrong keys, modes and settings");
}

// ---- alignment

fn align(run: &mut Run, keys: &[u8], target: &[u8]) {
    run.ask(Question { call: Call::Align, text: keys, second: target });
}

fn align_short(run: &mut Run) {
    let targets = inputs::aligned();
    for (size, keys, step) in [(0, 14, 1), (1, 14, 1), (2, 14, 1), (3, 14, 1), (4, 14, 2), (5, 7, 2)] {
        inputs::byte_tuples(&inputs::KEYS[..keys], size, &mut |keys| {
            for target in targets.iter().step_by(step) {
                align(run, keys, target.as_bytes());
            }
        });
    }
    run.family("align: all keys of up to 4 out of 14, and 5 out of 7, with telling targets");
    let few: Vec<char> = "aoO\u{358}\u{301}\u{324}\u{207f}h-\u{b7}".chars().collect();
    for size in 0..=3 {
        inputs::tuples(&few, size, &mut |target| {
            for count in 0..=2 {
                inputs::byte_tuples(&inputs::KEYS[..12], count, &mut |keys| align(run, keys, target));
            }
        });
    }
    run.family("align: every target of up to 3 out of 10, with all keys of up to 2 out of 12");
    inputs::tuples(&rules::table(), 1, &mut |target| {
        for key in 0..=127 {
            align(run, &[key], target);
            align(run, &[key, b'x', b'1'], target);
        }
    });
    inputs::byte_tuples(&(0..=255).collect::<Vec<u8>>(), 2, &mut |keys| align(run, keys, b"a\xCD\x98"));
    run.family("align: every ASCII key with every code point of the table, every two bytes as keys");
}

/// The keys of every well-formed syllable as they may be typed, whole and damaged.
fn align_syllables(run: &mut Run, maker: &mut Maker) {
    inputs::syllables(&mut |target| {
        let khin = maker.random.pick(&["", "", "", "--", "\u{b7}", "-"]);
        let target = [khin.as_bytes(), target].concat();
        for record in oracle::candidates(std::str::from_utf8(&target).unwrap()) {
            for keys in inputs::typed_keys(&record.out, maker) {
                align(run, &keys, &target);
            }
        }
    });
    run.family(
        "align: every well-formed syllable with its keys, whole, cut, with another or a later digit, damaged",
    );
}

fn align_random(run: &mut Run, maker: &mut Maker) {
    for turn in 0..150_000 {
        let size = 1 + maker.random.below(10);
        let target = maker.pieces(STYLES[turn % STYLES.len()], size);
        let Ok(good) = rules::text(&target) else { continue };
        let record = oracle::candidates(good).pop().unwrap();
        let keys: Vec<u8> = record.out.iter().filter(|byte| byte.is_ascii()).copied().collect();
        for keys in inputs::typed_keys(&keys, maker) {
            align(run, &keys, &target);
        }
        let copy = maker.damaged(&target);
        align(run, &keys, &copy);
    }
    run.family("align: random targets, and damaged ones, with keys like theirs");
}

/// Every length of both texts, each fault of the one with each of the other.
fn align_at_bounds(run: &mut Run, maker: &mut Maker) {
    for size in 0..=260 {
        for turn in 0..35 {
            let target = maker.text(STYLES[turn % STYLES.len()], size);
            let count = maker.random.below(260);
            align(run, &maker.text(Style::Ascii, count), &target);
            let Ok(good) = rules::text(&target) else { continue };
            for record in oracle::candidates(good) {
                align(run, &record.out, &target);
                align(run, &record.out[..record.out.len().min(256)], &target);
            }
            let keys = maker.text(Style::Ascii, size);
            align(run, &keys, &keys);
            align(run, &keys, &keys[..count.min(size)]);
        }
    }
    let (keys, targets) = (inputs::raw_edges(), inputs::edges());
    for keys in &keys {
        align(run, keys, b"o");
    }
    for target in &targets {
        align(run, b"o2", target);
        align(run, &[0x80], target);
        align(run, &[b'o'; 257], target);
    }
    for keys in keys.iter().step_by(7) {
        for target in targets.iter().step_by(5) {
            align(run, keys, target);
        }
    }
    run.family(
        "align: keys and targets of every length, the bounds, the faults of one with those of the other",
    );
}
