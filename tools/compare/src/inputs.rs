//! The texts that both sides are given.

use crate::random::Random;
use crate::rules;
use khiin_ji::lomaji;
use khiin_ji::unicode_normalization::UnicodeNormalization;

/// Takes one text after the other.
pub type Sink<'a> = &'a mut dyn FnMut(&[u8]);

/// Code points that the rules treat in different ways: tone letters and their
/// neighbours, endings, marks of every kind of class, letters that hold marks.
pub fn telling() -> Vec<char> {
    let plain = "aeiouAOnNgmhHtkK-=\u{0}";
    let signs = "\u{b7}\u{207f}\u{1d3a}\u{292}\u{2260}";
    let letters = "\u{e1}\u{e2}\u{f3}\u{d3}\u{fc}\u{f1}\u{1d8}\u{1f9}\u{1e73}\u{1e96}\u{1e69}\u{1ea5}\u{1ed9}\u{1e9b}\u{1a1}\u{130}";
    let tones = "\u{300}\u{301}\u{302}\u{303}\u{304}\u{306}\u{30d}";
    let marks = "\u{308}\u{31b}\u{323}\u{324}\u{327}\u{331}\u{338}\u{340}\u{341}\u{343}\u{344}\u{345}\u{34f}\u{358}\u{35d}";
    [plain, signs, letters, tones, marks].concat().chars().collect()
}

/// What the tone-letter patterns look at, and what they must pass over.
pub fn letters() -> Vec<char> {
    "oOaAeEuiInNgGmMptkhx\u{f3}\u{1e73}\u{301}\u{358}".chars().collect()
}

/// What keying looks at.
pub fn keying() -> Vec<char> {
    "oOuUenNha\u{324}\u{358}\u{207f}\u{1d3a}\u{1e73}\u{301}\u{34f}".chars().collect()
}

/// What compose looks at, the vowels and nasals first.
pub fn spelling() -> Vec<char> {
    "oOuUeEnNhHa\u{207f}\u{1d3a}\u{358}\u{324}ipTkmMg-\u{301}\u{30d}\u{f3}\u{1e73}1x".chars().collect()
}

/// What from_composed looks at.
pub fn composed() -> Vec<char> {
    "oOuU\u{324}\u{358}\u{207f}\u{1d3a}-\u{b7}\u{301}h\u{1e73}\u{34f}".chars().collect()
}

/// What makes the keyings of an entry.
pub fn entries() -> Vec<char> {
    "o \u{358}\u{324}\u{301}aO\u{207f}h".chars().collect()
}

/// Ends of texts that the branches of the telex step look at, and their neighbours.
#[rustfmt::skip]
pub fn typed() -> Vec<&'static str> {
    vec![
        "", "a", "A", "o", "O", "u", "e", "n", "N", "m", "h", "t", "P", "nn", "x", "-", " ", "\u{0}",
        "\u{207f}", "\u{1d3a}", "h\u{207f}", "h\u{1d3a}", "o\u{358}", "O\u{358}", "\u{f3}\u{358}",
        "o\u{324}", "O\u{324}", "\u{f3}\u{324}", "o\u{30d}\u{324}", "\u{1e73}", "\u{1e72}", "u\u{324}",
        "U\u{324}", "\u{1e73}\u{301}", "\u{e1}", "\u{e0}", "\u{e2}", "\u{e3}", "\u{101}", "a\u{30d}",
        "a\u{30d}h", "\u{103}", "\u{101}h", "\u{144}g", "\u{1e3f}", "\u{344}", "\u{340}", "\u{f1}",
        "\u{301}", "\u{1e96}", "o\u{358}\u{301}", "o\u{324}\u{358}", "o\u{34f}\u{358}",
    ]
}

/// Tone keys for t2 t3 t5 t6 t7 t8 t9: the usual ones; none shared; capitals,
/// which match no key; letters that other branches and the endings look at; all
/// the same; shared ones of every tone; digits; the first and last that there are.
#[rustfmt::skip]
pub const SETTINGS: [[u8; 7]; 16] = [
    *b"sflxjjw", *b"zfvxjdw", *b"sFhnJJo", *b"SFLXJJW", *b"aoeuinh", *b"nnnnnnn", *b"sflxjsw", *b"sflxjfw",
    *b"sflxjlw", *b"sflxjxw", *b"sflxjww", *b"hptkhhn", *b"2356789", *b"uoUOnNe", *b"!~-=!~A", *b"98765jj",
];

/// Keys that alignment tells apart: the letters of its targets in both cases,
/// digits, khin's and the marks' neighbours.
pub const KEYS: [u8; 14] = *b"ao2u1OAn0hex-4";

/// Targets of alignment: with one candidate and with two, with a mark and
/// without, with khin, with code points that no key is.
#[rustfmt::skip]
pub fn aligned() -> Vec<&'static str> {
    vec![
        "a", "", "\u{e1}", "o\u{358}", "\u{f3}\u{358}", "A", "an", "\u{e1}n", "ah", "a\u{207f}", "o\u{358}h", "--a",
        "--\u{e1}", "\u{b7}a", "o\u{324}", "O\u{358}", "o", "oo", "ou", "\u{1d3a}", "a\u{30d}h", "x", "1", "0",
        "o\u{358}o\u{358}", "a\u{358}", "\u{358}", "ao\u{358}", "\u{301}", "u", "hoan", "oa",
    ]
}

/// A starter and marks that compose, block and change places.
pub fn marking() -> Vec<char> {
    "oa\u{301}\u{308}\u{31b}\u{323}\u{324}\u{344}\u{34f}\u{358}".chars().collect()
}

/// Bytes at the edges of Unicode's table 3-7.
pub const BYTES: [u8; 27] = [
    0x00, 0x6F, 0x7F, 0x80, 0x8F, 0x90, 0x9F, 0xA0, 0xBF, 0xC0, 0xC1, 0xC2, 0xCC, 0xCD, 0xDF, 0xE0, 0xE1,
    0xE2, 0xEC, 0xED, 0xEE, 0xEF, 0xF0, 0xF1, 0xF4, 0xF5, 0xFF,
];

/// Every sequence of `size` items.
fn each<T: Copy>(items: &[T], size: usize, visit: &mut dyn FnMut(&[T])) {
    let mut places = vec![0; size];
    let mut row: Vec<T> = vec![items[0]; size];
    loop {
        visit(&row);
        let Some(at) = places.iter().rposition(|&place| place + 1 < items.len()) else { return };
        places[at] += 1;
        row[at] = items[places[at]];
        for later in at + 1..size {
            places[later] = 0;
            row[later] = items[0];
        }
    }
}

/// Every text of `size` code points of `alphabet`.
pub fn tuples(alphabet: &[char], size: usize, sink: Sink) {
    each(alphabet, size, &mut |row| sink(row.iter().collect::<String>().as_bytes()));
}

/// Every sequence of `size` bytes out of `alphabet`.
pub fn byte_tuples(alphabet: &[u8], size: usize, sink: Sink) {
    each(alphabet, size, sink);
}

/// Every code point that UTF-8 can write, alone.
pub fn scalars(sink: Sink) {
    for point in '\0'..=char::MAX {
        sink(point.encode_utf8(&mut [0; 4]).as_bytes());
    }
}

const ONSETS: [&str; 18] =
    ["", "p", "ph", "b", "m", "t", "th", "n", "l", "k", "kh", "g", "ng", "h", "ch", "chh", "j", "s"];
const NUCLEI: [&str; 16] =
    ["a", "e", "i", "o", "o\u{358}", "u", "ai", "au", "ia", "io", "iu", "ui", "oa", "oe", "iau", "oai"];
const CODAS: [&str; 8] = ["", "m", "n", "ng", "p", "t", "k", "h"];
const TONES: [&str; 8] = ["", "\u{301}", "\u{300}", "\u{302}", "\u{303}", "\u{304}", "\u{30d}", "\u{306}"];

/// The 160 rimes of document 01's well-formed syllables.
fn rimes() -> Vec<String> {
    let mut all: Vec<String> = ["m", "ng", "mh", "ngh"].map(String::from).to_vec();
    for nucleus in NUCLEI {
        all.extend(CODAS.map(|coda| format!("{nucleus}{coda}")));
        if !nucleus.ends_with('o') {
            all.extend(["", "h"].map(|coda| format!("{nucleus}{coda}\u{207f}")));
        }
    }
    all
}

fn capital(text: &str) -> String {
    text[..1].to_uppercase() + &text[1..]
}

fn with_tone(text: &str, place: usize, tone: &str) -> String {
    format!("{}{tone}{}", &text[..=place], &text[place + 1..])
}

/// Every well-formed syllable: decomposed, and in NFC.
pub fn syllables(sink: Sink) {
    for onset in ONSETS {
        for rime in rimes() {
            let small = format!("{onset}{rime}");
            let place = lomaji::get_tone_position(&small).expect("a well-formed syllable has a tone letter");
            for text in [capital(&small), small] {
                for tone in TONES {
                    let marked = with_tone(&text, place, tone);
                    sink(marked.as_bytes());
                    sink(marked.nfc().collect::<String>().as_bytes());
                }
            }
        }
    }
}

/// How a random text is made up.
#[derive(Clone, Copy, Debug, PartialEq)]
pub enum Style {
    Any,
    Marks,
    Syllables,
    Growing,
    Keying,
    Letters,
    Ascii,
}

pub const STYLES: [Style; 7] =
    [Style::Any, Style::Marks, Style::Syllables, Style::Growing, Style::Keying, Style::Letters, Style::Ascii];

/// Makes random texts; keeps the lists that it draws from.
pub struct Maker {
    pub random: Random,
    table: Vec<char>,
    telling: Vec<char>,
    letters: Vec<char>,
    keying: Vec<char>,
    rimes: Vec<String>,
}

impl Maker {
    pub fn new(seed: u64) -> Maker {
        Maker {
            random: Random(seed),
            table: rules::table(),
            telling: telling(),
            letters: letters(),
            keying: keying(),
            rimes: rimes(),
        }
    }

    /// A text of the table of exactly `size` bytes.
    pub fn text(&mut self, style: Style, size: usize) -> Vec<u8> {
        let mut text = Vec::with_capacity(size);
        while text.len() < size {
            let piece = self.piece(style);
            if text.len() + piece.len() <= size {
                text.extend_from_slice(piece.as_bytes());
            } else {
                text.push(self.random.pick(b"aonhpNgx"));
            }
        }
        text
    }

    /// A text of `count` pieces.
    pub fn pieces(&mut self, style: Style, count: usize) -> Vec<u8> {
        (0..count).map(|_| self.piece(style)).collect::<String>().into_bytes()
    }

    pub fn piece(&mut self, style: Style) -> String {
        let random = &mut self.random;
        match style {
            Style::Any => random.pick(&self.table).to_string(),
            Style::Marks if random.once_in(8) => random.pick(&self.telling).to_string(),
            Style::Marks => char::from_u32(0x300 + random.below(0x70) as u32).unwrap().to_string(),
            Style::Growing => {
                random.pick(&['\u{1d9}', '\u{344}', '\u{1ed9}', '\u{1e69}', '\u{1d5}']).to_string()
            }
            Style::Keying => random.pick(&self.keying).to_string(),
            Style::Letters => random.pick(&self.letters).to_string(),
            Style::Ascii => (random.below(128) as u8 as char).to_string(),
            Style::Syllables => self.syllable(),
        }
    }

    fn syllable(&mut self) -> String {
        let written = self.alone();
        let between = self.random.pick(&["", "", "-", " ", "--", "\u{b7}"]);
        format!("{between}{written}")
    }

    /// A syllable with nothing before it.
    pub fn alone(&mut self) -> String {
        let random = &mut self.random;
        let rime = &self.rimes[random.below(self.rimes.len())];
        let text = format!("{}{rime}", random.pick(&ONSETS));
        let text = if random.once_in(4) { capital(&text) } else { text };
        let place = text.find(['o', 'a', 'e', 'u', 'i', 'O', 'A']).unwrap_or(0);
        let marked = with_tone(&text, place, random.pick(&TONES));
        if random.once_in(3) {
            marked
        } else {
            marked.nfc().collect()
        }
    }

    /// An entry of so many parts or, where a part holds a space, of more.
    pub fn entry(&mut self, parts: usize) -> Vec<u8> {
        let all: Vec<String> = (0..parts).map(|_| self.part()).collect();
        all.join(" ").into_bytes()
    }

    fn part(&mut self) -> String {
        match self.random.below(12) {
            0 => String::new(),
            1 => (0..3).map(|_| self.random.pick(&self.keying)).collect(),
            2 => self.piece(Style::Any) + &self.piece(Style::Marks),
            3 => self.alone() + "\u{358}",
            4 => format!(
                "k{}",
                self.random.pick(&["o\u{358}", "\u{f3}\u{358}", "O\u{358}h", "\u{14d}\u{358}"])
            ),
            _ => self.alone(),
        }
    }

    /// Seven tone keys, some of them shared, most of them small letters.
    pub fn settings(&mut self) -> [u8; 7] {
        if self.random.once_in(3) {
            return self.random.pick(&SETTINGS);
        }
        let mut keys: [u8; 7] = std::array::from_fn(|_| self.setting());
        if self.random.once_in(2) {
            keys[5] = self.random.pick(&keys);
        }
        keys
    }

    fn setting(&mut self) -> u8 {
        let random = &mut self.random;
        match random.below(4) {
            0 => 0x21 + random.below(0x5E) as u8,
            1 => random.pick(b"nouehptkNOUE"),
            _ => b'a' + random.below(26) as u8,
        }
    }

    /// A copy with one to three faults; some of them leave it good.
    pub fn damaged(&mut self, text: &[u8]) -> Vec<u8> {
        let mut copy = text.to_vec();
        for _ in 0..1 + self.random.below(3) {
            self.damage(&mut copy);
        }
        copy
    }

    fn damage(&mut self, text: &mut Vec<u8>) {
        let random = &mut self.random;
        let at = random.below(text.len() + 1);
        match random.below(6) {
            0 => text.truncate(at),
            1 if at < text.len() => text[at] ^= 1 << random.below(8),
            2 if at < text.len() => drop(text.remove(at)),
            3 => insert(text, at, &[random.next() as u8]),
            4 => insert(text, at, random.pick(&ILL_FORMED)),
            _ => insert(text, at, outside(random).encode_utf8(&mut [0; 4]).as_bytes()),
        }
    }
}

fn insert(text: &mut Vec<u8>, at: usize, piece: &[u8]) {
    text.splice(at..at, piece.iter().copied());
}

/// A code point outside the table, most often one beside it.
fn outside(random: &mut Random) -> char {
    if random.once_in(2) {
        return random.pick(&neighbours());
    }
    loop {
        let point = char::from_u32(random.below(0x110000) as u32);
        if let Some(point) = point.filter(|&point| !rules::inside(point)) {
            return point;
        }
    }
}

/// Positions and line numbers far from the small ones.
pub const FAR: [u64; 10] = [
    255,
    256,
    65_536,
    u32::MAX as u64,
    1 << 32,
    (1 << 32) + 1,
    (1 << 33) + 65_537,
    1 << 63,
    u64::MAX - 1,
    u64::MAX,
];

/// Each way of being ill-formed by Unicode's table 3-7.
pub const ILL_FORMED: [&[u8]; 26] = [
    &[0x80],
    &[0xBF],
    &[0xC0, 0x80],
    &[0xC1, 0xBF],
    &[0xC3],
    &[0xC3, 0x41],
    &[0xCD, 0xC0],
    &[0xDF],
    &[0xE0, 0x80, 0x80],
    &[0xE0, 0x9F, 0xBF],
    &[0xE1],
    &[0xE1, 0xB8],
    &[0xE1, 0xB8, 0x41],
    &[0xE1, 0x41, 0x80],
    &[0xED, 0xA0, 0x80],
    &[0xED, 0xBF, 0xBF],
    &[0xEF, 0xBF],
    &[0xF0, 0x8F, 0xBF, 0xBF],
    &[0xF0, 0x90],
    &[0xF0, 0x90, 0x81],
    &[0xF0, 0x90, 0x81, 0x41],
    &[0xF4, 0x90, 0x80, 0x80],
    &[0xF5, 0x80, 0x80, 0x80],
    &[0xF8, 0x88, 0x80, 0x80, 0x80],
    &[0xFE],
    &[0xFF],
];

/// Code points outside the table: those beside its ranges, those that equal one
/// of its own in the low 16 bits, a few others.
pub fn neighbours() -> Vec<char> {
    let mut all: Vec<u32> =
        rules::RANGES.iter().flat_map(|&(first, last)| [first.wrapping_sub(1), last + 1]).collect();
    all.extend([0x10061, 0x1024F, 0x10301, 0x1036F, 0x11E00, 0x1207F, 0x10_0061, 0x10FFFF]);
    all.extend([0x0080, 0x00B5, 0x00B8, 0x00BF, 0x0387, 0x07FF, 0x0800, 0x0958, 0x212A, 0x2126, 0x4E00]);
    all.extend([0xAC00, 0xD7FF, 0xE000, 0xFB1D, 0xFEFF, 0xFFFD, 0xFFFF, 0x10000, 0x1D15E, 0x1F600]);
    let mut all: Vec<char> =
        all.into_iter().filter_map(char::from_u32).filter(|&point| !rules::inside(point)).collect();
    all.sort();
    all.dedup();
    all
}

/// Texts at the bounds: each refusal's nearest inputs on both sides.
pub fn edges() -> Vec<Vec<u8>> {
    let mut all = range_edges();
    all.extend(ill_formed_edges());
    all.extend(length_edges());
    all
}

fn utf8(point: char) -> Vec<u8> {
    point.to_string().into_bytes()
}

/// The first and last code point of each range and what lies beside them.
fn range_edges() -> Vec<Vec<u8>> {
    let ends = rules::RANGES.iter().flat_map(|&(first, last)| [first, last]).filter_map(char::from_u32);
    let points = neighbours().into_iter().chain(ends);
    points
        .flat_map(|point| {
            let piece = utf8(point);
            [
                piece.clone(),
                [b"a", &piece[..]].concat(),
                [&piece[..], b"o"].concat(),
                ["\u{e1}".as_bytes(), &piece, "\u{301}".as_bytes()].concat(),
            ]
        })
        .collect()
}

/// Each ill-formed piece alone, in a good text, and on both sides of a code
/// point outside the table, where it still decides.
fn ill_formed_edges() -> Vec<Vec<u8>> {
    let mut all = Vec::new();
    for piece in ILL_FORMED {
        all.push(piece.to_vec());
        all.push([b"a", piece].concat());
        all.push([piece, b"a"].concat());
        all.push(["ho\u{e1}n".as_bytes(), piece].concat());
        for point in ['\u{250}', '\u{ffff}', '\u{10061}', '\u{10ffff}'] {
            all.push([&utf8(point)[..], piece].concat());
            all.push([&utf8(point)[..], b"a", piece].concat());
            all.push([piece, &utf8(point)[..]].concat());
        }
    }
    all
}

/// Texts of 254 to 258 bytes and longer: good, ill-formed, outside.
fn length_edges() -> Vec<Vec<u8>> {
    let tails: [&[u8]; 10] = [
        b"a",
        b"h",
        "\u{e1}".as_bytes(),
        "\u{301}".as_bytes(),
        "\u{207f}".as_bytes(),
        "\u{250}".as_bytes(),
        "\u{10061}".as_bytes(),
        &[0xC3],
        &[0xE1, 0xB8],
        &[0xFF],
    ];
    let mut all = Vec::new();
    for size in [254, 255, 256, 257, 258, 300, 512, 1000] {
        for tail in tails {
            all.push(filled("o", size - tail.len(), tail));
            all.push(filled("\u{1d9}", size - tail.len(), tail));
        }
        for unit in ["\u{344}", "\u{1ed9}", "a", "\u{358}"] {
            all.push(filled(unit, size, b""));
        }
    }
    all
}

/// One text for each fault and its neighbours without it.
pub fn faults() -> Vec<Vec<u8>> {
    let mut all: Vec<Vec<u8>> = vec![
        vec![],
        b"a".to_vec(),
        "\u{24f}".into(),
        "\u{250}".into(),
        vec![0xC9],
        vec![0x80],
        "\u{10061}".into(),
        ["\u{250}".as_bytes(), &[0xFF]].concat(),
        "ho\u{e1}n".into(),
    ];
    for size in [255, 256, 257, 258] {
        all.push(vec![b'o'; size]);
        all.push(filled("x", size - 1, &[0xC3]));
        all.push(filled("x", size - 2, "\u{250}".as_bytes()));
    }
    all
}

/// Texts of 256 bytes with the longest answers: of compose, and of the telex step
/// with a repeated and with another key.
pub fn longest() -> [String; 3] {
    let many = "\u{1d9}".repeat(127);
    [format!("\u{344}\u{344}{}", "onn".repeat(84)), format!("{many}\u{1d8}"), format!("{many}\u{1d9}")]
}

/// Those, and bodies of 250 to 256 bytes whose composed text is long: what
/// decomposes, what takes 0358 or a sign, what is moved.
#[rustfmt::skip]
pub fn longest_bodies() -> Vec<Vec<u8>> {
    let mut all = longest().map(String::into_bytes).to_vec();
    for size in 250..=256 {
        for unit in [
            "onn", "onN", "eoo", "EUeu", "ou", "\u{344}", "\u{1d9}", "o\u{207f}", "oh\u{207f}",
            "OH\u{1d3a}", "Onn", "m",
        ] {
            all.push(filled(unit, size, b""));
            all.push(filled(unit, size - 3, b"ann"));
        }
        all.push([&b"\xCD\x84\xCD\x84"[..], &filled("onn", size - 4, b"")].concat());
    }
    all
}

/// Raw keys: every bound, and bytes above 7F on both sides of it.
pub fn raw_edges() -> Vec<Vec<u8>> {
    let mut all = Vec::new();
    for size in [0, 1, 2, 3, 254, 255, 256, 257, 258, 300, 512, 1024, 4096] {
        for tail in
            [&b""[..], b"0", b"1", b"9", b"/", b":", b"a", &[0x7F], &[0x80], &[0xFF], "\u{e1}".as_bytes()]
        {
            all.push(filled("o", size, tail));
            all.push([tail, &filled("n", size, b"5")].concat());
            all.push([tail, &filled("n", size, b"")].concat());
        }
    }
    all
}

/// Keys as they may be typed for a raw input: the whole, cut, in capitals, with
/// another digit, with a key before the digit, before other keys, damaged.
pub fn typed_keys(raw: &[u8], maker: &mut Maker) -> Vec<Vec<u8>> {
    let random = &mut maker.random;
    let (body, digit) = raw.split_at(raw.len().saturating_sub(1));
    let other = [b'0' + random.below(10) as u8];
    let cut = random.below(raw.len() + 1);
    let key = [random.pick(&KEYS)];
    let mut damaged = raw.to_vec();
    if cut < damaged.len() {
        damaged[cut] = random.below(128) as u8;
    }
    vec![
        raw.to_vec(),
        raw.to_ascii_uppercase(),
        raw[..cut].to_vec(),
        [body, &other].concat(),
        [body, &key, digit].concat(),
        [body, &other, digit].concat(),
        [&raw[..cut], digit].concat(),
        [&raw[..cut], &key, digit, body].concat(),
        [raw, raw].concat(),
        damaged,
    ]
}

/// Entries at the bounds: their length, the number of their parts, the length
/// of a part, and each fault beside each other one.
pub fn entry_edges() -> Vec<Vec<u8>> {
    let mut all = part_edges();
    all.extend(size_edges());
    all.extend(mixed_faults());
    all
}

/// 1 to 18 parts, and one part of 254 to 258 bytes among them.
fn part_edges() -> Vec<Vec<u8>> {
    let mut all = Vec::new();
    for count in 1..=18 {
        for part in ["", "a", "o\u{358}", "t\u{e2}i", "a\u{358}"] {
            all.push(vec![part; count].join(" ").into_bytes());
        }
    }
    for size in 254..=258 {
        for unit in ["a", "\u{1d9}", "o\u{358}", "\u{207f}", "\u{344}"] {
            let long = String::from_utf8(filled(unit, size, b"")).unwrap();
            for (before, after) in
                [("", ""), ("", " a"), ("a ", ""), ("o\u{358} ", " b"), (" ", " "), ("", " o\u{358} c d")]
            {
                all.push(format!("{before}{long}{after}").into_bytes());
            }
            all.push([&long[..], "b", &long].join(" ").into_bytes());
        }
    }
    all
}

/// Entries of 1,020 to 1,028 bytes and longer, with parts of every length.
fn size_edges() -> Vec<Vec<u8>> {
    let mut all = Vec::new();
    for size in [1020, 1021, 1022, 1023, 1024, 1025, 1026, 1028, 1100, 2000] {
        for unit in ["a", "\u{1d9}", "\u{344}", "o\u{358}", "\u{207f}"] {
            for part in [63, 128, 204, 255, 256, 257] {
                all.push(parted(unit, part, size));
            }
            all.push(filled(unit, size, b""));
        }
    }
    all
}

/// Parts of `part` bytes up to `size` bytes together.
fn parted(unit: &str, part: usize, size: usize) -> Vec<u8> {
    let mut entry = Vec::new();
    while entry.len() + part < size {
        entry.extend(filled(unit, part, b" "));
    }
    let rest = size - entry.len();
    entry.extend(filled(unit, rest, b""));
    entry
}

/// Each fault of an entry alone and with each other one, in both orders.
fn mixed_faults() -> Vec<Vec<u8>> {
    let faults: [Vec<u8>; 9] = [
        vec![b'a'; 1025],
        vec![b'a'; 257],
        vec![b' '; 16],
        vec![b' '; 15],
        vec![0xC3],
        vec![0xC3, b' ', 0xA1],
        vec![0xE1, 0xB8],
        "\u{250}".into(),
        "\u{10061}".into(),
    ];
    let mut all = Vec::new();
    for first in &faults {
        all.push(first.clone());
        for second in &faults {
            all.push([first, &b" "[..], second].concat());
            all.push([first, &b"a"[..], second].concat());
        }
    }
    all
}

/// `unit` as often as it fits into `size` bytes, then letters to fill up, then the tail.
fn filled(unit: &str, size: usize, tail: &[u8]) -> Vec<u8> {
    let mut text = unit.repeat(size / unit.len()).into_bytes();
    text.resize(size, b'x');
    text.extend_from_slice(tail);
    text
}

#[cfg(test)]
mod tests {
    use super::*;

    #[test]
    fn counts_of_the_table_and_the_syllables() {
        assert_eq!(rules::table().len(), 903);
        assert_eq!(rimes().len(), 160);
        let mut count = 0;
        syllables(&mut |text| {
            assert!(rules::text(text).is_ok());
            count += 1;
        });
        assert_eq!(count, 2 * 46_080);
    }

    #[test]
    fn tuples_are_all_there() {
        let mut seen = std::collections::BTreeSet::new();
        tuples(&['a', '\u{301}', 'b'], 3, &mut |text| {
            seen.insert(text.to_vec());
        });
        assert_eq!(seen.len(), 27);
        let mut count = 0;
        tuples(&['a'], 0, &mut |text| count += 1 + text.len());
        assert_eq!(count, 1);
    }

    #[test]
    fn random_texts_have_the_size_asked_for() {
        let mut maker = Maker::new(1);
        for style in STYLES {
            for size in 0..=256 {
                let text = maker.text(style, size);
                assert_eq!(text.len(), size);
                assert!(rules::text(&text).is_ok());
            }
        }
    }

    #[test]
    fn every_ill_formed_piece_is_ill_formed() {
        for piece in ILL_FORMED {
            assert!(std::str::from_utf8(piece).is_err(), "{piece:x?}");
        }
    }
}
