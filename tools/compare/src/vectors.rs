//! Fixed lists of the Rust's answers, for tests that have no Rust at hand.

mod of_khiin;

use crate::call::{Call, Question, NAMES};
use crate::inputs::{self, Maker, Style, STYLES};
use crate::oracle::{self, Answer};
use crate::record::Record;
use crate::rules;
use std::fs;
use std::io;
use std::path::Path;

const SEED: u64 = 20_260_102;

/// The six good keyings of a text.
const KEYS: [Call; 6] = [
    Call::Keys { form: 0, kind: 0 },
    Call::Keys { form: 0, kind: 1 },
    Call::Keys { form: 0, kind: 2 },
    Call::Keys { form: 1, kind: 0 },
    Call::Keys { form: 1, kind: 1 },
    Call::Keys { form: 1, kind: 2 },
];

/// One list for each call but the listing, which nothing replays.
const LISTS: usize = NAMES.len() - 1;

struct Lists {
    bytes: [Vec<u8>; LISTS],
    counts: [usize; LISTS],
}

impl Lists {
    fn add(&mut self, question: Question, room: usize, answer: &Answer) {
        let number = question.call.number();
        Record::new(question, room, answer).write(&mut self.bytes[number]);
        self.counts[number] += 1;
    }

    /// One record, the buffer exactly full.
    fn full(&mut self, call: Call, text: &[u8]) {
        self.exact(call.of(text));
    }

    fn exact(&mut self, question: Question) {
        let answer = oracle::answer(question);
        // An answer that the Rust draws by chance is no answer to keep.
        if !answer.chance {
            self.add(question, answer.out.len(), &answer);
        }
    }

    /// One record with room to spare, one exactly full, one a byte short.
    fn around(&mut self, call: Call, text: &[u8]) {
        self.with_rooms(call.of(text));
    }

    fn with_rooms(&mut self, question: Question) {
        let answer = oracle::answer(question);
        if answer.chance {
            return;
        }
        let size = answer.out.len();
        if question.call.writes() {
            self.add(question, size + 7, &answer);
        }
        self.add(question, size, &answer);
        if size > 0 {
            self.add(question, size - 1, &answer);
        }
    }

    /// A text that no buffer helps, or that has one of the right size.
    fn edge(&mut self, call: Call, text: &[u8]) {
        self.bounded(call.of(text));
    }

    fn bounded(&mut self, question: Question) {
        let answer = oracle::answer(question);
        if answer.chance {
            return;
        }
        let helps = answer.reply.code == 0 || !question.call.writes();
        let room = if helps { answer.out.len() } else { 24 };
        self.add(question, room, &answer);
    }
}

/// Writes NAME.bin for each call.
pub fn write(folder: &Path) -> io::Result<()> {
    let mut lists = Lists { bytes: Default::default(), counts: [0; LISTS] };
    let maker = &mut Maker::new(SEED);
    for call in [Call::Strip, Call::Nfd, Call::Nfc] {
        text_call(&mut lists, call, maker);
    }
    for call in [Call::ToneLetter, Call::HasToneLetter] {
        letter_call(&mut lists, call, maker);
    }
    strip_khin(&mut lists, maker);
    keys(&mut lists, maker);
    of_khiin::add(&mut lists, &mut Maker::new(SEED ^ 1));
    of_khiin::align(&mut lists, &mut Maker::new(SEED ^ 2));
    fs::create_dir_all(folder)?;
    for (name, (bytes, count)) in NAMES.iter().zip(lists.bytes.iter().zip(lists.counts)) {
        fs::write(folder.join(name).with_extension("bin"), bytes)?;
        println!("{name}.bin: {count} records, {} bytes", bytes.len());
    }
    let (records, bytes): (usize, usize) =
        (lists.counts.iter().sum(), lists.bytes.iter().map(Vec::len).sum());
    println!("all: {records} records, {bytes} bytes");
    Ok(())
}

/// strip, NFD and NFC: short texts in full, random ones, the bounds.
fn text_call(lists: &mut Lists, call: Call, maker: &mut Maker) {
    lists.around(call, b"");
    inputs::tuples(&rules::table(), 1, &mut |text| lists.full(call, text));
    inputs::tuples(&inputs::telling(), 2, &mut |text| lists.full(call, text));
    inputs::tuples(&inputs::marking(), 3, &mut |text| lists.full(call, text));
    for turn in 0..120 {
        let text = maker.pieces(STYLES[turn % STYLES.len()], 1 + turn % 9);
        lists.around(call, &text);
    }
    for turn in 0..70 {
        let size = [40, 64, 127, 128, 200, 255, 256][turn / STYLES.len() % 7];
        lists.full(call, &maker.text(STYLES[turn % STYLES.len()], size));
    }
    for text in ["\u{1d9}", "\u{344}", "\u{1ed9}", "o", "\u{e1}"] {
        lists.around(call, text.repeat(256 / text.len()).as_bytes());
    }
    edges(lists, call);
    damaged(lists, call, maker);
}

fn edges(lists: &mut Lists, call: Call) {
    for text in inputs::edges() {
        // Longer ones say no more than 257 and 300 do.
        if text.len() <= 300 {
            lists.edge(call, &text);
        }
    }
}

fn damaged(lists: &mut Lists, call: Call, maker: &mut Maker) {
    for turn in 0..100 {
        let size = 1 + maker.random.below(24);
        let text = maker.text(STYLES[turn % STYLES.len()], size);
        lists.edge(call, &maker.damaged(&text));
    }
}

fn letter_call(lists: &mut Lists, call: Call, maker: &mut Maker) {
    inputs::tuples(&rules::table(), 1, &mut |text| lists.full(call, text));
    inputs::tuples(&inputs::letters(), 2, &mut |text| lists.full(call, text));
    let few: Vec<char> = "oAeiptNgmx\u{301}".chars().collect();
    inputs::tuples(&few, 3, &mut |text| lists.full(call, text));
    for turn in 0..200 {
        let count = 1 + maker.random.below(8);
        lists.full(call, &maker.pieces([Style::Letters, Style::Syllables][turn % 2], count));
    }
    for size in [64, 255, 256] {
        for style in STYLES {
            lists.full(call, &maker.text(style, size));
        }
    }
    // The letter at the very end, behind what is none.
    for letter in ["o", "oan", "oai", "ng", "n", "m", "A"] {
        let text = "x\u{358}".repeat(84);
        lists.full(call, format!("{text}{letter}").as_bytes());
    }
    edges(lists, call);
    damaged(lists, call, maker);
}

fn strip_khin(lists: &mut Lists, maker: &mut Maker) {
    let call = Call::StripKhin;
    for size in 0..=3 {
        inputs::byte_tuples(&[b'-', 0xC2, 0xB7, b'a', 0xC3, 0x00, 0xFF], size, &mut |text| {
            lists.full(call, text)
        });
    }
    inputs::tuples(&['-', '\u{b7}', 'a', '\u{301}'], 4, &mut |text| lists.full(call, text));
    for begin in ["", "-", "--", "---", "\u{b7}", "\u{b7}\u{b7}", "--\u{b7}", "\u{b7}--"] {
        for size in [1, 2, 30, 253, 254, 255, 256, 257, 300] {
            let text = [begin.as_bytes(), &maker.text(Style::Syllables, size)].concat();
            lists.full(call, &text);
        }
    }
}

fn keys(lists: &mut Lists, maker: &mut Maker) {
    for call in KEYS {
        lists.around(call, b"");
        inputs::tuples(&inputs::keying(), 2, &mut |text| lists.full(call, text));
        for turn in 0..70 {
            let text = maker.pieces(STYLES[turn % STYLES.len()], 1 + turn % 9);
            lists.around(call, &text);
        }
        for turn in 0..14 {
            lists.full(call, &maker.text(STYLES[turn % STYLES.len()], 250 + turn / 2));
        }
        for text in ["\u{1d9}", "\u{344}", "o", "\u{207f}", "o\u{358}", "u\u{324}"] {
            lists.around(call, text.repeat(256 / text.len()).as_bytes());
        }
    }
    inputs::tuples(&rules::table(), 1, &mut |text| {
        lists.full(Call::Keys { form: 0, kind: 1 }, text);
    });
    let few: Vec<char> = "oOu\u{324}\u{358}\u{207f}\u{301}".chars().collect();
    for kind in 0..2 {
        for form in 0..2 {
            inputs::tuples(&few, 3, &mut |text| lists.full(Call::Keys { form, kind }, text));
        }
    }
    wrong_numbers(lists);
    edges(lists, Call::Keys { form: 1, kind: 2 });
    damaged(lists, Call::Keys { form: 0, kind: 1 }, maker);
}

/// A wrong form or kind is refused before any fault of the text.
fn wrong_numbers(lists: &mut Lists) {
    let long = vec![b'a'; 257];
    for (form, kind) in
        [(2, 0), (0, 3), (2, 3), (1, 3), (3, 2), (255, 255), (0, 255), (255, 0), (1, 2), (0, 0)]
    {
        for text in [&b""[..], b"ah", &long, &[0xC3], "\u{250}".as_bytes(), "o\u{358}\u{301}".as_bytes()] {
            lists.edge(Call::Keys { form, kind }, text);
        }
    }
}
