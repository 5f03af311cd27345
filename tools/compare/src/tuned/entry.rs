//! The keyings of an entry, one or all of them. A part has one, two or four
//! choices, so that a position is a row of bits, the last part's the lowest.

use super::*;

const ENTRY: usize = 1024;
const PARTS: usize = 16;
/// All forms of one kind of all parts, each with a tone key, and a word of slack.
const FORMS: usize = 2560 + PARTS + 16;

/// A part: where it begins and ends, and whether 0358 is in it.
#[derive(Clone, Copy, Default)]
struct Part {
    begin: u16,
    end: u16,
    dotted: bool,
}

struct Parts {
    all: [Part; PARTS],
    count: usize,
}

impl Parts {
    /// Splits at each space. Nothing for more than sixteen parts or a part above 256 bytes.
    #[inline(always)]
    fn of(entry: &[u8]) -> Option<Parts> {
        let mut parts = Parts { all: [Part::default(); PARTS], count: 0 };
        let (mut begin, mut dotted, mut lead) = (0, false, 0);
        let mut words = entry.chunks_exact(8);
        let mut at = 0;
        loop {
            let (word, last) = match words.next() {
                Some(word) => (u64::from_le_bytes(word.try_into().unwrap()), false),
                None => (word_of(words.remainder()), true),
            };
            // No code point but 0358 has these two bytes, one behind the other.
            let leads = equal(word, 0xCD);
            let dots = equal(word, 0x98) & (leads << 8 | lead);
            lead = leads >> 56;
            let mut marks = equal(word, b' ') | dots;
            while marks != 0 {
                let place = at + marks.trailing_zeros() as usize / 8;
                if dots & marks & marks.wrapping_neg() != 0 {
                    dotted = true;
                } else {
                    parts.push(begin, place, dotted)?;
                    (begin, dotted) = (place + 1, false);
                }
                marks &= marks - 1;
            }
            if last {
                parts.push(begin, entry.len(), dotted)?;
                return Some(parts);
            }
            at += 8;
        }
    }

    #[inline(always)]
    fn push(&mut self, begin: usize, end: usize, dotted: bool) -> Option<()> {
        if self.count == PARTS || end - begin > MOST {
            return None;
        }
        self.all[self.count] = Part { begin: begin as u16, end: end as u16, dotted };
        self.count += 1;
        Some(())
    }

    #[inline(always)]
    fn all(&self) -> &[Part] {
        &self.all[..self.count]
    }

    /// The bits of a position among several parts.
    #[inline(always)]
    fn bits(&self, kind: u64) -> u32 {
        self.all().iter().map(|part| part.bits(kind)).sum()
    }
}

impl Part {
    #[inline(always)]
    fn of<'a>(&self, entry: &'a [u8]) -> &'a [u8] {
        &entry[self.begin as usize..self.end as usize]
    }

    /// The bits of its choice among several parts: toned or not, and which form.
    #[inline(always)]
    fn bits(&self, kind: u64) -> u32 {
        (kind != 0) as u32 + self.dotted as u32
    }
}

/// The high bit of each byte of the word that equals `byte`.
#[inline(always)]
pub(super) fn equal(word: u64, byte: u8) -> u64 {
    let other = word ^ (byte as u64 * 0x0101_0101_0101_0101);
    !(((other & !HIGH_BITS) + !HIGH_BITS) | other) & HIGH_BITS
}

/// The refusal of an entry whose parts are too many or too long: a fault of its
/// code points comes first.
#[cold]
#[inline(never)]
fn refuse_parts(entry: &[u8]) -> u64 {
    if in_table(entry) {
        5
    } else {
        refuse(entry).code
    }
}

/// Writes a stripped text as keys. Hands back where they end and whether the two
/// forms differ.
///
/// One pass does what the six passes of document 01 do: marks stand in canonical
/// order, so that a letter that one of them writes never stands before a mark
/// that a later one looks for.
///
/// # Safety
/// The text is of the table; its length may be written at `to`, and eight bytes more.
#[inline(always)]
unsafe fn key(text: &[u8], vowel: u8, to: *mut u8) -> (*mut u8, bool) {
    let (begin, end) = (text.as_ptr(), text.as_ptr().add(text.len()));
    let (mut from, mut to, mut differ) = (begin, to, false);
    while from < end {
        let run = copy_ascii(from, end, to);
        from = from.add(run);
        to = to.add(run);
        if run > 0 && (run == 8 || from == end || *from < 0x80) {
            continue;
        }
        let before = if from > begin { *from.sub(1) } else { 0 };
        match (*from, *from.add(1)) {
            (0xCD, 0x98) if before | 0x20 == b'o' => {
                *to = vowel;
                to = to.add(1);
                from = from.add(2);
                differ = true;
            }
            (0xCC, 0xA4) if before == b'o' || before == b'u' => {
                *to.sub(1) = b'e';
                *to = before;
                to = to.add(1);
                from = from.add(2);
            }
            (0xE2, 0x81) | (0xE1, 0xB4) => {
                let n = if *from == 0xE2 { b'n' } else { b'N' };
                *to = n;
                *to.add(1) = n;
                to = to.add(2);
                from = from.add(3);
            }
            (lead, _) => {
                let size = if lead < 0xE0 { 2 } else { 3 };
                ptr::copy_nonoverlapping(from, to, size);
                to = to.add(size);
                from = from.add(size);
            }
        }
    }
    (to, differ)
}

const KEYS: [&[u8; 10]; 3] = [b"          ", b"0123456789", b"01sf4l6jjw"];

/// The keying of a kind at a position.
#[inline(never)]
pub fn keying(entry: &[u8], kind: u64, position: u64, out: &mut [u8]) -> Reply {
    if kind > 2 {
        return Reply::refusal(1);
    }
    if entry.len() > ENTRY {
        return Reply::refusal(2);
    }
    let Some(parts) = Parts::of(entry) else { return Reply::refusal(refuse_parts(entry)) };
    let mut scratch = Scratch::<FORMS>::new();
    let start = scratch.start();
    if let [part] = parts.all() {
        return alone(part.of(entry), kind, position, start, out);
    }
    let bits = parts.bits(kind);
    if position >> bits != 0 {
        return if in_table(entry) { Reply::refusal(6) } else { refuse(entry) };
    }
    let (mut left, mut to) = (bits, start);
    // Safety: no keying is longer than 2,555 bytes.
    unsafe {
        for part in parts.all() {
            left -= part.bits(kind);
            let choice = position >> left & ((1 << part.bits(kind)) - 1);
            let (oo, toned) = chosen(kind, part.dotted, choice);
            let Some((end, tone, _)) = strip_and_key(part.of(entry), oo, to) else { return refuse(entry) };
            *end = KEYS[kind as usize][tone as usize];
            to = end.add(toned as usize);
        }
        counted(answer(start, to, out), 1 << bits)
    }
}

/// Which form a choice is among several parts, and whether it has its tone key.
#[inline(always)]
fn chosen(kind: u64, dotted: bool, choice: u64) -> (bool, bool) {
    if dotted {
        (choice & 1 == 1, kind != 0 && choice < 2)
    } else {
        (false, kind != 0 && choice == 0)
    }
}

#[inline(always)]
fn counted(reply: Reply, count: u64) -> Reply {
    if reply.code == 0 {
        Reply { count, ..reply }
    } else {
        reply
    }
}

/// The keying of an entry of one part: the plain form, or the `_oo` form if it is another.
#[inline(always)]
fn alone(part: &[u8], kind: u64, position: u64, start: *mut u8, out: &mut [u8]) -> Reply {
    // Safety: there is room for the keys of sixteen parts.
    unsafe {
        let Some((end, tone, differ)) = strip_and_key(part, position == 1, start) else {
            return refuse(part);
        };
        let count = 1 + differ as u64;
        if position >= count {
            return Reply::refusal(6);
        }
        *end = KEYS[kind as usize][tone as usize];
        counted(answer(start, end.add((kind != 0) as usize), out), count)
    }
}

/// One part's keys at `to`, its tone, and whether its two forms differ. Nothing
/// for a part that is refused.
///
/// # Safety
/// The part has at most 256 bytes; the length of its stripped text may be written
/// at `to`, and eight bytes more.
#[inline(always)]
unsafe fn strip_and_key(part: &[u8], oo: bool, to: *mut u8) -> Option<(*mut u8, u64, bool)> {
    let front = front::<true>(part, &STRIP_LOW, &STRIP_HIGH);
    let mut plain = Scratch::<ROOM>::new();
    let stripped = strip_on(part, &front, plain.start())?;
    let (end, differ) = keys_of(&front, part, &stripped, if oo { b'o' } else { b'u' }, to);
    Some((end, settled(stripped.mark, stripped.bytes), differ))
}

/// The keys of a stripped part at `to`, in a register if it is short.
#[inline(always)]
unsafe fn keys_of(
    front: &Front,
    part: &[u8],
    stripped: &Stripped,
    vowel: u8,
    to: *mut u8,
) -> (*mut u8, bool) {
    if front.at == part.len() {
        if let Some((word, size, differ)) = key_word(front.bytes, front.size, vowel) {
            ptr::write_unaligned(to as *mut u64, word.to_le());
            return (to.add(size), differ);
        }
    }
    key(stripped.bytes, vowel, to)
}

/// The keys of a stripped text of up to eight bytes, in a register. Nothing where
/// a mark follows what was replaced, and for code points that keys leave alone.
#[inline(always)]
fn key_word(text: u64, size: usize, vowel: u8) -> Option<(u64, usize, bool)> {
    let (mut word, mut size, mut differ, mut last) = (text, size, false, 0);
    while word & HIGH_BITS != 0 {
        let at = (word & HIGH_BITS).trailing_zeros() & 56;
        let before = if at > 0 { (word >> (at - 8)) as u8 } else { 0 };
        // The keys, the bits of what they replace, and those of a letter before it.
        let (keys, wide, back) = match (word >> at) as u16 {
            0x98CD if before | 0x20 == b'o' && at != last => {
                differ = true;
                (vowel as u64, 16, 0)
            }
            0xA4CC if (before == b'o' || before == b'u') && at != last => {
                (b'e' as u64 | (before as u64) << 8, 16, 8)
            }
            0x81E2 => (0x6E6E, 24, 0),
            0xB4E1 => (0x4E4E, 24, 0),
            _ => return None,
        };
        let behind = word.checked_shr(at + wide).unwrap_or(0);
        let width = if keys > 0xFF { 16 } else { 8 };
        let from = at - back;
        last = from + width;
        word = word & ((1 << from) - 1) | keys << from | behind.checked_shl(last).unwrap_or(0);
        size -= 1;
    }
    Some((word, size, differ))
}

/// The keys of one choice of a part: where they begin and how many they are.
#[derive(Clone, Copy, Default)]
struct Piece {
    begin: u16,
    size: u16,
}

/// The pieces of one part by kind, and how many of them it has.
#[derive(Clone, Copy, Default)]
struct Choices {
    pieces: [[Piece; 4]; 3],
    counts: [u8; 3],
}

/// Everything that the lines of a listing are made of.
struct Table {
    keys: *const u8,
    parts: [Choices; PARTS],
    count: usize,
    /// The number of keyings of each kind.
    counts: [u64; 3],
}

/// Each part's plain and `_oo` keys, each with a numeric and with a telex tone key.
const TABLE: usize = 4 * FORMS;

impl Table {
    /// Nothing for an entry with a fault of its code points.
    ///
    /// # Safety
    /// `parts` are the entry's; TABLE bytes may be written at `start`, and live as
    /// long as the table.
    #[inline(always)]
    unsafe fn of(entry: &[u8], parts: &Parts, start: *mut u8) -> Option<Table> {
        let mut table =
            Table { keys: start, parts: [Choices::default(); PARTS], count: parts.count, counts: [1; 3] };
        let mut to = start;
        for (part, choices) in parts.all().iter().zip(&mut table.parts) {
            let (mut plain, mut pieces) = (Scratch::<ROOM>::new(), [[Piece::default(); 3]; 2]);
            let text = part.of(entry);
            let front = front::<true>(text, &STRIP_LOW, &STRIP_HIGH);
            let stripped = strip_on(text, &front, plain.start())?;
            let tone = settled(stripped.mark, stripped.bytes);
            let (end, differ) = keys_of(&front, text, &stripped, b'u', to);
            to = both_tones(start, to, end, tone, &mut pieces[0]);
            let two = if parts.count == 1 { differ } else { part.dotted };
            if two {
                let (end, _) = keys_of(&front, text, &stripped, b'o', to);
                to = both_tones(start, to, end, tone, &mut pieces[1]);
            }
            *choices = Choices::of(pieces, two, parts.count == 1);
            for kind in 0..3 {
                table.counts[kind] *= choices.counts[kind] as u64;
            }
        }
        // A short piece is copied as two words: these are read, and mean nothing.
        ptr::write_bytes(to, 0, 16);
        Some(table)
    }

    /// The most bytes that a part's choices take.
    #[inline(always)]
    fn longest(&self, part: usize, kind: usize) -> usize {
        let [plain, oo, ..] = self.parts[part].pieces[kind];
        plain.size.max(oo.size) as usize
    }

    /// Writes a piece and hands back where it ends.
    ///
    /// # Safety
    /// Its length may be written at `to`, and sixteen bytes more.
    #[inline(always)]
    unsafe fn put(&self, part: usize, kind: usize, choice: u8, to: *mut u8) -> *mut u8 {
        let piece = self.parts[part].pieces[kind][choice as usize & 3];
        let (from, size) = (self.keys.add(piece.begin as usize), piece.size as usize);
        ptr::copy_nonoverlapping(from, to, 16);
        if size > 16 {
            ptr::copy_nonoverlapping(from.add(16), to.add(16), size - 16);
        }
        to.add(size)
    }
}

/// Puts a tone key behind the keys that begin at `from`, and behind a copy of them
/// the other tone key. Hands back where all ends, and notes the pieces by kind.
#[inline(always)]
unsafe fn both_tones(
    start: *mut u8,
    from: *mut u8,
    end: *mut u8,
    tone: u64,
    pieces: &mut [Piece; 3],
) -> *mut u8 {
    let size = end.offset_from(from) as usize;
    let copy = end.add(1);
    ptr::copy_nonoverlapping(from, copy, size);
    *end = KEYS[1][tone as usize];
    *copy.add(size) = KEYS[2][tone as usize];
    let begins = [from, from, copy].map(|at| at.offset_from(start) as u16);
    let size = size as u16;
    *pieces = [
        Piece { begin: begins[0], size },
        Piece { begin: begins[1], size: size + 1 },
        Piece { begin: begins[2], size: size + 1 },
    ];
    copy.add(size as usize + 1)
}

impl Choices {
    /// `forms` are the pieces by form and kind.
    #[inline(always)]
    fn of(forms: [[Piece; 3]; 2], two: bool, alone: bool) -> Choices {
        let mut choices = Choices::default();
        for kind in 0..3 {
            let [plain, oo] = [forms[0][kind], forms[1][kind]];
            let [bare, bare_oo] = [forms[0][0], forms[1][0]];
            choices.pieces[kind] = if two { [plain, oo, bare, bare_oo] } else { [plain, bare, bare, bare] };
            choices.counts[kind] = (1 + two as u8) * if kind == 0 || alone { 1 } else { 2 };
        }
        choices
    }
}

/// The keying of a line begins here, so that its number can grow to the left.
const KEYING: usize = 24;
/// The line before the keying, the longest keying, the slack of its last piece.
const LINE: usize = KEYING + FORMS + 16;

/// One line after the other.
struct Line {
    bytes: *mut u8,
    begin: usize,
    /// For each part its choice, and where it begins in the line.
    choices: [u8; PARTS],
    places: [u16; PARTS + 1],
}

impl Line {
    /// The line of a kind at a position.
    ///
    /// # Safety
    /// The position is below the kind's count; LINE bytes may be written at `start`.
    #[inline(always)]
    unsafe fn at(table: &Table, letter: u8, kind: usize, position: u64, start: *mut u8) -> Line {
        let mut line =
            Line { bytes: start, begin: 0, choices: [0; PARTS], places: [KEYING as u16; PARTS + 1] };
        let mut at = KEYING - 1;
        *start.add(at) = b' ';
        let mut left = position;
        while left > 0 || at == KEYING - 1 {
            at -= 1;
            *start.add(at) = b'0' + (left % 10) as u8;
            left /= 10;
        }
        *start.add(at - 1) = b' ';
        *start.add(at - 2) = letter;
        line.begin = at - 2;
        let mut left = position;
        for part in (0..table.count).rev() {
            let choices = table.parts[part].counts[kind] as u64;
            line.choices[part] = (left % choices) as u8;
            left /= choices;
        }
        line.fill(table, kind, 0);
        line
    }

    /// Writes the choices from a part on.
    #[inline(always)]
    unsafe fn fill(&mut self, table: &Table, kind: usize, part: usize) {
        let start = self.bytes;
        let mut to = start.add(self.places[part] as usize);
        for part in part..table.count {
            to = table.put(part, kind, self.choices[part], to);
            self.places[part + 1] = to.offset_from(start) as u16;
        }
        *to = b'\n';
    }

    /// The next position: its number and what changes of its keying. There is one.
    #[inline(always)]
    unsafe fn step(&mut self, table: &Table, kind: usize) {
        self.count_on();
        let mut part = table.count - 1;
        while self.choices[part] + 1 == table.parts[part].counts[kind] {
            self.choices[part] = 0;
            part -= 1;
        }
        self.choices[part] += 1;
        self.fill(table, kind, part);
    }

    #[inline(always)]
    unsafe fn count_on(&mut self) {
        let start = self.bytes;
        let mut at = KEYING - 2;
        while *start.add(at) == b'9' {
            *start.add(at) = b'0';
            at -= 1;
        }
        if *start.add(at) != b' ' {
            *start.add(at) += 1;
            return;
        }
        let letter = *start.add(at - 1);
        *start.add(at) = b'1';
        *start.add(at - 1) = b' ';
        *start.add(at - 2) = letter;
        self.begin -= 1;
    }

    #[inline(always)]
    unsafe fn all(&self, parts: usize) -> &[u8] {
        let size = self.places[parts] as usize + 1 - self.begin;
        std::slice::from_raw_parts(self.bytes.add(self.begin), size)
    }
}

/// What is written so far.
struct Written<'a> {
    out: &'a mut [u8],
    size: usize,
    lines: u64,
}

impl Written<'_> {
    /// Whether the line fitted.
    #[inline(always)]
    fn add(&mut self, line: &[u8]) -> bool {
        if line.len() > self.out.len() - self.size {
            return false;
        }
        // Safety: there is room, as was just seen.
        unsafe { hand_over(line.as_ptr(), self.out.as_mut_ptr().add(self.size), line.len()) };
        self.size += line.len();
        self.lines += 1;
        true
    }

    #[inline(always)]
    fn reply(&self, from: u64) -> Reply {
        let position = from + self.lines;
        Reply { length: self.size as u64, count: self.lines, position, ..Reply::default() }
    }
}

/// The lines of an entry's listing from a number on, as many as fit.
#[inline(never)]
pub fn listing(entry: &[u8], from: u64, out: &mut [u8]) -> Reply {
    let mut written = Written { out, size: 0, lines: 0 };
    let mut keys = Scratch::<TABLE>::new();
    let code = if entry.len() > ENTRY {
        2
    } else {
        match Parts::of(entry) {
            None => refuse_parts(entry),
            // Safety: the parts are the entry's.
            Some(parts) => match unsafe { Table::of(entry, &parts, keys.start()) } {
                None => refuse(entry).code,
                Some(table) => {
                    list(&table, &parts, from, &mut written);
                    return written.reply(from);
                }
            },
        }
    };
    if from == 0 {
        written.add(&[b'r', b'e', b'f', b'u', b's', b'e', b'd', b' ', b'0' + code as u8, b'\n']);
    }
    written.reply(from)
}

#[inline(always)]
fn list(table: &Table, parts: &Parts, from: u64, written: &mut Written) {
    if from == 0 && !head(table, parts, written) {
        return;
    }
    // The number of lines before those of the kind at hand.
    let mut before = 1;
    for (letter, kind) in [(b'N', 1), (b'T', 2), (b'D', 0)] {
        let count = table.counts[kind];
        let first = from.max(before) - before;
        before += count;
        // Safety: the position is below the count.
        if first < count && !unsafe { list_kind(table, letter, kind, first, written) } {
            return;
        }
    }
}

/// The lines of one kind from a position on; whether all of them fitted.
#[inline(always)]
unsafe fn list_kind(table: &Table, letter: u8, kind: usize, first: u64, written: &mut Written) -> bool {
    let count = table.counts[kind];
    let mut position = quick_lines(table, letter, kind, first, written);
    let mut bytes = Scratch::<LINE>::new();
    let mut line = Line::at(table, letter, kind, position, bytes.start());
    while written.add(line.all(table.count)) {
        position += 1;
        if position == count {
            return true;
        }
        line.step(table, kind);
    }
    false
}

/// A line has at least five bytes, so that so many of them cover what a piece of
/// sixteen bytes leaves behind the line before them.
const COVERED: u64 = 4;

/// Writes lines to the lent buffer straight away, as long as there is room for
/// them and for those that cover what they leave behind. Hands back the position
/// of the first line that is left; there is one.
#[inline(always)]
unsafe fn quick_lines(table: &Table, letter: u8, kind: usize, first: u64, written: &mut Written) -> u64 {
    let last = table.counts[kind].min(MOST_QUICK).saturating_sub(COVERED);
    let longest = 16 + (0..table.count).map(|part| table.longest(part, kind)).sum::<usize>();
    let mut shifts = [0; PARTS];
    let mut shift = 0;
    for part in (0..table.count).rev() {
        shifts[part] = shift;
        shift += table.parts[part].counts[kind].trailing_zeros();
    }
    let begin = u16::from_le_bytes([letter, b' ']);
    let (mut digits, mut width) = decimal(first);
    let mut position = first;
    while position < last && written.out.len() - written.size >= (1 + COVERED as usize) * longest {
        let line = written.out.as_mut_ptr().add(written.size);
        ptr::write_unaligned(line as *mut u16, begin.to_le());
        ptr::write_unaligned(line.add(2) as *mut u64, digits.to_le());
        let mut to = line.add(3 + width);
        *to.sub(1) = b' ';
        for (part, shift) in shifts[..table.count].iter().enumerate() {
            let choice = (position >> shift) as u8 & (table.parts[part].counts[kind] - 1);
            to = table.put(part, kind, choice, to);
        }
        *to = b'\n';
        written.size += to.offset_from(line) as usize + 1;
        written.lines += 1;
        position += 1;
        (digits, width) = next_decimal(digits, width, position);
    }
    position
}

/// Up to this number the digits are kept in a register.
const MOST_QUICK: u64 = 99_999_999;

/// The digits of a number in a word, the first one lowest, and how many they are.
#[inline(always)]
fn decimal(number: u64) -> (u64, usize) {
    if number > MOST_QUICK {
        return (0, 0);
    }
    let (mut digits, mut width, mut left) = (b'0' as u64 + number % 10, 1, number / 10);
    while left > 0 {
        digits = digits << 8 | (b'0' as u64 + left % 10);
        left /= 10;
        width += 1;
    }
    (digits, width)
}

#[inline(always)]
fn next_decimal(digits: u64, width: usize, number: u64) -> (u64, usize) {
    let next = digits + (1 << (8 * (width - 1)));
    if next >> (8 * (width - 1)) <= b'9' as u64 {
        (next, width)
    } else {
        decimal(number)
    }
}

/// The first line: parts, parts with 0358, the three counts; whether it fitted.
#[inline(always)]
fn head(table: &Table, parts: &Parts, written: &mut Written) -> bool {
    let dotted = parts.all().iter().filter(|part| part.dotted).count() as u64;
    let [detoned, numeric, telex] = table.counts;
    let mut bytes = [b'\n'; 64];
    let mut at = 63;
    for number in [detoned, telex, numeric, dotted, parts.count as u64] {
        let mut left = number;
        loop {
            at -= 1;
            bytes[at] = b'0' + (left % 10) as u8;
            left /= 10;
            if left == 0 {
                break;
            }
        }
        at -= 1;
        bytes[at] = b' ';
    }
    written.add(&bytes[at + 1..])
}
