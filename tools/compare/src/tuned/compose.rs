//! compose, in three ways. Most bodies are ASCII and nothing in them is respelled:
//! then the answer is the body with a mark, found in one walk. Else one walk makes
//! tokens of a byte each, as long as the passes of the Rust do not act on each
//! other's results and the marks need no order. What remains goes through the
//! passes one by one, over code points.

use super::*;

/// What a byte of a body, or a token, is to the search for the tone letter and
/// to the first walk.
///
/// Bits 0 to 4, for the patterns of more than one letter: it is o; a or e; one of
/// p t k h m n i; n; g. Bits 8 to 10: it may be the first letter of a respelled
/// pair that begins with o, with e, with n; bits 12 to 14: the second letter of such
/// a pair. Bit 15: it is no ASCII. Bits 16 on: its rank as the tone letter by itself.
static LETTERS: [u32; 256] = letters();

const FIRST: u32 = 8;
const SECOND: u32 = 12;
const OTHER: u32 = 1 << 15;
const RANK: u32 = 16;
/// The rank of what is no tone letter. The pattern of three letters has rank 0.
const NO_RANK: u32 = 15;
const NG: u32 = 6;

const fn letters() -> [u32; 256] {
    let mut all = [0u32; 256];
    let mut byte = 0;
    while byte < 256 {
        all[byte] = if byte < 128 { letter(byte as u8 | 0x20) } else { OTHER | NO_RANK << RANK };
        // Only letters have a case: @ and ` and the like are none of these.
        if byte < 128 && !(byte as u8).is_ascii_alphabetic() {
            all[byte] = NO_RANK << RANK;
        }
        byte += 1;
    }
    all
}

const fn letter(small: u8) -> u32 {
    match small {
        b'o' => 1 | 1 << FIRST | (1 | 2) << SECOND | 1 << RANK,
        b'a' => 2 | 2 << RANK,
        b'e' => 2 | 2 << FIRST | 2 << SECOND | 3 << RANK,
        b'u' => (1 | 2) << SECOND | 4 << RANK,
        b'i' => 4 | 5 << RANK,
        b'n' => 4 | 8 | 4 << FIRST | 4 << SECOND | 7 << RANK,
        b'm' => 4 | 8 << RANK,
        b'p' | b't' | b'k' | b'h' => 4 | NO_RANK << RANK,
        b'g' => 16 | NO_RANK << RANK,
        _ => NO_RANK << RANK,
    }
}

/// Looks for the tone letter while bytes go by: the best rank so far and its place,
/// as one number, so that the smaller one wins.
struct Search {
    best: u32,
    last: u32,
    before: u32,
}

const NONE: u32 = NO_RANK << RANK;

impl Search {
    #[inline(always)]
    fn new() -> Search {
        Search { best: NONE, last: 0, before: 0 }
    }

    #[inline(always)]
    fn step(&mut self, letter: u32, place: usize) {
        let place = place as u32;
        self.best = self.best.min((letter >> RANK << RANK) | place);
        // The pattern of three: its second letter, of rank 0.
        if self.before << 2 & self.last << 1 & letter & 4 != 0 {
            self.best = self.best.min(place - 1);
        }
        if self.last << 1 & letter & 16 != 0 {
            self.best = self.best.min(NG << RANK | (place - 1));
        }
        self.before = self.last;
        self.last = letter;
    }

    /// Whether the pattern of three is found: nothing behind it can be better.
    #[inline(always)]
    fn done(&self) -> bool {
        self.best < 1 << RANK
    }

    #[inline(always)]
    fn place(&self) -> Option<usize> {
        if self.best >= NONE {
            None
        } else {
            Some((self.best & 0xFFFF) as usize)
        }
    }
}

/// The marks of the tones, counted from 0300; 0 stands for no mark, except that of T3.
const MARKS: [u8; 10] = [0, 0, 1, 0, 0, 2, 3, 4, 0x0D, 6];

#[inline(always)]
fn has_mark(tone: u64) -> bool {
    !matches!(tone, 0 | 1 | 4)
}

/// Two texts and two numbers to a composed text.
#[inline(never)]
pub fn compose(raw: &[u8], body: &[u8], tone: u64, khin: u64, out: &mut [u8]) -> Reply {
    if tone > 9 || khin > 1 {
        return Reply::refusal(1);
    }
    if let Some(reply) = refusal_of(raw) {
        return reply;
    }
    if let Some(reply) = refusal_of(body) {
        return reply;
    }
    composed(raw, body, tone, khin == 1, out)
}

/// The same for texts that are known to be good; the body may be longer than 256 bytes.
#[inline(always)]
pub fn composed(raw: &[u8], body: &[u8], tone: u64, khin: bool, out: &mut [u8]) -> Reply {
    let mut search = Search::new();
    let mut last = 0;
    for (at, &byte) in body.iter().enumerate() {
        let letter = LETTERS[byte as usize];
        if (last << (SECOND - FIRST) & letter & 7 << SECOND) | letter & OTHER != 0 {
            return respelled(raw, body, tone, khin, out);
        }
        search.step(letter, at);
        last = letter & 7 << FIRST;
    }
    if !has_mark(tone) {
        return unmarked(body, khin, out);
    }
    let Some(place) = search.place() else { return handed(raw, out) };
    if body.len() > 8 {
        return marked(body, place, tone, khin, out);
    }
    short(word_of(body), body.len(), place, tone, khin, out)
}

/// A text as it is.
#[inline(always)]
fn handed(text: &[u8], out: &mut [u8]) -> Reply {
    if text.len() > out.len() {
        return Reply::refusal(7);
    }
    // Safety: both have so many bytes.
    unsafe { hand_over(text.as_ptr(), out.as_mut_ptr(), text.len()) };
    Reply { length: text.len() as u64, ..Reply::default() }
}

/// The letter with the mark of the tone, as up to three bytes and their number.
#[inline(always)]
fn with_mark(letter: u8, tone: u64) -> (u32, usize) {
    let entry = MARKED[(tone as usize) << 7 | (letter & 0x7F) as usize];
    (entry & 0xFF_FFFF, (entry >> 24) as usize)
}

/// A body of up to eight ASCII bytes, in a register.
#[inline(always)]
fn short(word: u64, size: usize, place: usize, tone: u64, khin: bool, out: &mut [u8]) -> Reply {
    let (bytes, width) = with_mark((word >> (8 * place)) as u8, tone);
    let body = word as u128;
    let front = body & ((1 << (8 * place)) - 1);
    let behind = body >> (8 * place) >> 8;
    let mut whole = front | (bytes as u128) << (8 * place) | behind << (8 * (place + width));
    let mut length = size - 1 + width;
    if khin {
        whole = whole << 16 | u16::from_le_bytes(*b"--") as u128;
        length += 2;
    }
    if length > out.len() {
        return Reply::refusal(7);
    }
    put_word(whole, length, out);
    Reply { length: length as u64, ..Reply::default() }
}

/// A longer ASCII body with a mark.
#[inline(always)]
fn marked(body: &[u8], place: usize, tone: u64, khin: bool, out: &mut [u8]) -> Reply {
    let (bytes, width) = with_mark(body[place], tone);
    let begin = 2 * khin as usize;
    let length = begin + body.len() - 1 + width;
    if length > out.len() {
        return Reply::refusal(7);
    }
    out[..begin].copy_from_slice(&b"--"[..begin]);
    let out = &mut out[begin..];
    out[..place].copy_from_slice(&body[..place]);
    out[place..place + width].copy_from_slice(&bytes.to_le_bytes()[..width]);
    out[place + width..place + width + body.len() - place - 1].copy_from_slice(&body[place + 1..]);
    Reply { length: length as u64, ..Reply::default() }
}

/// An ASCII body without a mark.
#[inline(always)]
fn unmarked(body: &[u8], khin: bool, out: &mut [u8]) -> Reply {
    if !khin {
        return handed(body, out);
    }
    let length = body.len() + 2;
    if length > out.len() {
        return Reply::refusal(7);
    }
    out[..2].copy_from_slice(b"--");
    out[2..length].copy_from_slice(body);
    Reply { length: length as u64, ..Reply::default() }
}

/// Tokens: an ASCII byte is itself, these four are the signs and marks of spelling.
const DOT: u8 = 0x80;
const BELOW: u8 = 0x81;
const SMALL: u8 = 0x82;
const CAPITAL: u8 = 0x83;

/// The longest body is a stripped text and a key.
const BODY: usize = ROOM;
/// A body in tokens, khin and one more 0358, and a word behind them.
const TOKENS: usize = BODY + 16;
/// A token pair of two bytes takes three bytes at most.
const COMPOSED: usize = 2 * BODY;

/// A body that has something to respell: by tokens, or else by passes.
#[inline(never)]
fn respelled(raw: &[u8], body: &[u8], tone: u64, khin: bool, out: &mut [u8]) -> Reply {
    let (mut room, mut scratch) = (Scratch::<TOKENS>::new(), Scratch::<COMPOSED>::new());
    let mut tokens = Tokens { bytes: room.start(), size: 0, signs: 0 };
    let start = scratch.start();
    // Safety: the body has at most BODY bytes, and there is room for what it makes.
    unsafe {
        if tokens.read(body, khin).is_none() || tokens.spell().is_none() {
            return by_passes(raw, body, tone, khin, out);
        }
        let mut place = usize::MAX;
        if has_mark(tone) {
            let Some(found) = tokens.tone_letter() else { return handed(raw, out) };
            place = found;
        }
        // Words are read across the end: what stands there means nothing.
        ptr::write_unaligned(tokens.bytes.add(tokens.size) as *mut u64, 0);
        match write(tokens.all(), place, tone, start) {
            Some(end) => handed_over(start, end, out),
            None => by_passes(raw, body, tone, khin, out),
        }
    }
}

/// A few bytes that were stored one by one, and just now: read as a word, they
/// would have to wait for each other.
#[inline(always)]
unsafe fn copy_bytes(from: *const u8, to: *mut u8, size: usize) {
    for at in 0..size {
        // Volatile, so that the compiler makes no word of them.
        *to.add(at) = ptr::read_volatile(from.add(at));
    }
}

#[inline(always)]
unsafe fn handed_over(start: *const u8, end: *const u8, out: &mut [u8]) -> Reply {
    let size = end.offset_from(start) as usize;
    if size > 12 || size > out.len() {
        return answer(start, end, out);
    }
    copy_bytes(start, out.as_mut_ptr(), size);
    Reply { length: size as u64, ..Reply::default() }
}

struct Tokens {
    bytes: *mut u8,
    size: usize,
    /// How many of the tokens are nasal signs.
    signs: usize,
}

#[inline(always)]
fn at(body: &[u8], at: usize) -> u8 {
    if at < body.len() {
        body[at]
    } else {
        0
    }
}

#[inline(always)]
fn is(byte: u8, small: u8) -> bool {
    byte | 0x20 == small
}

impl Tokens {
    #[inline(always)]
    unsafe fn push(&mut self, token: u8) {
        *self.bytes.add(self.size) = token;
        self.size += 1;
    }

    #[inline(always)]
    unsafe fn all(&mut self) -> &mut [u8] {
        std::slice::from_raw_parts_mut(self.bytes, self.size)
    }

    /// The sixteen vowel passes in one, and "--" for khin. Nothing where the passes
    /// would act on each other's results, and for code points that have no token.
    #[inline(always)]
    unsafe fn read(&mut self, body: &[u8], khin: bool) -> Option<()> {
        if khin {
            self.push(b'-');
            self.push(b'-');
        }
        let mut i = 0;
        while i < body.len() {
            let byte = body[i];
            let letter = LETTERS[byte as usize];
            if letter & (3 << FIRST | OTHER) == 0 {
                self.push(byte);
                i += 1;
            } else if is(byte, b'o') {
                i += self.read_o(body, i, false)?;
            } else if letter & OTHER == 0 {
                i += self.read_e(body, i)?;
            } else {
                i += self.read_sign(body, i)?;
            }
        }
        Some(())
    }

    /// An e, and what takes 0324 behind it.
    #[inline(always)]
    unsafe fn read_e(&mut self, body: &[u8], i: usize) -> Option<usize> {
        let next = at(body, i + 1);
        let vowel = is(next, b'o') || is(next, b'u');
        // The pass of a small e can make a pair for that of a capital one.
        if vowel && i > 0 && is(body[i - 1], b'e') {
            return None;
        }
        if is(next, b'o') {
            return Some(1 + self.read_o(body, i + 1, true)?);
        }
        self.push(if vowel { next } else { body[i] });
        if vowel {
            self.push(BELOW);
        }
        Some(1 + vowel as usize)
    }

    /// An o with what takes 0358 behind it, and 0324 for an e before it.
    #[inline(always)]
    unsafe fn read_o(&mut self, body: &[u8], i: usize, below: bool) -> Option<usize> {
        self.push(body[i]);
        if below {
            self.push(BELOW);
        }
        let next = at(body, i + 1);
        if is(next, b'u') {
            self.push(DOT);
            return Some(2);
        }
        if !is(next, b'o') {
            return Some(1);
        }
        // Of three, and before u, the passes of the cases decide which two are a pair.
        if is(at(body, i + 2), b'o') || is(at(body, i + 2), b'u') {
            return None;
        }
        self.push(DOT);
        Some(2)
    }

    #[inline(always)]
    unsafe fn read_sign(&mut self, body: &[u8], i: usize) -> Option<usize> {
        let (token, wide) = match (body[i], at(body, i + 1), at(body, i + 2)) {
            (0xCD, 0x98, _) => (DOT, 2),
            (0xCC, 0xA4, _) => (BELOW, 2),
            (0xE2, 0x81, 0xBF) => (SMALL, 3),
            (0xE1, 0xB4, 0xBA) => (CAPITAL, 3),
            _ => return None,
        };
        self.signs += (token >= SMALL) as usize;
        self.push(token);
        Some(wide)
    }

    /// The nasal at the end, the move of a sign to the end, the O rules. Nothing
    /// where there is more than one sign, or another nn beside the one at the end.
    #[inline(always)]
    unsafe fn spell(&mut self) -> Option<()> {
        if self.ends_nasal() {
            if self.signs != 0 || self.nasals() != 1 {
                return None;
            }
            let sign = if self.all().ends_with(b"NN") { CAPITAL } else { SMALL };
            self.size -= 2;
            self.push(sign);
        } else if self.signs > 1 {
            return None;
        } else if self.signs == 0 {
            return Some(());
        } else {
            self.move_sign();
        }
        self.dot_before_sign();
        Some(())
    }

    #[inline(always)]
    unsafe fn ends_nasal(&mut self) -> bool {
        let [.., before, a, b] = *self.all() else { return false };
        if !is(a, b'n') || !is(b, b'n') {
            return false;
        }
        before == DOT || b"aeiouptkhm".contains(&(before | 0x20))
    }

    /// How many places have an n, small or capital, before another.
    #[inline(always)]
    unsafe fn nasals(&mut self) -> usize {
        self.all().windows(2).filter(|pair| is(pair[0], b'n') && is(pair[1], b'n')).count()
    }

    #[inline(always)]
    unsafe fn move_sign(&mut self) {
        let all = self.all();
        let place = all.iter().position(|&token| token >= SMALL).unwrap();
        all[place..].rotate_left(1);
    }

    /// An o before the sign, or before h and the sign, takes 0358; not a small o
    /// before the capital sign, nor where the h is of the other case.
    #[inline(always)]
    unsafe fn dot_before_sign(&mut self) {
        let back = match *self.all() {
            [.., b'O', SMALL | CAPITAL] | [.., b'o', SMALL] => 1,
            [.., b'O', b'H', CAPITAL] | [.., b'O' | b'o', b'h', SMALL] => 2,
            _ => return,
        };
        self.push(DOT);
        let size = self.size;
        self.all()[size - 1 - back..].rotate_right(1);
    }

    #[inline(always)]
    unsafe fn tone_letter(&mut self) -> Option<usize> {
        let mut search = Search::new();
        for (at, &token) in self.all().iter().enumerate() {
            search.step(LETTERS[token as usize], at);
            if search.done() {
                break;
            }
        }
        search.place()
    }
}

/// Writes the tokens in compose's encoding, with the tone's mark behind the letter
/// at `place`. Nothing where two marks of spelling stand that have to be ordered
/// or that are the same.
///
/// # Safety
/// Three bytes for two tokens may be written at `to`, and eight bytes more. Eight
/// bytes are readable behind the tokens.
#[inline(always)]
unsafe fn write(tokens: &[u8], place: usize, tone: u64, to: *mut u8) -> Option<*mut u8> {
    let (mut to, mut last, mut i) = (to, 0, 0);
    while i < tokens.len() {
        let until = if i <= place { place.min(tokens.len()) } else { tokens.len() };
        let plain = write_plain(tokens.as_ptr().add(i), until - i, to);
        to = to.add(plain);
        i += plain;
        if i == tokens.len() {
            break;
        }
        let token = tokens[i];
        if i == place {
            let below = at(tokens, i + 1) == BELOW;
            to = write_marked(token, below, tone, to);
            i += below as usize;
            last = if below { BELOW } else { 0 };
        } else {
            if plain > 0 {
                last = 0;
            }
            if token == BELOW && (last == BELOW || last == DOT) {
                return None;
            }
            // Only u takes 0324 into itself.
            if token == BELOW && plain > 0 && is(tokens[i - 1], b'u') {
                to = put(0x1E72 + (tokens[i - 1] >> 5 & 1) as u32, to.sub(1));
            } else {
                to = put([0x358, 0x324, 0x207F, 0x1D3A][(token - DOT) as usize], to);
            }
            last = token;
        }
        i += 1;
    }
    Some(to)
}

/// Copies the ASCII tokens at the front, at most so many, and says how many there are.
///
/// # Safety
/// Eight bytes are readable behind the tokens.
#[inline(always)]
unsafe fn write_plain(from: *const u8, most: usize, to: *mut u8) -> usize {
    let mut size = 0;
    if most <= 8 {
        while size < most && *from.add(size) < 0x80 {
            *to.add(size) = ptr::read_volatile(from.add(size));
            size += 1;
        }
        return size;
    }
    loop {
        let word = ptr::read_unaligned(from.add(size) as *const u64);
        ptr::write_unaligned(to.add(size) as *mut u64, word);
        let run = (u64::from_le(word) & HIGH_BITS).trailing_zeros() as usize / 8;
        size += run;
        if run < 8 || size >= most {
            return size.min(most);
        }
    }
}

/// The tone letter with its mark and, if it has it, 0324: u takes 0324 into
/// itself, every other letter the tone mark, if there is such a letter. T8 stands
/// before 0324.
#[inline(always)]
unsafe fn write_marked(letter: u8, below: bool, tone: u64, to: *mut u8) -> *mut u8 {
    let mark = MARKS[tone as usize];
    if !below {
        let (bytes, width) = with_mark(letter, tone);
        ptr::write_unaligned(to as *mut u32, bytes.to_le());
        return to.add(width);
    }
    if is(letter, b'u') {
        let to = put(0x1E72 + (letter >> 5 & 1) as u32, to);
        return put(0x300 + mark as u32, to);
    }
    let point = join(letter as u32, mark);
    if point != 0 {
        return put(0x324, put(point, to));
    }
    *to = letter;
    let (first, second) = if tone == 8 { (0x30D, 0x324) } else { (0x324, 0x300 + mark as u32) };
    put(second, put(first, to.add(1)))
}

/// The longest text in code points: a body has no more of them than bytes, and
/// each sign, which takes two of its bytes at least, may add 0358.
const POINTS: usize = BODY + BODY / 2;

/// A body in code points, for the passes.
struct Points {
    points: [u16; POINTS],
    size: usize,
}

/// The sixteen vowel passes: two letters, the letter that stays, its mark.
const VOWELS: [([u8; 2], u8, u16); 16] = [
    (*b"ou", b'o', 0x358),
    (*b"oU", b'o', 0x358),
    (*b"Ou", b'O', 0x358),
    (*b"OU", b'O', 0x358),
    (*b"oo", b'o', 0x358),
    (*b"oO", b'o', 0x358),
    (*b"Oo", b'O', 0x358),
    (*b"OO", b'O', 0x358),
    (*b"eo", b'o', 0x324),
    (*b"Eo", b'o', 0x324),
    (*b"eO", b'O', 0x324),
    (*b"EO", b'O', 0x324),
    (*b"eu", b'u', 0x324),
    (*b"Eu", b'u', 0x324),
    (*b"eU", b'U', 0x324),
    (*b"EU", b'U', 0x324),
];

const SMALL_SIGN: u16 = 0x207F;
const CAPITAL_SIGN: u16 = 0x1D3A;
const NASALS: [([u8; 2], u16); 4] =
    [(*b"nn", SMALL_SIGN), (*b"nN", SMALL_SIGN), (*b"Nn", SMALL_SIGN), (*b"NN", CAPITAL_SIGN)];

/// An ASCII code point as its byte, any other as a byte that is none of theirs.
#[inline(always)]
fn ascii(point: u16) -> u8 {
    if point < 0x80 {
        point as u8
    } else {
        0xFF
    }
}

impl Points {
    /// The code points of a good text.
    fn of(text: &[u8]) -> Points {
        let mut all = Points { points: [0; POINTS], size: 0 };
        let mut i = 0;
        while i < text.len() {
            let (lead, second, third) = (text[i] as u16, at(text, i + 1) as u16, at(text, i + 2) as u16);
            let (point, wide) = match lead {
                0..=0x7F => (lead, 1),
                0x80..=0xDF => ((lead & 0x1F) << 6 | second & 0x3F, 2),
                _ => ((lead & 0x0F) << 12 | (second & 0x3F) << 6 | third & 0x3F, 3),
            };
            all.points[all.size] = point;
            all.size += 1;
            i += wide;
        }
        all
    }

    fn all(&self) -> &[u16] {
        &self.points[..self.size]
    }

    #[inline(always)]
    fn pair_at(&self, i: usize, pair: [u8; 2]) -> bool {
        self.points[i] == pair[0] as u16 && self.points[i + 1] == pair[1] as u16
    }

    fn vowels(&mut self) {
        for (pair, letter, mark) in VOWELS {
            let mut i = 0;
            while i + 1 < self.size {
                if self.pair_at(i, pair) {
                    self.points[i] = letter as u16;
                    self.points[i + 1] = mark;
                    i += 1;
                }
                i += 1;
            }
        }
    }

    fn nasals(&mut self) {
        let [.., before, a, b] = *self.all() else { return };
        let letter = b"aeiouptkhm".contains(&ascii(before).to_ascii_lowercase());
        if !is(ascii(a), b'n') || !is(ascii(b), b'n') || !(letter || before == 0x358) {
            return;
        }
        for (pair, sign) in NASALS {
            let (mut from, mut to) = (0, 0);
            while from < self.size {
                let found = from + 1 < self.size && self.pair_at(from, pair);
                self.points[to] = if found { sign } else { self.points[from] };
                from += 1 + found as usize;
                to += 1;
            }
            self.size = to;
        }
    }

    /// Each such sign goes and one stands at the end, unless one stands there already.
    fn move_to_end(&mut self, sign: u16) {
        if self.all().last() == Some(&sign) || !self.all().contains(&sign) {
            return;
        }
        let mut to = 0;
        for from in 0..self.size {
            if self.points[from] != sign {
                self.points[to] = self.points[from];
                to += 1;
            }
        }
        self.points[to] = sign;
        self.size = to + 1;
    }

    /// The six O rules look for an o at different places, so that one pass does for all.
    fn dots(&mut self) {
        let mut i = 0;
        while i < self.size {
            if self.takes_dot(i) {
                self.points.copy_within(i + 1..self.size, i + 2);
                self.points[i + 1] = 0x358;
                self.size += 1;
            }
            i += 1;
        }
    }

    fn takes_dot(&self, i: usize) -> bool {
        let all = &self.all()[i..];
        let o = ascii(all[0]);
        match *all {
            [_, SMALL_SIGN, ..] => is(o, b'o'),
            [_, CAPITAL_SIGN, ..] => o == b'O',
            [_, h, SMALL_SIGN, ..] => is(o, b'o') && h == b'h' as u16,
            [_, h, CAPITAL_SIGN, ..] => o == b'O' && h == b'H' as u16,
            _ => false,
        }
    }

    fn tone_letter(&self) -> Option<usize> {
        let mut search = Search::new();
        for (at, &point) in self.all().iter().enumerate() {
            search.step(LETTERS[ascii(point) as usize], at);
        }
        search.place()
    }
}

/// compose step by step.
#[cold]
#[inline(never)]
fn by_passes(raw: &[u8], body: &[u8], tone: u64, khin: bool, out: &mut [u8]) -> Reply {
    let mut points = Points::of(body);
    points.vowels();
    points.nasals();
    points.move_to_end(SMALL_SIGN);
    points.move_to_end(CAPITAL_SIGN);
    points.dots();
    let mut place = usize::MAX;
    if has_mark(tone) {
        let Some(found) = points.tone_letter() else { return handed(raw, out) };
        place = found;
    }
    let mut bytes = Scratch::<COMPOSED>::new();
    // Safety: a body of BODY bytes makes fewer than COMPOSED bytes: what is respelled
    // grows from two bytes to three, or from three to six.
    unsafe {
        let start = bytes.start();
        let mut to = start;
        if khin {
            to = put(b'-' as u32, put(b'-' as u32, to));
        }
        for (i, &point) in points.all().iter().enumerate() {
            to = put(point as u32, to);
            if i == place {
                to = put(0x300 + MARKS[tone as usize] as u32, to);
            }
        }
        encoded(start, to, out)
    }
}

/// NFC, then 0324 030D swapped.
///
/// # Safety
/// `from..end` is a good text of fewer than COMPOSED bytes.
unsafe fn encoded(from: *const u8, end: *const u8, out: &mut [u8]) -> Reply {
    // 0344 alone grows in NFC, from two bytes to four.
    let mut scratch = Scratch::<{ 2 * COMPOSED }>::new();
    let start = scratch.start();
    let first = first_mark(from, end).unwrap();
    let end = nfc_on(from, first, end, start).unwrap();
    let text = std::slice::from_raw_parts_mut(start, end.offset_from(start) as usize);
    let mut i = 0;
    while i + 4 <= text.len() {
        if text[i..i + 4] == [0xCC, 0xA4, 0xCC, 0x8D] {
            text[i..i + 4].rotate_left(2);
            i += 3;
        }
        i += 1;
    }
    answer(start, end, out)
}
