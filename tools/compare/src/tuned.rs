//! The calls as a careful Rust programmer would write them for speed: static
//! tables of ready bytes, a scratch on the stack that nobody clears, no
//! allocation. They answer as the C functions do, refusals and untouched bytes
//! included, so that their times can stand beside the archives' times. This file
//! has strip, NFD and NFC; the others rest on it.
//!
//! Three facts of the table carry the design. Every code point with a combining
//! class is in 0300-036F and takes two bytes. No decomposition takes more than
//! five bytes. All tone marks have one class, so the order of marks never moves
//! one tone past another, and strip can drop them before it orders the rest.

mod compose;
mod entry;
mod syllable;
mod telex;
mod tone_letter;

pub use compose::compose;
pub use entry::{keying, listing};
pub use syllable::{align, candidate, from_raw};
pub use telex::telex;
pub use tone_letter::tone_letter;

use crate::call::Reply;
use crate::tables::*;
use std::mem::MaybeUninit;
use std::ptr;

const MOST: usize = 256;
/// The longest NFD of 256 bytes takes 640; a whole word is stored at a time, so eight more.
const ROOM: usize = 640 + 8;
/// The marks of one run: 0344 x 128 makes 256, the letter before it holds at most
/// two, and compose adds at most two.
const RUN: usize = 256 + 4;
const HIGH_BITS: u64 = 0x8080_8080_8080_8080;

/// Refusal 3 or 4: which of them depends on the whole text.
#[cold]
#[inline(never)]
fn refuse(text: &[u8]) -> Reply {
    Reply::refusal(if std::str::from_utf8(text).is_err() { 3 } else { 4 })
}

#[inline(always)]
fn continues(byte: u8) -> bool {
    byte & 0xC0 == 0x80
}

/// Where a three-byte code point stands in the high tables; the last slot is "outside".
#[inline(always)]
fn slot(point: usize) -> usize {
    match point {
        0x1E00..=0x1EFF => point - 0x1E00,
        0x1D3A => 256,
        0x207F => 257,
        0x2260 => 258,
        0x226E => 259,
        0x226F => 260,
        _ => 261,
    }
}

/// What the tables say of the code point at `from`.
struct Seen {
    entry: u64,
    size: usize,
    mark: bool,
}

const OUTSIDE: Seen = Seen { entry: 0, size: 0, mark: false };

/// Looks up the code point at `from`, which does not begin with an ASCII byte.
/// Entry 0 stands for everything that is refused.
///
/// # Safety
/// `from..end` is readable and not empty.
#[inline(always)]
unsafe fn look(low: &[u64; 896], high: &[u64; 262], from: *const u8, end: *const u8) -> Seen {
    let lead = (*from).wrapping_sub(0xC0) as usize;
    let left = end.offset_from(from);
    if lead < 14 {
        if left < 2 || !continues(*from.add(1)) {
            return OUTSIDE;
        }
        let point = lead << 6 | (*from.add(1) & 0x3F) as usize;
        return Seen { entry: low[point], size: 2, mark: point >= 0x300 };
    }
    if lead >> 4 != 2 || left < 3 || !continues(*from.add(1)) || !continues(*from.add(2)) {
        return OUTSIDE;
    }
    let point = (lead & 0x0F) << 12 | ((*from.add(1) & 0x3F) as usize) << 6 | (*from.add(2) & 0x3F) as usize;
    Seen { entry: high[slot(point)], size: 3, mark: false }
}

/// Copies the ASCII bytes at the front, at most eight, and says how many.
///
/// # Safety
/// `from..end` is readable and not empty; eight bytes may be written at `to`.
#[inline(always)]
unsafe fn copy_ascii(from: *const u8, end: *const u8, to: *mut u8) -> usize {
    if end.offset_from(from) >= 8 {
        let word = ptr::read_unaligned(from as *const u64);
        ptr::write_unaligned(to as *mut u64, word);
        return (u64::from_le(word) & HIGH_BITS).trailing_zeros() as usize / 8;
    }
    if *from < 0x80 {
        *to = *from;
        return 1;
    }
    0
}

/// The class of the mark whose two bytes are at `at`.
#[inline(always)]
unsafe fn class_at(at: *const u8) -> u8 {
    CLASS[((*at & 1) as usize) << 6 | (*at.add(1) & 0x3F) as usize]
}

/// Puts the `size` bytes of `entry`, marks of one class, before the marks of
/// higher class that end at `to`.
///
/// # Safety
/// `start..to` is written text that ends in a mark; eight bytes may be written at `to`.
#[inline(never)]
unsafe fn insert(start: *const u8, to: *mut u8, entry: u64, size: usize, class: u8) {
    let mut at = to;
    // CC and CD lead nothing but marks and 034F, whose class 0 stops the walk.
    while at.cast_const().offset_from(start) >= 2 && *at.sub(2) | 1 == 0xCD && class_at(at.sub(2)) > class {
        at = at.sub(2);
    }
    ptr::copy(at, at.add(size), to.offset_from(at) as usize);
    ptr::copy_nonoverlapping(entry.to_le_bytes().as_ptr(), at, size);
}

/// Copies the answer out, small ones without a call.
///
/// # Safety
/// `size` bytes are readable at `from` and writable at `to`.
#[inline(always)]
unsafe fn hand_over(from: *const u8, to: *mut u8, size: usize) {
    if size > 32 {
        ptr::copy_nonoverlapping(from, to, size);
    } else if size > 16 {
        let (first, last) = (
            ptr::read_unaligned(from as *const u128),
            ptr::read_unaligned(from.add(size - 16) as *const u128),
        );
        ptr::write_unaligned(to as *mut u128, first);
        ptr::write_unaligned(to.add(size - 16) as *mut u128, last);
    } else if size >= 8 {
        let (first, last) =
            (ptr::read_unaligned(from as *const u64), ptr::read_unaligned(from.add(size - 8) as *const u64));
        ptr::write_unaligned(to as *mut u64, first);
        ptr::write_unaligned(to.add(size - 8) as *mut u64, last);
    } else if size >= 4 {
        let (first, last) =
            (ptr::read_unaligned(from as *const u32), ptr::read_unaligned(from.add(size - 4) as *const u32));
        ptr::write_unaligned(to as *mut u32, first);
        ptr::write_unaligned(to.add(size - 4) as *mut u32, last);
    } else if size > 0 {
        *to = *from;
        *to.add(size / 2) = *from.add(size / 2);
        *to.add(size - 1) = *from.add(size - 1);
    }
}

/// The answer to the first `at` bytes, held in a register: reading single bytes
/// back from memory as a word would wait until all of them are stored.
struct Front {
    at: usize,
    bytes: u64,
    size: usize,
    tone: u8,
    last: u8,
}

/// Walks a text of up to eight bytes as far as its answer takes up to eight
/// bytes and no mark changes its place. The full walk goes on from there.
#[inline(always)]
fn front<const STRIP: bool>(text: &[u8], low: &[u64; 896], high: &[u64; 262]) -> Front {
    let (mut bytes, mut bits, mut tone, mut last) = (0u64, 0, 0, 0);
    let mut at = 0;
    while at < text.len() && text.len() <= 8 && bits < 64 {
        if text[at] < 0x80 {
            bytes |= (text[at] as u64) << bits;
            bits += 8;
            last = 0;
            at += 1;
            continue;
        }
        let range = text[at..].as_ptr_range();
        // Safety: the range is the rest of the text, which is not empty.
        let seen = unsafe { look(low, high, range.start, range.end) };
        let size = (seen.entry >> 40 & 7) as u32;
        let middle = (seen.entry >> 48) as u8;
        let class = (seen.entry >> 56) as u8;
        let moves = if STRIP { seen.mark && class < last } else { middle != 0 && middle < last };
        if seen.entry == 0 || moves || bits + 8 * size > 64 {
            break;
        }
        if STRIP && middle != 0 {
            tone = middle;
        }
        bytes |= (seen.entry & 0xFF_FFFF_FFFF) << bits;
        bits += 8 * size;
        last = class;
        at += seen.size;
    }
    Front { at, bytes, size: bits as usize / 8, tone, last }
}

impl Front {
    /// Writes the answer, for which `out` has room.
    #[inline(always)]
    fn hand_over(&self, out: &mut [u8]) {
        let (bytes, size) = (self.bytes, self.size);
        if size >= 4 {
            out[..4].copy_from_slice(&(bytes as u32).to_le_bytes());
            out[size - 4..size].copy_from_slice(&((bytes >> (8 * size - 32)) as u32).to_le_bytes());
        } else {
            for (at, byte) in out[..size].iter_mut().enumerate() {
                *byte = (bytes >> (8 * at)) as u8;
            }
        }
    }
}

/// Whether a text without tone marks ends as a fourth tone does.
#[inline(always)]
fn stopped(rest: &[u8]) -> bool {
    let Some(&last) = rest.last() else { return false };
    if matches!(last | 0x20, b'h' | b'p' | b't' | b'k') {
        return true;
    }
    nasal_after_h(rest, last)
}

#[inline(always)]
fn nasal_after_h(rest: &[u8], last: u8) -> bool {
    let size = match last {
        b'n' | b'N' => 2,
        0xBF | 0xBA => 3,
        _ => return false,
    };
    if rest.len() <= size || rest[rest.len() - size - 1] | 0x20 != b'h' {
        return false;
    }
    match &rest[rest.len() - size..] {
        [first, _] => first | 0x20 == b'n',
        tail => tail == [0xE2, 0x81, 0xBF] || tail == [0xE1, 0xB4, 0xBA],
    }
}

/// The tone of the last mark, or else of the ending.
#[inline(always)]
fn settled(mark: u8, rest: &[u8]) -> u64 {
    match mark {
        0 if stopped(rest) => 4,
        0 => 1,
        tone => tone as u64,
    }
}

/// `strip_tone_diacritic`: the text without tone marks in NFD, and its tone.
#[inline(never)]
pub fn strip(text: &[u8], out: &mut [u8]) -> Reply {
    let front = front::<true>(text, &STRIP_LOW, &STRIP_HIGH);
    if front.at == text.len() {
        if front.size > out.len() {
            return Reply::refusal(7);
        }
        let tone = settled(front.tone, &front.bytes.to_le_bytes()[..front.size]);
        front.hand_over(out);
        return Reply { length: front.size as u64, tone, ..Reply::default() };
    }
    if text.len() > MOST {
        return Reply::refusal(2);
    }
    let mut scratch = Scratch::<ROOM>::new();
    let start = scratch.start();
    // Safety: the scratch has the room that strip_on needs.
    unsafe {
        let Some(stripped) = strip_on(text, &front, start) else { return refuse(text) };
        if stripped.size > out.len() {
            return Reply::refusal(7);
        }
        let tone = settled(stripped.mark, stripped.bytes);
        hand_over(start, out.as_mut_ptr(), stripped.size);
        Reply { length: stripped.size as u64, tone, ..Reply::default() }
    }
}

/// Bytes on the stack that nobody clears.
struct Scratch<const SIZE: usize>(MaybeUninit<[u8; SIZE]>);

impl<const SIZE: usize> Scratch<SIZE> {
    #[inline(always)]
    fn new() -> Self {
        Scratch(MaybeUninit::uninit())
    }

    #[inline(always)]
    fn start(&mut self) -> *mut u8 {
        self.0.as_mut_ptr() as *mut u8
    }
}

/// A text without its tone marks, and the last of them (0: none).
struct Stripped<'a> {
    bytes: &'a [u8],
    size: usize,
    mark: u8,
}

/// Writes what `front` answered, and strips the rest of the text behind it.
/// Nothing for a text that is refused.
///
/// # Safety
/// The text has at most MOST bytes. ROOM bytes may be written at `start`: a code
/// point of two or three bytes writes at most five, so the answer stays within
/// 640, with eight bytes of slack for a whole word.
#[inline(always)]
unsafe fn strip_on<'a>(text: &[u8], front: &Front, start: *mut u8) -> Option<Stripped<'a>> {
    let end = text.as_ptr().add(text.len());
    ptr::write_unaligned(start as *mut u64, front.bytes.to_le());
    let (mut from, mut to) = (text.as_ptr().add(front.at), start.add(front.size));
    let (mut tone, mut last) = (front.tone, front.last);
    while from < end {
        let run = copy_ascii(from, end, to);
        from = from.add(run);
        to = to.add(run);
        if run > 0 {
            last = 0;
            if run == 8 || from == end || *from < 0x80 {
                continue;
            }
        }
        let seen = look(&STRIP_LOW, &STRIP_HIGH, from, end);
        if seen.entry == 0 {
            return None;
        }
        from = from.add(seen.size);
        let size = (seen.entry >> 40 & 7) as usize;
        let class = (seen.entry >> 56) as u8;
        let mark = (seen.entry >> 48) as u8;
        if mark != 0 {
            tone = mark;
        }
        if !(seen.mark && class < last) || (class == 0 && size != 0) {
            ptr::write_unaligned(to as *mut u64, seen.entry.to_le());
            last = class;
        } else if size != 0 {
            insert(start, to, seen.entry, size, class);
        }
        to = to.add(size);
    }
    let size = to.offset_from(start) as usize;
    Some(Stripped { bytes: std::slice::from_raw_parts(start, size), size, mark: tone })
}

/// The canonical decomposition.
#[inline(never)]
pub fn nfd(text: &[u8], out: &mut [u8]) -> Reply {
    let front = front::<false>(text, &NFD_LOW, &NFD_HIGH);
    if front.at == text.len() {
        if front.size > out.len() {
            return Reply::refusal(7);
        }
        front.hand_over(out);
        return Reply { length: front.size as u64, ..Reply::default() };
    }
    if text.len() > MOST {
        return Reply::refusal(2);
    }
    let mut scratch = Scratch::<ROOM>::new();
    let start = scratch.start();
    // Safety: as in strip.
    unsafe {
        let end = text.as_ptr().add(text.len());
        ptr::write_unaligned(start as *mut u64, front.bytes.to_le());
        let (mut from, mut to) = (text.as_ptr().add(front.at), start.add(front.size));
        let mut last = front.last;
        while from < end {
            let run = copy_ascii(from, end, to);
            from = from.add(run);
            to = to.add(run);
            if run > 0 {
                last = 0;
                if run == 8 || from == end || *from < 0x80 {
                    continue;
                }
            }
            let seen = look(&NFD_LOW, &NFD_HIGH, from, end);
            if seen.entry == 0 {
                return refuse(text);
            }
            from = from.add(seen.size);
            let size = (seen.entry >> 40 & 7) as usize;
            let first = (seen.entry >> 48) as u8;
            if first != 0 && first < last {
                insert(start, to, seen.entry, size, first);
            } else {
                ptr::write_unaligned(to as *mut u64, seen.entry.to_le());
                last = (seen.entry >> 56) as u8;
            }
            to = to.add(size);
        }
        answer(start, to, out)
    }
}

/// The room is checked before the first byte is written.
#[inline(always)]
unsafe fn answer(start: *const u8, to: *const u8, out: &mut [u8]) -> Reply {
    let size = to.offset_from(start) as usize;
    if size > out.len() {
        return Reply::refusal(7);
    }
    hand_over(start, out.as_mut_ptr(), size);
    Reply { length: size as u64, ..Reply::default() }
}

/// The composite of a starter and a mark (counted from 0300), or 0.
#[inline(always)]
fn join(starter: u32, mark: u8) -> u32 {
    let starter = starter as usize;
    let place = if starter < 0x300 {
        STARTER_LOW[starter]
    } else if starter.wrapping_sub(0x1E00) < 0x100 {
        STARTER_HIGH[starter - 0x1E00]
    } else {
        return 0;
    };
    JOIN[ROW[mark as usize] as usize * JOIN_WIDTH + place as usize] as u32
}

/// The class of the last mark that a starter holds.
#[inline(always)]
fn inner_class(starter: u32) -> u8 {
    (entry_of(starter) >> 56) as u8
}

#[inline(always)]
fn entry_of(starter: u32) -> u64 {
    match starter as usize {
        0..=0x7F => 0,
        low @ 0x80..=0x37F => NFD_LOW[low],
        high => NFD_HIGH[slot(high)],
    }
}

/// The code point that ends at `to`, and where it begins.
///
/// # Safety
/// `to` is the end of well-formed text that is not empty.
#[inline(always)]
unsafe fn before(to: *mut u8) -> (u32, *mut u8) {
    let last = *to.sub(1) as u32;
    if last < 0x80 {
        return (last, to.sub(1));
    }
    let middle = *to.sub(2) as u32;
    if middle >= 0xC0 {
        return ((middle & 0x1F) << 6 | last & 0x3F, to.sub(2));
    }
    let lead = *to.sub(3) as u32;
    ((lead & 0x0F) << 12 | (middle & 0x3F) << 6 | last & 0x3F, to.sub(3))
}

/// Writes a code point below 10000 and says where it ends.
#[inline(always)]
unsafe fn put(point: u32, to: *mut u8) -> *mut u8 {
    if point < 0x80 {
        *to = point as u8;
        return to.add(1);
    }
    if point < 0x800 {
        *to = 0xC0 | (point >> 6) as u8;
        *to.add(1) = 0x80 | (point & 0x3F) as u8;
        return to.add(2);
    }
    *to = 0xE0 | (point >> 12) as u8;
    *to.add(1) = 0x80 | (point >> 6 & 0x3F) as u8;
    *to.add(2) = 0x80 | (point & 0x3F) as u8;
    to.add(3)
}

/// Whether a mark stands at `from`. 034F is a starter; 0370 to 037F are outside.
#[inline(always)]
unsafe fn mark_at(from: *const u8, end: *const u8) -> Option<u8> {
    if end.offset_from(from) < 2 || *from | 1 != 0xCD || !continues(*from.add(1)) {
        return None;
    }
    let mark = (*from & 1) << 6 | *from.add(1) & 0x3F;
    if mark == 0x4F || mark >= 0x70 {
        return None;
    }
    Some(mark)
}

/// The marks of one run, in canonical order.
struct Marks {
    marks: MaybeUninit<[u8; RUN]>,
    size: usize,
}

impl Marks {
    #[inline(always)]
    fn none() -> Marks {
        Marks { marks: MaybeUninit::uninit(), size: 0 }
    }

    /// # Safety
    /// Fewer than RUN marks are in.
    #[inline(always)]
    unsafe fn add(&mut self, mark: u8) {
        let all = self.marks.as_mut_ptr() as *mut u8;
        let class = CLASS[mark as usize];
        let mut at = self.size;
        while at > 0 && CLASS[*all.add(at - 1) as usize] > class {
            *all.add(at) = *all.add(at - 1);
            at -= 1;
        }
        *all.add(at) = mark;
        self.size += 1;
    }

    /// Adds the marks that `bytes` encodes.
    #[inline(always)]
    unsafe fn add_bytes(&mut self, bytes: &[u8]) {
        for pair in bytes.chunks_exact(2) {
            self.add((pair[0] & 1) << 6 | pair[1] & 0x3F);
        }
    }

    #[inline(always)]
    unsafe fn all(&self) -> &[u8] {
        std::slice::from_raw_parts(self.marks.as_ptr() as *const u8, self.size)
    }
}

/// The root of a starter's decomposition; its marks go to `marks`.
#[inline(always)]
unsafe fn open(starter: u32, marks: &mut Marks) -> u32 {
    let bytes = entry_of(starter).to_le_bytes();
    let size = bytes[5] as usize;
    if size == 0 {
        return starter;
    }
    let root = if bytes[0] < 0x80 {
        1
    } else if bytes[0] < 0xE0 {
        2
    } else {
        3
    };
    if size == root {
        return starter;
    }
    marks.add_bytes(&bytes[root..size]);
    if root == 1 {
        bytes[0] as u32
    } else {
        ((bytes[0] & 0x1F) as u32) << 6 | (bytes[1] & 0x3F) as u32
    }
}

/// Writes the starter with what it absorbs, then the marks that are left.
#[inline(always)]
unsafe fn absorb(starter: Option<u32>, marks: &Marks, at: *mut u8) -> *mut u8 {
    let mut held = Marks::none();
    let mut last = 0;
    let mut starter = starter;
    for &mark in marks.all() {
        let class = CLASS[mark as usize];
        if let (Some(point), true) = (starter, last < class) {
            let composite = join(point, mark);
            if composite != 0 {
                starter = Some(composite);
                continue;
            }
        }
        *(held.marks.as_mut_ptr() as *mut u8).add(held.size) = mark;
        held.size += 1;
        last = class;
    }
    let mut to = match starter {
        Some(point) => put(point, at),
        None => at,
    };
    for &mark in held.all() {
        to = put(0x300 + mark as u32, to);
    }
    to
}

/// Composes a run of marks with the starter before it, in full.
/// Hands back where the run ends and where its answer ends.
#[inline(never)]
unsafe fn compose_run(from: *const u8, end: *const u8, start: *mut u8, to: *mut u8) -> (*const u8, *mut u8) {
    let mut marks = Marks::none();
    let (mut starter, mut at) = (None, to);
    if to != start {
        let (point, place) = before(to);
        starter = Some(open(point, &mut marks));
        at = place;
    }
    let mut from = from;
    while let Some(mark) = mark_at(from, end) {
        let bytes = NFD_LOW[0x300 + mark as usize].to_le_bytes();
        marks.add_bytes(&bytes[..bytes[5] as usize]);
        from = from.add(2);
    }
    (from, absorb(starter, &marks, at))
}

/// Where the first mark stands, or the end; nothing for a text that is refused before it.
///
/// # Safety
/// `from..end` is readable.
#[inline(always)]
unsafe fn first_mark(mut from: *const u8, end: *const u8) -> Option<*const u8> {
    while from < end {
        if end.offset_from(from) >= 8 {
            let word = u64::from_le(ptr::read_unaligned(from as *const u64));
            let run = (word & HIGH_BITS).trailing_zeros() as usize / 8;
            from = from.add(run);
            if run == 8 {
                continue;
            }
        } else if *from < 0x80 {
            from = from.add(1);
            continue;
        }
        let seen = look(&NFD_LOW, &NFD_HIGH, from, end);
        if seen.mark && mark_at(from, end).is_some() {
            break;
        }
        if seen.entry == 0 {
            return None;
        }
        from = from.add(seen.size);
    }
    Some(from)
}

/// The canonical composition.
#[inline(never)]
pub fn nfc(text: &[u8], out: &mut [u8]) -> Reply {
    if text.len() > MOST {
        return Reply::refusal(2);
    }
    let mut scratch = Scratch::<ROOM>::new();
    let start = scratch.start();
    // Safety: only 0344 grows, from two bytes to four; the rest as in strip.
    unsafe {
        let (begin, end) = (text.as_ptr(), text.as_ptr().add(text.len()));
        let Some(from) = first_mark(begin, end) else { return refuse(text) };
        // A text of the table without marks is its own NFC.
        if from == end {
            return answer(begin, end, out);
        }
        match nfc_on(begin, from, end, start) {
            Some(to) => answer(start, to, out),
            None => refuse(text),
        }
    }
}

/// Writes the text before `from`, which has no mark, and composes the rest behind
/// it. Hands back where the answer ends, or nothing for a text that is refused.
///
/// # Safety
/// The answer has room at `start`, with eight bytes of slack.
#[inline(always)]
unsafe fn nfc_on(begin: *const u8, from: *const u8, end: *const u8, start: *mut u8) -> Option<*mut u8> {
    let kept = from.offset_from(begin) as usize;
    hand_over(begin, start, kept);
    let (mut from, mut to) = (from, start.add(kept));
    while from < end {
        let run = copy_ascii(from, end, to);
        from = from.add(run);
        to = to.add(run);
        if run > 0 && (run == 8 || from == end || *from < 0x80) {
            continue;
        }
        let Some(mark) = mark_at(from, end) else {
            let seen = look(&NFD_LOW, &NFD_HIGH, from, end);
            if seen.entry == 0 {
                return None;
            }
            ptr::copy_nonoverlapping(from, to, seen.size);
            from = from.add(seen.size);
            to = to.add(seen.size);
            continue;
        };
        (from, to) = match one_mark(mark, from, end, start, to) {
            Some(to) => (from.add(2), to),
            None => compose_run(from, end, start, to),
        };
    }
    Some(to)
}

/// A single mark that stands in order behind its starter: the starter absorbs
/// it, or it stays behind. Nothing where the run needs more than that.
#[inline(always)]
unsafe fn one_mark(
    mark: u8,
    from: *const u8,
    end: *const u8,
    start: *mut u8,
    to: *mut u8,
) -> Option<*mut u8> {
    let plain = NFD_LOW[0x300 + mark as usize] as u16 == mark_bytes(mark);
    if to == start || !plain || mark_at(from.add(2), end).is_some() {
        return None;
    }
    let (starter, at) = before(to);
    if CLASS[mark as usize] < inner_class(starter) {
        return None;
    }
    let composite = join(starter, mark);
    Some(if composite != 0 { put(composite, at) } else { put(0x300 + mark as u32, to) })
}

/// The mark's own two bytes, as they stand in the low half of its entry.
#[inline(always)]
fn mark_bytes(mark: u8) -> u16 {
    u16::from_le_bytes([0xCC | mark >> 6, 0x80 | mark & 0x3F])
}

/// The refusal of a text, or none.
#[inline(always)]
fn refusal_of(text: &[u8]) -> Option<Reply> {
    if text.len() <= 8 && word_of(text) & HIGH_BITS == 0 {
        return None;
    }
    refusal_of_any(text)
}

#[inline(never)]
fn refusal_of_any(text: &[u8]) -> Option<Reply> {
    if text.len() > MOST {
        return Some(Reply::refusal(2));
    }
    if text.is_ascii() || in_table(text) {
        return None;
    }
    Some(refuse(text))
}

/// Up to eight bytes in a register, the first one lowest.
#[inline(always)]
fn word_of(text: &[u8]) -> u64 {
    let size = text.len();
    debug_assert!(size <= 8);
    if size >= 4 {
        let first = u32::from_le_bytes(text[..4].try_into().unwrap());
        let last = u32::from_le_bytes(text[size - 4..].try_into().unwrap());
        return first as u64 | (last as u64) << (8 * (size - 4));
    }
    if size == 0 {
        return 0;
    }
    let (middle, last) = (size / 2, size - 1);
    text[0] as u64 | (text[middle] as u64) << (8 * middle) | (text[last] as u64) << (8 * last)
}

/// Whether a text is well formed and of the table.
#[inline(never)]
fn in_table(text: &[u8]) -> bool {
    let range = text.as_ptr_range();
    let mut from = range.start;
    // Safety: `from` stays within the text, and `look` gives the size of what it found there.
    unsafe {
        while from < range.end {
            if *from < 0x80 {
                from = from.add(1);
                continue;
            }
            let seen = look(&NFD_LOW, &NFD_HIGH, from, range.end);
            if seen.entry == 0 {
                return false;
            }
            from = from.add(seen.size);
        }
    }
    true
}

/// Writes the `size` bytes of a word, at most sixteen, for which `out` has room.
#[inline(always)]
fn put_word(word: u128, size: usize, out: &mut [u8]) {
    let out = &mut out[..size];
    if size >= 8 {
        out[..8].copy_from_slice(&(word as u64).to_le_bytes());
        out[size - 8..].copy_from_slice(&((word >> (8 * size - 64)) as u64).to_le_bytes());
    } else if size >= 4 {
        out[..4].copy_from_slice(&(word as u32).to_le_bytes());
        out[size - 4..].copy_from_slice(&((word >> (8 * size - 32)) as u32).to_le_bytes());
    } else {
        for (at, byte) in out.iter_mut().enumerate() {
            *byte = (word >> (8 * at)) as u8;
        }
    }
}
