//! A dictionary of generated entries, every one keyed in all three kinds.

#[cfg(feature = "archives")]
use super::calls::Archives;
use super::calls::{Calls, Tuned};
use super::driver::{self, Placed, Time};
use super::job::{input, KINDS, ROOM};
use super::report::{grouped, number, ratio, Report};
use crate::digest::Digest;
use crate::inputs;
use crate::oracle;
use crate::random::Random;
use khiin::db::models::{keyings, Input, InputType};
use std::hint::black_box;
use std::time::Instant;

const ENTRIES: usize = 96_000;
const SEED: u64 = 96;
const PASSES: usize = 7;
/// The numbers of parts of twenty entries: most have two, as in a dictionary.
const PARTS: [usize; 20] = [1, 1, 1, 2, 2, 2, 2, 2, 2, 2, 2, 2, 2, 2, 2, 3, 3, 3, 4, 4];

/// Entries of well-formed syllables in NFC, one in sixteen with a capital.
fn generated(count: usize) -> Vec<Vec<u8>> {
    let (mut small, mut capital) = (Vec::new(), Vec::new());
    let mut composed = false;
    inputs::syllables(&mut |text| {
        // Each comes decomposed and then in NFC.
        if composed {
            let plain = std::str::from_utf8(text).expect("a syllable");
            let list = if plain.starts_with(char::is_uppercase) { &mut capital } else { &mut small };
            list.push(text.to_vec());
        }
        composed = !composed;
    });
    let mut random = Random(SEED);
    let mut entry = || {
        let parts = random.pick(&PARTS);
        let mut all: Vec<&[u8]> = (0..parts).map(|_| &small[random.below(small.len())][..]).collect();
        if random.once_in(16) {
            all[0] = &capital[random.below(capital.len())];
        }
        all.join(&b' ')
    };
    (0..count).map(|_| entry()).collect()
}

/// One way to key an entry: gives each keying, by kinds in the order of a listing.
trait Way {
    fn key(&self, number: usize, out: &mut [u8], sink: &mut dyn FnMut(&[u8]));
    /// How many keyings the entry has, and how many bytes were written for them.
    fn count(&self, number: usize, out: &mut [u8]) -> (u64, u64);
}

/// Call by call; the first reply of a kind says how many there are.
struct ByCall<'a, C>(C, &'a [Vec<u8>]);

impl<C: Calls> ByCall<'_, C> {
    #[inline(always)]
    fn each(&self, number: usize, out: &mut [u8], mut sink: impl FnMut(&[u8])) {
        let entry = &self.1[number];
        for kind in KINDS {
            let mut position = 0;
            loop {
                let reply = self.0.keying(black_box(entry), kind, position, black_box(&mut *out));
                sink(&out[..reply.length as usize]);
                position += 1;
                if position >= reply.count {
                    break;
                }
            }
        }
    }
}

impl<C: Calls> Way for ByCall<'_, C> {
    fn key(&self, number: usize, out: &mut [u8], sink: &mut dyn FnMut(&[u8])) {
        self.each(number, out, sink);
    }

    fn count(&self, number: usize, out: &mut [u8]) -> (u64, u64) {
        let (mut count, mut bytes) = (0, 0);
        self.each(number, out, |keys| {
            count += 1;
            bytes += keys.len() as u64;
        });
        (count, bytes)
    }
}

/// The whole listing at once, for which the buffer has room.
struct ByListing<'a, C>(C, &'a [Vec<u8>]);

impl<C: Calls> Way for ByListing<'_, C> {
    fn key(&self, number: usize, out: &mut [u8], sink: &mut dyn FnMut(&[u8])) {
        let reply = self.0.listing(&self.1[number], 0, out);
        let lines = &out[..reply.length as usize];
        for line in lines.split(|&byte| byte == b'\n').skip(1).filter(|line| !line.is_empty()) {
            sink(line.splitn(3, |&byte| byte == b' ').nth(2).expect("kind, position, keys"));
        }
    }

    fn count(&self, number: usize, out: &mut [u8]) -> (u64, u64) {
        let reply = self.0.listing(black_box(&self.1[number]), 0, black_box(out));
        (reply.count - 1, reply.length)
    }
}

/// The Rust's list.
struct ByRust<'a>(&'a [Input]);

impl Way for ByRust<'_> {
    fn key(&self, number: usize, _: &mut [u8], sink: &mut dyn FnMut(&[u8])) {
        let list = keyings(&self.0[number]);
        for kind in [InputType::Numeric, InputType::Telex, InputType::Detoned] {
            for keying in list.iter().filter(|keying| keying.input_type == kind) {
                sink(keying.keys.as_bytes());
            }
        }
    }

    fn count(&self, number: usize, _: &mut [u8]) -> (u64, u64) {
        let list = black_box(keyings(black_box(&self.0[number])));
        (list.len() as u64, list.iter().map(|keying| keying.keys.len() as u64).sum())
    }
}

type Ways<'a> = Vec<(&'static str, Box<dyn Way + 'a>)>;

fn ways<'a>(entries: &'a [Vec<u8>], inputs: &'a [Input]) -> Ways<'a> {
    let mut all: Ways = vec![
        ("Rust", Box::new(ByRust(inputs))),
        ("hand-tuned Rust, call by call", Box::new(ByCall(Tuned::new(), entries))),
        ("hand-tuned Rust, listing", Box::new(ByListing(Tuned::new(), entries))),
    ];
    all.extend(of_archives(entries));
    all
}

#[cfg(feature = "archives")]
fn of_archives(entries: &[Vec<u8>]) -> Ways<'_> {
    let mut all: Ways = vec![("archive, call by call", Box::new(ByCall(Archives, entries)))];
    if crate::LISTS {
        all.push(("archive, listing", Box::new(ByListing(Archives, entries))));
    }
    all
}

#[cfg(not(feature = "archives"))]
fn of_archives(_: &[Vec<u8>]) -> Ways<'_> {
    Vec::new()
}

/// Keyings, their bytes and their digest.
#[derive(Clone, Copy, PartialEq, Eq, Debug)]
struct Sum {
    keyings: u64,
    bytes: u64,
    digest: u64,
}

fn sum(way: &dyn Way, count: usize) -> Sum {
    let mut out = vec![0; ROOM];
    let (mut keyings, mut bytes, mut digest) = (0, 0, Digest::new());
    for number in 0..count {
        way.key(number, &mut out, &mut |keys| {
            keyings += 1;
            bytes += keys.len() as u64;
            digest.add(keys);
            digest.add(b"\n");
        });
    }
    Sum { keyings, bytes, digest: digest.0 }
}

/// The sides give the same keyings in the same order.
fn agreed(ways: &Ways, count: usize) -> Sum {
    let first = sum(&*ways[0].1, count);
    for (name, way) in &ways[1..] {
        assert_eq!(sum(&**way, count), first, "{name} keys otherwise than the Rust");
    }
    first
}

/// The keyings of an entry may not depend on the Rust's hash order.
fn settled(entry: &[u8]) -> bool {
    let text = std::str::from_utf8(entry).expect("an entry");
    let (rest, _) = khiin_ji::lomaji::strip_tone_diacritic(text);
    !oracle::depends_on_order(&rest, 1)
}

/// Nanoseconds of one pass over all entries.
fn pass(way: &dyn Way, sum: &Sum, out: &mut [u8]) -> f64 {
    let begin = Instant::now();
    let mut keyings = 0;
    for number in 0..ENTRIES {
        keyings += black_box(way.count(number, out)).0;
    }
    let time = begin.elapsed().as_nanos() as f64;
    assert_eq!(keyings, sum.keyings);
    time
}

/// The times of the passes, the sides in turn, each pass at another placement.
fn passes(ways: &Ways, sum: &Sum) -> Vec<Time> {
    let mut seen = vec![Vec::new(); ways.len()];
    for placement in &driver::placements()[..PASSES] {
        let mut out = Placed::room(ROOM, placement.out);
        for (seen, (_, way)) in seen.iter_mut().zip(ways) {
            driver::deeper(placement.depth, &mut || seen.push(pass(&**way, sum, out.get_mut())));
        }
    }
    seen.into_iter().map(Time::of).collect()
}

pub fn run(report: &mut Report) {
    eprintln!("{ENTRIES} entries");
    let entries = generated(ENTRIES);
    assert!(entries.iter().all(|entry| settled(entry)), "hash order shows");
    let inputs: Vec<Input> = entries.iter().map(|entry| input(entry)).collect();
    let ways = ways(&entries, &inputs);
    let sum = agreed(&ways, ENTRIES);
    let times = passes(&ways, &sum);
    let mut table = head(&entries, &sum);
    for ((name, _), time) in ways.iter().zip(&times) {
        let a_second = |count: u64| grouped((count as f64 / time.median * 1e9) as u64);
        let each = time.each(ENTRIES as f64);
        table += &format!(
            "| {name} | {} | {} | {} | {} |\n",
            a_second(ENTRIES as u64),
            a_second(sum.keyings),
            number(Some(each.median)),
            ratio(Some(times[0].median), Some(time.median))
        );
        report.time("entries", "nanoseconds an entry", ENTRIES, name, Some(each));
    }
    report.table("entries", table);
    sum_up(&ways, &times, report);
}

fn head(entries: &[Vec<u8>], sum: &Sum) -> String {
    let bytes: usize = entries.iter().map(Vec::len).sum();
    format!(
        "{} entries of {} bytes have {} keyings of {} bytes; digest (FNV-1a, 64 bits) {:016x}, of each side.\n\n\
         | side | entries a second | keyings a second | nanoseconds an entry | Rust / this |\n\
         |---|---:|---:|---:|---:|\n",
        grouped(entries.len() as u64),
        grouped(bytes as u64),
        grouped(sum.keyings),
        grouped(sum.bytes),
        sum.digest
    )
}

/// The archive against the other two, call by call and by listing.
fn sum_up(ways: &Ways, times: &[Time], report: &mut Report) {
    let of = |name: &str| ways.iter().position(|way| way.0 == name).map(|at| times[at].median);
    for way in ["call by call", "listing"] {
        let Some(ours) = of(&format!("archive, {way}")) else { continue };
        let tuned = of(&format!("hand-tuned Rust, {way}"));
        report.sum_up(&format!(
            "- {} entries, {way}: {} entries a second, {} times the Rust's; {} times the hand-tuned time.",
            grouped(ENTRIES as u64),
            grouped((ENTRIES as f64 / ours * 1e9) as u64),
            ratio(of("Rust"), Some(ours)),
            ratio(Some(ours), tuned)
        ));
    }
}

#[cfg(test)]
mod tests {
    use super::*;

    #[test]
    fn the_sides_key_alike() {
        const COUNT: usize = 2000;
        let entries = generated(COUNT);
        assert!(entries.iter().all(|entry| settled(entry)));
        let inputs: Vec<Input> = entries.iter().map(|entry| input(entry)).collect();
        let sum = agreed(&ways(&entries, &inputs), COUNT);
        assert!(sum.keyings > COUNT as u64 * 3);
    }
}
