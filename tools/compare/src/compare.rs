//! Both sides on the same bytes, and a table of what came out.

mod of_ji;
mod of_khiin;

use crate::call::{Call, Question, Reply, Subject, NAMES};
use crate::digest::Digest;
use crate::oracle::{self, Answer};
use crate::rules;
use crate::slab::{Seen, Slab};
use crate::tuned;

pub const SEED: u64 = 20_260_101;

/// How many differences of one call are printed; the table counts them all.
const SHOWN: u64 = 1000;

/// Sets of the calls of ji, by the calls' numbers.
#[derive(Clone, Copy)]
pub struct Calls(u8);

impl Calls {
    pub const STRIP: Calls = Calls(1);
    pub const NORMAL: Calls = Calls(1 << 2 | 1 << 3);
    pub const KHIN: Calls = Calls(1 << 4);
    pub const KEYS: Calls = Calls(1 << 6);
    /// The Rust compiles nine patterns at each of these calls, some 0.1 ms.
    pub const LETTER: Calls = Calls(1 << 1 | 1 << 5);
    pub const WRITING: Calls = Calls(1 | 1 << 2 | 1 << 3 | 1 << 6);
    pub const CHECKING: Calls = Calls(0x6F);
    pub const ALL: Calls = Calls(0x7F);

    fn has(self, number: usize) -> bool {
        self.0 >> number & 1 == 1
    }
}

/// The hand-tuned version has most of the calls.
struct Tuned;

impl Tuned {
    fn has(number: usize) -> bool {
        !matches!(NAMES[number], "strip_khin" | "has_tone_letter" | "keys")
    }
}

impl Subject for Tuned {
    fn name(&self) -> &'static str {
        "hand-tuned Rust"
    }

    fn call(&self, question: Question, out: &mut [u8]) -> Reply {
        let Question { call, text, second } = question;
        match call {
            Call::Strip => tuned::strip(text, out),
            Call::ToneLetter => tuned::tone_letter(text),
            Call::Nfd => tuned::nfd(text, out),
            Call::Nfc => tuned::nfc(text, out),
            Call::FromRaw => tuned::from_raw(text, out),
            Call::Compose { tone, khin } => tuned::compose(text, second, tone, khin, out),
            Call::Candidate { position } => tuned::candidate(text, position, out),
            Call::Keying { kind, position } => tuned::keying(text, kind, position, out),
            Call::Telex { key, mode } => tuned::telex(text, key, mode, second.try_into().unwrap(), out),
            Call::Align => tuned::align(text, second, out),
            Call::Listing { from } => tuned::listing(text, from, out),
            Call::StripKhin | Call::HasToneLetter | Call::Keys { .. } => unreachable!(),
        }
    }
}

#[derive(Clone, Copy, Default)]
struct Tally {
    /// Questions: texts with the call's numbers.
    inputs: u64,
    accepted: u64,
    /// Inputs refused with 1 to 6 whatever buffer is lent.
    refused: [u64; 7],
    chance: u64,
    calls: u64,
    /// Calls refused with 7.
    no_room: u64,
    differences: u64,
    tuned_differences: u64,
}

pub struct Run<'a> {
    subject: &'a dyn Subject,
    slab: Slab,
    tallies: [Tally; NAMES.len()],
    digest: Digest,
    families: Vec<(&'static str, u64)>,
    /// Entries that are not refused, and those of them whose whole list the Rust made.
    entries: (u64, u64),
}

impl<'a> Run<'a> {
    pub fn new(subject: &'a dyn Subject) -> Run<'a> {
        Run {
            subject,
            slab: Slab::new(),
            tallies: [Tally::default(); NAMES.len()],
            digest: Digest::new(),
            families: Vec::new(),
            entries: (0, 0),
        }
    }

    /// Gives a text to some of the calls of ji; keys in both forms and all kinds.
    pub fn feed(&mut self, calls: Calls, text: &[u8]) {
        for call in
            [Call::Strip, Call::ToneLetter, Call::Nfd, Call::Nfc, Call::StripKhin, Call::HasToneLetter]
        {
            if calls.has(call.number()) {
                self.ask(call.of(text));
            }
        }
        if calls.has(6) {
            for form in 0..2 {
                self.feed_keys(text, form);
            }
        }
    }

    fn feed_keys(&mut self, text: &[u8], form: u64) {
        let kinds = (0..3).map(|kind| Call::Keys { form, kind });
        match rules::text(text) {
            Ok(good) => {
                for (call, answer) in kinds.zip(oracle::keys(good, form)) {
                    self.check(call.of(text), &answer);
                }
            }
            Err(_) => kinds.for_each(|call| self.ask(call.of(text))),
        }
    }

    /// Makes one call, with several buffers lent.
    pub fn ask(&mut self, question: Question) {
        self.check(question, &oracle::answer(question));
    }

    /// The same, where the answer is known already.
    pub fn check(&mut self, question: Question, answer: &Answer) {
        self.count(question, answer);
        for room in rooms(question.call, answer) {
            self.check_with(question, room, &answer.within(room));
        }
    }

    fn count(&mut self, question: Question, answer: &Answer) {
        let tally = &mut self.tallies[question.call.number()];
        tally.inputs += 1;
        tally.chance += answer.chance as u64;
        match answer.reply.code {
            0 => tally.accepted += 1,
            code => tally.refused[code as usize] += 1,
        }
    }

    /// A listing, whose answer belongs to one buffer.
    pub fn check_listing(&mut self, question: Question, room: usize, answer: &Answer) {
        if !crate::LISTS {
            return;
        }
        self.count(question, answer);
        self.check_with(question, room, answer);
    }

    fn check_with(&mut self, question: Question, room: usize, want: &Answer) {
        let number = question.call.number();
        let seen = self.slab.call(self.subject, question, room, want);
        for field in seen.reply.fields() {
            self.digest.add(&field.to_le_bytes());
        }
        self.digest.add(&seen.out);
        let tally = &mut self.tallies[number];
        tally.calls += 1;
        tally.no_room += (want.reply.code == 7) as u64;
        note(&mut tally.differences, self.subject, question, room, want, &seen);
        if Tuned::has(number) {
            let seen = self.slab.call(&Tuned, question, room, want);
            note(&mut tally.tuned_differences, &Tuned, question, room, want, &seen);
        }
    }

    /// Counts an entry and whether the Rust made its whole list.
    pub fn count_entry(&mut self, whole: bool) {
        self.entries.0 += 1;
        self.entries.1 += whole as u64;
    }

    /// Notes how many inputs the family that just ended brought.
    fn family(&mut self, name: &'static str) {
        let before: u64 = self.families.iter().map(|family| family.1).sum();
        let all: u64 = self.tallies.iter().map(|tally| tally.inputs).sum();
        self.families.push((name, all - before));
        eprintln!("{name}: {} inputs", all - before);
    }

    pub fn differences(&self) -> u64 {
        self.tallies.iter().map(|tally| tally.differences + tally.tuned_differences).sum()
    }

    pub fn print(&self, seed: u64) {
        println!(
            "both sides on the same bytes: {} against the unchanged Rust; seed {seed}",
            self.subject.name()
        );
        println!();
        println!("| family | inputs |\n|---|---:|");
        for (name, inputs) in &self.families {
            println!("| {name} | {inputs} |");
        }
        println!();
        self.print_calls();
        println!();
        println!(
            "hash order: inputs whose answer the Rust draws by chance; ours is that of document 01's order,"
        );
        println!("the Rust's was one of its orders', in all of them but those counted as other differences.");
        println!(
            "entries that are not refused: {}; of {} of them the Rust made its whole lists, which were held to ours",
            self.entries.0, self.entries.1
        );
        println!("position by position; of the others it made the forms of each part.");
        println!("digest of all answers (FNV-1a, 64 bits): {:016x}", self.digest.0);
    }

    fn print_calls(&self) {
        println!("| call | inputs | accepted | refused 1 | 2 | 3 | 4 | 5 | 6 | calls | of these refused 7 | hash order | other differences | hand-tuned: differences |");
        println!("|---|---:|---:|---:|---:|---:|---:|---:|---:|---:|---:|---:|---:|---:|");
        let mut sum = Tally::default();
        for (number, tally) in self.tallies.iter().enumerate() {
            row(NAMES[number], tally, Tuned::has(number));
            sum = added(sum, tally);
        }
        row("all", &sum, true);
    }
}

/// Counts a difference, and prints it if there were not too many.
fn note(count: &mut u64, who: &dyn Subject, question: Question, room: usize, want: &Answer, seen: &Seen) {
    if let Some(wrong) = seen.wrong {
        *count += 1;
        if *count <= SHOWN {
            show(who.name(), question, room, wrong, want, seen);
        }
    }
}

/// Lent buffers: roomy, exactly full, one byte short; some and none for a refusal.
fn rooms(call: Call, answer: &Answer) -> Vec<usize> {
    let size = answer.out.len();
    if !call.writes() {
        vec![0]
    } else if answer.reply.code != 0 {
        vec![40, 0]
    } else if size == 0 {
        vec![9, 0]
    } else {
        vec![size + 9, size, size - 1]
    }
}

fn added(a: Tally, b: &Tally) -> Tally {
    let mut refused = a.refused;
    for (mine, other) in refused.iter_mut().zip(b.refused) {
        *mine += other;
    }
    Tally {
        inputs: a.inputs + b.inputs,
        accepted: a.accepted + b.accepted,
        refused,
        chance: a.chance + b.chance,
        calls: a.calls + b.calls,
        no_room: a.no_room + b.no_room,
        differences: a.differences + b.differences,
        tuned_differences: a.tuned_differences + b.tuned_differences,
    }
}

fn row(name: &str, tally: &Tally, tuned: bool) {
    let refused: String = tally.refused[1..].iter().map(|count| format!(" {count} |")).collect();
    let tuned = if tuned { tally.tuned_differences.to_string() } else { "-".to_string() };
    println!(
        "| {name} | {} | {} |{refused} {} | {} | {} | {} | {tuned} |",
        tally.inputs, tally.accepted, tally.calls, tally.no_room, tally.chance, tally.differences
    );
}

fn hex(bytes: &[u8]) -> String {
    bytes.iter().map(|byte| format!("{byte:02x}")).collect()
}

/// One difference in full.
pub fn show(who: &str, question: Question, room: usize, wrong: &str, want: &Answer, seen: &Seen) {
    let Question { call, text, second } = question;
    println!(
        "DIFFERENCE {who} {call:?} in {wrong}: text {} ({:?}), {room} bytes lent",
        hex(text),
        String::from_utf8_lossy(text)
    );
    if !second.is_empty() {
        println!("  second text {} ({:?})", hex(second), String::from_utf8_lossy(second));
    }
    println!("  expected {:?} {}", want.reply.fields(), hex(&want.out));
    println!("  answered {:?} {}", seen.reply.fields(), hex(&seen.out));
}

/// Everything that is compared or, of the calls of khiin, one alone.
pub fn run<'a>(subject: &'a dyn Subject, seed: u64, only: Option<&str>) -> Run<'a> {
    let mut run = Run::new(subject);
    if only.is_none() {
        of_ji::run(&mut run, seed);
    }
    of_khiin::run(&mut run, seed, only);
    run
}

#[cfg(test)]
mod tests;
