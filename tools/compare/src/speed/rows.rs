//! The table of calls: short and long inputs, refused ones.

use super::job::{Job, Row, What};
use super::report::{number, ratio, Report};
use super::texts::{self, FOUR, SIXTEEN, TWO};
use khiin::Syllable;
use khiin_ji::unicode_normalization::UnicodeNormalization;

/// Rows under one heading of the summary.
pub struct Group {
    pub title: &'static str,
    pub jobs: Vec<Job>,
}

/// Every row; the listing where the archive has it.
pub fn groups() -> Vec<Group> {
    let mut calls = of_ji();
    calls.extend(of_syllables());
    calls.extend(of_telex());
    calls.extend(of_alignment());
    calls.extend(of_entries());
    let mut all = vec![
        Group { title: "calls", jobs: calls },
        Group { title: "refused", jobs: refused() },
        Group { title: "NFD and NFC, which C has not", jobs: normal() },
    ];
    for group in &mut all {
        group.jobs.retain(|job| crate::LISTS || job.what != What::Listing);
    }
    all
}

fn of_ji() -> Vec<Job> {
    let strip = |name, text: &str| Job::new(name, What::Strip, text);
    let letter = |name, text: &str| Job::new(name, What::ToneLetter, text);
    vec![
        strip("strip `o\u{e2}n`", "o\u{e2}n"),
        strip("strip `ho\u{e1}n`", "ho\u{e1}n"),
        strip("strip `chhiong`", "chhiong"),
        strip("strip `chia\u{30d}h`", "chia\u{30d}h"),
        strip("strip `n\u{302}g`", "n\u{302}g"),
        strip("strip `m\u{304}`", "m\u{304}"),
        strip("strip syllables", &texts::syllables(210)),
        strip("strip letters", &texts::letters(210)),
        letter("tone_letter `hoan`", "hoan"),
        letter("tone_letter `chhiong`", "chhiong"),
        letter("tone_letter `ng`", "ng"),
        letter("tone_letter `kho\u{358}`", "kho\u{358}"),
        letter("tone_letter syllables", &texts::syllables(210)),
        letter("tone_letter letters", &texts::letters(210)),
    ]
}

fn of_syllables() -> Vec<Job> {
    let candidate = |name, position, text: &str| Job::new(name, What::Candidate(position), text);
    vec![
        Job::new("from_raw `hoan2`", What::FromRaw, "hoan2"),
        Job::new("from_raw keys", What::FromRaw, &texts::keys(210)),
        Job::composing("compose `hoan2`", "hoan2"),
        Job::composing("compose `oo2`", "oo2"),
        Job::composing("compose `eo8`", "eo8"),
        Job::composing("compose `chhiunn5`", "chhiunn5"),
        Job::composing("compose `tek4`", "tek4"),
        Job::composing("compose keys", &texts::keys(210)),
        Job::composing("compose letters", &texts::plain_keys(210)),
        candidate("candidate 0 of `o\u{e2}n`", 0, "o\u{e2}n"),
        candidate("candidate 0 of `\u{f3}\u{358}`", 0, "\u{f3}\u{358}"),
        candidate("candidate 1 of `\u{f3}\u{358}`", 1, "\u{f3}\u{358}"),
        candidate("candidate 0 of syllables", 0, &texts::syllables(210)),
        candidate("candidate 0 of letters", 0, &texts::letters(210)),
    ]
}

fn of_telex() -> Vec<Job> {
    let telex = |name, text: &str, key: u8| Job::new(name, What::Telex(key as u64), text);
    vec![
        telex("telex `hoan` and s", "hoan", b's'),
        telex("telex `o\u{358}` and s", "o\u{358}", b's'),
        telex("telex `o\u{358}` and o", "o\u{358}", b'o'),
        telex("telex `ah` and j", "ah", b'j'),
        telex("telex `soa\u{207f}` and l", "soa\u{207f}", b'l'),
        telex("telex `ho` and a", "ho", b'a'),
        telex("telex syllables and s", &texts::syllables(210), b's'),
        telex("telex letters and s", &texts::letters(210), b's'),
    ]
}

fn of_alignment() -> Vec<Job> {
    let align = |name, keys: &str, target: &str| Job::new(name, What::Align, keys).and(target);
    let (many, plain) = (texts::syllables(128), texts::letters(128));
    vec![
        align("align `hoan2` with `ho\u{e1}n`", "hoan2", "ho\u{e1}n"),
        align("align `oo2` with `\u{f3}\u{358}`", "oo2", "\u{f3}\u{358}"),
        align("align `kiah8` with `ho\u{e1}n`", "kiah8", "ho\u{e1}n"),
        align("align keys with syllables", Syllable::from_composed(&many)[0].raw(), &many),
        align("align keys with letters", Syllable::from_composed(&plain)[0].raw(), &plain),
    ]
}

fn of_entries() -> Vec<Job> {
    let keying = |name, kind, position, entry: &str| Job::new(name, What::Keying(kind, position), entry);
    vec![
        keying("keying N 0 of `chhiong`", 1, 0, "chhiong"),
        keying("keying N 1 of `t\u{e2}i o\u{e2}n`", 1, 1, TWO),
        keying("keying N 137 of the four parts", 1, 137, FOUR),
        keying("keying N 0 of the sixteen parts", 1, 0, SIXTEEN),
        keying("keying T 65,535 of the sixteen parts", 2, 65_535, SIXTEEN),
        keying("keying D 0 of the sixteen parts", 0, 0, SIXTEEN),
        Job::new("every keying of `t\u{e2}i o\u{e2}n`", What::EveryKeying, TWO),
        Job::new("every keying of the four parts", What::EveryKeying, FOUR),
        Job::new("listing of `t\u{e2}i o\u{e2}n`", What::Listing, TWO),
        Job::new("listing of the four parts", What::Listing, FOUR),
        Job::new("listing of the sixteen parts", What::Listing, SIXTEEN),
    ]
}

/// Each call refused at once, at the end of a long text, and for each reason.
fn refused() -> Vec<Job> {
    let bad = |name: &str, refusal, what, text: &[u8], second: &str| Job {
        name: format!("{name}: {refusal}"),
        text: text.to_vec(),
        refusal,
        rust: false,
        ..Job::new("", what, "").and(second)
    };
    let long = texts::syllables(254);
    let ill_formed = [long.as_bytes(), &[0xC3]].concat();
    let outside = long.clone() + "\u{250}";
    let parts = vec!["t\u{e2}i"; 17].join(" ");
    let entry = vec![b'a'; 1025];
    let over = texts::syllables(257);
    let mut all = vec![
        bad("strip, ill-formed", 3, What::Strip, b"ho\xC3", ""),
        bad("strip, ill-formed at the end", 3, What::Strip, &ill_formed, ""),
        bad("strip, outside the table at the end", 4, What::Strip, outside.as_bytes(), ""),
        bad("strip, 257 bytes", 2, What::Strip, over.as_bytes(), ""),
        bad("tone_letter, ill-formed at the end", 3, What::ToneLetter, &ill_formed, ""),
        bad("tone_letter, 257 bytes", 2, What::ToneLetter, over.as_bytes(), ""),
        bad("from_raw, a byte above 7F", 4, What::FromRaw, "ho\u{e1}n".as_bytes(), ""),
        bad("compose, tone 10", 1, What::Compose(10), b"hoan2", "hoan"),
        bad("compose, ill-formed at the end", 3, What::Compose(2), &ill_formed, "hoan"),
        bad("candidate 1 of `o\u{e2}n`", 6, What::Candidate(1), "o\u{e2}n".as_bytes(), ""),
        bad("telex, ill-formed at the end", 3, What::Telex(b's' as u64), &ill_formed, ""),
        bad("telex, key 7F", 1, What::Telex(0x7F), b"hoan", ""),
        bad("align, 257 bytes of target", 2, What::Align, b"hoan2", &over),
        bad("keying, 17 parts", 5, What::Keying(1, 0), parts.as_bytes(), ""),
        bad("keying, 1,025 bytes", 2, What::Keying(1, 0), &entry, ""),
        bad("keying N 4 of `t\u{e2}i o\u{e2}n`", 6, What::Keying(1, 4), TWO.as_bytes(), ""),
        bad("keying, kind 3", 1, What::Keying(3, 0), TWO.as_bytes(), ""),
    ];
    let narrow = bad("strip `ho\u{e1}n`, 3 bytes lent", 7, What::Strip, "ho\u{e1}n".as_bytes(), "");
    all.push(Job { room: 3, ..narrow });
    all
}

fn normal() -> Vec<Job> {
    let mut all = Vec::new();
    for (name, what) in [("NFD of syllables", What::Nfd), ("NFC of syllables", What::Nfc)] {
        all.extend([3, 32, 210].map(|size| Job::new(name, what, &texts::syllables(size))));
    }
    // Decomposed, 200 bytes come near 256.
    let decomposed = |size| texts::syllables(size).nfd().collect::<String>();
    let name = "NFC of decomposed syllables";
    all.extend([3, 32, 200].map(|size| Job::new(name, What::Nfc, &decomposed(size))));
    all
}

const HEAD: &str =
    "| call | bytes | archive | hand-tuned Rust | Rust | archive / hand-tuned | Rust / archive |
|---|---:|---:|---:|---:|---:|---:|
";

/// Measures the rows whose names contain `part`, and counts which of them reach
/// the aims.
pub fn run(part: &str, report: &mut Report) {
    let mut table = HEAD.to_string();
    for Group { title, jobs } in groups() {
        let mut reached = Reached::default();
        for job in jobs.iter().filter(|job| job.name.contains(part)) {
            eprintln!("{}", job.name);
            let row = job.measure();
            table += &line(job, &row);
            report.row("calls", &job.name, job.bytes(), &row);
            reached.add(job, &row);
        }
        reached.sum_up(title, report);
    }
    report.table("calls", table);
}

fn line(job: &Job, row: &Row) -> String {
    let ours = row.archive.map(|time| time.median);
    let (tuned, rust) = (row.tuned.median, row.rust.map(|time| time.median));
    format!(
        "| {} | {} | {} | {} | {} | {} | {} |\n",
        job.name,
        job.bytes(),
        number(ours),
        number(Some(tuned)),
        number(rust),
        ratio(ours, Some(tuned)),
        ratio(rust, ours)
    )
}

/// How many rows are ahead of the Rust, and how many within twice the hand-tuned one.
#[derive(Default)]
struct Reached {
    against_rust: usize,
    against_tuned: usize,
    behind: Vec<String>,
    above: Vec<String>,
}

impl Reached {
    fn add(&mut self, job: &Job, row: &Row) {
        let Some(ours) = row.archive.map(|time| time.median) else { return };
        let name = format!("{}, {} bytes", job.name, job.bytes());
        if let Some(rust) = row.rust {
            self.against_rust += 1;
            if ours >= rust.median {
                self.behind.push(format!("{name} ({:.2} of its speed)", rust.median / ours));
            }
        }
        self.against_tuned += 1;
        let over = ours / row.tuned.median;
        if over > 2.0 {
            self.above.push(format!("{name} ({over:.2})"));
        }
    }

    fn sum_up(&self, title: &str, report: &mut Report) {
        if self.against_rust > 0 {
            let ahead = self.against_rust - self.behind.len();
            let text = format!("- {title}: {ahead} of {} rows ahead of the Rust", self.against_rust);
            report.sum_up(&(text + &but(&self.behind)));
        }
        if self.against_tuned > 0 {
            let within = self.against_tuned - self.above.len();
            let text =
                format!("- {title}: {within} of {} within twice the hand-tuned Rust", self.against_tuned);
            report.sum_up(&(text + &but(&self.above)));
        }
    }
}

/// The rows that miss an aim, with which a sentence ends.
fn but(missed: &[String]) -> String {
    if missed.is_empty() {
        return ".".to_string();
    }
    format!("; not: {}.", missed.join("; "))
}

#[cfg(test)]
mod tests {
    use super::*;

    #[test]
    fn every_row_is_accepted_or_refused_as_it_says() {
        for job in groups().iter().flat_map(|group| &group.jobs) {
            job.check();
        }
    }
}
