//! How the cost of a call grows with the bytes of its text and the parts of its entry.

use super::driver::Time;
use super::job::{self, Job, Row, What};
use super::plot::{self, Curve, Panel, Side};
use super::report::{grouped, number, Report};
use super::texts;
use khiin::Syllable;

const SIZES: [usize; 13] = [1, 2, 4, 8, 16, 32, 64, 96, 128, 160, 192, 224, 256];
const CALLS: [&str; 7] = ["strip", "tone_letter", "from_raw", "compose", "candidate", "align", "telex"];
const PARTS: usize = 16;

/// What the texts are made of.
#[derive(Clone, Copy, PartialEq)]
enum Made {
    /// Syllables with marks or, of raw keys, with pairs that are respelled.
    Syllables,
    /// ASCII letters without anything to strip or to respell.
    Letters,
}

/// A call on a text of so many bytes.
fn job(call: &str, made: Made, size: usize) -> Job {
    let (text, keys) = match made {
        Made::Syllables => (texts::syllables(size), texts::keys(size)),
        Made::Letters => (texts::letters(size), texts::plain_keys(size)),
    };
    match call {
        "strip" => Job::new(call, What::Strip, &text),
        "tone_letter" => Job::new(call, What::ToneLetter, &text),
        "from_raw" => Job::new(call, What::FromRaw, &keys),
        "compose" if size == 1 => Job::new(call, What::Compose(2), "o").and("o"),
        "compose" => Job::composing(call, &keys),
        "candidate" => Job::new(call, What::Candidate(0), &text),
        "align" => {
            let raw = Syllable::from_composed(&text)[0].raw().to_string();
            Job::new(call, What::Align, &raw[..raw.len().min(256)]).and(&text)
        }
        // Tone 6, which none of the texts has, so that the key is typed behind all of them alike.
        "telex" => Job::new(call, What::Telex(b'x' as u64), &text),
        _ => unreachable!(),
    }
}

/// The rows of one call, by the sizes.
type Grown = Vec<Row>;

fn by_bytes(made: Made, name: &'static str, report: &mut Report) -> Vec<Grown> {
    let mut all = Vec::new();
    for call in CALLS {
        eprintln!("growth: {call}, {name}");
        let rows: Grown = SIZES.iter().map(|&size| job(call, made, size).measure()).collect();
        for (row, &size) in rows.iter().zip(&SIZES) {
            report.row(name, call, size, row);
        }
        all.push(rows);
    }
    report.table(name, bytes_table(&all));
    all
}

/// One line for each size, a column for each call, its three sides in one cell.
fn bytes_table(all: &[Grown]) -> String {
    let mut table = format!("| bytes | {} |\n|---:|{}\n", CALLS.join(" | "), "---:|".repeat(CALLS.len()));
    for (at, size) in SIZES.iter().enumerate() {
        let cells: Vec<String> = all.iter().map(|rows| cell(&rows[at], |time| time.median)).collect();
        table += &format!("| {size} | {} |\n", cells.join(" | "));
    }
    let (half, last) = (SIZES.iter().position(|&size| size == 128).expect("a size"), SIZES.len() - 1);
    let cells: Vec<String> = all.iter().map(|rows| slope(&rows[half], &rows[last])).collect();
    table + &format!("| a byte more, from 128 on | {} |\n", cells.join(" | "))
}

fn cell(row: &Row, value: impl Fn(Time) -> f64) -> String {
    let sides = [row.archive, Some(row.tuned), row.rust];
    sides.map(|time| number(time.map(&value))).join(" / ")
}

fn slope(half: &Row, last: &Row) -> String {
    let each = |half: Option<Time>, last: Option<Time>| {
        let cost = half.zip(last).map(|(half, last)| (last.median - half.median) / 128.0);
        cost.map_or("-".to_string(), |cost| format!("{cost:.2}"))
    };
    let sides = [(half.archive, last.archive), (Some(half.tuned), Some(last.tuned)), (half.rust, last.rust)];
    sides.map(|(half, last)| each(half, last)).join(" / ")
}

/// The rows of one number of parts.
struct Parts {
    entry: Vec<u8>,
    keyings: u64,
    one: Row,
    /// For each keying of all.
    by_call: Row,
    by_listing: Row,
}

impl Parts {
    fn measure(parts: usize) -> Parts {
        let entry = vec!["t\u{e2}i"; parts].join(" ");
        let new = |what, rust| Job { rust, ..Job::new("", what, &entry) };
        let keyings = job::count(entry.as_bytes());
        Parts {
            one: new(What::Keying(1, 0), false).measure(),
            by_call: new(What::EveryKeying, true).measure().each(keyings),
            by_listing: new(What::Listing, false).measure().each(keyings),
            keyings,
            entry: entry.into_bytes(),
        }
    }

    fn line(&self, parts: usize) -> String {
        let cells = [
            self.one.archive,
            Some(self.one.tuned),
            self.by_call.archive,
            Some(self.by_call.tuned),
            self.by_listing.archive,
            Some(self.by_listing.tuned),
            self.by_call.rust,
        ];
        let cells = cells.map(|time| number(time.map(|time| time.median))).join(" | ");
        format!("| {parts} | {} | {} | {cells} |\n", self.entry.len(), grouped(self.keyings))
    }
}

const PARTS_HEAD: &str = "| parts | bytes | keyings | archive, keying N 0 | hand-tuned, keying N 0 \
| archive, call by call | hand-tuned, call by call | archive, listing | hand-tuned, listing | Rust |
|---:|---:|---:|---:|---:|---:|---:|---:|---:|---:|
";

fn by_parts(report: &mut Report) -> Vec<Parts> {
    let mut table = PARTS_HEAD.to_string();
    let mut all = Vec::new();
    for parts in 1..=PARTS {
        eprintln!("growth: entries of {parts} parts");
        let row = Parts::measure(parts);
        report.row("parts", "keying N 0", parts, &row.one);
        report.row("parts", "a keying of all, call by call", parts, &row.by_call);
        report.row("parts", "a keying of all, by listing", parts, &row.by_listing);
        table += &row.line(parts);
        all.push(row);
    }
    report.table("parts", table);
    all
}

pub fn run(report: &mut Report) {
    let syllables = by_bytes(Made::Syllables, "bytes of syllables", report);
    let letters = by_bytes(Made::Letters, "bytes of letters", report);
    report.plot("growth-bytes.svg", bytes_plot(&syllables, &letters));
    let parts = by_parts(report);
    report.plot("growth-parts.svg", parts_plot(&parts));
    let rows = |grown: &[Grown]| grown.concat();
    sum_up("1 to 256 bytes of syllables, all calls", &rows(&syllables), report);
    sum_up("1 to 256 bytes of letters, all calls", &rows(&letters), report);
    let by_call: Vec<Row> = parts.iter().map(|row| row.by_call).collect();
    let by_listing: Vec<Row> =
        parts.iter().map(|row| Row { rust: row.by_call.rust, ..row.by_listing }).collect();
    sum_up("1 to 16 parts, all keyings call by call", &by_call, report);
    sum_up("1 to 16 parts, all keyings by listing", &by_listing, report);
}

/// How many rows are ahead of the Rust, and how many within twice the hand-tuned one.
fn sum_up(title: &str, rows: &[Row], report: &mut Report) {
    let ours = |row: &Row| row.archive.map(|time| time.median);
    if rows.iter().all(|row| ours(row).is_none()) {
        return;
    }
    let ahead = |row: &&Row| ours(row).zip(row.rust).is_some_and(|(ours, rust)| ours < rust.median);
    let within = |row: &&Row| ours(row).is_some_and(|ours| ours <= 2.0 * row.tuned.median);
    report.sum_up(&format!(
        "- {title}: {} of {} points ahead of the Rust, {} within twice the hand-tuned Rust.",
        rows.iter().filter(ahead).count(),
        rows.len(),
        rows.iter().filter(within).count()
    ));
}

/// A curve for each side that was measured.
fn curves(rows: &[&Row], at: &[f64], dashed: bool) -> Vec<Curve> {
    let mut all = Vec::new();
    for side in [Side::Archive, Side::Tuned, Side::Rust] {
        let time = |row: &Row| match side {
            Side::Archive => row.archive,
            Side::Tuned => Some(row.tuned),
            Side::Rust => row.rust,
        };
        let points: Vec<(f64, f64)> =
            rows.iter().zip(at).filter_map(|(row, &x)| time(row).map(|time| (x, time.median))).collect();
        if !points.is_empty() {
            all.push(Curve { side, dashed, points });
        }
    }
    all
}

fn bytes_plot(syllables: &[Grown], letters: &[Grown]) -> String {
    let at = SIZES.map(|size| size as f64);
    let panels: Vec<Panel> = CALLS
        .iter()
        .zip(syllables.iter().zip(letters))
        .map(|(call, (syllables, letters))| {
            let mut all = curves(&syllables.iter().collect::<Vec<_>>(), &at, false);
            all.extend(curves(&letters.iter().collect::<Vec<_>>(), &at, true));
            Panel { title: call.to_string(), curves: all }
        })
        .collect();
    plot::by_bytes(&panels)
}

fn parts_plot(parts: &[Parts]) -> String {
    let at: Vec<f64> = (1..=parts.len()).map(|parts| parts as f64).collect();
    let one: Vec<&Row> = parts.iter().map(|row| &row.one).collect();
    let by_call: Vec<&Row> = parts.iter().map(|row| &row.by_call).collect();
    let by_listing: Vec<&Row> = parts.iter().map(|row| &row.by_listing).collect();
    let mut all = curves(&by_call, &at, false);
    all.extend(curves(&by_listing, &at, true));
    plot::by_parts(&[
        Panel { title: "one keying: numeric, position 0".into(), curves: curves(&one, &at, false) },
        Panel { title: "all keyings: time divided by their number".into(), curves: all },
    ])
}

#[cfg(test)]
mod tests {
    use super::*;

    #[test]
    fn every_text_is_accepted_and_has_its_size() {
        for call in CALLS {
            for made in [Made::Syllables, Made::Letters] {
                for size in SIZES {
                    let job = job(call, made, size);
                    job.check();
                    let text = if call == "align" { &job.second } else { &job.text };
                    assert_eq!(text.len(), size, "{call}");
                }
            }
        }
    }
}
