//! What was measured: tables for a page, lines for programs, a few sentences.

use super::driver::Time;
use super::job::Row;
use std::fs;
use std::io;
use std::path::Path;

/// What a run has to tell. Tables go to the page by their names.
#[derive(Default)]
pub struct Report {
    tables: Vec<(&'static str, String)>,
    /// Plots, by the names of their files.
    plots: Vec<(&'static str, String)>,
    rows: String,
    summary: String,
}

/// Four figures are more than a run repeats.
pub fn number(value: Option<f64>) -> String {
    match value {
        None => "-".to_string(),
        Some(value) if value < 999.95 => format!("{value:.1}"),
        Some(value) => grouped(value.round() as u64),
    }
}

/// A whole number with commas between its thousands.
pub fn grouped(value: u64) -> String {
    match value {
        0..=999 => value.to_string(),
        _ => format!("{},{:03}", grouped(value / 1000), value % 1000),
    }
}

pub fn ratio(above: Option<f64>, below: Option<f64>) -> String {
    match (above, below) {
        (Some(above), Some(below)) if above / below < 99.995 => format!("{:.2}", above / below),
        (Some(above), Some(below)) => grouped((above / below).round() as u64),
        _ => "-".to_string(),
    }
}

/// The names of the tables of the page.
const TABLES: [&str; 6] = ["summary", "calls", "entries", "bytes of syllables", "bytes of letters", "parts"];

/// Whether the page in a folder has the marks of every table, before anything is measured.
pub fn check_page(folder: &Path) -> io::Result<()> {
    let page = fs::read_to_string(folder.join(PAGE))
        .map_err(|error| io::Error::new(error.kind(), format!("{PAGE}: {error}")))?;
    TABLES.iter().try_for_each(|name| replaced(&page, name, "").map(drop))
}

const PAGE: &str = "SPEED.md";

impl Report {
    pub fn table(&mut self, name: &'static str, text: String) {
        self.tables.push((name, text));
    }

    pub fn plot(&mut self, file: &'static str, text: String) {
        self.plots.push((file, text));
    }

    /// One more point of the summary.
    pub fn sum_up(&mut self, point: &str) {
        self.summary += &wrapped(point);
    }

    /// The three sides of a row, a line for each.
    pub fn row(&mut self, table: &str, name: &str, size: usize, row: &Row) {
        let sides = [("archive", row.archive), ("hand-tuned", Some(row.tuned)), ("Rust", row.rust)];
        for (side, time) in sides {
            self.time(table, name, size, side, time);
        }
    }

    pub fn time(&mut self, table: &str, name: &str, size: usize, side: &str, time: Option<Time>) {
        if let Some(Time { median, low, high }) = time {
            self.rows += &format!("{table}\t{name}\t{size}\t{side}\t{median:.2}\t{low:.2}\t{high:.2}\n");
        }
    }

    pub fn print(&self) {
        for (_, text) in &self.tables {
            println!("{text}");
        }
        print!("{}", self.summary);
    }

    /// Puts the tables between their marks in the page, and writes the other files.
    pub fn write(&self, folder: &Path) -> io::Result<()> {
        let page = folder.join(PAGE);
        let mut text = fs::read_to_string(&page)?;
        for (name, table) in &self.tables {
            text = replaced(&text, name, table)?;
        }
        text = replaced(&text, "summary", &self.summary)?;
        fs::write(page, text)?;
        for (file, plot) in &self.plots {
            fs::write(folder.join(file), plot)?;
        }
        fs::write(folder.join("speed.tsv"), format!("{COLUMNS}{}", self.rows))
    }
}

const COLUMNS: &str = "table\trow\tsize\tside\tmedian\ttenth percentile\tninetieth percentile\n";

/// A point of a list in lines of a width that is easy to read.
fn wrapped(point: &str) -> String {
    const WIDTH: usize = 170;
    let (mut text, mut width) = (String::new(), 0);
    for word in point.split(' ') {
        let size = word.chars().count();
        if width > 0 && width + 1 + size > WIDTH {
            text += "\n  ";
            width = 2;
        } else if width > 0 {
            text.push(' ');
            width += 1;
        }
        text += word;
        width += size;
    }
    text + "\n"
}

/// The page with another text between the marks of a name.
fn replaced(page: &str, name: &str, text: &str) -> io::Result<String> {
    let (begin, end) = (format!("<!-- {name}: measured -->\n"), format!("<!-- {name}: end -->"));
    let found = page.find(&begin).and_then(|from| {
        let from = from + begin.len();
        page[from..].find(&end).map(|size| (from, from + size))
    });
    match found {
        Some((from, to)) => Ok([&page[..from], text, &page[to..]].concat()),
        None => Err(io::Error::new(io::ErrorKind::InvalidData, format!("the page has no marks of {name}"))),
    }
}

#[cfg(test)]
mod tests {
    use super::*;

    #[test]
    fn numbers_as_the_page_has_them() {
        assert_eq!([number(None), number(Some(28.46)), number(Some(134_891.2))], ["-", "28.5", "134,891"]);
        assert_eq!(
            [grouped(7), grouped(999), grouped(1000), grouped(1_234_567)],
            ["7", "999", "1,000", "1,234,567"]
        );
        assert_eq!(ratio(Some(3.0), Some(2.0)), "1.50");
        assert_eq!(ratio(Some(3000.0), Some(2.0)), "1,500");
    }

    #[test]
    fn points_are_wrapped() {
        assert_eq!(wrapped("- a b"), "- a b\n");
        let long = "word ".repeat(40);
        let lines = wrapped(long.trim_end());
        assert!(lines.lines().all(|line| line.len() <= 170) && lines.lines().count() == 2);
        assert_eq!(lines.split_whitespace().count(), 40);
    }

    #[test]
    fn a_table_goes_between_its_marks() {
        let page = "a\n<!-- x: measured -->\nold\n<!-- x: end -->\nb\n";
        assert_eq!(replaced(page, "x", "new\n").unwrap(), page.replace("old", "new"));
        assert!(replaced(page, "y", "").is_err());
    }
}
