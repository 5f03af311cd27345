//! Unicode's NormalizationTest.txt within the table, as records for NFD and NFC.

use crate::call::{Call, Reply};
use crate::oracle::Answer;
use crate::record::Record;
use crate::rules;
use std::collections::BTreeSet;
use std::fs;
use std::io;
use std::path::Path;

/// The first three columns of a row: source, NFC, NFD.
type Row = [String; 3];

fn answer(text: &str) -> Answer {
    let reply = Reply { length: text.len() as u64, ..Reply::default() };
    Answer { reply, out: text.as_bytes().to_vec(), chance: false }
}

/// The buffer is exactly full.
fn add(to: &mut Vec<u8>, call: Call, text: &str, want: &str) {
    Record::new(call.of(text.as_bytes()), want.len(), &answer(want)).write(to);
}

fn column(field: &str) -> Option<String> {
    field.split(' ').map(|point| char::from_u32(u32::from_str_radix(point, 16).ok()?)).collect()
}

fn row(line: &str) -> Option<Row> {
    let mut fields = line.split(';');
    let mut next = || column(fields.next()?);
    Some([next()?, next()?, next()?])
}

/// The rows of the file whose first three columns lie inside the table, and
/// every single code point that Part 1 has a row for.
fn read(file: &str) -> (Vec<Row>, BTreeSet<char>) {
    let (mut rows, mut listed, mut part) = (Vec::new(), BTreeSet::new(), "");
    for line in file.lines() {
        if line.starts_with('@') {
            part = line;
            continue;
        }
        if line.is_empty() || line.starts_with('#') {
            continue;
        }
        let row = row(line).unwrap_or_else(|| panic!("not a row: {line}"));
        if part.starts_with("@Part1") {
            listed.extend(row[0].chars());
        }
        if row.iter().all(|text| text.chars().all(rules::inside)) {
            rows.push(row);
        }
    }
    (rows, listed)
}

/// Writes normalization.bin: by the file's rules NFC and NFD of all three
/// columns, and that a code point which Part 1 leaves out is unchanged.
pub fn write(file: &Path, folder: &Path) -> io::Result<()> {
    let (rows, listed) = read(&fs::read_to_string(file)?);
    let mut records = Vec::new();
    for [source, composed, decomposed] in &rows {
        for text in [source, composed, decomposed] {
            add(&mut records, Call::Nfc, text, composed);
            add(&mut records, Call::Nfd, text, decomposed);
        }
    }
    let unlisted: Vec<char> = rules::table().into_iter().filter(|point| !listed.contains(point)).collect();
    for point in &unlisted {
        add(&mut records, Call::Nfc, &point.to_string(), &point.to_string());
        add(&mut records, Call::Nfd, &point.to_string(), &point.to_string());
    }
    fs::create_dir_all(folder)?;
    fs::write(folder.join("normalization.bin"), &records)?;
    println!(
        "normalization.bin: {} rows and {} unchanged code points, {} records, {} bytes",
        rows.len(),
        unlisted.len(),
        6 * rows.len() + 2 * unlisted.len(),
        records.len()
    );
    Ok(())
}
