//! Gives the records of fixed lists to a subject.

use crate::call::{Subject, NAMES};
use crate::compare;
use crate::record::Record;
use crate::slab::Slab;
use std::fs;
use std::io;
use std::path::Path;

/// How many records there were of each call, and how many were answered otherwise.
#[derive(Default)]
pub struct Counts([(u64, u64); NAMES.len()]);

impl Counts {
    pub fn wrong(&self) -> u64 {
        self.0.iter().map(|count| count.1).sum()
    }

    /// A line for each call that there was, as the program that replays the lists prints it.
    pub fn print(&self) {
        for (name, (records, wrong)) in NAMES.iter().zip(self.0) {
            if records > 0 {
                println!("{name} {records} {wrong}");
            }
        }
    }
}

/// Replays a file.
pub fn file(subject: &dyn Subject, path: &Path, counts: &mut Counts) -> io::Result<()> {
    let bytes = fs::read(path)?;
    let (mut rest, mut slab) = (&bytes[..], Slab::new());
    while !rest.is_empty() {
        let broken = || {
            let at = bytes.len() - rest.len();
            io::Error::new(io::ErrorKind::InvalidData, format!("{}: broken at byte {at}", path.display()))
        };
        let (record, next) = Record::read(rest).ok_or_else(broken)?;
        let (question, room) = (record.question(), record.room);
        let seen = slab.call(subject, question, room, &record.want);
        let count = &mut counts.0[question.call.number()];
        count.0 += 1;
        if let Some(what) = seen.wrong {
            count.1 += 1;
            compare::show(subject.name(), question, room, what, &record.want, &seen);
        }
        rest = next;
    }
    Ok(())
}
