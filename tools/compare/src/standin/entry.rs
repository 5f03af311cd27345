//! Entries and listings after document 01.

use super::{keys, written};
use crate::call::Reply;
use crate::rules;

/// For each part of an entry the choices of a kind.
fn choices(entry: &str, kind: u64) -> Vec<Vec<String>> {
    let parts: Vec<&str> = entry.split(' ').collect();
    if let [part] = parts[..] {
        return vec![alone(part, kind)];
    }
    parts.iter().map(|part| of_several(part, kind)).collect()
}

/// One part: the plain form, and the `_oo` form too if the two detoned differ.
fn alone(part: &str, kind: u64) -> Vec<String> {
    let forms = if keys(part, 0, 0) == keys(part, 1, 0) { 0..1 } else { 0..2 };
    forms.map(|form| keys(part, form, kind)).collect()
}

/// A part of several: toned, then detoned; with 0358 in both forms.
fn of_several(part: &str, kind: u64) -> Vec<String> {
    let forms = if part.contains('\u{358}') { 0..2 } else { 0..1 };
    let toned = forms.clone().map(|form| keys(part, form, kind));
    let detoned = forms.clone().map(|form| keys(part, form, 0));
    if kind == 0 {
        detoned.collect()
    } else {
        toned.chain(detoned).collect()
    }
}

fn count(choices: &[Vec<String>]) -> u64 {
    choices.iter().map(|list| list.len() as u64).product()
}

/// The keying at a position below the count: `size` is how many keyings the
/// parts behind the one at hand have together.
fn at(choices: &[Vec<String>], position: u64) -> String {
    let mut size = count(choices);
    let mut left = position;
    let mut keying = String::new();
    for list in choices {
        size /= list.len() as u64;
        keying.push_str(&list[(left / size) as usize]);
        left %= size;
    }
    keying
}

pub fn keying(entry: &str, kind: u64, position: u64, out: &mut [u8]) -> Reply {
    let choices = choices(entry, kind);
    let count = count(&choices);
    if position >= count {
        return Reply::refusal(6);
    }
    written(&at(&choices, position), Reply { count, ..Reply::default() }, out)
}

/// The line of a number, if the listing has it.
fn line(entry: &str, lists: &[(char, Vec<Vec<String>>)], number: u64) -> Option<String> {
    if number == 0 {
        let parts = entry.split(' ');
        let dotted = parts.clone().filter(|part| part.contains('\u{358}')).count();
        let counts: String = lists.iter().map(|(_, choices)| format!(" {}", count(choices))).collect();
        return Some(format!("{} {dotted}{counts}\n", parts.count()));
    }
    let mut position = number - 1;
    for (letter, choices) in lists {
        if position < count(choices) {
            return Some(format!("{letter} {position} {}\n", at(choices, position)));
        }
        position -= count(choices);
    }
    None
}

pub fn listing(entry: &[u8], from: u64, out: &mut [u8]) -> Reply {
    match rules::entry(entry) {
        Err(code) => listed(from, out, |number| (number == 0).then(|| format!("refused {code}\n"))),
        Ok(entry) => {
            let lists = [('N', 1), ('T', 2), ('D', 0)].map(|(letter, kind)| (letter, choices(entry, kind)));
            listed(from, out, |number| line(entry, &lists, number))
        }
    }
}

/// Whole lines from the number `from` on, as many as fit.
fn listed(from: u64, out: &mut [u8], line: impl Fn(u64) -> Option<String>) -> Reply {
    let (mut size, mut number) = (0, from);
    while let Some(line) = line(number).filter(|line| size + line.len() <= out.len()) {
        out[size..size + line.len()].copy_from_slice(line.as_bytes());
        size += line.len();
        number += 1;
    }
    Reply { length: size as u64, count: number - from, position: number, ..Reply::default() }
}
