//! The keyings of an entry, kind by kind, and its listing: what the Rust makes
//! of each part, combined as document 01 says, and held to the whole list that
//! the Rust makes of the entry wherever that list is short enough to be made.

use crate::call::Reply;
use crate::oracle::{self, Answer};
use crate::rules;
use khiin::db::models::{keyings, Input, InputType, KeySequence};
use khiin_ji::lomaji;

/// The Rust makes its three lists whole up to so many keyings together.
const WHOLE: u64 = 1500;
/// Where hash order shows, the Rust's list is looked for among at most so many.
const TRIED: usize = 1024;

/// One form of one part, by the numbers of the kinds: detoned, numeric, telex.
type Form = [String; 3];

/// One part of an entry.
struct Part {
    /// Whether it holds 0358.
    dotted: bool,
    /// The plain form and the `_oo` form in document 01's order of replacements.
    forms: [Form; 2],
    /// What hash order can make of each of the two.
    outcomes: [Vec<Form>; 2],
}

impl Part {
    fn of(text: &str) -> Part {
        let forms = [0, 1].map(|form| chosen(text, form));
        let (rest, _) = lomaji::strip_tone_diacritic(text);
        let outcomes = [0, 1].map(|form| {
            if oracle::depends_on_order(&rest, form as u64) {
                oracle::outcomes(&rest, form as u64).iter().map(|bare| like(&forms[form], bare)).collect()
            } else {
                vec![forms[form].clone()]
            }
        });
        Part { dotted: text.contains('\u{358}'), forms, outcomes }
    }

    /// Whether hash order shows in it.
    fn chance(&self) -> bool {
        self.outcomes.iter().any(|outcomes| outcomes.len() > 1)
    }

    /// Every pair of a plain form and an `_oo` form that hash order can give.
    fn pairs(&self) -> Vec<[Form; 2]> {
        let [plain, oo] = &self.outcomes;
        plain.iter().flat_map(|a| oo.iter().map(|b| [a.clone(), b.clone()])).collect()
    }
}

fn chosen(text: &str, form: u64) -> Form {
    let mut all = oracle::keys(text, form).into_iter().map(|answer| String::from_utf8(answer.out).unwrap());
    std::array::from_fn(|_| all.next().unwrap())
}

/// The form of other bare keys with the same tone.
fn like(form: &Form, bare: &str) -> Form {
    let size = form[0].len();
    [bare.to_string(), format!("{bare}{}", &form[1][size..]), format!("{bare}{}", &form[2][size..])]
}

/// The lists of the three kinds.
pub struct Lists {
    /// For each kind and part its choices.
    choices: [Vec<Vec<String>>; 3],
    parts: usize,
    dotted: usize,
    pub chance: bool,
    /// Whether the Rust made its whole list and it was held to this one.
    pub whole: bool,
}

impl Lists {
    /// The lists of an entry that is not refused.
    pub fn of(entry: &str) -> Lists {
        Lists::up_to(entry, WHOLE)
    }

    /// The same, held to the Rust's whole list up to `most` keyings.
    pub fn up_to(entry: &str, most: u64) -> Lists {
        let parts: Vec<Part> = entry.split(' ').map(Part::of).collect();
        let forms: Vec<&[Form; 2]> = parts.iter().map(|part| &part.forms).collect();
        let choices = choices(&parts, &forms);
        let mut lists = Lists {
            choices,
            parts: parts.len(),
            dotted: parts.iter().filter(|part| part.dotted).count(),
            chance: parts.iter().any(Part::chance),
            whole: false,
        };
        let tried = parts.iter().map(|part| part.pairs().len()).product::<usize>();
        if (0..3).map(|kind| lists.count(kind)).sum::<u64>() <= most && tried <= TRIED {
            lists.hold_to_the_rust(entry, &parts);
            lists.whole = true;
        }
        lists
    }

    fn hold_to_the_rust(&self, entry: &str, parts: &[Part]) {
        let made = made_by_the_rust(entry, parts.len());
        if !self.chance {
            assert!(agree(&self.choices, &made), "the Rust keyed {entry:?} otherwise: {made:?}");
            return;
        }
        let among = combinations(parts).iter().any(|forms| {
            let forms: Vec<&[Form; 2]> = forms.iter().collect();
            agree(&choices(parts, &forms), &made)
        });
        assert!(among, "the Rust keyed {entry:?} outside its orders: {made:?}");
    }

    pub fn count(&self, kind: u64) -> u64 {
        count(&self.choices[kind as usize])
    }

    /// The keying at a position, or its refusal.
    pub fn keying(&self, kind: u64, position: u64) -> Answer {
        let choices = &self.choices[kind as usize];
        let count = count(choices);
        if position >= count {
            return Answer { chance: self.chance, ..Answer::refusal(6) };
        }
        let mut answer = Answer::text(keying(choices, position), 0);
        answer.reply.count = count;
        Answer { chance: self.chance, ..answer }
    }

    /// The line of the listing with this number, if there is one.
    fn line(&self, number: u64) -> Option<String> {
        let [detoned, numeric, telex] = [0, 1, 2].map(|kind| self.count(kind));
        if number == 0 {
            return Some(format!("{} {} {numeric} {telex} {detoned}\n", self.parts, self.dotted));
        }
        let mut position = number - 1;
        for (letter, kind, count) in [('N', 1, numeric), ('T', 2, telex), ('D', 0, detoned)] {
            if position < count {
                return Some(format!("{letter} {position} {}\n", keying(&self.choices[kind], position)));
            }
            position -= count;
        }
        None
    }

    /// How many lines the listing has.
    fn lines(&self) -> u64 {
        1 + (0..3).map(|kind| self.count(kind)).sum::<u64>()
    }
}

/// The choices of each part for each kind.
fn choices(parts: &[Part], forms: &[&[Form; 2]]) -> [Vec<Vec<String>>; 3] {
    std::array::from_fn(|kind| {
        parts.iter().zip(forms).map(|(part, forms)| of_part(parts.len(), part.dotted, forms, kind)).collect()
    })
}

fn of_part(parts: usize, dotted: bool, forms: &[Form; 2], kind: usize) -> Vec<String> {
    let [plain, oo] = forms;
    let both = if parts == 1 { plain[0] != oo[0] } else { dotted };
    let mut all = vec![plain[kind].clone()];
    if both {
        all.push(oo[kind].clone());
    }
    if parts > 1 && kind != 0 {
        all.push(plain[0].clone());
        if both {
            all.push(oo[0].clone());
        }
    }
    all
}

fn count(choices: &[Vec<String>]) -> u64 {
    choices.iter().map(|list| list.len() as u64).product()
}

/// The combination at a position: the last part changes fastest.
fn keying(choices: &[Vec<String>], position: u64) -> String {
    let (mut left, mut chosen) = (position, Vec::new());
    for list in choices.iter().rev() {
        chosen.push(&list[(left % list.len() as u64) as usize][..]);
        left /= list.len() as u64;
    }
    chosen.iter().rev().copied().collect()
}

/// The Rust's whole list, kind by kind.
fn made_by_the_rust(entry: &str, parts: usize) -> [Vec<String>; 3] {
    let input = Input { id: 0, n_syls: parts, input: entry.to_string(), p: 0.0 };
    let mut made: [Vec<String>; 3] = Default::default();
    for KeySequence { keys, input_type, .. } in keyings(&input) {
        made[match input_type {
            InputType::Detoned => 0,
            InputType::Numeric => 1,
            InputType::Telex => 2,
        }]
        .push(keys);
    }
    made
}

/// Whether the combinations of the choices are the lists.
fn agree(choices: &[Vec<Vec<String>>; 3], made: &[Vec<String>; 3]) -> bool {
    choices.iter().zip(made).all(|(choices, made)| {
        count(choices) == made.len() as u64
            && made.iter().enumerate().all(|(at, keys)| keying(choices, at as u64) == *keys)
    })
}

/// Every way in which hash order can fall out, part by part.
fn combinations(parts: &[Part]) -> Vec<Vec<[Form; 2]>> {
    let mut all: Vec<Vec<[Form; 2]>> = vec![vec![]];
    for part in parts {
        let pairs = part.pairs();
        all = all
            .iter()
            .flat_map(|begun| pairs.iter().map(|pair| [&begun[..], std::slice::from_ref(pair)].concat()))
            .collect();
    }
    all
}

/// The listing of an entry, or of its refusal.
pub enum Lines {
    Refused(u64),
    Lists(Lists),
}

impl Lines {
    pub fn of(entry: &[u8]) -> Lines {
        match rules::entry(entry) {
            Err(code) => Lines::Refused(code),
            Ok(entry) => Lines::Lists(Lists::of(entry)),
        }
    }

    fn line(&self, number: u64) -> Option<String> {
        match self {
            Lines::Refused(code) => (number == 0).then(|| format!("refused {code}\n")),
            Lines::Lists(lists) => lists.line(number),
        }
    }

    pub fn count(&self) -> u64 {
        match self {
            Lines::Refused(_) => 1,
            Lines::Lists(lists) => lists.lines(),
        }
    }

    /// As many whole lines from the number `from` on as fit into `room` bytes.
    pub fn answer(&self, from: u64, room: usize) -> Answer {
        let (mut out, mut written) = (Vec::new(), 0);
        while let Some(line) = from.checked_add(written).and_then(|number| self.line(number)) {
            if out.len() + line.len() > room {
                break;
            }
            out.extend_from_slice(line.as_bytes());
            written += 1;
        }
        let chance = matches!(self, Lines::Lists(lists) if lists.chance);
        let reply =
            Reply { length: out.len() as u64, count: written, position: from + written, ..Reply::default() };
        Answer { reply, out, chance }
    }
}

#[cfg(test)]
mod tests {
    use super::*;

    #[test]
    fn the_listing_of_document_01() {
        let want = "2 0 4 4 1\nN 0 tai5oan5\nN 1 tai5oan\nN 2 taioan5\nN 3 taioan\n\
                    T 0 tailoanl\nT 1 tailoan\nT 2 taioanl\nT 3 taioan\nD 0 taioan\n";
        let lines = Lines::of("t\u{e2}i o\u{e2}n".as_bytes());
        let whole = lines.answer(0, 1000);
        assert_eq!(whole.out, want.as_bytes());
        assert_eq!((whole.reply.count, whole.reply.position, lines.count()), (10, 10, 10));
        // One byte less, and the last line is for the next call.
        let most = lines.answer(0, want.len() - 1);
        assert_eq!((most.reply.length as usize, most.reply.position), (want.len() - 11, 9));
        assert_eq!(lines.answer(9, 11).out, b"D 0 taioan\n");
        assert_eq!(lines.answer(10, 100).reply, Reply { position: 10, ..Reply::default() });
        assert_eq!(lines.answer(u64::MAX, 100).reply, Reply { position: u64::MAX, ..Reply::default() });
    }

    #[test]
    fn a_refused_entry_is_one_line() {
        let parts = vec![b' '; 16];
        assert_eq!(Lines::of(&parts).answer(0, 100).out, b"refused 5\n");
        assert_eq!(Lines::of(&[b'a'; 1025]).answer(0, 10).out, b"refused 2\n");
        assert_eq!(Lines::of(&[0xFF]).answer(0, 9).out, b"");
        assert_eq!(Lines::of(&[0xFF]).answer(1, 90).reply, Reply { position: 1, ..Reply::default() });
    }

    /// Many parts, all with four choices: the Rust's list still is this one.
    #[test]
    fn a_long_list_is_the_rusts() {
        let lists = Lists::up_to(&["o\u{358}"; 9].join(" "), 1 << 20);
        assert!(lists.whole);
        assert_eq!((lists.count(0), lists.count(1), lists.count(2)), (1 << 9, 1 << 18, 1 << 18));
        let lists = Lists::of(&["o\u{358}"; 16].join(" "));
        assert!(!lists.whole);
        assert_eq!(lists.count(1), 1 << 32);
    }

    /// Hash order draws for each part anew; many draws meet all outcomes.
    #[test]
    fn hash_order_in_entries() {
        for entry in
            ["o\u{324}\u{358}", "O\u{358}\u{358}", "o\u{324}\u{358} a", "a O\u{358}\u{358} o\u{324}\u{358}"]
        {
            for _ in 0..200 {
                let lists = Lists::of(entry);
                assert!(lists.chance && lists.whole);
            }
        }
    }

    #[test]
    fn empty_parts_count() {
        let out = |entry: &str, kind, position| {
            let answer = Lists::of(entry).keying(kind, position);
            (answer.reply.count, String::from_utf8(answer.out).unwrap())
        };
        assert_eq!(out("", 1, 0), (1, "1".into()));
        assert_eq!(out("", 0, 0), (1, "".into()));
        assert_eq!(out(" ", 1, 0), (4, "11".into()));
        assert_eq!(out("a\u{358}", 1, 0), (1, "a\u{358}1".into()));
        assert_eq!(out("a\u{358} ", 1, 7), (8, "a\u{358}".into()));
        assert_eq!(Lists::of("a ").keying(1, 4).reply, Reply::refusal(6));
    }
}
