//! The texts that are measured.

/// Syllables with every kind of tone mark, 0358, 0324, 207F and capitals.
const SYLLABLES: &str = "Tâioânlângkóngtâigíchiaho̍hbēsiáuhânlêsi̍tchāichinhóchia̍hsoaⁿthâukho\u{358}kèngṳ̄chheó\u{358}Hōngsiăngkau̍khângtio̍h";

/// Raw keys of those syllables, with pairs that are respelled.
const KEYS: &str =
    "TaioanlangkongtaigichiahohbesiauhanlesitchaichinhochiahsoannthaukhoukengeuchheouHongsiangkaukhangtioh";

/// Letters of which none are respelled.
const LETTERS: &str =
    "TaioanlangkongtaigichiahohbesiauhanlesitchaichinhochiahthaukhakengHongsiangkaukhangtioh";

/// Sixteen parts without 0358, two choices each.
pub const SIXTEEN: &str =
    "t\u{e2}i o\u{e2}n l\u{e2}ng k\u{f3}ng t\u{e2}i g\u{ed} chia\u{30d}h b\u{113} si\u{e1}u h\u{e2}n l\u{ea} si\u{30d}t ch\u{101}i chin h\u{f3} th\u{e2}u";
pub const FOUR: &str = "b\u{f3}\u{358} s\u{f4}\u{358} k\u{f2}\u{358} l\u{14d}\u{358}";
pub const TWO: &str = "t\u{e2}i o\u{e2}n";

/// Whole code points of `source`, over and over, up to exactly `size` bytes, filled
/// up with letters at the end.
fn filled(source: &str, size: usize) -> String {
    let mut text = String::new();
    for letter in source.chars().cycle() {
        if text.len() + letter.len_utf8() > size {
            break;
        }
        text.push(letter);
    }
    while text.len() < size {
        text.push('n');
    }
    text
}

/// Syllables, one behind the other.
pub fn syllables(size: usize) -> String {
    filled(SYLLABLES, size)
}

/// Letters of which none are respelled.
pub fn letters(size: usize) -> String {
    filled(LETTERS, size)
}

/// Raw keys that end in a tone; a single one is no digit.
pub fn keys(size: usize) -> String {
    toned(KEYS, size)
}

/// The same of letters of which none are respelled.
pub fn plain_keys(size: usize) -> String {
    toned(LETTERS, size)
}

fn toned(source: &str, size: usize) -> String {
    match size {
        0 | 1 => filled(source, size),
        _ => filled(source, size - 1) + "2",
    }
}
