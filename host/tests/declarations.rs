//! The header, the Rust declarations and the Rattle source have to agree, and nothing else checks them: the linker
//! sees names alone. Names, parameters, widths and order are compared, the fields of the reply, and the constants; and
//! the contracts of the exports with those of the library that they export.
//!
//! Each parser takes only what these files hold. What it does not know is a failure and not passed over.

use robinflint::{Kind, Mode, Refusal};
use std::collections::{BTreeMap, BTreeSet};
use std::fs;
use std::path::Path;

const HEADER: &str = "include/robinflint.h";
const SYS: &str = "host/src/sys.rs";
const COMPARISON: &str = "tools/compare/src/archive.rs";
const COMPARISON_REPLY: &str = "tools/compare/src/call.rs";
const RATTLE: &str = "crates/robinflint_c/src/lib.rt";
const RATTLE_REPLY: &str = "crates/robinflint/src/reply.rt";
const RATTLE_REFUSALS: &str = "crates/ji/src/reply.rt";

/// The eight calls.
const CALLS: [&str; 8] = [
    "rf_align",
    "rf_candidate",
    "rf_compose",
    "rf_from_raw",
    "rf_keying",
    "rf_strip",
    "rf_telex",
    "rf_tone_letter",
];

/// What stands before the name of a function that Rattle exports, and of one of a library.
const EXPORTED: &str = "#[unsafe(no_mangle)]\npub extern \"C\" fn ";
const PUBLIC: &str = "pub fn ";

/// Where the Rattle source has another name for a parameter than C and Rust: function, its name, theirs.
const OTHER_NAMES: [(&str, &str, &str); 1] = [("rf_telex", "keys", "tone_keys")];

/// What a parameter is at the C boundary.
#[derive(Clone, Copy, Debug, PartialEq, Eq)]
enum Width {
    /// A pointer to bytes that are read.
    Text,
    /// A pointer to bytes that are written.
    Buffer,
    /// A pointer to seven bytes that are read.
    Seven,
    /// A length, of the pointer's width.
    Size,
    /// A number of 64 bits.
    Number,
}

type Parameters = Vec<(String, Width)>;
/// The parameters of each function.
type Functions = BTreeMap<String, Parameters>;
type Parsed<T> = Result<T, String>;

// ---- text

fn read(path: &str) -> String {
    let path = Path::new(env!("CARGO_MANIFEST_DIR")).join("..").join(path);
    fs::read_to_string(&path).unwrap_or_else(|error| panic!("{}: {error}", path.display()))
}

/// The text with one space for each run of white space, and none at the ends.
fn plain(text: &str) -> String {
    text.split_whitespace().collect::<Vec<_>>().join(" ")
}

/// The text between `start` and the first `end` behind it, and what follows.
fn between<'a>(text: &'a str, start: &str, end: &str) -> Parsed<(&'a str, &'a str)> {
    let (_, rest) = text.split_once(start).ok_or_else(|| format!("no {start:?}"))?;
    rest.split_once(end).ok_or_else(|| format!("no {end:?} behind {start:?}"))
}

fn is_name(text: &str) -> bool {
    !text.is_empty() && text.bytes().all(|byte| byte.is_ascii_alphanumeric() || byte == b'_')
}

/// A name that is one word of letters, digits and underscores.
fn name(text: &str) -> Parsed<String> {
    let text = text.trim();
    if is_name(text) {
        Ok(text.to_owned())
    } else {
        Err(format!("no name: {text:?}"))
    }
}

/// The list's items, without the empty one behind a last comma.
fn items(list: &str) -> impl Iterator<Item = &str> {
    list.split(',').map(str::trim).filter(|item| !item.is_empty())
}

fn add(functions: &mut Functions, function: String, parameters: Parameters) -> Parsed<()> {
    match functions.insert(function.clone(), parameters) {
        None => Ok(()),
        Some(_) => Err(format!("{function} stands there twice")),
    }
}

// ---- the header

#[derive(Debug, Default)]
struct Header {
    functions: Functions,
    fields: Vec<String>,
    /// The members of the enumerations and the defined numbers.
    numbers: BTreeMap<String, u64>,
}

fn header(text: &str) -> Parsed<Header> {
    let mut parsed = Header::default();
    let code = without_comments(text)?;
    let statements = directives(&code, &mut parsed.numbers)?;
    for statement in statements_of(&statements) {
        if let Some(rest) = statement.strip_prefix("typedef struct {") {
            let fields = rest.strip_suffix("} rf_reply").ok_or_else(|| format!("{statement:?}"))?;
            for field in fields.split(';').map(str::trim).filter(|field| !field.is_empty()) {
                parsed.fields.push(name(field.strip_prefix("uint64_t ").ok_or(field)?)?);
            }
        } else if let Some(rest) = statement.strip_prefix("enum {") {
            let members = rest.strip_suffix('}').ok_or_else(|| format!("{statement:?}"))?;
            for member in items(members) {
                let (member, number) = member.split_once('=').ok_or(member)?;
                put_number(&mut parsed.numbers, member, number)?;
            }
        } else if let Some(rest) = statement.strip_prefix("rf_reply ") {
            let (function, list) = rest.split_once('(').ok_or_else(|| format!("{statement:?}"))?;
            let list = list.strip_suffix(')').ok_or_else(|| format!("{statement:?}"))?;
            let parameters = items(list).map(c_parameter).collect::<Parsed<_>>()?;
            add(&mut parsed.functions, name(function)?, parameters)?;
        } else {
            return Err(format!("not understood: {statement:?}"));
        }
    }
    Ok(parsed)
}

fn without_comments(text: &str) -> Parsed<String> {
    let mut code = String::new();
    let mut rest = text;
    while let Some((before, behind)) = rest.split_once("/*") {
        code.push_str(before);
        code.push(' ');
        rest = behind.split_once("*/").ok_or("a comment without end")?.1;
    }
    code.push_str(rest);
    if code.contains("//") {
        return Err("a comment of the other kind".to_owned());
    }
    Ok(code)
}

/// Takes the lines of the preprocessor out, and what only C++ reads; keeps the defined numbers.
fn directives(code: &str, numbers: &mut BTreeMap<String, u64>) -> Parsed<String> {
    let mut kept = String::new();
    let mut only_cplusplus = false;
    for line in code.lines() {
        let words: Vec<&str> = line.split_whitespace().collect();
        match words[..] {
            ["#ifdef", "__cplusplus"] => only_cplusplus = true,
            ["#endif"] => only_cplusplus = false,
            ["#ifndef", "ROBINFLINT_H"] | ["#define", "ROBINFLINT_H"] | ["#include", _] => {}
            ["#define", member, number] => put_number(numbers, member, number)?,
            [first, ..] if first.starts_with('#') => return Err(format!("not understood: {line:?}")),
            _ if only_cplusplus => {}
            _ => {
                kept.push_str(line);
                kept.push('\n');
            }
        }
    }
    Ok(kept)
}

fn put_number(numbers: &mut BTreeMap<String, u64>, member: &str, number: &str) -> Parsed<()> {
    let value = number.trim().parse().map_err(|_| format!("no number: {number:?}"))?;
    match numbers.insert(name(member)?, value) {
        None => Ok(()),
        Some(_) => Err(format!("{member} stands there twice")),
    }
}

/// The text cut at each semicolon outside of braces and brackets. What stands behind the last one is a statement too.
fn statements_of(code: &str) -> Vec<String> {
    let (mut all, mut depth, mut start) = (Vec::new(), 0, 0);
    for (at, byte) in code.bytes().enumerate() {
        match byte {
            b'{' | b'[' => depth += 1,
            b'}' | b']' => depth -= 1,
            b';' if depth == 0 => {
                all.push(plain(&code[start..at]));
                start = at + 1;
            }
            _ => {}
        }
    }
    all.push(plain(&code[start..]));
    all.retain(|statement| !statement.is_empty());
    all
}

fn c_parameter(text: &str) -> Parsed<(String, Width)> {
    if let Some(seven) = text.strip_prefix("const uint8_t ").and_then(|rest| rest.strip_suffix("[7]")) {
        return Ok((name(seven)?, Width::Seven));
    }
    let kinds = [
        ("const uint8_t *", Width::Text),
        ("uint8_t *", Width::Buffer),
        ("size_t ", Width::Size),
        ("uint64_t ", Width::Number),
    ];
    by_prefix(text, &kinds)
}

fn by_prefix(text: &str, kinds: &[(&str, Width)]) -> Parsed<(String, Width)> {
    for (prefix, width) in kinds {
        if let Some(rest) = text.strip_prefix(prefix) {
            return Ok((name(rest)?, *width));
        }
    }
    Err(format!("no parameter of a known width: {text:?}"))
}

// ---- the Rust declarations

/// The lines without comments and attributes.
fn rust_code(text: &str) -> String {
    let is_code = |line: &&str| !line.trim_start().starts_with("//") && !line.trim_start().starts_with("#[");
    text.lines().filter(is_code).collect::<Vec<_>>().join("\n")
}

/// The functions that the one block of C functions declares. Those of another archive, `wb_`, are passed over.
fn rust_functions(text: &str) -> Parsed<Functions> {
    let code = rust_code(text);
    let (block, rest) = between(&code, "extern \"C\" {", "}")?;
    if rest.contains("extern \"C\"") {
        return Err("a second block of C functions".to_owned());
    }
    let mut functions = Functions::new();
    for statement in statements_of(block) {
        let bare = statement.strip_prefix("pub ").unwrap_or(&statement);
        let bare = bare.strip_prefix("fn ").ok_or_else(|| format!("not understood: {statement:?}"))?;
        let bare = bare.strip_suffix(") -> Reply").ok_or_else(|| format!("no reply: {statement:?}"))?;
        let (function, list) = bare.split_once('(').ok_or_else(|| format!("{statement:?}"))?;
        if function.starts_with("wb_") {
            continue;
        }
        let parameters = items(list).map(rust_parameter).collect::<Parsed<_>>()?;
        add(&mut functions, name(function)?, parameters)?;
    }
    Ok(functions)
}

fn rust_parameter(text: &str) -> Parsed<(String, Width)> {
    let (parameter, kind) = text.split_once(": ").ok_or_else(|| format!("{text:?}"))?;
    let width = match kind {
        "*const u8" => Width::Text,
        "*mut u8" => Width::Buffer,
        "*const [u8; 7]" => Width::Seven,
        "usize" => Width::Size,
        "u64" => Width::Number,
        _ => return Err(format!("no parameter of a known width: {text:?}")),
    };
    Ok((name(parameter)?, width))
}

/// The fields of the struct `Reply`, of Rust and of Rattle alike: laid out as C does, and each of 64 bits.
fn reply_fields(text: &str) -> Parsed<Vec<String>> {
    let (before, _) = text.split_once("pub struct Reply {").ok_or("no struct Reply")?;
    let mut attributes = before.lines().rev().skip_while(|line| line.trim().is_empty());
    let attributes: Vec<&str> = attributes.by_ref().take_while(|line| line.starts_with("#[")).collect();
    if !attributes.contains(&"#[repr(C)]") {
        return Err("the struct Reply is not laid out as in C".to_owned());
    }
    let code = rust_code(text);
    let (fields, _) = between(&code, "pub struct Reply {", "}")?;
    let field = |item: &str| {
        let item = item.strip_prefix("pub ").ok_or_else(|| format!("{item:?}"))?;
        name(item.strip_suffix(": u64").ok_or_else(|| format!("{item:?}"))?)
    };
    items(fields).map(field).collect()
}

/// The constants of `sys.rs`.
fn rust_constants(text: &str) -> Parsed<BTreeMap<String, u64>> {
    let mut numbers = BTreeMap::new();
    for line in rust_code(text).lines().filter(|line| line.contains("const ") && line.starts_with("pub ")) {
        let bare = line.strip_prefix("pub const ").and_then(|rest| rest.strip_suffix(';'));
        let (member, number) = bare.and_then(|rest| rest.split_once(": usize = ")).ok_or(line)?;
        put_number(&mut numbers, member, number)?;
    }
    Ok(numbers)
}

// ---- the Rattle source

/// The lines without comments.
fn rattle_code(text: &str) -> String {
    text.lines().filter(|line| !line.trim_start().starts_with("//")).collect::<Vec<_>>().join("\n")
}

/// What follows each `head`. A function that is exported otherwise is a failure, and in a library any that is.
fn rattle_parts<'a>(code: &'a str, head: &'a str) -> Parsed<impl Iterator<Item = &'a str>> {
    for mark in ["no_mangle", "extern"] {
        let right = if head == EXPORTED { code.matches(head).count() } else { 0 };
        if code.matches(mark).count() != right {
            return Err(format!("{mark:?} elsewhere than in {EXPORTED:?}"));
        }
    }
    Ok(code.split(head).skip(1))
}

/// The exported functions, with the parameters that they have at the C boundary: a slice is a pointer and a length.
fn rattle_functions(text: &str) -> Parsed<Functions> {
    let mut functions = Functions::new();
    for part in rattle_parts(&rattle_code(text), EXPORTED)? {
        let (function, rest) = part.split_once('(').ok_or("no parameters")?;
        let (list, rest) = rest.split_once(')').ok_or("no end of the parameters")?;
        if !rest.starts_with(" -> Reply\n") {
            return Err(format!("{function} does not give a reply alone"));
        }
        let mut parameters = Parameters::new();
        for item in items(list) {
            parameters.extend(rattle_parameter(item)?);
        }
        add(&mut functions, name(function)?, parameters)?;
    }
    Ok(functions)
}

/// What stands before the body of the function behind each `head`: parameters, reply and clauses, on one line.
fn rattle_contracts(text: &str, head: &str) -> Parsed<BTreeMap<String, String>> {
    let mut contracts = BTreeMap::new();
    for part in rattle_parts(&rattle_code(text), head)? {
        let (contract, _) = part.split_once("\n{\n").ok_or("no body")?;
        let (function, _) = contract.split_once('(').ok_or("no parameters")?;
        let contract = plain(contract).replace("( ", "(").replace(", )", ")");
        if contracts.insert(name(function)?, contract).is_some() {
            return Err(format!("{function} stands there twice"));
        }
    }
    Ok(contracts)
}

/// The definitions that the clauses may name, by their whole paths.
fn rattle_imports(text: &str) -> Parsed<BTreeSet<String>> {
    let mut imports = BTreeSet::new();
    let code = rattle_code(text);
    for part in code.split("ghost use ").skip(1) {
        let (path, rest) = part.split_once(".{").ok_or("no braces")?;
        let (list, _) = rest.split_once("};").ok_or("no end of the names")?;
        imports.extend(items(list).map(|item| format!("{path}.{item}")));
    }
    Ok(imports)
}

fn rattle_parameter(text: &str) -> Parsed<Parameters> {
    let (parameter, kind) = text.split_once(": ").ok_or_else(|| format!("{text:?}"))?;
    let parameter = name(parameter)?;
    let length = (format!("{parameter}_len"), Width::Size);
    Ok(match kind {
        "&[u8]" => vec![(parameter, Width::Text), length],
        "&mut [u8]" => vec![(parameter, Width::Buffer), length],
        "&[u8; 7]" => vec![(parameter, Width::Seven)],
        "u64" => vec![(parameter, Width::Number)],
        _ => return Err(format!("no parameter of a known width: {text:?}")),
    })
}

/// The Rattle source's functions under the names that C and Rust have for their parameters.
fn renamed(mut functions: Functions) -> Parsed<Functions> {
    for (function, from, to) in OTHER_NAMES {
        let parameters = functions.get_mut(function).ok_or(function)?;
        let parameter = parameters.iter_mut().find(|parameter| parameter.0 == from);
        // A name in the list that is not needed is a failure, so that the list stays as short as it can be.
        parameter.ok_or_else(|| format!("{function} has no {from}"))?.0 = to.to_owned();
    }
    Ok(functions)
}

/// The variants of the refusals' enum, whose discriminants are their numbers.
fn rattle_refusals(text: &str) -> Parsed<BTreeMap<String, u64>> {
    if !text.contains("pub fn number(self) -> u64") || !text.contains("    self as u64\n") {
        return Err("no method number that gives the discriminant".to_owned());
    }
    let (variants, _) = between(text, "pub enum Refusal {", "}")?;
    let mut numbers = BTreeMap::new();
    for variant in items(variants) {
        let (refusal, number) = variant.split_once(" = ").ok_or(variant)?;
        put_number(&mut numbers, refusal, number)?;
    }
    Ok(numbers)
}

// ---- the comparison

/// `TooLong` as the header writes it, `TOO_LONG`.
fn shouted(camel: &str) -> String {
    let mut shouted = String::new();
    for letter in camel.chars() {
        if letter.is_ascii_uppercase() && !shouted.is_empty() {
            shouted.push('_');
        }
        shouted.push(letter.to_ascii_uppercase());
    }
    shouted
}

#[test]
fn the_functions_agree() {
    let declared = header(&read(HEADER)).unwrap().functions;
    assert_eq!(declared.keys().collect::<Vec<_>>(), CALLS.iter().collect::<Vec<_>>());
    assert_eq!(rust_functions(&read(SYS)).unwrap(), declared, "{SYS} and {HEADER}");
    assert_eq!(rust_functions(&read(COMPARISON)).unwrap(), declared, "{COMPARISON} and {HEADER}");
    assert_eq!(renamed(rattle_functions(&read(RATTLE)).unwrap()).unwrap(), declared, "{RATTLE} and {HEADER}");
}

#[test]
fn nothing_else_is_exported() {
    let folder = Path::new(env!("CARGO_MANIFEST_DIR")).join("../crates/robinflint_c/src");
    for file in fs::read_dir(folder).unwrap() {
        let path = file.unwrap().path();
        assert!(path.ends_with("lib.rt"), "{} is not looked into", path.display());
    }
}

/// An export is proved to meet its own clauses. That they are those of the library, which is what the laws speak of, is
/// this test's to say: the same words, and each the same definition.
#[test]
fn the_contracts_agree() {
    for library in ["robinflint", "workbench"] {
        let exports = read(&format!("crates/{library}_c/src/lib.rt"));
        let functions = read(&format!("crates/{library}/src/lib.rt"));
        let contracts = rattle_contracts(&exports, EXPORTED).unwrap();
        assert_eq!(contracts, rattle_contracts(&functions, PUBLIC).unwrap(), "{library}_c and {library}");
        let (known, used) = (rattle_imports(&functions).unwrap(), rattle_imports(&exports).unwrap());
        assert_eq!(used.difference(&known).collect::<Vec<_>>(), [""; 0], "{library}_c and {library}");
    }
}

#[test]
fn the_replies_agree() {
    let declared = header(&read(HEADER)).unwrap().fields;
    assert_eq!(declared, ["code", "length", "count", "body", "tone", "khin", "position"]);
    assert_eq!(reply_fields(&read(SYS)).unwrap(), declared, "{SYS} and {HEADER}");
    assert_eq!(reply_fields(&read(COMPARISON_REPLY)).unwrap(), declared, "{COMPARISON_REPLY} and {HEADER}");
    assert_eq!(reply_fields(&read(RATTLE_REPLY)).unwrap(), declared, "{RATTLE_REPLY} and {HEADER}");
}

#[test]
fn the_numbers_agree() {
    let declared = header(&read(HEADER)).unwrap().numbers;
    let mut expected = BTreeMap::new();
    for (member, number) in rust_constants(&read(SYS)).unwrap() {
        expected.insert(format!("RF_{member}"), number);
    }
    for refusal in Refusal::ALL {
        expected.insert(format!("RF_{}", shouted(&format!("{refusal:?}"))), refusal.number());
    }
    for kind in Kind::ALL {
        expected.insert(format!("RF_KIND_{}", shouted(&format!("{kind:?}"))), kind.number());
    }
    for mode in [Mode::Numeric, Mode::Telex] {
        expected.insert(format!("RF_MODE_{}", shouted(&format!("{mode:?}"))), mode.number());
    }
    assert_eq!(declared, expected);
    let named = Refusal::ALL.map(|refusal| (format!("{refusal:?}"), refusal.number()));
    assert_eq!(rattle_refusals(&read(RATTLE_REFUSALS)).unwrap(), BTreeMap::from(named));
}

// ---- what the comparison notices

/// The text with one place changed; panics where there is no such place or more than one.
fn edited(text: &str, from: &str, to: &str) -> String {
    assert_eq!(text.matches(from).count(), 1, "{from:?}");
    text.replacen(from, to, 1)
}

#[test]
fn a_swapped_parameter_is_noticed() {
    let (c, rust, rattle) = (read(HEADER), read(SYS), read(RATTLE));
    let right = header(&c).unwrap().functions;
    let swapped = edited(&c, "uint64_t tone, uint64_t khin", "uint64_t khin, uint64_t tone");
    assert_ne!(header(&swapped).unwrap().functions, right);
    let swapped = edited(&rust, "key: u64, mode: u64", "mode: u64, key: u64");
    assert_ne!(rust_functions(&swapped).unwrap(), right);
    let swapped = edited(&rattle, "kind: u64, position: u64", "position: u64, kind: u64");
    assert_ne!(renamed(rattle_functions(&swapped).unwrap()).unwrap(), right);
    let swapped = edited(&rattle, "raw: &[u8], body: &[u8]", "body: &[u8], raw: &[u8]");
    assert_ne!(renamed(rattle_functions(&swapped).unwrap()).unwrap(), right);
}

/// Holds a parser to refusing a text with one place changed, where it takes the text itself.
fn must_fail<T>(parse: fn(&str) -> Parsed<T>, text: &str, from: &str, to: &str) {
    assert!(parse(text).is_ok());
    assert!(parse(&edited(text, from, to)).is_err(), "{to:?} is passed over");
}

#[test]
fn another_width_is_noticed() {
    let (c, rust, rattle) = (read(HEADER), read(SYS), read(RATTLE));
    must_fail(header, &c, "uint64_t kind", "uint32_t kind");
    must_fail(header, &c, "uint64_t khin; ", "uint8_t khin; ");
    must_fail(rust_functions, &rust, "mode: u64", "mode: u32");
    must_fail(reply_fields, &rust, "pub khin: u64", "pub khin: u8");
    must_fail(reply_fields, &rust, "#[repr(C)]\n", "");
    must_fail(rattle_functions, &rattle, "keys: &[u8; 7]", "keys: &[u8; 8]");
}

#[test]
fn a_function_that_is_not_understood_is_a_failure() {
    let (c, rust, rattle) = (read(HEADER), read(SYS), read(RATTLE));
    let telex = "rf_reply rf_telex(";
    must_fail(header, &c, telex, "void rf_free(void *all);\nrf_reply rf_telex(");
    must_fail(header, &c, telex, "static inline rf_reply rf_telex(");
    must_fail(header, &c, telex, "rf_reply *rf_telex(");
    let strip = "pub fn rf_strip(";
    must_fail(rust_functions, &rust, strip, "pub static RF: u8;\n    pub fn rf_strip(");
    must_fail(rust_functions, &rust, strip, "pub unsafe fn rf_strip(");
    let first = "pub extern \"C\" fn rf_strip(";
    must_fail(rattle_functions, &rattle, first, "pub(crate) extern \"C\" fn rf_strip(");
    must_fail(rattle_functions, &rattle, first, "pub fn rf_strip(");
    must_fail(rattle_functions, &rattle, &format!("{EXPORTED}rf_strip("), first);
}

#[test]
fn a_missing_function_and_swapped_fields_are_noticed() {
    let (c, rust, rattle) = (read(HEADER), read(SYS), read(RATTLE));
    let right = header(&c).unwrap();
    let gone = "rf_reply rf_tone_letter(const uint8_t *text, size_t text_len);";
    assert_ne!(header(&edited(&c, gone, "")).unwrap().functions, right.functions);
    let line = "pub fn rf_tone_letter(text: *const u8, text_len: usize) -> Reply;";
    assert_ne!(rust_functions(&edited(&rust, line, "")).unwrap(), right.functions);
    let only_public = edited(&rattle, &format!("{EXPORTED}rf_tone_letter("), "pub fn rf_tone_letter(");
    assert_ne!(renamed(rattle_functions(&only_public).unwrap()).unwrap(), right.functions);
    let swapped = edited(&edited(&rust, "pub tone: u64", "pub k: u64"), "pub khin: u64", "pub tone: u64");
    let swapped = edited(&swapped, "pub k: u64", "pub khin: u64");
    assert_ne!(reply_fields(&swapped).unwrap(), right.fields);
}

#[test]
fn another_contract_is_noticed() {
    let exports = read(RATTLE);
    let right = rattle_contracts(&exports, EXPORTED).unwrap();
    let other = [
        ("ensures { reply_of result out.new ≡ from_raw_call keys.now out.old }", ""),
        ("from_raw_call keys.now out.old", "from_raw_call keys.now out.new"),
        ("keying_numbered entry.now kind position", "keying_numbered entry.now position kind"),
        ("rf_from_raw(keys: &[u8], out: &mut [u8])", "rf_from_raw(out: &mut [u8], keys: &[u8])"),
    ];
    for (from, to) in other {
        let found = rattle_contracts(&edited(&exports, from, to), EXPORTED).unwrap();
        assert_ne!(found, right, "{to:?} is passed over");
    }
    let elsewhere = edited(&exports, "ji.specs.Lomaji.Strip.{strip_call}", "ji.specs.Nfd.{strip_call}");
    let known = rattle_imports(&exports).unwrap();
    assert!(!rattle_imports(&elsewhere).unwrap().is_subset(&known));
    assert!(rattle_contracts(&exports, PUBLIC).is_err());
}
