//! Stubs for what the Rust's files name of the rest of the engine: the screen
//! buffer, the database, the dictionary of legal syllables, the parser. The calls
//! that are compared reach two of them only: the screen buffer, which here keeps
//! the text that it is given, and the question whether a syllable is legal, whose
//! answer nobody reads.

use crate::config::Config;
use crate::db::models::InputType;
use anyhow::Result;

pub struct EngInner {
    pub db: Database,
    pub dict: Dictionary,
    pub conf: Config,
}

/// An element of the screen buffer: its text.
pub struct StringElem(String);

impl From<String> for StringElem {
    fn from(text: String) -> Self {
        StringElem(text)
    }
}

impl From<&str> for StringElem {
    fn from(text: &str) -> Self {
        StringElem(text.to_string())
    }
}

pub struct KhiinElem(String);

impl KhiinElem {
    pub fn from_conversion(_: &str, _: &KeyConversion) -> Result<KhiinElem> {
        unreachable!()
    }
}

pub struct BufferElementEnum(String);

impl From<StringElem> for BufferElementEnum {
    fn from(element: StringElem) -> Self {
        BufferElementEnum(element.0)
    }
}

impl From<KhiinElem> for BufferElementEnum {
    fn from(element: KhiinElem) -> Self {
        BufferElementEnum(element.0)
    }
}

pub trait BufferElement {
    fn raw_text(&self) -> String;
}

impl BufferElement for BufferElementEnum {
    fn raw_text(&self) -> String {
        self.0.clone()
    }
}

/// The screen buffer: the texts of its elements, one behind the other.
pub struct Buffer(String);

impl Buffer {
    pub fn new() -> Buffer {
        Buffer(String::new())
    }

    pub fn push(&mut self, element: BufferElementEnum) {
        if self.0.is_empty() {
            self.0 = element.0;
        } else {
            self.0.push_str(&element.0);
        }
    }

    pub fn is_empty(&self) -> bool {
        self.0.is_empty()
    }

    pub fn set_converted(&mut self, _: bool) {}

    pub fn display_text(&self) -> &str {
        &self.0
    }

    /// The text, for the comparison.
    pub fn text(self) -> String {
        self.0
    }
}

impl From<BufferElementEnum> for Buffer {
    fn from(element: BufferElementEnum) -> Self {
        Buffer(element.0)
    }
}

/// A row of the dictionary: the entry that is keyed and its number of parts.
#[derive(Debug)]
pub struct Input {
    pub id: i64,
    pub n_syls: usize,
    pub input: String,
    pub p: f64,
}

#[derive(Clone, PartialEq)]
pub enum CaseType {
    Lowercase,
    Uppercase,
    FirstUpper,
}

pub struct KeyConversion {
    pub key_sequence: String,
}

impl KeyConversion {
    pub fn set_output_case_type(&mut self, _: CaseType) {}
    pub fn convert_to_khinless(&mut self) {}
    pub fn convert_to_khin_hyphen(&mut self) {}
    pub fn mark_guess_annotation(&mut self) {}
}

pub struct Database;

type Rows = Result<Vec<KeyConversion>>;

impl Database {
    pub fn select_conversions(&self, _: InputType, _: &str, _: Option<usize>) -> Rows {
        unreachable!()
    }

    pub fn select_conversions_for_multiple(&self, _: InputType, _: &[&str]) -> Rows {
        unreachable!()
    }

    pub fn select_conversions_for_tone(&self, _: InputType, _: &str, _: bool, _: bool) -> Rows {
        unreachable!()
    }

    pub fn select_conversions_for_word(&self, _: InputType, _: &str, _: &str, _: bool, _: bool) -> Rows {
        unreachable!()
    }

    pub fn select_conversions_by_hanlo(&self, _: InputType, _: &str, _: bool, _: bool) -> Rows {
        unreachable!()
    }
}

pub struct Dictionary;

impl Dictionary {
    pub fn is_legal_syllable_prefix(&self, _: &str) -> bool {
        false
    }

    pub fn all_words_from_start<'a>(&self, _: &'a str) -> Vec<&'a str> {
        unreachable!()
    }

    pub fn can_segment(&self, _: &str) -> bool {
        unreachable!()
    }

    pub fn segment(&self, _: &str) -> Result<Vec<String>> {
        unreachable!()
    }
}

pub enum SectionType {
    Plaintext,
    Hyphens,
    Punct,
    Splittable,
}

pub fn parse_longest_from_start<'a>(_: &Dictionary, _: &'a str) -> (SectionType, &'a str) {
    unreachable!()
}

pub fn parse_whole_input<'a>(_: &Dictionary, _: &'a str) -> Vec<(SectionType, &'a str)> {
    unreachable!()
}

/// The names of the crate rusqlite by which a kind is stored in the database.
pub mod rusqlite {
    pub type Result<T> = std::result::Result<T, types::Missing>;

    pub use types::ToSql;

    pub mod types {
        #[derive(Debug)]
        pub struct Missing;

        pub type FromSqlResult<T> = Result<T, Missing>;

        pub struct ToSqlOutput<'a>(&'a i64);

        impl From<i64> for ToSqlOutput<'_> {
            fn from(_: i64) -> Self {
                unreachable!()
            }
        }

        pub struct ValueRef<'a>(&'a i64);

        impl ValueRef<'_> {
            pub fn as_i64(&self) -> FromSqlResult<i64> {
                Ok(*self.0)
            }
        }

        pub trait ToSql {
            fn to_sql(&self) -> Result<ToSqlOutput<'_>, Missing>;
        }

        pub trait FromSql: Sized {
            fn column_result(value: ValueRef<'_>) -> FromSqlResult<Self>;
        }
    }
}
