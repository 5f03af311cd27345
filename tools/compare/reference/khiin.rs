//! The root of the crate khiin: the Rust's own files for the syllable, for the
//! keyings of an entry, for the telex step and its settings, linked in by
//! reference.sh. What is added to them are ways in from outside the crate, and
//! the stubs of stubs.rs.
#![allow(warnings)]

mod stubs;

mod buffer {
    pub use crate::stubs::{Buffer, BufferElement, BufferElementEnum, KhiinElem, StringElem};
}
pub mod config {
    mod conf;
    pub use conf::*;
}
mod data {
    pub use crate::stubs::Dictionary;
}
pub mod db {
    pub use crate::stubs::Database;
    pub mod models {
        pub use crate::stubs::{CaseType, Input};
        pub use key_sequence::{keyings, InputType, KeySequence};

        // Included and not declared as a file, so that the stub of the crate rusqlite
        // is found by its name and a private function can be called.
        mod key_sequence {
            use crate::stubs::rusqlite;
            include!("db/models/key_sequence.rs");

            /// Every keying of an entry, in the Rust's order.
            pub fn keyings(entry: &Input) -> Vec<KeySequence> {
                generate_key_sequence(entry).unwrap()
            }
        }
    }
}
mod engine {
    pub use crate::stubs::EngInner;
}
mod input {
    mod converter;
    mod syllable;
    pub mod parser {
        pub use crate::stubs::SectionType;
    }
    use crate::stubs::{parse_longest_from_start, parse_whole_input};
    pub(crate) use converter::convert_to_telex;
    pub(crate) use syllable::Syllable;
}

use config::{Config, ToneMode};
use khiin_ji::Tone;

/// A syllable with its fields to read.
#[derive(Clone, Debug)]
pub struct Syllable(input::Syllable);

impl Syllable {
    pub fn new(raw: &str, body: &str, tone: u64, khin: bool) -> Syllable {
        let mut made = input::Syllable::new();
        made.raw_input = raw.to_string();
        made.raw_body = body.to_string();
        made.tone = Tone::from(tone as i32);
        made.khin = khin;
        Syllable(made)
    }

    pub fn from_raw(keys: &str) -> Syllable {
        Syllable(input::Syllable::from_raw(keys))
    }

    pub fn from_composed(text: &str) -> Vec<Syllable> {
        input::Syllable::from_composed(text).into_iter().map(Syllable).collect()
    }

    /// How many keys are aligned with the target, and their record.
    pub fn align(keys: &str, target: &str) -> Option<(usize, Syllable)> {
        let (length, made) = input::Syllable::from_conversion_alignment(keys, target)?;
        Some((length, Syllable(made)))
    }

    pub fn compose(&self) -> String {
        self.0.compose()
    }

    pub fn raw(&self) -> &str {
        &self.0.raw_input
    }

    pub fn body(&self) -> &str {
        &self.0.raw_body
    }

    pub fn tone(&self) -> u64 {
        self.0.tone as u64
    }

    pub fn khin(&self) -> bool {
        self.0.khin
    }
}

/// The settings of the telex step.
pub struct Settings(stubs::EngInner);

impl Settings {
    /// `keys` for t2 t3 t5 t6 t7 t8 t9.
    pub fn new(mode: ToneMode, keys: [char; 7]) -> Settings {
        let mut conf = Config::new();
        conf.set_tone_mode(mode);
        conf.set_t2_key(keys[0]);
        conf.set_t3_key(keys[1]);
        conf.set_t5_key(keys[2]);
        conf.set_t6_key(keys[3]);
        conf.set_t7_key(keys[4]);
        conf.set_t8_key(keys[5]);
        conf.set_t9_key(keys[6]);
        Settings(stubs::EngInner { db: stubs::Database, dict: stubs::Dictionary, conf })
    }

    /// The text of the telex step.
    pub fn telex(&self, text: &str, key: char) -> String {
        input::convert_to_telex(&self.0, text, key).0.unwrap().text()
    }
}
