//! Prints the keyings of an entry, or why it is refused: `cargo run --example keyings -- 'tâi oân'`.

use robinflint::{Entry, Kind, Refusal};
use std::env;
use std::process::ExitCode;

fn print_keyings(text: &str) -> Result<(), Refusal> {
    let entry = Entry::new(text)?;
    for kind in [Kind::Numeric, Kind::Telex, Kind::Detoned] {
        let mut keyings = entry.keyings(kind)?;
        println!("{kind:?}: {}", keyings.count());
        while let Some(keying) = keyings.next() {
            println!("    {keying}");
        }
    }
    Ok(())
}

fn main() -> ExitCode {
    let text = env::args().nth(1).unwrap_or_default();
    match print_keyings(&text) {
        Ok(()) => ExitCode::SUCCESS,
        Err(refusal) => {
            eprintln!("refused {}: {refusal}", refusal.number());
            ExitCode::FAILURE
        }
    }
}
