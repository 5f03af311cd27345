//! Finds librobinflint.a, or has it made: the folder ROBINFLINT_ARCHIVE, else target/staticlib of the repository,
//! else `tools/archive.sh robinflint`, which proves the code and writes the archive to that place.

use std::env;
use std::fs;
use std::path::{Path, PathBuf};
use std::process::{exit, Command};

const ARCHIVE: &str = "librobinflint.a";

/// The functions that `src/sys.rs` declares. An archive that lacks one is older than this crate.
const FUNCTIONS: [&str; 8] = [
    "rf_strip",
    "rf_tone_letter",
    "rf_from_raw",
    "rf_compose",
    "rf_candidate",
    "rf_keying",
    "rf_align",
    "rf_telex",
];

fn main() {
    println!("cargo:rerun-if-changed=build.rs");
    println!("cargo:rerun-if-env-changed=ROBINFLINT_ARCHIVE");
    let folder = match archive_folder() {
        Ok(folder) => folder,
        Err(message) => {
            eprintln!("robinflint: {message}");
            exit(1);
        }
    };
    println!("cargo:rerun-if-changed={}", folder.join(ARCHIVE).display());
    println!("cargo:rustc-link-search=native={}", folder.display());
    println!("cargo:rustc-link-lib=static=robinflint");
}

fn archive_folder() -> Result<PathBuf, String> {
    let folder = match env::var_os("ROBINFLINT_ARCHIVE") {
        Some(folder) => named_folder(PathBuf::from(folder))?,
        None => repository_folder()?,
    };
    check_functions(&folder.join(ARCHIVE))?;
    Ok(folder)
}

fn named_folder(folder: PathBuf) -> Result<PathBuf, String> {
    // Cargo runs this script in the crate's folder, so that a path relative to it would surprise the caller.
    if folder.is_relative() {
        return Err(format!("ROBINFLINT_ARCHIVE has to be an absolute path, and is {}", folder.display()));
    }
    if !folder.join(ARCHIVE).is_file() {
        return Err(format!("ROBINFLINT_ARCHIVE is {}, which has no {ARCHIVE}", folder.display()));
    }
    Ok(folder)
}

fn repository_folder() -> Result<PathBuf, String> {
    let host = env::var_os("CARGO_MANIFEST_DIR").map(PathBuf::from).unwrap_or_default();
    let repository = host.parent().map(Path::to_path_buf).unwrap_or_default();
    let folder = repository.join("target").join("staticlib");
    if folder.join(ARCHIVE).is_file() {
        return Ok(folder);
    }
    let made = Command::new(repository.join("tools").join("archive.sh")).arg("robinflint").status();
    let ended = match made {
        Ok(status) if status.success() && folder.join(ARCHIVE).is_file() => return Ok(folder),
        Ok(status) => format!("ended with {status}"),
        Err(error) => format!("does not start ({error})"),
    };
    Err(format!(
        "there is no {ARCHIVE} in {}, and `tools/archive.sh robinflint`, which makes it by `rt`, {ended}. Without \
         `rt`, set ROBINFLINT_ARCHIVE to the folder that holds the archive",
        folder.display()
    ))
}

/// Whether the names of all functions stand in the archive: an older one would only fail in the linker, at the end
/// of a build and without this advice.
fn check_functions(archive: &Path) -> Result<(), String> {
    let bytes =
        fs::read(archive).map_err(|error| format!("{} cannot be read: {error}", archive.display()))?;
    for name in FUNCTIONS {
        if !bytes.windows(name.len()).any(|part| part == name.as_bytes()) {
            return Err(format!(
                "{} has no {name}: it is older than this crate. `tools/archive.sh robinflint` makes it anew",
                archive.display()
            ));
        }
    }
    Ok(())
}
