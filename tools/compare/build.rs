//! Says where the two archives are: the folder ARCHIVES, or else target/staticlib of the repository.
use std::env;
use std::path::PathBuf;

fn main() {
    println!("cargo:rerun-if-env-changed=ARCHIVES");
    println!("cargo:rerun-if-changed=build.rs");
    println!("cargo:rerun-if-env-changed=CODE_PAD");
    println!("cargo:rustc-env=CODE_PAD={}", env::var("CODE_PAD").unwrap_or("0".to_string()));
    println!("cargo:rustc-check-cfg=cfg(listing)");
    if env::var_os("CARGO_FEATURE_ARCHIVES").is_none() {
        return;
    }
    let folder = match env::var_os("ARCHIVES") {
        Some(folder) => PathBuf::from(folder),
        None => PathBuf::from(env::var_os("CARGO_MANIFEST_DIR").unwrap()).join("../../target/staticlib"),
    };
    println!("cargo:rustc-link-search=native={}", folder.display());
    // The listing is exported last; until the archive has it, its rows and inputs are left out.
    let workbench = std::fs::read(folder.join("libworkbench.a")).unwrap_or_default();
    if workbench.windows(10).any(|name| name == b"wb_listing") {
        println!("cargo:rustc-cfg=listing");
    }
    for name in ["robinflint", "workbench"] {
        println!("cargo:rerun-if-changed={}", folder.join(format!("lib{name}.a")).display());
        println!("cargo:rustc-link-lib=static={name}");
    }
}
