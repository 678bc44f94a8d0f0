//! Finds the archive of the proved library, or says how to make it.
//!
//! The folder is the environment variable `ERBIGHENTI_LIB_DIR` where it is set; else, in the repository of which this crate is a part,
//! the one where the archive is made: `target/staticlib` for x86-64, `target/native` for any other machine.
use std::env;
use std::path::{Path, PathBuf};
use std::process::exit;

const ARCHIVE: &str = "libexplanation.a";
const VARIABLE: &str = "ERBIGHENTI_LIB_DIR";

fn main() {
    println!("cargo:rerun-if-env-changed={VARIABLE}");
    // the archive of `tools/archive` is x86-64 code
    let proved_fits = env::var("CARGO_CFG_TARGET_ARCH").is_ok_and(|arch| arch == "x86_64");
    let (made_in, made_by) = if proved_fits {
        ("../../target/staticlib", "`tools/archive`")
    } else {
        ("../../target/native", "`bindings/rust/native` (the proved archive is x86-64 code; this builds the same module for this machine)")
    };
    let set = env::var_os(VARIABLE).filter(|folder| !folder.is_empty());
    let folder = match &set {
        Some(folder) => PathBuf::from(folder),
        None => Path::new(&env::var_os("CARGO_MANIFEST_DIR").unwrap_or_default()).join(made_in),
    };
    let archive = folder.join(ARCHIVE);
    println!("cargo:rerun-if-changed={}", archive.display());
    if !archive.is_file() {
        eprintln!("erbighenti: there is no {}.", archive.display());
        eprintln!("It is the proved library. Make it at the top of Erbighenti's repository by {made_by}.");
        match set {
            Some(_) => eprintln!("{VARIABLE} is set, and names the folder where it was looked for."),
            None => eprintln!("Where it stands elsewhere, set {VARIABLE} to its folder."),
        }
        exit(1);
    }
    println!("cargo:rustc-link-search=native={}", folder.display());
    println!("cargo:rustc-link-lib=static=explanation");
}
