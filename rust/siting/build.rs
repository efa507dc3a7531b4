//! Finds the archive of the proved functions, or makes it: `tools/build siting` at the
//! repository's root.

use std::env;
use std::path::{Path, PathBuf};
use std::process::{Command, exit};

/// Ends the build with sentences that say what is missing.
fn missing(lines: &[&str]) -> ! {
    for line in lines {
        eprintln!("siting: {line}");
    }
    exit(1)
}

/// Proves and compiles the functions: some minutes from nothing, seconds where all is proved.
fn make(root: &Path, archive: &Path) {
    let there = format!("{} is not there", archive.display());
    if !root.join("crates.txt").is_file() {
        missing(&[
            &there,
            "and this crate does not stand in its repository, which could make it.",
            "Let SITING_LIB_DIR name the folder of a libsiting.a that `tools/build siting` made there.",
        ]);
    }
    let made = Command::new("tools/build")
        .arg("siting")
        .current_dir(root)
        .status();
    match made {
        Ok(status) if status.success() && archive.is_file() => {
            println!("cargo::warning=libsiting.a was not there: `tools/build siting` has made it");
        }
        Ok(status) => missing(&[
            &there,
            &format!("and `tools/build siting` did not make it ({status})."),
            &format!(
                "See what it says: cd {} && tools/build siting",
                root.display()
            ),
        ]),
        Err(wrong) => missing(&[
            &there,
            &format!("and `tools/build`, which makes it, cannot be run ({wrong})."),
            "Let SITING_LIB_DIR name the folder of a libsiting.a.",
        ]),
    }
}

fn main() {
    println!("cargo::rerun-if-env-changed=SITING_LIB_DIR");
    println!("cargo::rerun-if-changed=build.rs");
    let here = PathBuf::from(env::var("CARGO_MANIFEST_DIR").expect("cargo sets it"));
    let root = here.join("../..");
    let named = env::var("SITING_LIB_DIR").ok().map(PathBuf::from);
    let folder = named.clone().unwrap_or(root.join("target/staticlib"));
    let archive = folder.join("libsiting.a");
    println!("cargo::rerun-if-changed={}", archive.display());
    if !archive.is_file() {
        match named {
            Some(_) => missing(&[
                &format!("SITING_LIB_DIR names {}", folder.display()),
                "but there is no libsiting.a in it.",
            ]),
            None => make(&root, &archive),
        }
    }
    // The tests link a C program with it too.
    println!("cargo::rustc-env=SITING_ARCHIVE={}", archive.display());
    println!("cargo::rustc-link-search=native={}", folder.display());
    println!("cargo::rustc-link-lib=static=siting");
}
