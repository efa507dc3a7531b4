//! Finds the original's source and lays a copy of it, with our `tests.rs` beside it, into the
//! build's own folder: unchanged but for the edits that document 02 asks of the Rust, each named
//! below. Without the source the crate builds too, and says so; with a source that does not have
//! the text of an edit once, it does not build.

use std::path::{Path, PathBuf};
use std::{env, fs};

/// The folder of the original below the documents' `src`.
const BELOW: &str = "crates/relay/src";

/// The files that are taken over.
const FILES: [&str; 2] = ["siting.rs", "bounded.rs"];

/// An edit of the original: its text, once in the file, and what stands there instead.
struct Edit {
    name: &'static str,
    file: &'static str,
    old: &'static str,
    new: &'static str,
}

/// The edits, by the items of document 02 that ask for them.
const EDITS: [Edit; 1] = [Edit {
    name: "Item 2: median and total from the third nearest place on",
    file: "siting.rs",
    old: "    heard.sort_by(|a, b| a.1.total_cmp(&b.1));\n",
    // The list is in order of the nearest distances here, equal ones as they came: cells, then bins.
    new: "    let skipped = 2.min(heard.len() - 1);\n    let heard = &mut heard[skipped..];\n    \
          let positions: u32 = heard.iter().map(|(_, _, count)| *count).sum();\n    \
          heard.sort_by(|a, b| a.1.total_cmp(&b.1));\n",
}];

/// A file's text with its edits made.
fn edited(file: &str, text: String) -> String {
    EDITS
        .iter()
        .filter(|edit| edit.file == file)
        .fold(text, |text, edit| {
            let found = text.matches(edit.old).count();
            assert_eq!(
                found, 1,
                "oracle: {file} must have the text that an edit replaces once ({}): {:?}",
                edit.name, edit.old
            );
            text.replace(edit.old, edit.new)
        })
}

fn main() {
    println!("cargo::rerun-if-env-changed=SITING_RUST_SRC");
    println!("cargo::rerun-if-changed=build.rs");
    println!("cargo::rerun-if-changed=src/reach.rs");
    println!("cargo::rerun-if-changed=src/relay.rs");
    let out = PathBuf::from(env::var("OUT_DIR").expect("cargo sets OUT_DIR"));
    let here = PathBuf::from(env::var("CARGO_MANIFEST_DIR").expect("cargo sets it"));
    let named = env::var("SITING_RUST_SRC").ok().map(PathBuf::from);
    let root = named.unwrap_or(here.join("../../../shared/docs/src"));
    // The documents' folder, or the files' own.
    let below = root.join(BELOW);
    let folder = if below.is_dir() { below } else { root };
    let missing: Vec<&str> = FILES
        .into_iter()
        .filter(|file| !folder.join(file).is_file())
        .collect();
    for file in FILES {
        println!("cargo::rerun-if-changed={}", folder.join(file).display());
    }
    say(&out, &folder.canonicalize().unwrap_or(folder.clone()));
    if missing.is_empty() {
        take(&folder, &out);
        println!("cargo::rustc-cfg=original");
        println!("cargo::rustc-cfg=test");
    } else {
        println!(
            "cargo::warning=oracle: {} not found in {} (SITING_RUST_SRC names another folder): the comparison will be skipped",
            missing.join(" and "),
            folder.display()
        );
    }
}

/// Lays down the source with its edits made, our files beside it, and names both as modules.
fn take(folder: &Path, out: &Path) {
    for file in FILES {
        let text = fs::read_to_string(folder.join(file)).expect("the source can be read");
        fs::write(out.join(file), edited(file, text)).expect("OUT_DIR can be written");
    }
    fs::copy("src/reach.rs", out.join("tests.rs")).expect("OUT_DIR can be written");
    fs::create_dir_all(out.join("tests")).expect("OUT_DIR can be written");
    fs::copy("src/relay.rs", out.join("tests/relay.rs")).expect("OUT_DIR can be written");
    let modules = "#[path = \"siting.rs\"]\n#[allow(clippy::all, clippy::pedantic, dead_code)]\npub mod siting;\n\
                   #[path = \"bounded.rs\"]\n#[allow(clippy::all, clippy::pedantic, dead_code)]\npub mod bounded;\n";
    fs::write(out.join("original.rs"), modules).expect("OUT_DIR can be written");
}

/// The folder, for the line that says where the source is or was looked for.
fn say(out: &Path, folder: &Path) {
    let text = format!("{:?}", folder.display().to_string());
    fs::write(out.join("folder.rs"), text).expect("OUT_DIR can be written");
}
