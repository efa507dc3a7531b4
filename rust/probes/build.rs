//! Finds the archive of the functions that only the comparison calls (`tools/build probes`), and
//! which of them it has.

use std::path::PathBuf;
use std::{env, fs, process};

fn main() {
    println!("cargo::rerun-if-env-changed=SITING_LIB_DIR");
    let here = PathBuf::from(env::var("CARGO_MANIFEST_DIR").expect("cargo sets it"));
    let folder = env::var("SITING_LIB_DIR")
        .map_or_else(|_| here.join("../../target/staticlib"), PathBuf::from);
    let archive = folder.join("libprobes.a");
    println!("cargo::rerun-if-changed={}", archive.display());
    let Ok(bytes) = fs::read(&archive) else {
        eprintln!(
            "{} is not there. Run `tools/build probes` at the repository's root, or let SITING_LIB_DIR name its folder.",
            archive.display()
        );
        process::exit(1);
    };
    // The archive's index lists its functions, each name ended by a zero byte.
    let has = |name: &str| {
        let name = [name.as_bytes(), b"\0"].concat();
        bytes.windows(name.len()).any(|part| part == name)
    };
    if has("probe_judge") {
        println!("cargo::rustc-cfg=judge");
    }
    println!("cargo::rustc-link-search=native={}", folder.display());
    println!("cargo::rustc-link-lib=static=probes");
}
