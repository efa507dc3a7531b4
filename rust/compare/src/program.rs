//! Our program `calls`, run on a list.

use std::io::{Read, Write};
use std::path::PathBuf;
use std::process::{Child, Command, Stdio};
use std::thread::{JoinHandle, spawn};

/// Where the program is: SITING_CALLS, or what `tools/build calls` leaves.
pub fn path() -> PathBuf {
    let built = concat!(env!("CARGO_MANIFEST_DIR"), "/../../target/bin/calls");
    std::env::var("SITING_CALLS")
        .unwrap_or(built.to_string())
        .into()
}

/// A run of the program: one thread writes the list, one reads the answers, so that neither side
/// waits for the other.
pub struct Running {
    child: Child,
    writer: JoinHandle<()>,
    reader: JoinHandle<std::io::Result<String>>,
}

/// Starts the program on a list.
pub fn start(list: String) -> Result<Running, String> {
    let path = path();
    let child = Command::new(&path)
        .stdin(Stdio::piped())
        .stdout(Stdio::piped())
        .spawn();
    let mut child = child.map_err(|wrong| format!("{}: {wrong}", path.display()))?;
    let (mut to, mut from) = (
        child.stdin.take().expect("piped"),
        child.stdout.take().expect("piped"),
    );
    let writer = spawn(move || {
        // A program that ends early is seen by its answers and its exit.
        let _ = to.write_all(list.as_bytes());
    });
    let reader = spawn(move || {
        let mut text = String::new();
        from.read_to_string(&mut text).map(|_| text)
    });
    Ok(Running {
        child,
        writer,
        reader,
    })
}

impl Running {
    /// The answers, once the program has ended well.
    pub fn answers(mut self) -> Result<String, String> {
        let text = self.reader.join().expect("no panic");
        self.writer.join().expect("no panic");
        let ended = self.child.wait().map_err(|wrong| wrong.to_string())?;
        if !ended.success() {
            return Err(format!("the program ended with {ended}"));
        }
        text.map_err(|wrong| wrong.to_string())
    }
}

/// The answers to a short list.
pub fn ask(list: &str) -> Result<String, String> {
    start(list.to_string())?.answers()
}
