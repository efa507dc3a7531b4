//! A relay that runs the whole watch: it reads a day of calls, or makes one up, judges all
//! receivers each half hour, prints a report and draws one receiver's cells.
//!
//!     cargo run --release --example relay                    the sample day
//!     cargo run --release --example relay -- --generate      a day of eight receivers
//!     cargo run --release --example relay -- --help

mod args;
mod day;
mod picture;
mod relay;

use std::path::Path;
use std::process::ExitCode;

use relay::Relay;
use siting::Refusal;

/// The text of the day, and the name that errors say.
fn list(args: &args::Args) -> Result<(String, String), String> {
    if args.generate {
        eprintln!("relay: a day made from seed {}", args.seed);
        return Ok((day::text(args.seed), format!("seed {}", args.seed)));
    }
    match std::fs::read(&args.file) {
        Ok(bytes) => Ok((
            String::from_utf8_lossy(&bytes).into_owned(),
            args.file.clone(),
        )),
        Err(wrong) => Err(format!("{}: {wrong}", args.file)),
    }
}

/// Draws the picture, if there is something to draw; says what it did.
fn draw(args: &args::Args, relay: &mut Relay) -> Result<String, String> {
    let Some(shot) = relay.shot() else {
        return match args.picture {
            Some(_) => Err("--picture: this receiver was never held".to_string()),
            None => Ok("no receiver was held wrong: no picture".to_string()),
        };
    };
    let file = Path::new(&args.svg);
    let folder = file.parent().unwrap_or(Path::new(""));
    std::fs::create_dir_all(folder)
        .and_then(|()| std::fs::write(file, picture::svg(&shot)))
        .and_then(|()| file.canonicalize())
        .map(|file| format!("picture: {}", file.display()))
        .map_err(|wrong| format!("{}: {wrong}", args.svg))
}

/// Runs the day; false where a line could not be read.
fn run(args: &args::Args) -> Result<bool, String> {
    let (text, name) = list(args)?;
    let said = |refusal: Refusal| refusal.to_string();
    let mut relay = Relay::new(args.picture).map_err(said)?;
    let unread = relay.run(&text, &name);
    print!("{}", relay.report());
    println!("{}", draw(args, &mut relay)?);
    if unread > 0 {
        eprintln!("relay: {name}: {unread} lines could not be read");
    }
    Ok(unread == 0)
}

fn main() -> ExitCode {
    let args = match args::parse(std::env::args().skip(1)) {
        Ok(Some(args)) => args,
        Ok(None) => {
            println!("{}", args::USAGE);
            return ExitCode::SUCCESS;
        }
        Err(wrong) => {
            eprintln!("relay: {wrong}\n{}", args::USAGE);
            return ExitCode::from(2);
        }
    };
    match run(&args) {
        Ok(true) => ExitCode::SUCCESS,
        Ok(false) => ExitCode::FAILURE,
        Err(wrong) => {
            eprintln!("relay: {wrong}");
            ExitCode::FAILURE
        }
    }
}
