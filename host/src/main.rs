//! The command line: `fallowcart segments FILE`.

mod cli {
    pub mod input;
    pub mod options;
    pub mod progress;
    pub mod segments;
    pub mod table;
    pub mod time;
}

use std::io::Write;
use std::process::ExitCode;

use cli::options::{self, Command};
use cli::segments::{self, Failure};

/// Bad options, input that cannot be read, values out of range.
const BAD_INPUT: u8 = 2;

/// What a shell says of a program whose reader went away, as `head` does.
const READER_GONE: u8 = 141;

fn main() -> ExitCode {
    let command = match options::parse(std::env::args_os().skip(1)) {
        Ok(command) => command,
        Err(message) => return refuse(&format!("{message}\n'fallowcart --help' says more")),
    };
    let done = match command {
        Command::Help => segments::print(options::HELP),
        Command::Version => {
            segments::print(concat!("fallowcart ", env!("CARGO_PKG_VERSION"), "\n"))
        }
        Command::Segments(job) => segments::run(&job),
    };
    match done {
        Ok(()) => ExitCode::SUCCESS,
        Err(Failure::ReaderGone) => ExitCode::from(READER_GONE),
        Err(Failure::Said(message)) => refuse(&message),
    }
}

fn refuse(message: &str) -> ExitCode {
    // A message that cannot be written changes no status.
    let _ = writeln!(std::io::stderr(), "fallowcart: {message}");
    ExitCode::from(BAD_INPUT)
}
