//! What a program says of its own use, and how it ends.

use std::ffi::OsString;
use std::io::{self, Write};
use std::process::ExitCode;

/// Status for a program that was called in a way that it does not know.
const MISUSED: u8 = 2;

/// Whether the words behind a program's name ask for its help.
pub fn is_asked(words: &[OsString]) -> bool {
    matches!(words, [word] if word == "--help" || word == "-h")
}

pub fn tell(usage: &str, help: &str) -> io::Result<()> {
    writeln!(io::stdout(), "{usage}\n{help}")
}

/// Tells the use alone, on standard error.
pub fn misused(usage: &str) -> ExitCode {
    let _ = writeln!(io::stderr(), "{usage}");
    ExitCode::from(MISUSED)
}

/// The status of a program that did what it could; what it could not is told.
pub fn status(program: &str, done: io::Result<()>) -> ExitCode {
    match done {
        Ok(()) => ExitCode::SUCCESS,
        Err(fault) => {
            let _ = writeln!(io::stderr(), "{program}: {fault}");
            ExitCode::FAILURE
        }
    }
}
