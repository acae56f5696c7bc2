//! `perfrec little|big|native LIMIT [attr] < STREAM` prints the text of a stream's records
//! (docs/FORMATS.md). Its arguments and its statuses are those of the proved program.

use std::ffi::OsString;
use std::io::{self, Read, Write};
use std::process::ExitCode;

#[path = "../tests/text/mod.rs"]
mod text;

/// The line that is printed for arguments that are no command.
const USAGE: &str = "usage: perfrec little|big|native LIMIT [attr]";

/// Prints the text of standard input, and returns the status.
fn print(command: text::Command) -> io::Result<u8> {
    let mut stream = Vec::new();
    io::stdin().lock().read_to_end(&mut stream)?;
    let (lines, status) = text::run_command(command, &stream);
    let mut out = io::BufWriter::new(io::stdout().lock());
    for line in lines {
        writeln!(out, "{line}")?;
    }
    out.flush()?;
    Ok(status)
}

fn main() -> ExitCode {
    let words = std::env::args_os().skip(1).map(OsString::into_string);
    let Ok(words) = words.collect::<Result<Vec<String>, _>>() else {
        return ExitCode::from(3);
    };
    let Some(command) = text::command(&words) else {
        // if standard error fails, the status alone reports it
        let _ = writeln!(io::stderr(), "{USAGE}");
        return ExitCode::from(2);
    };
    ExitCode::from(print(command).unwrap_or(3))
}
