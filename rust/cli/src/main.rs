//! gantry COMMAND [WORDS]

use std::ffi::OsStr;
use std::io::{self, Write};
use std::process::ExitCode;

use gantry_cli::output::{self, Lost};
use gantry_cli::{commands, Done, Failure};

/// On standard error, if it can be written.
fn say(message: &str) {
    let _ = writeln!(io::stderr(), "gantry: {message}");
}

/// Writes what a command leaves, and gives the status.
fn finish(done: Done, file: Option<&OsStr>) -> u8 {
    let written = output::write(file, &done.output);
    for message in done.notes.iter().chain(&done.complaints) {
        say(message);
    }
    let lost = match written {
        Err(Lost::Message(message)) => {
            say(&message);
            true
        }
        // Whoever reads the pipe has enough.
        Err(Lost::ClosedPipe) | Ok(()) => false,
    };
    u8::from(lost || !done.complaints.is_empty())
}

fn run() -> u8 {
    let line: Vec<_> = std::env::args_os().skip(1).collect();
    match commands::perform(&line) {
        Ok((done, file)) => finish(done, file.as_deref()),
        Err(Failure::Usage(message)) => {
            say(&message);
            2
        }
        Err(Failure::Input { messages, .. }) => {
            messages.iter().for_each(|message| say(message));
            1
        }
    }
}

fn main() -> ExitCode {
    ExitCode::from(run())
}
