//! plain_listing: the listing of a node file, by the plain build.

use std::io::{self, Read, Write};
use std::process::ExitCode;

const USAGE: &str = "usage: plain_listing < NODES
Reads a node file from standard input and writes its listing to standard output, as the listing program does.";

fn list() -> io::Result<()> {
    let mut file = Vec::new();
    io::stdin().read_to_end(&mut file)?;
    io::stdout().write_all(plain::listing(&file).as_bytes())
}

fn main() -> ExitCode {
    if std::env::args_os().len() > 1 {
        eprintln!("{USAGE}");
        return ExitCode::from(2);
    }
    match list() {
        Ok(()) => ExitCode::SUCCESS,
        Err(error) => {
            eprintln!("plain_listing: {error}");
            ExitCode::FAILURE
        }
    }
}
