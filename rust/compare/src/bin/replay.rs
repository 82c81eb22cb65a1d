//! replay [--build NAME] CALLS

use std::process::ExitCode;

use compare::{named, names, Script};

const USAGE: &str = "usage: replay [--build NAME] CALLS
Makes the calls of a file on the build named, plain unless another is, and prints what it answers and leaves. The first line of the
file is 'box X Y Z points P cells C', with 'corrections N' behind it where that table has not 3 × P entries, the others are 'sphere x y z',
'answers DIGITS x y z' with a digit an entry, 0 for no, 'look x y z', lent three marks more than used entries, all 9, 'marked DIGITS x y z'
with a digit a mark, 'locate x y z', 'drive ax ay az bx by bz LENGTH' with so many entries for the cells, 'correction x y z',
'set POINT x y z', 'start X Y Z', 'check', 'merge x y z .. and x y z ..', two files of the box with these nodes, 'cell NUMBER', four corners
and four neighbours, which puts a cell into the tables, or a freed entry with dashes for corners, 'record cells C chain N used U', which
puts these numbers into the record, or 'stands ENTRY NUMBER', which puts a number into the correction table.";

fn play() -> Result<String, String> {
    let words: Vec<String> = std::env::args().skip(1).collect();
    let words: Vec<&str> = words.iter().map(String::as_str).collect();
    let (build, file) = match words[..] {
        ["--build", name, file] => (name, file),
        [file] if !file.starts_with('-') => ("plain", file),
        _ => return Err(format!("{USAGE}\nThe builds: {}.", names())),
    };
    let build = named(build)?;
    let text = std::fs::read_to_string(file).map_err(|error| format!("{file}: {error}"))?;
    let script = Script::parse(&text).map_err(|error| format!("{file}: {error}"))?;
    Ok(script.play(build.as_ref()))
}

fn main() -> ExitCode {
    match play() {
        Ok(text) => {
            print!("{text}");
            ExitCode::SUCCESS
        }
        Err(message) => {
            eprintln!("{message}");
            ExitCode::from(2)
        }
    }
}
