//! The commands, with their words and their help.

mod cells;
mod files;
mod merge;
mod queries;

use std::ffi::OsString;
use std::fmt::Write;
use std::io::{self, IsTerminal};

use crate::survey::Survey;
use crate::text::Reading;
use crate::words::{Choice, Words};
use crate::{printable, Done, Failure};

struct Command {
    name: &'static str,
    /// Its words, without options.
    words: &'static str,
    summary: &'static str,
    help: &'static str,
    choices: &'static [Choice],
    run: fn(&Words) -> Result<Done, Failure>,
}

const OF_FILE: &[Choice] = &[Choice::Output, Choice::Sides, Choice::LeaveOut];
const OF_FILE_AND_LISTING: &[Choice] = &[
    Choice::Output,
    Choice::Listing,
    Choice::Sides,
    Choice::LeaveOut,
];
const OF_PICTURE: &[Choice] = &[
    Choice::Output,
    Choice::Look,
    Choice::Listing,
    Choice::Sides,
    Choice::LeaveOut,
];
const OF_SVG: &[Choice] = &[
    Choice::Output,
    Choice::Look,
    Choice::Drive,
    Choice::Corrections,
    Choice::Listing,
    Choice::Sides,
    Choice::LeaveOut,
];
const OF_TWO_FILES: &[Choice] = &[Choice::Output, Choice::Sides];
const OF_NUMBERS: &[Choice] = &[Choice::Output];

const COMMANDS: [Command; 11] = [
    Command {
        name: "nodes",
        words: "FILE",
        summary: "text to a node file",
        help: "Every node is tried: a node file is written only where all of them go in.",
        choices: OF_FILE,
        run: files::nodes,
    },
    Command {
        name: "text",
        words: "FILE",
        summary: "a node file to text: the box, then a line a node",
        help: "The nodes are written as they stand, whether or not they would go in.",
        choices: OF_FILE,
        run: files::text,
    },
    Command {
        name: "merge",
        words: "FILE FILE",
        summary: "two surveys of one box in one node file",
        help: "The first file's nodes in order, then the second's, each position a single time where it
first stands; box corners are left out. Nodes are not tried: 'gantry check' does that.",
        choices: OF_TWO_FILES,
        run: merge::merge,
    },
    Command {
        name: "list",
        words: "FILE",
        summary: "the cells, a line each: number, four corners, four neighbours",
        help: "What the listing program prints. At a node that does not go in the list ends with
'stopped', the node's place from 0, and the refusal's number.",
        choices: OF_FILE,
        run: cells::list,
    },
    Command {
        name: "check",
        words: "FILE",
        summary: "what holds of the cells",
        help: "With --listing, of the cells in LISTING, and whether they are those that the builder
makes of FILE's nodes. Status 1 where something does not hold.",
        choices: OF_FILE_AND_LISTING,
        run: cells::check,
    },
    Command {
        name: "locate",
        words: "FILE x y z",
        summary: "the cell that holds a position, and each corner's share in it",
        help: "Several positions may be given, three numbers each. Of several cells that hold one, the cell
whose corner numbers, sorted upward, come first in order is given. A corner's volume is that
of the cell with this corner moved to the position; its share is that volume over the cell's.",
        choices: OF_FILE,
        run: queries::locate,
    },
    Command {
        name: "look",
        words: "FILE x y z",
        summary: "the cells that a node would replace, before it goes in",
        help: "Several nodes may be given, three numbers each; each is looked at by itself, in FILE's mesh.
The report is the one that its insertion would give, and a node that would not go in is refused
with the same number. Nothing goes in, and FILE stays as it is.",
        choices: OF_FILE,
        run: queries::look,
    },
    Command {
        name: "svg",
        words: "FILE",
        summary: "a picture of the cells",
        help: "The cells' edges, near ones over far ones. Points are numbered where there are at
most 64, cells where there are at most 24. With --look, the cells that the node would replace
are orange and thick, edges that would go are dashed, and the node is a ring. These cells are
then numbered where there are at most 12, and their corners also where there are more points.
With --drive, the cells that the drive touches are shown so, and the drive is a purple line with
its ends as rings, A and B.
With --corrections, red arrows at the points show where their corrections lead, all at one
scale; the caption has the longest.",
        choices: OF_SVG,
        run: cells::svg,
    },
    Command {
        name: "vtk",
        words: "FILE",
        summary: "the cells as a grid for ParaView",
        help:
            "A legacy VTK unstructured grid. Of the cells: 'cell', the number, 'volume6', six times
the volume, and 'volume'. Of the points: 'point', the number. With --look, the cells have
'replaced' too: 1 where the node would replace the cell, else 0.",
        choices: OF_PICTURE,
        run: cells::vtk,
    },
    Command {
        name: "volume",
        words: "ax ay az bx by bz cx cy cz dx dy dz",
        summary: "six times the volume of four points",
        help: "Below 0 where the points turn the other way.",
        choices: OF_NUMBERS,
        run: queries::volume,
    },
    Command {
        name: "sphere",
        words: "ax ay az bx by bz cx cy cz dx dy dz px py pz",
        summary: "whether p is inside the sphere through a, b, c and d",
        help: "The answer, inside or outside, is exact, and p on the sphere is outside. It comes with the float
sum T, which is rounded, and may have another sign where it is within 2^39 of 0.",
        choices: OF_NUMBERS,
        run: queries::sphere,
    },
];

const ABOUT: &str = "Cells over the nodes of a gantry box, by the proved builder.";

const FILES: &str = "\
FILE is a node file, or text: a line x y z for each node, after a line X Y Z for the box.
Commas, semicolons or tabs may stand between the numbers, and headings above them.
'-' is standard input.";

const STATUS: &str = "\
Status: 0 done; 1 a file or a node was refused, a check failed, or output was lost; 2 wrong words.
docs/MANUAL.md has the formats, the limits, and what to do about a refusal.";

/// What a command line asks for, and the file that its output goes to.
pub fn perform(line: &[OsString]) -> Result<(Done, Option<OsString>), Failure> {
    let Some((first, rest)) = line.split_first() else {
        return Err(Failure::Usage("no command; see gantry --help".to_string()));
    };
    let text = match (first.to_str(), rest) {
        (Some("--help" | "-h" | "help"), []) => help(),
        (Some("--version" | "-V"), []) => format!("gantry {}\n", env!("CARGO_PKG_VERSION")),
        (Some("help"), [name]) => named(name)?.help(),
        (Some("--help" | "-h" | "help" | "--version" | "-V"), _) => {
            let message = format!("too many words after {}", printable(first));
            return Err(Failure::Usage(message));
        }
        _ if asks_for_help(rest) => named(first)?.help(),
        _ => return named(first)?.perform(rest),
    };
    Ok((Done::of(text), None))
}

/// Before a word `--`, which ends the options.
fn asks_for_help(words: &[OsString]) -> bool {
    let mut options = words.iter().take_while(|&word| word != "--");
    options.any(|word| word == "--help" || word == "-h")
}

fn named(word: &OsString) -> Result<&'static Command, Failure> {
    let command = COMMANDS.iter().find(|command| word == command.name);
    command.ok_or_else(|| {
        let word = printable(word);
        Failure::Usage(format!("unknown command {word}; see gantry --help"))
    })
}

fn help() -> String {
    let mut text = format!("{ABOUT}\n\nusage: gantry COMMAND ..\n       gantry COMMAND --help\n\n");
    for Command { name, summary, .. } in &COMMANDS {
        let _ = writeln!(text, "  {name:8} {summary}");
    }
    text + "\n" + FILES + "\n\n" + STATUS + "\n"
}

impl Command {
    fn usage(&self) -> String {
        format!("usage: gantry {} {} [OPTIONS]", self.name, self.words)
    }

    fn help(&self) -> String {
        let (first, rest) = self.summary.split_at(1);
        let summary = first.to_uppercase() + rest;
        let mut text = format!("{}\n\n{summary}.\n{}\n", self.usage(), self.help);
        if self.words.starts_with("FILE") {
            text = text + "\n" + FILES + "\n";
        }
        text.push('\n');
        for choice in self.choices {
            let [word, what] = choice.help();
            let _ = writeln!(text, "  {word:20} {what}");
        }
        text + "\n" + STATUS + "\n"
    }

    fn perform(&self, line: &[OsString]) -> Result<(Done, Option<OsString>), Failure> {
        let run = || {
            let words = Words::read(line, self.choices)?;
            Ok(((self.run)(&words)?, words.output))
        };
        run().map_err(|failure| match failure {
            Failure::Usage(message) => {
                Failure::Usage(format!("{}: {message}\n{}", self.name, self.usage()))
            }
            failure => failure,
        })
    }
}

/// The survey of the one file that is named.
fn survey(words: &Words) -> Result<Survey, Failure> {
    match &words.plain[..] {
        [file] => read_survey(file, words),
        [] => Err(Failure::Usage("no FILE".to_string())),
        [_, more, ..] => {
            let more = printable(more);
            Err(Failure::Usage(format!("{more}: only one FILE is taken")))
        }
    }
}

fn read_survey(file: &OsString, words: &Words) -> Result<Survey, Failure> {
    let reading = Reading {
        sides: words.sides,
        leave_out: words.leave_out,
    };
    let survey = Survey::read(file, reading)?;
    if words.leave_out && survey.file.is_some() {
        let message = "a node file, and --leave-out is for text; see gantry text";
        return Err(Failure::input(format!("{}: {message}", survey.name)));
    }
    Ok(survey)
}

fn not_for_a_terminal(words: &Words) -> Result<(), Failure> {
    if words.output.is_none() && io::stdout().is_terminal() {
        let message = "a node file is not for a terminal: name a file by -o FILE";
        return Err(Failure::Usage(message.to_string()));
    }
    Ok(())
}

/// Of two words for input.
fn one_standard_input(both: [Option<&OsString>; 2]) -> Result<(), Failure> {
    match both.iter().all(|word| word.is_some_and(|word| word == "-")) {
        true => Err(Failure::Usage(
            "standard input can be only one of the two".to_string(),
        )),
        false => Ok(()),
    }
}
