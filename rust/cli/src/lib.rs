//! The command `gantry`. The cells, the mesh check, the located cell, the cells that a node would replace, those on a drive,
//! the volumes and the node files that are read, merged and written come from the proved archive; reading text and listings,
//! explaining a check, naming the cells that hold a position and drawing are this crate's own.

pub mod check;
pub mod commands;
pub mod corrections;
pub mod drive;
pub mod fields;
pub mod grid;
pub mod input;
pub mod labels;
pub mod listing;
pub mod look;
pub mod output;
pub mod survey;
pub mod svg;
pub mod text;
pub mod vtk;
pub mod words;

use std::ffi::OsStr;

use gantry::{Position, Refusal};

/// What a command leaves: its output, and what it says on standard error.
#[derive(Debug, Default)]
pub struct Done {
    pub output: Vec<u8>,
    /// Said for information.
    pub notes: Vec<String>,
    /// What did not go right; the status is then 1.
    pub complaints: Vec<String>,
}

impl Done {
    pub fn of(text: String) -> Done {
        Done {
            output: text.into_bytes(),
            ..Done::default()
        }
    }

    /// With nothing to write, so that a file that was named stays as it was.
    fn failure(self) -> Failure {
        Failure::Input {
            messages: [self.notes, self.complaints].concat(),
            refusal: None,
        }
    }
}

/// Why a command has no output.
#[derive(Debug, PartialEq, Eq)]
pub enum Failure {
    /// The words of the command line are wrong: status 2.
    Usage(String),
    /// The input is wrong: status 1. A refused node file has its refusal.
    Input {
        messages: Vec<String>,
        refusal: Option<Refusal>,
    },
}

impl Failure {
    pub fn input(message: String) -> Failure {
        Failure::Input {
            messages: vec![message],
            refusal: None,
        }
    }
}

/// A number with a comma between thousands.
pub fn grouped(number: usize) -> String {
    let digits = number.to_string();
    let mut text = String::new();
    for (place, digit) in digits.chars().enumerate() {
        if place > 0 && (digits.len() - place).is_multiple_of(3) {
            text.push(',');
        }
        text.push(digit);
    }
    text
}

/// `x y z`
pub fn spaced([x, y, z]: Position) -> String {
    format!("{x} {y} {z}")
}

/// Does a position lie outside the box of these sides?
pub fn is_outside(sides: Position, p: Position) -> bool {
    (0..3).any(|axis| p[axis] > sides[axis])
}

/// Is a position a corner of the box of these sides?
pub fn is_corner(sides: Position, p: Position) -> bool {
    (0..3).all(|axis| p[axis] == 0 || p[axis] == sides[axis])
}

/// ` of line 7`, of a box that was read from there.
fn of_line(line: Option<usize>) -> String {
    line.map(|line| format!(" of line {line}"))
        .unwrap_or_default()
}

/// A refusal by number and name, and why it was answered.
pub fn because(refusal: Refusal, why: &str) -> String {
    format!("refused {} ({}): {why}", refusal.number(), refusal.name())
}

/// Control characters escaped.
fn escaped(text: &str) -> String {
    let escape = |c: char| match c.is_control() {
        true => c.escape_default().to_string(),
        false => c.to_string(),
    };
    text.chars().map(escape).collect()
}

/// Of input, for a message: in quotes, and cut where it is long.
pub fn shown(text: &str) -> String {
    const LONGEST: usize = 40;
    let cut: String = text.chars().take(LONGEST).collect();
    let dots = if cut.len() < text.len() { ".." } else { "" };
    format!("'{}{dots}'", escaped(&cut))
}

/// A file's name or a word, for a message.
pub fn printable(name: &OsStr) -> String {
    escaped(&name.to_string_lossy())
}

/// `1 node`, `2 nodes`
pub fn counted(count: usize, what: &str) -> String {
    let ending = if count == 1 { "" } else { "s" };
    format!("{count} {what}{ending}")
}
