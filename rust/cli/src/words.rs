//! The words of the command line.

use std::ffi::{OsStr, OsString};
use std::num::{IntErrorKind, ParseIntError};
use std::os::unix::ffi::OsStrExt;

use gantry::{Position, SIDE_LIMIT};

use crate::{counted, grouped, printable, Failure};

/// An option that some command takes.
#[derive(Clone, Copy, Debug, PartialEq, Eq)]
pub enum Choice {
    Output,
    Listing,
    Sides,
    LeaveOut,
    Look,
    Drive,
    Corrections,
}

impl Choice {
    fn named(word: &str) -> Option<Choice> {
        match word {
            "-o" | "--output" => Some(Choice::Output),
            "--listing" => Some(Choice::Listing),
            "--box" => Some(Choice::Sides),
            "--leave-out" => Some(Choice::LeaveOut),
            "--look" => Some(Choice::Look),
            "--drive" => Some(Choice::Drive),
            "--corrections" => Some(Choice::Corrections),
            _ => None,
        }
    }

    /// How it is written, and what it does.
    pub fn help(self) -> [&'static str; 2] {
        match self {
            Choice::Output => [
                "-o, --output FILE",
                "to FILE, which appears whole or not at all",
            ],
            Choice::Listing => [
                "--listing LISTING",
                "the cells of a listing, instead of the ones that the builder makes",
            ],
            Choice::Sides => [
                "--box X Y Z",
                "the sides of the box, for text that does not begin with them",
            ],
            Choice::LeaveOut => [
                "--leave-out",
                "of text, leave out box corners and repeated nodes, and say which",
            ],
            Choice::Look => [
                "--look x y z",
                "show the cells that a node there would replace; it does not go in",
            ],
            Choice::Drive => [
                "--drive x y z x y z",
                "show the cells on a straight drive from the first position to the second",
            ],
            Choice::Corrections => [
                "--corrections FILE",
                "show the corrections in FILE, a line 'point dx dy dz' for each point that has one",
            ],
        }
    }
}

/// A command's words: the options that were given, and the others in their order.
#[derive(Debug, Default)]
pub struct Words {
    pub plain: Vec<OsString>,
    pub output: Option<OsString>,
    pub listing: Option<OsString>,
    pub sides: Option<Position>,
    pub leave_out: bool,
    pub look: Option<[i64; 3]>,
    pub drive: Option<[[i64; 3]; 2]>,
    pub corrections: Option<OsString>,
}

impl Words {
    /// Options may stand anywhere, up to a word `--`.
    pub fn read(line: &[OsString], choices: &[Choice]) -> Result<Words, Failure> {
        let mut words = Words::default();
        let mut rest = line.iter();
        while let Some(word) = rest.next() {
            if word == "--" {
                words.plain.extend(rest.cloned());
                break;
            }
            if !is_option(word) {
                words.plain.push(word.clone());
                continue;
            }
            let (name, value) = parts(word);
            let choice = Choice::named(&name).filter(|choice| choices.contains(choice));
            let choice = choice.ok_or_else(|| Failure::Usage(format!("unknown option {name}")))?;
            words.set(choice, &name, value, &mut rest)?;
        }
        Ok(words)
    }

    fn set<'a>(
        &mut self,
        choice: Choice,
        name: &str,
        value: Option<OsString>,
        rest: &mut impl Iterator<Item = &'a OsString>,
    ) -> Result<(), Failure> {
        let mut file = |value: Option<OsString>| {
            let value = value.or_else(|| rest.next().cloned());
            let value = value.filter(|value| !value.is_empty());
            value.ok_or_else(|| Failure::Usage(format!("{name} wants a file")))
        };
        match choice {
            Choice::Output => self.output = Some(file(value)?),
            Choice::Listing => self.listing = Some(file(value)?),
            Choice::Corrections => self.corrections = Some(file(value)?),
            Choice::Sides | Choice::LeaveOut | Choice::Look | Choice::Drive if value.is_some() => {
                return Err(Failure::Usage(format!("{name} takes no =")));
            }
            Choice::Sides => self.sides = Some(sides(rest.take(3))?),
            Choice::LeaveOut => self.leave_out = true,
            Choice::Look => self.look = Some(wanted(rest, "--look wants a node x y z")?),
            Choice::Drive => {
                let what = "--drive wants two positions x y z x y z";
                let [ax, ay, az, bx, by, bz] = wanted(rest, what)?;
                self.drive = Some([[ax, ay, az], [bx, by, bz]]);
            }
        }
        Ok(())
    }
}

/// `--name=value`, or an option's name alone.
fn parts(word: &OsStr) -> (String, Option<OsString>) {
    let bytes = word.as_bytes();
    let split = bytes
        .iter()
        .position(|&byte| byte == b'=')
        .filter(|_| bytes.starts_with(b"--"));
    match split {
        Some(place) => {
            let value = OsStr::from_bytes(&bytes[place + 1..]);
            (
                printable(OsStr::from_bytes(&bytes[..place])),
                Some(value.to_os_string()),
            )
        }
        None => (printable(word), None),
    }
}

/// `-` is standard input or output, and `-1` a number.
fn is_option(word: &OsStr) -> bool {
    let bytes = word.as_encoded_bytes();
    bytes.len() > 1 && bytes[0] == b'-' && !bytes[1].is_ascii_digit()
}

fn sides<'a>(words: impl Iterator<Item = &'a OsString>) -> Result<Position, Failure> {
    let side = |word: &OsString| {
        let number = word.to_str()?.parse().ok()?;
        (1..=SIDE_LIMIT).contains(&number).then_some(number)
    };
    let sides: Option<Vec<u32>> = words.map(side).collect();
    sides
        .and_then(|sides| sides.try_into().ok())
        .ok_or_else(|| {
            let limit = grouped(SIDE_LIMIT as usize);
            Failure::Usage(format!(
                "--box wants three sides X Y Z, each from 1 to {limit}"
            ))
        })
}

/// The next `COUNT` words of an option, as numbers.
fn wanted<'a, const COUNT: usize>(
    words: &mut impl Iterator<Item = &'a OsString>,
    what: &str,
) -> Result<[i64; COUNT], Failure> {
    let words: Vec<OsString> = words.take(COUNT).cloned().collect();
    numbers(&words).map_err(|failure| match failure {
        Failure::Usage(why) => Failure::Usage(format!("{what}: {why}")),
        failure => failure,
    })
}

fn number(word: &OsString) -> Result<i64, Failure> {
    let parsed = word.to_str().unwrap_or("").parse();
    parsed.map_err(|error: ParseIntError| {
        let why = match error.kind() {
            IntErrorKind::PosOverflow | IntErrorKind::NegOverflow => {
                let limit = grouped(SIDE_LIMIT as usize);
                format!("is no coordinate: these are from 0 to {limit}")
            }
            _ => "is not a whole number".to_string(),
        };
        Failure::Usage(format!("{} {why}", printable(word)))
    })
}

/// Words that are whole numbers, `COUNT` of them.
pub fn numbers<const COUNT: usize>(words: &[OsString]) -> Result<[i64; COUNT], Failure> {
    let numbers: Vec<i64> = words.iter().map(number).collect::<Result<_, _>>()?;
    let count = counted(numbers.len(), "number");
    numbers
        .try_into()
        .map_err(|_| Failure::Usage(format!("{count}, and {COUNT} are wanted")))
}

/// A number that is no coordinate lies outside every box, as the greatest does.
pub fn position(numbers: [i64; 3]) -> Position {
    numbers.map(|number| u32::try_from(number).unwrap_or(u32::MAX))
}
