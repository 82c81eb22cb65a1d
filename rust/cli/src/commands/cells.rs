//! The cells of a survey, or of a listing of them: listed, checked, drawn.

use std::fmt::Write;

use gantry::{Refusal, Stopped};

use super::queries::refused_at;
use super::{one_standard_input, survey};
use crate::check::{conditions, is_mesh, says, Outcome};
use crate::corrections;
use crate::drive::Drive;
use crate::grid::Grid;
use crate::input::Source;
use crate::listing;
use crate::look::Replacing;
use crate::survey::{Built, Survey};
use crate::svg::Emphasis;
use crate::words::{position, Words};
use crate::{because, counted, grouped, is_outside, Done, Failure};

pub fn list(words: &Words) -> Result<Done, Failure> {
    let survey = match survey(words) {
        Err(Failure::Input {
            messages,
            refusal: Some(refusal),
        }) => return refused_list(refusal, messages, words),
        survey => survey?,
    };
    let length = survey.file.as_ref().map(Vec::len);
    if let Some(length) = length.filter(|&length| length > listing::FILE_LIMIT) {
        let [length, limit] = [length, listing::FILE_LIMIT].map(grouped);
        let why = format!("it has {length} bytes, and a listing takes at most {limit}");
        let message = format!("{}: {}", survey.name, because(Refusal::Trailer, &why));
        return refused_list(Refusal::Trailer, vec![message], words);
    }
    let built = survey.build()?;
    let text = listing::text(&Grid::from(&built.mesh), built.stopped);
    Ok(Done {
        complaints: survey.complaint(&built).into_iter().collect(),
        notes: survey.notes,
        ..Done::of(text)
    })
}

/// On standard output; a file that was named is left as it was.
fn refused_list(refusal: Refusal, messages: Vec<String>, words: &Words) -> Result<Done, Failure> {
    match &words.output {
        Some(name) if name != "-" => Err(Failure::Input {
            messages,
            refusal: Some(refusal),
        }),
        _ => Ok(Done {
            complaints: messages,
            ..Done::of(listing::refused(refusal))
        }),
    }
}

/// A listing that was named.
struct Listed {
    name: String,
    text: String,
    is_mesh: bool,
}

/// What is shown: the cells that the builder makes, or those of a listing.
struct Shown {
    survey: Survey,
    built: Built,
    grid: Grid,
    listed: Option<Listed>,
    replacing: Option<Replacing>,
    drive: Option<Drive>,
    complaints: Vec<String>,
}

impl Shown {
    fn read(words: &Words) -> Result<Shown, Failure> {
        one_of_the_cells(words)?;
        let (file, listing) = (words.plain.first(), words.listing.as_ref());
        let corrections = words.corrections.as_ref();
        for both in [[listing, file], [corrections, file], [corrections, listing]] {
            one_standard_input(both)?;
        }
        let source = listing.map(|name| Source::read(name)).transpose()?;
        let survey = survey(words)?;
        let mut built = survey.build()?;
        if let Some(name) = corrections {
            corrections::set(&mut built.mesh, &Source::read(name)?)?;
        }
        let shown = Shown {
            grid: Grid::from(&built.mesh),
            listed: None,
            replacing: None,
            drive: None,
            complaints: survey.complaint(&built).into_iter().collect(),
            survey,
            built,
        };
        match (source, words.look, words.drive) {
            (Some(source), _, _) => shown.with_listing(source),
            (None, Some(node), _) => shown.with_look(node),
            (None, None, Some(ends)) => shown.with_drive(ends),
            (None, None, None) => Ok(shown),
        }
    }

    fn with_look(mut self, node: [i64; 3]) -> Result<Shown, Failure> {
        match Replacing::of(&mut self.built.mesh, position(node)) {
            Ok(replacing) => {
                self.replacing = Some(replacing);
                Ok(self)
            }
            Err(refusal) => {
                let why = refused_at(&self.built.mesh, "node", node, refusal);
                self.complaints.push(why);
                Err(self.done(String::new()).failure())
            }
        }
    }

    fn with_drive(mut self, ends: [[i64; 3]; 2]) -> Result<Shown, Failure> {
        let mesh = &mut self.built.mesh;
        match Drive::of(mesh, ends.map(position)) {
            Ok(drive) => {
                self.drive = Some(drive);
                Ok(self)
            }
            Err(refusal) => {
                let outside = ends
                    .into_iter()
                    .filter(|&end| is_outside(mesh.sides(), position(end)));
                let why = outside.map(|end| refused_at(mesh, "end", end, refusal));
                self.complaints.extend(why);
                Err(self.done(String::new()).failure())
            }
        }
    }

    fn with_listing(mut self, source: Source) -> Result<Shown, Failure> {
        if source.bytes.contains(&0) {
            return Err(source.failure("not a listing"));
        }
        let grid = listing::read(&source.bytes, &self.survey);
        self.grid = grid.map_err(|fault| source.failure(&fault))?;
        let is_mesh = is_mesh(&self.grid);
        if !is_mesh {
            let complaint = format!("{}: its cells fail the mesh check", source.name);
            self.complaints.push(complaint);
        }
        self.listed = Some(Listed {
            text: String::from_utf8_lossy(&source.bytes).into_owned(),
            name: source.name,
            is_mesh,
        });
        Ok(self)
    }

    /// Where the list stopped, if it did, what the node of a look would do, and how many cells are on a drive.
    fn lines(&self) -> Vec<String> {
        let stop = self.built.stopped.map(|Stopped { place, refusal }| {
            let (number, name) = (refusal.number(), refusal.name());
            format!("stopped at place {place}: refused {number} ({name})")
        });
        let look = self.replacing.as_ref().map(Replacing::summary);
        let drive = self.drive.as_ref().map(Drive::summary);
        stop.into_iter().chain(look).chain(drive).collect()
    }

    fn emphasis(&self) -> Option<Emphasis<'_>> {
        let look = self.replacing.as_ref().map(Emphasis::Look);
        look.or(self.drive.as_ref().map(Emphasis::Drive))
    }

    /// Is the listing the one that the builder makes? Complains if not.
    fn as_built(&mut self, listed: &Listed) -> Outcome {
        let grid = Grid::from(&self.built.mesh);
        let wanted = listing::text(&grid, self.built.stopped);
        let Some(line) = first_difference(&wanted, &listed.text) else {
            return Ok(format!("of {}", self.survey.name));
        };
        let name = &listed.name;
        let complaint = format!("{name}: line {line} differs from the builder's listing");
        self.complaints.push(complaint);
        Err(match listed.is_mesh && self.grid.has_cells_of(&grid) {
            true => format!("line {line} differs; the cells are the same, with other numbers"),
            false => format!("line {line} differs"),
        })
    }

    fn done(self, text: String) -> Done {
        Done {
            output: text.into_bytes(),
            notes: self.survey.notes,
            complaints: self.complaints,
        }
    }
}

/// A look and a drive are both at the cells that the builder makes, and one of the two is shown.
fn one_of_the_cells(words: &Words) -> Result<(), Failure> {
    let at = |name: &str| format!("{name} is at the cells that the builder makes");
    let (look, drive) = (words.look.is_some(), words.drive.is_some());
    let message = match (look, drive, words.listing.is_some()) {
        (true, true, _) => "--look and --drive do not go together".to_string(),
        (true, _, true) => at("--look") + ": leave --listing out",
        (_, true, true) => at("--drive") + ": leave --listing out",
        _ => return Ok(()),
    };
    Err(Failure::Usage(message))
}

/// The first line, from 1, that two texts do not share.
fn first_difference(one: &str, other: &str) -> Option<usize> {
    let [one, other] = [one, other].map(|text| Vec::from_iter(text.lines()));
    let mut lines = 0..one.len().max(other.len());
    let line = lines.find(|&line| one.get(line) != other.get(line))?;
    Some(line + 1)
}

pub fn svg(words: &Words) -> Result<Done, Failure> {
    let shown = Shown::read(words)?;
    let (lines, corrections) = (shown.lines(), shown.built.mesh.corrections());
    let text = shown.grid.to_svg(&lines, shown.emphasis(), corrections);
    Ok(shown.done(text))
}

pub fn vtk(words: &Words) -> Result<Done, Failure> {
    let shown = Shown::read(words)?;
    let title = [vec![shown.grid.summary()], shown.lines()]
        .concat()
        .join(", ");
    let look = shown.replacing.as_ref().map(|replacing| &replacing.look);
    let text = shown.grid.to_vtk(&title, look);
    Ok(shown.done(text))
}

pub fn check(words: &Words) -> Result<Done, Failure> {
    let mut shown = Shown::read(words)?;
    let listed = shown.listed.take();
    let name = listed
        .as_ref()
        .map_or(&shown.survey.name, |listed| &listed.name);
    let mut text = format!("{name}: {}\n", shown.grid.summary());
    let (inserted, nodes) = (shown.grid.points.len() - 8, shown.survey.nodes.len());
    let all = match inserted == nodes {
        true => Ok(counted(nodes, "node")),
        false => Err(format!("{inserted} of {}", counted(nodes, "node"))),
    };
    text += &says("every node went in", &all);
    for (words, outcome) in conditions(&shown.grid) {
        text += &says(words, &outcome);
    }
    if let Some(listed) = &listed {
        text += &says(
            "the listing is the one that the builder makes of the nodes",
            &shown.as_built(listed),
        );
    }
    let is_mesh = match &listed {
        Some(listed) => listed.is_mesh,
        None => shown.built.mesh.check(),
    };
    let _ = writeln!(text, "mesh check: {}", if is_mesh { "yes" } else { "no" });
    Ok(shown.done(text))
}
