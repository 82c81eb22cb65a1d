//! The nodes of a file, and their mesh.

use std::borrow::Cow;
use std::ffi::OsStr;

use gantry::{Mesh, NodeFile, Position, Refusal, Stopped, CELL_LIMIT};

use crate::input::{Kind, Source};
use crate::text::{self, Reading};
use crate::{because, counted, grouped, of_line, spaced, Failure};

/// A box and its nodes, from a node file or from text.
#[derive(Debug)]
pub struct Survey {
    /// The file's, as messages call it.
    pub name: String,
    pub sides: Position,
    pub nodes: Vec<Position>,
    /// Of text, the line of the box, if it stands there, and that of each node.
    box_line: Option<usize>,
    lines: Vec<usize>,
    pub notes: Vec<String>,
    /// How many lines of text were left out.
    pub left_out: usize,
    /// The bytes of a node file.
    pub file: Option<Vec<u8>>,
}

/// A survey's mesh: all its nodes, or those before the first that was refused.
pub struct Built {
    pub mesh: Mesh,
    pub stopped: Option<Stopped>,
}

impl Survey {
    pub fn read(word: &OsStr, reading: Reading) -> Result<Survey, Failure> {
        let source = Source::read(word)?;
        match source.kind() {
            Kind::Nodes(file) => Survey::of_node_file(source, file, reading),
            Kind::RefusedNodes(refusal) => Err(source.refused(refusal)),
            Kind::Listing => Err(source.failure(
                "a listing, which has no coordinates; name its node file (and by --listing, where a command has it, the listing)",
            )),
            Kind::Text => Survey::of_text(&source, reading),
        }
    }

    fn of_node_file(source: Source, file: NodeFile, reading: Reading) -> Result<Survey, Failure> {
        if reading.sides.is_some_and(|sides| sides != file.sides) {
            let sides = spaced(file.sides);
            return Err(source.failure(&format!("a node file of the box {sides}, not of --box")));
        }
        Ok(Survey {
            name: source.name,
            sides: file.sides,
            nodes: file.nodes,
            box_line: None,
            lines: Vec::new(),
            notes: Vec::new(),
            left_out: 0,
            file: Some(source.bytes),
        })
    }

    fn of_text(source: &Source, reading: Reading) -> Result<Survey, Failure> {
        let named = |messages: Vec<String>| -> Vec<String> {
            messages
                .iter()
                .map(|message| format!("{}: {message}", source.name))
                .collect()
        };
        let read = text::read(&source.bytes, reading).map_err(|faults| Failure::Input {
            messages: named(faults),
            refusal: None,
        })?;
        Ok(Survey {
            name: source.name.clone(),
            sides: read.sides,
            nodes: read.nodes,
            box_line: read.box_line,
            lines: read.lines,
            notes: named(read.notes),
            left_out: read.left_out,
            file: None,
        })
    }

    /// The node file itself, or one of the text's nodes.
    pub fn node_file(&self) -> Cow<'_, [u8]> {
        match &self.file {
            Some(file) => Cow::Borrowed(file),
            None => Cow::Owned(encode(self.sides, &self.nodes)),
        }
    }

    /// In a line: the box, where it was taken from, and how many nodes there are.
    pub fn summary(&self) -> String {
        let nodes = counted(self.nodes.len(), "node");
        format!("{}: {}, {nodes}", self.name, self.box_read())
    }

    /// The box, and the line of text that it was taken from.
    pub fn box_read(&self) -> String {
        format!("box {}{}", spaced(self.sides), of_line(self.box_line))
    }

    /// By the proved builder.
    pub fn build(&self) -> Result<Built, Failure> {
        let [x, y, z] = self.sides;
        let mut mesh = Mesh::start(x, y, z)
            .map_err(|refusal| Failure::input(format!("{}: {refusal}", self.name)))?;
        let stopped = mesh.insert_list(&self.nodes).err();
        Ok(Built { mesh, stopped })
    }

    /// Which node did not go in, and why.
    pub fn complaint(&self, Built { mesh, stopped }: &Built) -> Option<String> {
        let Stopped { place, refusal } = (*stopped)?;
        let (node, why) = (
            self.node_at(place),
            refused(mesh, self.nodes[place], refusal),
        );
        Some(format!("{node} did not go in: {why}"))
    }

    /// For a message: the node at a place, and where it was read.
    pub fn node_at(&self, place: usize) -> String {
        let line = self.lines.get(place).map(|line| format!("line {line}: "));
        let (line, node) = (line.unwrap_or_default(), spaced(self.nodes[place]));
        format!("{}: {line}place {place}: node {node}", self.name)
    }
}

/// A node file without a note.
fn encode(sides: Position, nodes: &[Position]) -> Vec<u8> {
    let count = nodes.len() as u32;
    let numbers = nodes.as_flattened().iter().copied();
    let trailer = sides.into_iter().chain([count, 12 * count]);
    numbers.chain(trailer).flat_map(u32::to_le_bytes).collect()
}

/// Why a mesh refuses a node or a position, with its own numbers.
pub fn refused(mesh: &Mesh, p: Position, refusal: Refusal) -> String {
    let (points, cells) = (mesh.points().len(), mesh.cells().len());
    let why = match refusal {
        Refusal::Outside => format!("the box is {}", spaced(mesh.sides())),
        Refusal::Taken => taken_by(mesh, p),
        Refusal::PointsFull => {
            let points = grouped(points);
            format!("there are {points} points, and that is the most: use fewer nodes, or divide the box")
        }
        Refusal::CellsFull => {
            let limit = grouped(CELL_LIMIT);
            let nodes = counted(points - 8, "node");
            format!("{cells} cells and the new ones exceed {limit}; {nodes} went in: use fewer, or divide the box")
        }
        _ => refusal.when().to_string(),
    };
    because(refusal, &why)
}

fn taken_by(mesh: &Mesh, node: Position) -> String {
    let point = mesh.points().iter().position(|&point| point == node);
    match point {
        Some(point @ 0..8) => format!("it is box corner {point}, which is not to be listed"),
        Some(point) => format!("it is at place {} already, point {point}", point - 8),
        None => Refusal::Taken.when().to_string(),
    }
}
