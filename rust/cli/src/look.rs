//! What a node would replace, by the library's look.

use std::collections::BTreeSet;
use std::fmt::Write;

use gantry::{Cell, Look, Mesh, Position, Refusal};

use crate::grid::edges;
use crate::{counted, spaced};

/// A look at a node, with the cells and edges that it is about.
pub struct Replacing {
    pub look: Look,
    /// How many cells there are.
    pub now: usize,
    /// The cells that would be replaced.
    pub cells: Vec<Cell>,
    /// Their edges.
    pub edges: BTreeSet<[usize; 2]>,
    /// Those among these that no cell would have any more.
    pub lost: BTreeSet<[usize; 2]>,
    /// How many cells there would be.
    pub then: usize,
}

impl Replacing {
    /// The mesh stays as it is: what would be left is seen in a copy, into which the node goes with the look's marks.
    pub fn of(mesh: &mut Mesh, node: Position) -> Result<Replacing, Refusal> {
        let look = mesh.look(node)?;
        let mut after = mesh.clone();
        after.insert_looked(&look)?;
        let cells: Vec<Cell> = look.cells().filter_map(|cell| mesh.cell(cell)).collect();
        let edges_of_these = edges(cells.iter().copied());
        let edges_then = edges(after.cells());
        let [now, then] = [mesh, &after].map(|mesh| mesh.cells().len());
        Ok(Replacing {
            now,
            lost: edges_of_these.difference(&edges_then).copied().collect(),
            edges: edges_of_these,
            cells,
            then,
            look,
        })
    }

    /// `node x y z would be point P and replace A of C cells by M`
    pub fn summary(&self) -> String {
        let report = self.look.report();
        let (point, after, made) = (report.point, report.after, report.made);
        let (node, now) = (spaced(self.look.position()), self.now);
        format!("node {node} would be point {point} and replace {after} of {now} cells by {made}")
    }

    /// The report, and a line for each cell that would be replaced.
    pub fn text(&self) -> String {
        let report = self.look.report();
        let mut text = format!("{}: {} cells then\n", self.summary(), self.then);
        let before = counted(report.before, "cell");
        let (after, least) = (report.after, report.least);
        // T is a whole number, and all of its digits are shown.
        let _ = writeln!(
            text,
            "  cavity: {before} before correction, {after} after; least T {least:.0}"
        );
        for cell in &self.cells {
            let [a, b, c, d] = cell.corners;
            let _ = writeln!(text, "  cell {}: corners {a} {b} {c} {d}", cell.number);
        }
        text
    }
}
