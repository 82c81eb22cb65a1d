//! What stands out in a picture: the cells of a look or of a drive, drawn over the edges of the others, and their positions.

use std::collections::BTreeSet;
use std::fmt::Write;

use gantry::{Cell, Position};

use super::{mixed, range, written, Colour, Picture, Point2, EYE};
use crate::drive::Drive;
use crate::look::Replacing;

/// Of positions that are no points of the mesh.
pub const RING_COLOUR: &str = "#7a1fa2";
/// The radius of such a position, which is hollow.
pub const RING: f64 = 5.5;
const DRIVE_WIDTH: f64 = 2.6;

const TINT: &str = "#f0a000";
const FAR: Colour = [226.0, 170.0, 80.0];
const NEAR: Colour = [176.0, 98.0, 0.0];
const BORDER: &str = "#fdf0d5";
const DASHES: &str = " stroke-dasharray=\"5 5\"";

/// The faces of a cell; seen from outside, all go round the same way.
const FACES: [[usize; 3]; 4] = [[1, 2, 3], [0, 3, 2], [0, 1, 3], [0, 2, 1]];

/// What stands out: the cells that the node of a look would replace, or those on a drive.
#[derive(Clone, Copy)]
pub enum Emphasis<'a> {
    Look(&'a Replacing),
    Drive(&'a Drive),
}

impl<'a> Emphasis<'a> {
    pub(super) fn cells(self) -> &'a [Cell] {
        match self {
            Emphasis::Look(replacing) => &replacing.cells,
            Emphasis::Drive(drive) => &drive.cells,
        }
    }

    fn edges(self) -> &'a BTreeSet<[usize; 2]> {
        match self {
            Emphasis::Look(replacing) => &replacing.edges,
            Emphasis::Drive(drive) => &drive.edges,
        }
    }

    /// Would no cell have this edge any more?
    fn is_lost(self, edge: [usize; 2]) -> bool {
        match self {
            Emphasis::Look(replacing) => replacing.lost.contains(&edge),
            Emphasis::Drive(_) => false,
        }
    }

    /// Is a point a corner of one of the cells?
    pub(super) fn has_corner(self, point: usize) -> bool {
        let mut cells = self.cells().iter();
        cells.any(|cell| cell.corners.contains(&point))
    }

    /// The node of a look, or the ends of a drive.
    pub(super) fn positions(self) -> Vec<Position> {
        match self {
            Emphasis::Look(replacing) => vec![replacing.look.position()],
            Emphasis::Drive(drive) => drive.ends.to_vec(),
        }
    }

    /// What these are labelled with: a node's is the number that it would get.
    pub(super) fn labels(self) -> Vec<String> {
        match self {
            Emphasis::Look(replacing) => vec![replacing.look.report().point.to_string()],
            Emphasis::Drive(_) => ["A", "B"].map(str::to_string).to_vec(),
        }
    }

    /// In the caption. Orange differs from blue for colour-blind readers too, and the widths differ for all.
    pub(super) fn colours(self) -> &'static str {
        match self {
            Emphasis::Look(_) => {
                "orange, thick: cells that it would replace; dashed: edges that would go"
            }
            Emphasis::Drive(_) => "orange, thick: cells on it; purple: from A to B",
        }
    }

    /// In the caption.
    pub(super) fn rings(self) -> &'static str {
        match self {
            Emphasis::Look(_) => "ring: the new one",
            Emphasis::Drive(_) => "rings: the ends",
        }
    }
}

enum Part {
    Cell(Cell),
    Edge([usize; 2]),
}

impl Picture<'_> {
    /// The cells that stand out over all other edges, but for those that nothing is in front of.
    pub(super) fn draw_edges_and_emphasis(&mut self, edges: &[[usize; 2]], emphasis: Emphasis) {
        let others = edges
            .iter()
            .filter(|edge| !emphasis.edges().contains(*edge));
        let (front, behind): (Vec<_>, Vec<_>) = others.partition(|&&edge| self.is_in_front(edge));
        self.draw_edges(&behind);
        self.draw_emphasis(emphasis);
        self.draw_edges(&front);
    }

    /// Does an edge lie on one of the three box edges at the corner that is nearest to the eye?
    fn is_in_front(&self, edge: [usize; 2]) -> bool {
        let sides = self.grid.sides;
        let nearest = [0, 1, 2].map(|axis| if EYE[axis] > 0.0 { sides[axis] } else { 0 });
        let [p, q] = edge.map(|point| self.grid.points[point]);
        let is_on_near_wall = |&axis: &usize| [p[axis], q[axis]] == [nearest[axis]; 2];
        (0..3).filter(is_on_near_wall).count() == 2
    }

    /// Tints and edges, near ones over far ones.
    fn draw_emphasis(&mut self, emphasis: Emphasis) {
        let cells = emphasis.cells().iter().map(|&cell| Part::Cell(cell));
        let edges = emphasis.edges().iter().map(|&edge| Part::Edge(edge));
        let parts = cells.chain(edges).map(|part| (self.nearness(&part), part));
        let mut parts = Vec::from_iter(parts);
        parts.sort_by(|(a, _), (b, _)| a.total_cmp(b));
        let (far, near) = range(parts.iter().map(|&(at, _)| at));
        let depth = (near - far).max(f64::MIN_POSITIVE);
        // So that several tints, one over another, are not too dark.
        let opacity = 0.45 / (emphasis.cells().len() as f64).cbrt();
        for (at, part) in parts {
            match part {
                Part::Cell(cell) => self.draw_tint(&cell, opacity),
                Part::Edge(edge) => {
                    let near = (at - far) / depth;
                    self.draw_thick_edge(edge, near, emphasis.is_lost(edge));
                }
            }
        }
    }

    fn nearness(&self, part: &Part) -> f64 {
        match part {
            Part::Cell(cell) => self.view.nearness(cell.corners),
            Part::Edge(edge) => self.view.nearness(*edge),
        }
    }

    /// By the faces that are seen from one side: they cover all of the cell, and not each other.
    fn draw_tint(&mut self, cell: &Cell, opacity: f64) {
        let mut path = String::new();
        for face in FACES {
            let [a, b, c] = self.view.places(face.map(|k| cell.corners[k]));
            let turn = (b.x - a.x) * (c.y - a.y) - (c.x - a.x) * (b.y - a.y);
            if turn < 0.0 {
                let _ = write!(
                    path,
                    "M{:.1} {:.1}L{:.1} {:.1}L{:.1} {:.1}Z",
                    a.x, a.y, b.x, b.y, c.x, c.y
                );
            }
        }
        let _ = writeln!(
            self.text,
            "<path d=\"{path}\" fill=\"{TINT}\" fill-opacity=\"{opacity:.2}\"/>"
        );
    }

    fn draw_thick_edge(&mut self, edge: [usize; 2], near: f64, is_lost: bool) {
        let ends = self.view.places(edge);
        let stroke = written(mixed(FAR, NEAR, near));
        let width = 1.6 + 1.4 * near;
        self.border(ends, BORDER, width + 2.4);
        match is_lost {
            true => self.line_with(ends, &stroke, 0.8 * width, DASHES),
            false => self.line(ends, &stroke, width),
        }
    }

    /// The line of a drive on the page.
    pub(super) fn drive_line(&self) -> Option<[Point2; 2]> {
        let first = self.grid.points.len();
        match self.emphasis {
            Some(Emphasis::Drive(_)) => Some(self.view.places([first, first + 1])),
            _ => None,
        }
    }

    pub(super) fn draw_drive(&mut self) {
        if let Some(line) = self.drive_line() {
            self.border(line, "#ffffff", DRIVE_WIDTH + 2.4);
            self.line(line, RING_COLOUR, DRIVE_WIDTH);
        }
    }

    /// The positions that are no points.
    pub(super) fn draw_rings(&mut self) {
        for seen in &self.view.points[self.grid.points.len()..] {
            let _ = writeln!(
                self.text,
                "<circle cx=\"{:.1}\" cy=\"{:.1}\" r=\"{RING}\" fill=\"#ffffff\" stroke=\"{RING_COLOUR}\" stroke-width=\"2.4\"/>",
                seen.at.x, seen.at.y
            );
        }
    }
}
