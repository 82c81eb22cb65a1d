//! The points and cells that are shown.

use std::collections::BTreeSet;

use gantry::{volume6, Cell, Mesh, Position};

#[derive(Debug, PartialEq, Eq)]
pub struct Grid {
    pub sides: Position,
    /// The box corners, then the nodes.
    pub points: Vec<Position>,
    /// By rising number; there may be gaps between the numbers.
    pub cells: Vec<Cell>,
}

impl From<&Mesh> for Grid {
    fn from(mesh: &Mesh) -> Grid {
        Grid {
            sides: mesh.sides(),
            points: mesh.points().to_vec(),
            cells: mesh.cells().collect(),
        }
    }
}

/// Of some cells: two points each, the lower number first.
pub fn edges(cells: impl IntoIterator<Item = Cell>) -> BTreeSet<[usize; 2]> {
    let pairs = [(0, 1), (0, 2), (0, 3), (1, 2), (1, 3), (2, 3)];
    let edges = cells.into_iter().flat_map(|cell| {
        let c = cell.corners;
        pairs.map(|(i, j)| [c[i].min(c[j]), c[i].max(c[j])])
    });
    edges.collect()
}

impl Grid {
    pub fn cell(&self, number: usize) -> Option<&Cell> {
        let place = self.cells.binary_search_by_key(&number, |cell| cell.number);
        self.cells.get(place.ok()?)
    }

    /// Are the cells those of another grid by their corners, whatever their numbers? Where both are meshes, so are their
    /// neighbours.
    pub fn has_cells_of(&self, other: &Grid) -> bool {
        let corners = |cell: &Cell| cell.corners;
        let [these, those] = [self, other].map(|grid| grid.cells.iter().map(corners));
        BTreeSet::from_iter(these) == BTreeSet::from_iter(those)
    }

    pub fn corners(&self, cell: &Cell) -> [Position; 4] {
        cell.corners.map(|point| self.points[point])
    }

    /// Of a cell, with its corner `place` moved to `p` where these are given.
    pub fn volume6(&self, cell: &Cell, moved: Option<(usize, Position)>) -> i64 {
        let mut corners = self.corners(cell);
        if let Some((place, p)) = moved {
            corners[place] = p;
        }
        let corners = corners.map(|p| p.map(|number| number as i32));
        volume6(corners).expect("points in the box")
    }

    /// Faces, edges and corners included.
    pub fn holds(&self, cell: &Cell, p: Position) -> bool {
        (0..4).all(|place| self.volume6(cell, Some((place, p))) >= 0)
    }

    /// Six times the box's volume.
    pub fn box_volume6(&self) -> i64 {
        6 * self.sides.map(i64::from).iter().product::<i64>()
    }

    /// `box X Y Z, P points, C cells`
    pub fn summary(&self) -> String {
        let [x, y, z] = self.sides;
        format!(
            "box {x} {y} {z}, {} points, {} cells",
            self.points.len(),
            self.cells.len()
        )
    }
}
