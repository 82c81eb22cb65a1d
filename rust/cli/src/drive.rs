//! The cells on a straight drive, by the library's list.

use std::collections::BTreeSet;

use gantry::{Cell, Mesh, Position, Refusal};

use crate::grid::edges;
use crate::spaced;

/// A drive with the cells that it touches.
pub struct Drive {
    pub ends: [Position; 2],
    /// How many cells there are.
    pub all: usize,
    /// The cells on it.
    pub cells: Vec<Cell>,
    /// Their edges.
    pub edges: BTreeSet<[usize; 2]>,
}

impl Drive {
    pub fn of(mesh: &mut Mesh, [a, b]: [Position; 2]) -> Result<Drive, Refusal> {
        let numbers = mesh.drive_cells(a, b)?;
        let cells = numbers.into_iter().filter_map(|number| mesh.cell(number));
        let cells: Vec<Cell> = cells.collect();
        Ok(Drive {
            ends: [a, b],
            all: mesh.cells().len(),
            edges: edges(cells.iter().copied()),
            cells,
        })
    }

    /// `drive from x y z to x y z: on it are D of C cells`
    pub fn summary(&self) -> String {
        let [a, b] = self.ends.map(spaced);
        let (on_it, all) = (self.cells.len(), self.all);
        format!("drive from {a} to {b}: on it are {on_it} of {all} cells")
    }
}
