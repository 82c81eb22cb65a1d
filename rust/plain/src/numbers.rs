//! "Cell numbers that stay": the numbers that are free, and what an insertion leaves in the tables.

use crate::calls::{Mesh, Tables, NONE};
use crate::found::Found;
use crate::loaded::{Cell, Loaded};
use crate::star::{star, Numbers};

/// The numbers that are free.
pub struct Free {
    /// From its front on.
    pub chain: Vec<usize>,
    /// The end of the table: the first number that has not been used.
    pub end: usize,
}

impl Free {
    fn of(mesh: &Loaded) -> Free {
        Free {
            chain: mesh.chain().numbers,
            end: mesh.entries.len(),
        }
    }

    /// "The chain, then the end of the table."
    pub fn take(&mut self, count: usize) -> Vec<usize> {
        let from_chain = count.min(self.chain.len());
        let mut taken: Vec<usize> = self.chain.drain(..from_chain).collect();
        let from_end = count - from_chain;
        taken.extend(self.end..self.end + from_end);
        self.end += from_end;
        taken
    }

    /// "One by one": "last freed used first".
    pub fn join(&mut self, freed: &[usize]) {
        for &c in freed {
            self.chain.insert(0, c);
        }
    }
}

const FREED: Cell = Cell {
    corners: [NONE; 4],
    neighbours: [NONE; 4],
};

/// The star in the tables; answers the record after it.
pub fn put_in(mesh: Mesh, tables: &mut Tables, found: &Found) -> Mesh {
    let loaded = found.cavity.mesh;
    let cavity = found.cavity.cells();
    let mut free = Free::of(loaded);
    let numbers = Numbers {
        kept: (0..loaded.entries.len()).collect(),
        new: loaded.rules.allot(&mut free, &cavity, found.made),
    };
    let cells = star(&found.cavity, found.point(), &numbers);
    for c in cavity {
        put(tables, c, FREED);
    }
    for &(c, cell) in &cells {
        put(tables, c, cell);
    }
    link(tables, &free.chain);
    let used = loaded
        .rules
        .used_after(loaded.entries.len(), free.end, cells.len());
    Mesh {
        cells: cells.len() as u32,
        chain: free.chain.first().map_or(NONE.into(), |&c| c as u32),
        used: used as u32,
        ..mesh
    }
}

/// A cell in its place in the tables, if they have it: wrong rules may come to others.
pub fn put(tables: &mut Tables, c: usize, cell: Cell) {
    let entries = 4 * c..4 * c + 4;
    if let Some(corners) = tables.corners.get_mut(entries.clone()) {
        corners.copy_from_slice(&cell.corners);
    }
    if let Some(neighbours) = tables.neighbours.get_mut(entries) {
        neighbours.copy_from_slice(&cell.neighbours);
    }
}

/// "Its first neighbour entry names the next, 65,535 at the end."
fn link(tables: &mut Tables, chain: &[usize]) {
    let next = chain.iter().skip(1).map(|&c| c as u16).chain([NONE]);
    for (&c, next) in chain.iter().zip(next) {
        tables.neighbours[4 * c] = next;
    }
}
