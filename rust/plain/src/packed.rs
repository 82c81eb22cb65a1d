//! The layout that "cell numbers that stay" replaces, to be compared with the one that stands: document 01's step 6. A record of
//! it has an empty chain, and its cell count for its used length.

use crate::calls::{Mesh, Tables, NONE};
use crate::found::Found;
use crate::numbers::put;
use crate::rules::Rules;
use crate::star::{star, Numbers};

/// The right rules, but for the layout.
pub struct Packed;

impl Rules for Packed {
    /// "The table becomes the cells outside the spot in their old order, then the new ones, neighbours renumbered. Entries from
    /// the new count up to old count plus new cells are 0; those beyond are unchanged."
    fn put_in(&self, mesh: Mesh, tables: &mut Tables, found: &Found) -> Mesh {
        let (loaded, in_cavity) = (found.cavity.mesh, &found.cavity.in_cavity);
        let mut kept = vec![0; in_cavity.len()];
        let mut count = 0;
        for c in loaded.cells().into_iter().filter(|&c| !in_cavity[c]) {
            kept[c] = count;
            count += 1;
        }
        let new = (count..count + found.made).collect();
        let numbers = Numbers { kept, new };
        let cells = star(&found.cavity, found.point(), &numbers);
        let cleared = 4 * cells.len()..4 * (mesh.cells as usize + found.made);
        tables.corners[cleared.clone()].fill(0);
        tables.neighbours[cleared].fill(0);
        for &(c, cell) in &cells {
            put(tables, c, cell);
        }
        Mesh {
            cells: cells.len() as u32,
            chain: NONE.into(),
            used: cells.len() as u32,
            ..mesh
        }
    }
}
