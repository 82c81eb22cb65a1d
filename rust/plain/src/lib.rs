//! An obvious build of document 01, with the requests of document 02 that have landed: each call loads the lent tables into
//! lists, works on those, and stores the result. Nothing here is made fast; it is written to be compared with. A call named
//! `_with` takes the rules that a wrong build overrides; the others go by the right ones. `packed` are those of the layout that
//! document 02 §11 replaces, which it compares with the one that stands.

pub mod calls;
pub mod cavity;
pub mod check;
pub mod corrections;
pub mod drive;
pub mod found;
pub mod geometry;
pub mod insertion;
pub mod listing;
pub mod loaded;
pub mod look;
pub mod merge;
pub mod nodefile;
pub mod numbers;
pub mod packed;
pub mod random;
pub mod rules;
pub mod star;

pub use calls::*;
pub use check::{check, check_with};
pub use corrections::{correction, correction_with, set_correction, set_correction_with};
pub use drive::{drive_cells, drive_cells_with};
pub use geometry::{sphere_test, sphere_test_with, volume6, OUT_OF_RANGE};
pub use insertion::{
    insert, insert_answers, insert_list, insert_list_with, insert_marked, insert_marked_with,
    insert_with, Answers,
};
pub use listing::listing;
pub use look::{look, look_with};
pub use merge::{merge, merge_with};
pub use nodefile::{read_nodes, write_nodes, write_nodes_with};
pub use rules::{RightRules, Rules};

use loaded::{Loaded, STARTED_CORNERS};

/// Starts a mesh in a box: eight points, six cells.
pub fn start(sides: Position, tables: &mut Tables) -> Started {
    start_with(&RightRules, sides, tables)
}

pub fn start_with(rules: &dyn Rules, sides: Position, tables: &mut Tables) -> Started {
    let answer = started(rules, sides, tables);
    tables.work.fill(0);
    answer
}

fn started(rules: &dyn Rules, sides: Position, tables: &mut Tables) -> Started {
    if tables.are_short() || corrections::are_short(rules, tables) {
        return Started::refused(1);
    }
    if !sides_in_range(sides) {
        return Started::refused(2);
    }
    let mesh = Mesh {
        x: sides[0],
        y: sides[1],
        z: sides[2],
        points: 8,
        cells: 6,
        chain: NONE.into(),
        used: 6,
    };
    for k in 0..8 {
        tables.points[3 * k..3 * k + 3].copy_from_slice(&loaded::box_corner(sides, k));
    }
    for (k, corners) in STARTED_CORNERS.iter().enumerate() {
        let neighbours = [NONE, (k as u16 + 1) % 6, (k as u16 + 5) % 6, NONE];
        tables.corners[4 * k..4 * k + 4].copy_from_slice(corners);
        tables.neighbours[4 * k..4 * k + 4].copy_from_slice(&neighbours);
    }
    rules.start_corrections(tables.corrections);
    Started { refusal: 0, mesh }
}

/// "Among the cells that hold the position, the one whose four corner numbers, sorted upward, come first in order."
pub fn locate(mesh: Mesh, tables: &mut Tables, p: Position) -> Located {
    locate_with(&RightRules, mesh, tables, p)
}

pub fn locate_with(rules: &dyn Rules, mesh: Mesh, tables: &mut Tables, p: Position) -> Located {
    let answer = located(rules, mesh, tables, p);
    tables.work.fill(0);
    answer
}

fn located(rules: &dyn Rules, mesh: Mesh, tables: &Tables, p: Position) -> Located {
    let refused = |refusal| Located { refusal, cell: 0 };
    let refusal = check::mesh_refusal(rules, mesh, tables, usize::MAX);
    if refusal != 0 {
        return refused(refusal);
    }
    if !in_box(mesh.sides(), p) {
        return refused(4);
    }
    match Loaded::load(rules, mesh, tables).first_holding(p) {
        Some(c) => Located {
            refusal: 0,
            cell: c as u32,
        },
        None => refused(7),
    }
}
