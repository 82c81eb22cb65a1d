//! "What a mesh is", clause by clause, with the chain of the freed numbers, and refusals 1 to 3.

use crate::calls::{in_box, sides_in_range, Mesh, Tables, NONE};
use crate::loaded::{box_corner, others, Cell, Loaded};
use crate::rules::{RightRules, Rules};

/// The mesh check: yes or no, for all input.
pub fn check(mesh: Mesh, tables: &mut Tables) -> bool {
    check_with(&RightRules, mesh, tables)
}

pub fn check_with(rules: &dyn Rules, mesh: Mesh, tables: &mut Tables) -> bool {
    let answer = is_mesh(rules, mesh, tables);
    tables.work.fill(0);
    answer
}

/// Refusals 1 to 3 of a call on a mesh, or 0. A call without answer bytes passes `usize::MAX`.
pub fn mesh_refusal(rules: &dyn Rules, mesh: Mesh, tables: &Tables, answer_bytes: usize) -> u8 {
    if tables.are_short() || answer_bytes < rules.answers_wanted(mesh) {
        1
    } else if !sides_in_range(mesh.sides()) {
        2
    } else if !is_mesh(rules, mesh, tables) {
        3
    } else {
        0
    }
}

fn is_mesh(rules: &dyn Rules, mesh: Mesh, tables: &Tables) -> bool {
    if tables.are_short() || !sides_in_range(mesh.sides()) {
        return false;
    }
    if !(8..=tables.point_capacity()).contains(&(mesh.points as usize)) {
        return false;
    }
    if !(1..=tables.cell_capacity()).contains(&(mesh.used as usize)) {
        return false;
    }
    let loaded = Loaded::load(rules, mesh, tables);
    let cells = loaded.cells();
    rules.is_cell_count(mesh.cells as usize, cells.len())
        && freed_entries_are_right(&loaded)
        && cells.iter().all(|&c| numbers_are_in_range(&loaded, c))
        && points_in_place(&loaded)
        && every_point_is_a_corner(&loaded, &cells)
        && cells.iter().all(|&c| loaded.volume(c) > 0)
        && cells
            .iter()
            .all(|&c| (0..4).all(|i| face_is_right(&loaded, c, i)))
        && volumes_fill_the_box(&loaded, &cells)
}

/// "The mesh check covers the chain."
fn freed_entries_are_right(mesh: &Loaded) -> bool {
    let mut freed: Vec<usize> = (0..mesh.entries.len()).collect();
    freed.retain(|&c| mesh.is_freed(c));
    let are_alone = |&c: &usize| {
        let [_, a, b, d] = mesh.entries[c].neighbours;
        mesh.rules.are_freed_neighbours([a, b, d])
    };
    freed.iter().all(are_alone) && mesh.rules.is_whole(&mesh.chain(), freed.len())
}

fn numbers_are_in_range(mesh: &Loaded, c: usize) -> bool {
    let limit = mesh.rules.neighbour_limit(mesh.record);
    let Cell {
        corners,
        neighbours,
    } = mesh.entries[c];
    corners.iter().all(|&p| (p as usize) < mesh.points.len())
        && neighbours
            .iter()
            .all(|&u| u == NONE || (u as usize) < limit)
}

fn points_in_place(mesh: &Loaded) -> bool {
    let sides = mesh.record.sides();
    (0..8).all(|k| mesh.points[k] == box_corner(sides, k))
        && mesh.points.iter().all(|&p| in_box(sides, p))
}

fn every_point_is_a_corner(mesh: &Loaded, cells: &[usize]) -> bool {
    let mut is_corner = vec![false; mesh.points.len()];
    for &c in cells {
        for corner in mesh.entries[c].corners {
            is_corner[corner as usize] = true;
        }
    }
    is_corner.iter().all(|&yes| yes)
}

fn face_is_right(mesh: &Loaded, c: usize, i: usize) -> bool {
    if mesh.entries[c].neighbours[i] == NONE {
        return on_one_wall(mesh, c, i);
    }
    let Some((u, k)) = mesh.mate(c, i) else {
        return false;
    };
    let fourth = mesh.entries[u].corners[k] as usize;
    mesh.rules
        .is_on_far_side(mesh.side(c, i, mesh.points[fourth]))
}

fn on_one_wall(mesh: &Loaded, c: usize, i: usize) -> bool {
    let (sides, positions) = (mesh.record.sides(), mesh.positions(c));
    (0..3).any(|axis| {
        [0, sides[axis]]
            .iter()
            .any(|&wall| others(i).iter().all(|&j| positions[j][axis] == wall))
    })
}

fn volumes_fill_the_box(mesh: &Loaded, cells: &[usize]) -> bool {
    let sum: i128 = cells.iter().map(|&c| mesh.volume(c)).sum();
    let [x, y, z] = mesh.record.sides().map(i128::from);
    sum == 6 * x * y * z
}
