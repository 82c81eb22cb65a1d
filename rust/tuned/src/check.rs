//! The mesh check, two passes over the entries and one along the chain, and refusals 1 to 3.

use plain::loaded::box_corner;
use plain::{in_box, sides_in_range, Mesh, Position, Tables, NONE, POINT_LIMIT};

use crate::geometry::volume;

pub fn check(mesh: Mesh, tables: &mut Tables) -> bool {
    tables.work.fill(0);
    is_mesh(mesh, tables)
}

/// Refusals 1 to 3 of a call on a mesh, or 0. A call without answer bytes passes `usize::MAX`.
pub fn mesh_refusal(mesh: Mesh, tables: &Tables, answer_bytes: usize) -> u8 {
    if tables.are_short() || answer_bytes < mesh.used as usize {
        1
    } else if !sides_in_range(mesh.sides()) {
        2
    } else if !is_mesh(mesh, tables) {
        3
    } else {
        0
    }
}

type Used<'a> = (&'a [Position], &'a [[u16; 4]], &'a [[u16; 4]]);

/// The used part of points, corners and neighbours; point count and used length must be within the capacities.
pub fn used<'a>(mesh: Mesh, tables: &'a Tables) -> Used<'a> {
    (
        &tables.points.as_chunks().0[..mesh.points as usize],
        &tables.corners.as_chunks().0[..mesh.used as usize],
        &tables.neighbours.as_chunks().0[..mesh.used as usize],
    )
}

fn is_mesh(mesh: Mesh, tables: &Tables) -> bool {
    if tables.are_short() || !sides_in_range(mesh.sides()) {
        return false;
    }
    if !(8..=tables.point_capacity()).contains(&(mesh.points as usize)) {
        return false;
    }
    if !(1..=tables.cell_capacity()).contains(&(mesh.used as usize)) {
        return false;
    }
    let (points, corners, neighbours) = used(mesh, tables);
    points_in_place(points, mesh.sides())
        && volumes_are_right(points, corners, mesh)
        && chain_is_right(corners, neighbours, mesh)
        && faces_are_right(corners, neighbours, &wall_codes(points, mesh.sides()))
}

fn points_in_place(points: &[Position], sides: Position) -> bool {
    (0..8).all(|k| points[k] == box_corner(sides, k)) && points.iter().all(|&p| in_box(sides, p))
}

/// The corners of a freed entry.
const FREED: [u16; 4] = [NONE; 4];

/// Corner numbers in range, every point a corner, every volume above 0, the sum that of the box, and the count that of the cells.
fn volumes_are_right(points: &[Position], corners: &[[u16; 4]], mesh: Mesh) -> bool {
    let mut is_corner = [false; POINT_LIMIT];
    let mut sum = 0i128;
    let mut freed = 0;
    for &cell in corners {
        if cell.iter().any(|&point| point as usize >= points.len()) {
            if cell != FREED {
                return false;
            }
            freed += 1;
            continue;
        }
        let six_fold = volume(cell.map(|point| points[point as usize]));
        if six_fold <= 0 {
            return false;
        }
        sum += six_fold as i128;
        for point in cell {
            is_corner[point as usize % POINT_LIMIT] = true;
        }
    }
    let [x, y, z] = mesh.sides().map(i128::from);
    sum == 6 * x * y * z
        && is_corner[..points.len()].iter().all(|&yes| yes)
        && mesh.cells as usize == corners.len() - freed
}

/// Where the count is that of the cells: as many steps as there are freed entries, each from one of them, and then the end. A
/// chain that comes to an entry twice never ends, so these are all of them.
fn chain_is_right(corners: &[[u16; 4]], neighbours: &[[u16; 4]], mesh: Mesh) -> bool {
    let mut next = mesh.chain;
    for _ in mesh.cells..mesh.used {
        let c = next as usize;
        next = match (corners.get(c), neighbours.get(c)) {
            (Some(&FREED), Some(&[after, NONE, NONE, NONE])) => after.into(),
            _ => return false,
        };
    }
    next == NONE.into()
}

/// For each point six bits: the walls that it lies on.
fn wall_codes(points: &[Position], sides: Position) -> [u8; POINT_LIMIT] {
    let mut codes = [0; POINT_LIMIT];
    for (code, p) in codes.iter_mut().zip(points) {
        let bits = |axis: usize| (p[axis] == 0) as u8 | ((p[axis] == sides[axis]) as u8) << 1;
        *code = bits(0) | bits(1) << 2 | bits(2) << 4;
    }
    codes
}

/// In cells of positive volume with corner numbers in range, and freed entries.
fn faces_are_right(
    corners: &[[u16; 4]],
    neighbours: &[[u16; 4]],
    walls: &[u8; POINT_LIMIT],
) -> bool {
    for (c, (cell, across)) in corners.iter().zip(neighbours).enumerate() {
        if *cell == FREED {
            continue;
        }
        for (i, &u) in across.iter().enumerate() {
            let face = turned_face(cell, i);
            let right = if u == NONE {
                on_one_wall(face, walls)
            } else if let Some(back) = neighbours.get(u as usize) {
                is_mated(face, c as u16, &corners[u as usize], back)
            } else {
                false
            };
            if !right {
                return false;
            }
        }
    }
    true
}

/// The places of face i in an order that makes (i, then these) an even permutation of 0 to 3.
const TURNED: [[usize; 3]; 4] = [[1, 2, 3], [0, 3, 2], [0, 1, 3], [0, 2, 1]];

#[inline]
fn turned_face(cell: &[u16; 4], i: usize) -> [u16; 3] {
    TURNED[i].map(|j| cell[j])
}

#[inline]
fn on_one_wall(face: [u16; 3], walls: &[u8; POINT_LIMIT]) -> bool {
    let [x, y, z] = face.map(|point| walls[point as usize % POINT_LIMIT]);
    x & y & z != 0
}

/// Does the far cell name c back at a face with the same three points, its fourth corner on the other side? Both volumes
/// are above 0, so the other side is an odd permutation of the turned face. Where two faces name c back, one of the two
/// fails its own test, whatever is answered here.
#[inline]
fn is_mated([x, y, z]: [u16; 3], c: u16, far: &[u16; 4], back: &[u16; 4]) -> bool {
    let names = |i: usize| (back[i] == c) as usize;
    let k = (names(1) + 2 * names(2) + 3 * names(3)) % 4;
    let found = packed(turned_face(far, k));
    let odd = [[x, z, y], [y, x, z], [z, y, x]].map(|face| packed(face) == found);
    // Which of the three it is cannot be foreseen: no branches.
    (back[k] == c) & (odd[0] | odd[1] | odd[2])
}

#[inline]
fn packed([x, y, z]: [u16; 3]) -> u64 {
    x as u64 | (y as u64) << 16 | (z as u64) << 32
}
