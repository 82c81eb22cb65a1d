//! Random drives, and room for their cells.

use plain::drive::on_drive;
use plain::loaded::Loaded;
use plain::random::Random;
use plain::{in_box, Mesh, Owned, Position, RightRules};

use crate::call::Call;
use crate::nodes;

/// What a drive may start from: the box, two of its positions that may lie outside, the points, and a cell.
pub struct Start<'a> {
    pub sides: Position,
    pub any: [Position; 2],
    pub points: &'a [Position],
    pub corners: [Position; 4],
}

/// The ends of a drive: through a point, along an edge and perhaps beyond it, within a face or its plane, in a wall, from cell to
/// cell, of length 0, or anywhere.
pub fn ends(random: &mut Random, start: &Start) -> [Position; 2] {
    let Start { sides, any, .. } = *start;
    let mut corners = start.corners;
    corners.rotate_left(random.index(4));
    let [a, b, c, _] = corners;
    let mut in_cell = || nodes::in_cell(random, corners);
    let (one, other) = (in_cell(), in_cell());
    let point = random.pick(start.points);
    let ends = match random.below(16) {
        0 => any,
        1 => [one, any[0]],
        2 => [one, other],
        3..6 => through(sides, one, point),
        6 => through(sides, any[0], point),
        7 => [a, b],
        8 => through(sides, a, b),
        9 => [middle(a, b), b],
        10 => [middle(a, b), middle(a, c)],
        11 => [a, middle(b, c)],
        12 | 13 => in_wall(random, sides, any),
        14 => [one; 2],
        _ => [point; 2],
    };
    match random.one_in(2) {
        true => ends,
        false => [ends[1], ends[0]],
    }
}

fn middle(a: Position, b: Position) -> Position {
    [0, 1, 2].map(|axis| a[axis].midpoint(b[axis]))
}

/// From A through P to as far behind it, or to P where that is outside the box.
fn through(sides: Position, a: Position, p: Position) -> [Position; 2] {
    let behind = [0, 1, 2].map(|axis| (2 * p[axis]).wrapping_sub(a[axis]));
    [a, if in_box(sides, behind) { behind } else { p }]
}

fn in_wall(random: &mut Random, sides: Position, mut ends: [Position; 2]) -> [Position; 2] {
    let axis = random.index(3);
    let wall = random.pick(&[0, sides[axis]]);
    for end in &mut ends {
        end[axis] = wall;
    }
    ends
}

fn loaded(mesh: Mesh, tables: &Owned) -> Loaded<'static> {
    Loaded::load(&RightRules, mesh, &tables.clone().lend())
}

/// With room for as many cells as there are, for more, for one too few, for fewer or for none.
pub fn drive(random: &mut Random, mesh: Mesh, tables: &Owned, ends: [Position; 2]) -> Call {
    let count = match ends.iter().all(|&end| in_box(mesh.sides(), end)) {
        true => on_drive(&loaded(mesh, tables), ends).len(),
        false => mesh.cells as usize,
    };
    let (fewer, more) = (random.index(count), count + 1 + random.index(9));
    let rooms = [
        count,
        count,
        count,
        more,
        more,
        count.saturating_sub(1),
        fewer,
        0,
    ];
    Call::DriveCells(ends, random.pick(&rooms))
}
