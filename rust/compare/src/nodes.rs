//! Random boxes, positions and node files.

use plain::nodefile::encode;
use plain::random::Random;
use plain::{Mesh, Position, SIDE_LIMIT};

/// How the nodes of a history lie.
#[derive(Clone, Copy, Debug)]
pub enum Spread {
    Anywhere,
    /// On a grid with this many parts a side.
    Even(u32),
    /// On spheres about the middle of the box.
    Cospherical,
    /// Most on walls, edges and corners of the box.
    Walls,
}

pub fn spread(random: &mut Random) -> Spread {
    let parts = random.pick(&[2, 3, 4, 8, 16]);
    random.pick(&[
        Spread::Anywhere,
        Spread::Even(parts),
        Spread::Even(4),
        Spread::Cospherical,
        Spread::Walls,
    ])
}

fn side(random: &mut Random) -> u32 {
    let small = 1 + random.below(6) as u32;
    let any = 1 + random.below(SIDE_LIMIT as u64) as u32;
    random.pick(&[1, small, small, 4, 4, 16, 100, 256, any, any, SIDE_LIMIT])
}

/// From 1 × 1 × 1 to 131,072 a side; half of them cubes.
pub fn sides(random: &mut Random) -> Position {
    match random.one_in(2) {
        true => [side(random); 3],
        false => [0; 3].map(|_| side(random)),
    }
}

/// Sides of which one may be out of range.
pub fn any_sides(random: &mut Random) -> Position {
    let mut sides = sides(random);
    if random.one_in(3) {
        sides[random.index(3)] = random.pick(&[0, SIDE_LIMIT + 1, u32::MAX]);
    }
    sides
}

fn anywhere(random: &mut Random, sides: Position) -> Position {
    sides.map(|side| random.below(side as u64 + 1) as u32)
}

/// 7² = 6² + 3² + 2²: all these lie on one sphere, or on one of three about the same middle.
fn cospherical(random: &mut Random, sides: Position) -> Position {
    let mut legs = random.pick(&[[6, 3, 2], [6, 3, 2], [7, 0, 0]]);
    legs.rotate_left(random.index(3));
    if random.one_in(2) {
        legs.swap(0, 1);
    }
    let least = sides.into_iter().min().unwrap_or(1);
    let scale = (least / 16).max(1) * random.pick(&[1, 1, 1, 2]);
    let mut p = sides.map(|side| side / 2);
    for axis in 0..3 {
        let leg = (legs[axis] * scale).min(p[axis]);
        p[axis] = if random.one_in(2) {
            p[axis] + leg
        } else {
            p[axis] - leg
        };
        p[axis] = p[axis].min(sides[axis]);
    }
    p
}

/// On one wall, on an edge or at a corner of the box.
fn on_walls(random: &mut Random, sides: Position, mut p: Position) -> Position {
    for _ in 0..=random.pick(&[0, 0, 0, 1, 2]) {
        let axis = random.index(3);
        p[axis] = random.pick(&[0, sides[axis]]);
    }
    p
}

/// A position in the box.
pub fn inside(random: &mut Random, sides: Position, spread: Spread) -> Position {
    let p = match spread {
        Spread::Even(parts) => sides.map(|side| {
            let part = random.below(parts as u64 + 1);
            (side as u64 * part / parts as u64) as u32
        }),
        Spread::Cospherical => cospherical(random, sides),
        Spread::Anywhere | Spread::Walls => anywhere(random, sides),
    };
    let often = match spread {
        Spread::Walls => random.below(8) != 0,
        _ => random.one_in(8),
    };
    if often {
        on_walls(random, sides, p)
    } else {
        p
    }
}

/// A position that may repeat a point, lie outside, or be a point's mirror image in the middle of the box: evenly spaced nodes,
/// on the spheres of cells with box corners.
pub fn node(random: &mut Random, sides: Position, spread: Spread, points: &[u32]) -> Position {
    let mut p = inside(random, sides, spread);
    if random.one_in(25) {
        let axis = random.index(3);
        let far = random.bits() as u32;
        p[axis] = random.pick(&[sides[axis].saturating_add(1), u32::MAX, far]);
    } else if random.one_in(8) && points.len() >= 3 {
        let point = 3 * random.index(points.len() / 3);
        p = [points[point], points[point + 1], points[point + 2]];
        if random.below(3) != 0 {
            let axis = random.index(3);
            p[axis] = sides[axis].saturating_sub(p[axis]);
        }
    }
    p
}

/// At a corner of a cell, or a mean of some of its corners, rounded down: where there is nothing to round, it lies on an edge, on
/// a face or inside.
pub fn in_cell(random: &mut Random, mut corners: [Position; 4]) -> Position {
    corners.rotate_left(random.index(4));
    let weights = random.pick(&[
        [1, 0, 0, 0],
        [1, 1, 0, 0],
        [3, 1, 0, 0],
        [1, 2, 1, 0],
        [1, 1, 1, 1],
    ]);
    let sum: u64 = weights.iter().sum();
    [0, 1, 2].map(|axis| {
        let terms = weights.iter().zip(corners);
        let total: u64 = terms
            .map(|(weight, corner)| weight * corner[axis] as u64)
            .sum();
        (total / sum) as u32
    })
}

/// A list that is to fill the tables: all inside the box, so that cells run out, or all on walls, so that points do.
pub fn filling(random: &mut Random, sides: Position, count: usize) -> Vec<u32> {
    let is_on_walls = random.one_in(2);
    let mut numbers = Vec::new();
    for _ in 0..count {
        let mut p = anywhere(random, sides);
        if is_on_walls {
            let axis = random.index(3);
            p[axis] = random.pick(&[0, sides[axis]]);
        }
        numbers.extend(p);
    }
    numbers
}

/// An answer byte for each used entry: all yes, all no, any; now and then too few, as many as cells, or too many.
pub fn answers(random: &mut Random, mesh: Mesh) -> Vec<u8> {
    let used = mesh.used as usize;
    let one_in = random.pick(&[2, 2, 5, 20]);
    let kind = random.below(4);
    let mut bytes: Vec<u8> = (0..used)
        .map(|_| match kind {
            0 => 0,
            1 => 1,
            2 => random.bits() as u8 & random.pick(&[0, 0xFF]),
            _ => (random.below(one_in) != 0) as u8,
        })
        .collect();
    match random.below(17) {
        0 => bytes.truncate(random.index(used + 1)),
        1 => bytes.truncate(used.saturating_sub(1)),
        2 => bytes.truncate(mesh.cells as usize),
        3 => bytes.resize(used + 1 + random.index(9), 1),
        _ => {}
    }
    bytes
}

/// A node file, whole or damaged.
pub fn file(random: &mut Random) -> Vec<u8> {
    let sides = any_sides(random);
    let few = random.index(12);
    let count = random.pick(&[0, 1, few, few, few, few, few, 1_015, 1_016, 1_017]);
    let nodes: Vec<Position> = (0..count)
        .map(|_| [0; 3].map(|_| random.bits() as u32))
        .collect();
    let mut file = noted(random, sides, &nodes);
    if random.one_in(2) {
        damage_file(random, &mut file);
    }
    file
}

/// A node file, now and then with a note in front.
pub fn noted(random: &mut Random, sides: Position, nodes: &[Position]) -> Vec<u8> {
    let note = (0..random.pick(&[0, 0, 1, 7, 40])).map(|_| random.bits() as u8);
    let mut file: Vec<u8> = note.collect();
    file.extend(encode(sides, nodes));
    file
}

/// Cut at either end, with a byte of the trailer changed, or a byte too long.
pub fn damage_file(random: &mut Random, file: &mut Vec<u8>) {
    match random.below(4) {
        0 => file.truncate(random.index(file.len() + 1)),
        1 => {
            let place = file.len() - 1 - random.index(20);
            file[place] = random.bits() as u8;
        }
        2 => {
            file.drain(..random.index(file.len() + 1));
        }
        _ => file.push(random.bits() as u8),
    }
}
