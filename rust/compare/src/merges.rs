//! Random pairs of node files to merge.

use std::collections::HashSet;

use plain::loaded::box_corner;
use plain::random::Random;
use plain::{Position, NODE_LIMIT, SIDE_LIMIT};

use crate::call::Merge;
use crate::nodes::{self, Spread};

/// The nodes of two files, and their box.
struct Pair {
    sides: Position,
    nodes: [Vec<Position>; 2],
}

/// Two files with repeated nodes and box corners, whole or wrong in one or more ways.
pub fn merge(random: &mut Random) -> Merge {
    let mut pair = match random.one_in(6) {
        true => many(random),
        false => few(random),
    };
    if random.one_in(6) {
        put_outside(random, &mut pair);
    }
    let sides = any_two_sides(random, pair.sides);
    let files = [0, 1].map(|k| {
        let mut file = nodes::noted(random, sides[k], &pair.nodes[k]);
        if random.one_in(12) {
            nodes::damage_file(random, &mut file);
        }
        file
    });
    let lent = lent(random, files);
    with_room(random, lent)
}

/// Up to a dozen nodes a file, many of them repeated.
fn few(random: &mut Random) -> Pair {
    let (sides, spread) = (nodes::sides(random), nodes::spread(random));
    let mut pair = Pair {
        sides,
        nodes: [vec![], vec![]],
    };
    let counts = [0; 2].map(|_| random.index(13));
    for (k, count) in counts.into_iter().enumerate() {
        for _ in 0..count {
            let node = match random.one_in(4) {
                true => again(random, &pair),
                false => nodes::inside(random, sides, spread),
            };
            pair.nodes[k].push(node);
        }
    }
    pair
}

/// About as many different nodes as may be left, or nearly two files full; repeated ones between them.
fn many(random: &mut Random) -> Pair {
    let sides = random.pick(&[[20; 3], [SIDE_LIMIT; 3], [SIDE_LIMIT, 1, 1]]);
    let mut pair = Pair {
        sides,
        nodes: match random.one_in(4) {
            true => twice(random, sides),
            false => parts(random, sides),
        },
    };
    for k in 0..2 {
        let room = NODE_LIMIT - pair.nodes[k].len();
        let few = random.index(9).min(room);
        for _ in 0..random.pick(&[0, few, room]) {
            let place = random.index(pair.nodes[k].len() + 1);
            let node = again(random, &pair);
            pair.nodes[k].insert(place, node);
        }
    }
    pair
}

/// Two full files of the same nodes.
fn twice(random: &mut Random, sides: Position) -> [Vec<Position>; 2] {
    let first = different(random, sides, NODE_LIMIT);
    let mut second = first.clone();
    second.rotate_left(random.index(NODE_LIMIT));
    [first, second]
}

/// Different nodes, some in either file.
fn parts(random: &mut Random, sides: Position) -> [Vec<Position>; 2] {
    let count: usize = random.pick(&[1_015, 1_016, 1_016, 1_017, 1_017, 2_030]);
    let (least, most) = (count.saturating_sub(NODE_LIMIT), count.min(NODE_LIMIT));
    let mut first = different(random, sides, count);
    let second = first.split_off(least + random.index(most - least + 1));
    [first, second]
}

/// So many different nodes, none of them a box corner.
fn different(random: &mut Random, sides: Position, count: usize) -> Vec<Position> {
    let mut seen: HashSet<Position> = (0..8).map(|k| box_corner(sides, k)).collect();
    let mut found = Vec::with_capacity(count);
    while found.len() < count {
        let p = nodes::inside(random, sides, Spread::Anywhere);
        if seen.insert(p) {
            found.push(p);
        }
    }
    found
}

/// A node that one of the files has already, or a box corner.
fn again(random: &mut Random, pair: &Pair) -> Position {
    let corner = box_corner(pair.sides, random.index(8));
    let file = &pair.nodes[random.index(2)];
    match file.get(random.index(file.len())) {
        Some(&node) if !random.one_in(6) => node,
        _ => corner,
    }
}

/// One or two nodes, at one place outside the box.
fn put_outside(random: &mut Random, pair: &mut Pair) {
    let mut p = nodes::inside(random, pair.sides, Spread::Anywhere);
    let axis = random.index(3);
    p[axis] = random.pick(&[pair.sides[axis] + 1, u32::MAX]);
    for _ in 0..random.pick(&[1, 1, 2]) {
        let file = &mut pair.nodes[random.index(2)];
        let place = random.index(file.len());
        if let Some(node) = file.get_mut(place) {
            *node = p;
        }
    }
}

/// The sides of either file: mostly equal and in range.
fn any_two_sides(random: &mut Random, sides: Position) -> [Position; 2] {
    let mut both = [sides; 2];
    if random.one_in(8) {
        let axis = random.index(3);
        let other = nodes::sides(random)[axis];
        both[1][axis] = random.pick(&[other, (sides[axis] + 1).min(SIDE_LIMIT)]);
    }
    for sides in &mut both {
        if random.one_in(16) {
            sides[random.index(3)] = random.pick(&[0, SIDE_LIMIT + 1]);
        }
    }
    both
}

/// Apart, one as the other's note, or one file for both.
fn lent(random: &mut Random, [first, second]: [Vec<u8>; 2]) -> Merge {
    let (a, b) = (first.len(), second.len());
    let (area, first, second) = match random.below(8) {
        0 => (first, 0..a, 0..a),
        1 => ([first, second].concat(), 0..a, 0..a + b),
        2 => ([second, first].concat(), 0..a + b, 0..b),
        3 => ([second, first].concat(), b..a + b, 0..b),
        _ => ([first, second].concat(), 0..a, a..a + b),
    };
    Merge {
        area,
        first,
        second,
        room: 0,
    }
}

/// Room for just what is written, for more, or for less.
fn with_room(random: &mut Random, merge: Merge) -> Merge {
    let most = 12 * NODE_LIMIT + 20;
    let [first, second] = merge.files(&merge.area);
    let bytes = tuned::merge(first, second, &mut vec![0; most]).bytes as usize;
    let short = random.index(bytes);
    let room = random.pick(&[
        bytes,
        bytes,
        bytes + 7,
        most,
        2 * most,
        bytes.saturating_sub(1),
        short,
    ]);
    Merge { room, ..merge }
}
