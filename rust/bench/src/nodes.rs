//! The sets of nodes.

use plain::random::Random;
use plain::{Position, SIDE_LIMIT};

/// A box and the nodes that go into it.
#[derive(Clone)]
pub struct Set {
    pub sides: Position,
    pub nodes: Vec<Position>,
}

/// The box of the random nodes, and of some others.
pub const CUBE: Position = [SIDE_LIMIT; 3];

fn anywhere(random: &mut Random, sides: Position) -> Position {
    sides.map(|side| random.below(side as u64 + 1) as u32)
}

/// Anywhere in a cube: 620 of them take nearly all of 4,096 cells.
pub fn random(count: usize) -> Set {
    let mut random = Random::new(1);
    Set {
        sides: CUBE,
        nodes: (0..count).map(|_| anywhere(&mut random, CUBE)).collect(),
    }
}

/// So many nodes along each side at even steps, x running fastest, without the box corners.
fn grid(along: Position, step: u32) -> Set {
    let [x, y, z] = along;
    let sides = along.map(|count| (count - 1) * step);
    let is_corner = |p: &Position| (0..3).all(|axis| p[axis] == 0 || p[axis] == sides[axis]);
    let nodes = (0..x * y * z)
        .map(|k| [k % x, k / x % y, k / (x * y)].map(|n| n * step))
        .filter(|p| !is_corner(p));
    Set {
        sides,
        nodes: nodes.collect(),
    }
}

/// In a cube, or nearly: the step is a whole number.
pub fn lattice(along: u32) -> Set {
    grid([along; 3], SIDE_LIMIT / (along - 1))
}

/// The same nodes in the smallest box: all sums are close to 0.
pub fn small_lattice(along: u32) -> Set {
    grid([along; 3], 1)
}

/// In consecutive steps along x.
pub fn row(count: u32) -> Set {
    Set {
        sides: CUBE,
        nodes: (1..=count).map(|x| [x, 1, 1]).collect(),
    }
}

/// Picked against the proved merge: its search for each begins at one place (`hash_of` of crates/merging/specs/Inner).
pub fn of_one_start(count: usize) -> Set {
    let start = |[x, y, z]: Position| {
        let [x, y, z] = [x, y, z].map(u64::from);
        (879_579_789 * x + 720_527_587 * y + 590_236_393 * z) / 524_288 % 2_048
    };
    let mut random = Random::new(3);
    let nodes = std::iter::repeat_with(|| anywhere(&mut random, CUBE));
    Set {
        sides: CUBE,
        nodes: nodes.filter(|&p| start(p) == 0).take(count).collect(),
    }
}

/// All points that there is room for, each on one of the six walls.
pub fn walls() -> Set {
    let mut random = Random::new(2);
    let node = |_| {
        let mut p = anywhere(&mut random, CUBE);
        p[random.index(3)] = random.pick(&[0, SIDE_LIMIT]);
        p
    };
    Set {
        sides: CUBE,
        nodes: (0..1_016).map(node).collect(),
    }
}

/// A long machine. The step is no power of two, so products are rounded.
pub fn even_bed() -> Set {
    grid([26, 4, 4], 5_000)
}

/// A long machine, measured from one end to the other.
pub fn bed() -> Set {
    let sides = [SIDE_LIMIT, 2_000, 500];
    let mut random = Random::new(3);
    let mut nodes: Vec<Position> = (0..600).map(|_| anywhere(&mut random, sides)).collect();
    nodes.sort();
    Set { sides, nodes }
}
