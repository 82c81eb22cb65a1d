//! Random sphere tests, most of them where the float sum T does not tell the sign of the exact sum E.

use plain::geometry::volume;
use plain::loaded::box_corner;
use plain::random::Random;
use plain::{Mesh, Position, SIDE_LIMIT};

use crate::call::Call;

/// Two nodes in a box, and a third that is nearly on the sphere of a cell with both: T is 0, or has another sign than E. They were
/// searched for: E is a small multiple of the box's first side, which is less than T's rounding.
pub struct NearTie {
    pub sides: Position,
    pub nodes: [Position; 3],
    /// The cell's corners, as point numbers: the nodes are 8 and 9.
    corners: [usize; 4],
}

#[rustfmt::skip]
pub const NEAR_TIES: [NearTie; 6] = [
    // E above 0, T below 0
    near_tie([120_000, 8_000, 8_000], [[10_122, 6_325, 1_013], [115_625, 2_556, 1_400], [7_461, 3_986, 2_802]], [0, 9, 1, 8]),
    near_tie([120_000, 8_000, 8_000], [[111_621, 81, 1_772], [111_643, 3_106, 1_329], [2_061, 2_299, 6_679]], [8, 9, 6, 7]),
    // E above 0, T = 0
    near_tie([131_072, 4_000, 4_000], [[64_338, 2_969, 1_611], [32_275, 2_146, 2_044], [96_196, 1_764, 489]], [9, 4, 5, 8]),
    // E below 0, T above 0
    near_tie([131_072, 4_000, 4_000], [[19_046, 2_753, 140], [5_245, 218, 3_669], [114_018, 1_906, 3_586]], [0, 9, 1, 8]),
    near_tie([120_000, 8_000, 8_000], [[115_577, 838, 4_824], [94_338, 4_109, 4_025], [10_688, 1_916, 2_487]], [8, 4, 5, 9]),
    // E below 0, T = 0
    near_tie([131_072, 4_000, 4_000], [[11_059, 2_981, 611], [77_444, 779, 1_426], [71_929, 643, 746]], [9, 3, 2, 8]),
];

const fn near_tie(sides: Position, nodes: [Position; 3], corners: [usize; 4]) -> NearTie {
    NearTie {
        sides,
        nodes,
        corners,
    }
}

impl NearTie {
    /// The nodes that are next in a mesh of this box.
    pub fn rest(&self, mesh: Mesh) -> Option<&[Position]> {
        let place = (mesh.points as usize).checked_sub(8)?;
        let nodes = self.nodes.get(place..);
        nodes.filter(|_| mesh.sides() == self.sides)
    }

    /// The four corners and the third node.
    pub fn positions(&self) -> [Position; 5] {
        let corner = |point: usize| match point.checked_sub(8) {
            Some(node) => self.nodes[node],
            None => box_corner(self.sides, point),
        };
        let [a, b, c, d] = self.corners.map(corner);
        [a, b, c, d, self.nodes[2]]
    }
}

pub fn sphere_test(random: &mut Random) -> Call {
    let five = match random.below(8) {
        0..3 => anywhere(random),
        3..5 => of_a_cuboid(random),
        5 => at_the_limit(random),
        6 => of_the_largest_cube(random),
        _ => NEAR_TIES[random.index(NEAR_TIES.len())].positions(),
    };
    let mut five = elsewhere(random, five);
    if random.one_in(8) {
        five[4][random.index(3)] = random.pick(&[131_072, 131_073, u32::MAX]);
    }
    let [a, b, c, d, p] = five;
    Call::SphereTest(turned_right(random, [a, b, c, d]), p)
}

fn anywhere(random: &mut Random) -> [Position; 5] {
    let limit = random.pick(&[3, 5, 17, 131_073]);
    [[0; 3]; 5].map(|p| p.map(|_| random.below(limit) as u32))
}

/// Different corners of a cuboid of these sides: all eight lie on one sphere.
fn box_corners(random: &mut Random, sides: Position) -> [Position; 5] {
    let mut corners = [0, 1, 2, 3, 4, 5, 6, 7];
    for place in 0..5 {
        corners.swap(place, place + random.index(8 - place));
    }
    [0, 1, 2, 3, 4].map(|place| box_corner(sides, corners[place]))
}

/// A tie, or a step from one, or a place in the cuboid.
fn of_a_cuboid(random: &mut Random) -> [Position; 5] {
    let limit = random.pick(&[100, 3_000, 30_000, 131_071]);
    let sides = [0; 3].map(|_| 1 + random.below(limit) as u32);
    let mut five = box_corners(random, sides);
    match random.below(4) {
        0 => five[4][random.index(3)] += 1,
        1 => five[4] = sides.map(|side| random.below(side as u64 + 1) as u32),
        _ => {}
    }
    five
}

/// E is abc × (x (a − x) + y (b − y) + z (c − z)) for a cell with edges a, b, c along the axes: here T is 2^39 in size, or little
/// more or less.
fn at_the_limit(random: &mut Random) -> [Position; 5] {
    let p = [
        random.pick(&[127, 128, 128, 383, 384, 384]),
        random.pick(&[127, 128, 128]),
        random.pick(&[0, 0, 1]),
    ];
    [[0; 3], [256, 0, 0], [0, 256, 0], [0, 0, 256], p]
}

/// Four corners of the largest cube and any position; or its middle and every second corner, in any order: E is then 3 × 2^84 in
/// size, the greatest that is known.
fn of_the_largest_cube(random: &mut Random) -> [Position; 5] {
    let cube = [SIDE_LIMIT; 3];
    if random.one_in(2) {
        let mut five = [0, 3, 5, 6, 0].map(|corner| box_corner(cube, corner));
        five[4] = [SIDE_LIMIT / 2; 3];
        five.swap(random.index(5), 4);
        return five;
    }
    let mut five = box_corners(random, cube);
    five[4] = five[4].map(|_| random.below(131_073) as u32);
    five
}

/// The same five positions with their axes turned and moved, as far as there is room.
fn elsewhere(random: &mut Random, mut five: [Position; 5]) -> [Position; 5] {
    let turn = random.index(3);
    for p in &mut five {
        p.rotate_left(turn);
    }
    for axis in 0..3 {
        let greatest = five.iter().map(|p| p[axis]).max().unwrap_or(0);
        let room = SIDE_LIMIT.saturating_sub(greatest) as u64;
        let anywhere = random.below(room + 1) as u32;
        let offset = random.pick(&[0, anywhere]);
        for p in &mut five {
            p[axis] += offset;
        }
    }
    five
}

/// In an order in which the volume is above 0, but for one in eight.
fn turned_right(random: &mut Random, mut corners: [Position; 4]) -> [Position; 4] {
    if volume(corners) < 0 && !random.one_in(8) {
        corners.swap(0, 1);
    }
    corners
}
