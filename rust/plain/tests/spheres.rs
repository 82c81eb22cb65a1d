//! "The sum E is now worked out exactly and its sign taken": ties, and sums that the float gets wrong.

mod common;

use common::Kit;
use plain::geometry::{exact_sum, float_sum};
use plain::{Position, INSIDE, OUTSIDE};

/// Asks the sphere test, and what it goes by.
#[track_caller]
fn answers(corners: [Position; 4], p: Position, answer: u8, e: i128, t: f64) {
    assert_eq!((exact_sum(corners, p), float_sum(corners, p)), (e, t));
    let sphere = plain::sphere_test(corners, p);
    assert_eq!((sphere.refusal, sphere.answer, sphere.t), (0, answer, t));
}

/// Each p is the mirror image of the cell's node in the box 3500, 3500, 3500, but for the last.
#[test]
fn a_tie_is_outside_whatever_the_float_says() {
    let node = [120, 520, 3_370];
    let cell = [[0, 0, 0], [3_500, 3_500, 0], [0, 3_500, 0], node];
    answers(cell, [3_380, 520, 3_370], OUTSIDE, 0, 128.0);
    let node = [160, 110, 60];
    let cell = [node, [0, 3_500, 0], [0, 3_500, 3_500], [3_500; 3]];
    answers(cell, [3_340, 110, 60], OUTSIDE, 0, -128.0);
    let cell = [[0, 0, 0], [1, 0, 0], [1, 2, 0], [1, 2, 2]];
    answers(cell, [0, 2, 0], OUTSIDE, 0, 0.0);
}

const LONG_BOX: Position = [120_000, 8_000, 8_000];
const TWO_NODES: [Position; 2] = [[10_122, 6_325, 1_013], [115_625, 2_556, 1_400]];
/// Strictly inside the sphere of a cell with both nodes, where the float sum is below 0.
const NEAR: Position = [7_461, 3_986, 2_802];

#[test]
fn where_the_float_has_another_sign() {
    let [q, r] = TWO_NODES;
    let cell = [[0, 0, 0], r, [120_000, 0, 0], q];
    answers(cell, NEAR, INSIDE, 480_000, -2_773_504.0);
    let [q, r] = [[19_046, 2_753, 140], [5_245, 218, 3_669]];
    let cell = [[0, 0, 0], r, [131_072, 0, 0], q];
    answers(
        cell,
        [114_018, 1_906, 3_586],
        OUTSIDE,
        -262_144,
        1_048_576.0,
    );
    let [q, r] = [[64_338, 2_969, 1_611], [32_275, 2_146, 2_044]];
    let cell = [r, [0, 0, 4_000], [131_072, 0, 4_000], q];
    answers(cell, [96_196, 1_764, 489], INSIDE, 131_072, 0.0);
}

/// T at 2^39 and -2^39, a step to either side, and the greatest sums in size that a hill climb over the largest cube found.
#[test]
fn near_the_limit_and_far_from_it() {
    let cell = [[0, 0, 0], [256, 0, 0], [0, 256, 0], [0, 0, 256]];
    let (limit, step) = (1i128 << 39, 1i128 << 24);
    for (p, answer, e) in [
        ([128, 128, 0], INSIDE, limit),
        ([128, 127, 0], INSIDE, limit - step),
        ([128, 128, 1], INSIDE, limit + 255 * step),
        ([384, 128, 0], OUTSIDE, -limit),
        ([384, 127, 0], OUTSIDE, -limit - step),
        ([384, 128, 1], OUTSIDE, -limit + 255 * step),
    ] {
        answers(cell, p, answer, e, e as f64);
    }
    let (side, half) = (131_072, 65_536);
    let cell = [[0; 3], [side, side, 0], [0, side, side], [side, 0, side]];
    answers(cell, [half; 3], INSIDE, 3 << 84, 3.0 * 2f64.powi(84));
    let cell = [[0, 0, side], [side; 3], [half; 3], [0, side, 0]];
    answers(cell, [side, 0, 0], OUTSIDE, -3 << 84, -3.0 * 2f64.powi(84));
}

/// How many points lie strictly inside the spheres of how many cells they are not corners of.
fn points_inside(kit: &mut Kit) -> usize {
    let mesh = kit.loaded();
    let inside = |c: usize| {
        let corners = mesh.positions(c);
        let points = mesh.points.iter();
        points.filter(move |&&p| exact_sum(corners, p) > 0).count()
    };
    mesh.cells().into_iter().map(inside).sum()
}

#[test]
fn the_least_t_may_be_below_0() {
    let mut kit = Kit::started(LONG_BOX, 16, 60);
    for node in TWO_NODES {
        assert!(kit.insert(node).least > 0.0);
    }
    let answer = kit.insert(NEAR);
    assert_eq!((answer.refusal, answer.least), (0, -2_773_504.0));
    assert_eq!(answer.before, answer.after);
    assert_eq!(points_inside(&mut kit), 0);
}

/// The two nodes of examples/listing/two_even_nodes.nodes: the second is on the spheres of eight of twelve cells. By the rounded
/// sums handed in, the correction has four cells to remove, and leaves what the sphere test gives at once.
#[test]
fn two_even_nodes_by_the_sphere_test_and_by_rounded_answers() {
    let mut kit = Kit::started([120_000, 80_000, 60_000], 16, 60);
    kit.insert([70_000, 30_000, 20_000]);
    let p = [70_000, 30_000, 40_000];
    let mesh = kit.loaded();
    let mut ties = mesh.cells();
    ties.retain(|&c| exact_sum(mesh.positions(c), p) == 0);
    assert_eq!(ties.len(), 8);
    let is_above_0 = |c: usize| float_sum(mesh.positions(c), p) > 0.0;
    let above_0: Vec<usize> = ties.into_iter().filter(|&c| is_above_0(c)).collect();
    assert_eq!(above_0, [6, 15, 16, 17]);
    let mut rounded = kit.clone();
    let answer = kit.insert(p);
    assert_eq!((answer.before, answer.after), (2, 2));
    let mut bytes = [0; 18];
    for c in mesh.cells() {
        bytes[c] = is_above_0(c).into();
    }
    let answer = rounded.insert_answers(&bytes, p);
    assert_eq!((answer.before, answer.after), (6, 2));
    assert!(kit.check() && kit == rounded);
}
