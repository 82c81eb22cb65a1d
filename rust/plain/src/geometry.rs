//! The volume and sphere tests.

use crate::calls::{Position, Sphere, INSIDE, OUTSIDE, SIDE_LIMIT};
use crate::rules::{RightRules, Rules};

/// What `volume6` answers for a coordinate out of range.
pub const OUT_OF_RANGE: i64 = 1 << 62;

/// The determinant of b−a, c−a, d−a.
pub fn volume([a, b, c, d]: [Position; 4]) -> i128 {
    let minus_a = |q: Position| [0, 1, 2].map(|axis| q[axis] as i128 - a[axis] as i128);
    let (b, c, d) = (minus_a(b), minus_a(c), minus_a(d));
    b[0] * (c[1] * d[2] - c[2] * d[1]) - b[1] * (c[0] * d[2] - c[2] * d[0])
        + b[2] * (c[0] * d[1] - c[1] * d[0])
}

/// The six-fold volume of the C interface, on the coordinates of a, b, c and d in order.
pub fn volume6(numbers: [i32; 12]) -> i64 {
    if numbers.iter().any(|n| !(0..=SIDE_LIMIT as i32).contains(n)) {
        return OUT_OF_RANGE;
    }
    let position = |k: usize| [0, 1, 2].map(|axis| numbers[3 * k + axis] as u32);
    volume([0, 1, 2, 3].map(position)) as i64
}

/// v_i: the six-fold volume with corner i replaced by P.
pub fn side(mut corners: [Position; 4], i: usize, p: Position) -> i128 {
    corners[i] = p;
    volume(corners)
}

/// L_i: the squared distance.
pub fn squared_distance(a: Position, p: Position) -> i128 {
    let square = |axis: usize| (a[axis] as i128 - p[axis] as i128).pow(2);
    square(0) + square(1) + square(2)
}

/// E: "P is strictly inside the cell's sphere when E = sum of v_i × L_i is above 0."
pub fn exact_sum(corners: [Position; 4], p: Position) -> i128 {
    let term = |i: usize| side(corners, i, p) * squared_distance(corners[i], p);
    term(0) + term(1) + term(2) + term(3)
}

/// T, with one rounding per operation.
pub fn float_sum(corners: [Position; 4], p: Position) -> f64 {
    let v = [0, 1, 2, 3].map(|i| side(corners, i, p) as f64);
    let l = corners.map(|a| squared_distance(a, p) as f64);
    ((v[0] * l[0] + v[1] * l[1]) + v[2] * l[2]) + v[3] * l[3]
}

/// Of a cell of positive volume.
pub fn is_inside(rules: &dyn Rules, corners: [Position; 4], p: Position) -> bool {
    rules.is_inside(exact_sum(corners, p), float_sum(corners, p))
}

pub fn sphere_test(corners: [Position; 4], p: Position) -> Sphere {
    sphere_test_with(&RightRules, corners, p)
}

/// "Inside means E above 0, outside means the rest, and T is still carried."
pub fn sphere_test_with(rules: &dyn Rules, corners: [Position; 4], p: Position) -> Sphere {
    let refused = |refusal| Sphere {
        refusal,
        ..Sphere::default()
    };
    let in_range = |q: &Position| q.iter().all(|&n| n <= SIDE_LIMIT);
    if !corners.iter().all(in_range) || !in_range(&p) {
        return refused(4);
    }
    if volume(corners) <= 0 {
        return refused(11);
    }
    let answer = match is_inside(rules, corners, p) {
        true => INSIDE,
        false => OUTSIDE,
    };
    Sphere {
        refusal: 0,
        answer,
        t: float_sum(corners, p),
    }
}
