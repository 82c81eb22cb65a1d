//! Volumes in i64, and the sphere sums. Coordinates are at most 2^17, so a cross product's entries stay within 2^35 and a
//! six-fold volume's three terms within 2^52.

use plain::geometry::OUT_OF_RANGE;
use plain::{Position, Sphere, INSIDE, OUTSIDE, SIDE_LIMIT};

pub type Offset = [i64; 3];

#[inline]
pub fn offset(q: Position, p: Position) -> Offset {
    [
        q[0] as i64 - p[0] as i64,
        q[1] as i64 - p[1] as i64,
        q[2] as i64 - p[2] as i64,
    ]
}

#[inline]
fn cross(a: Offset, b: Offset) -> Offset {
    [
        a[1] * b[2] - a[2] * b[1],
        a[2] * b[0] - a[0] * b[2],
        a[0] * b[1] - a[1] * b[0],
    ]
}

#[inline]
fn dot(a: Offset, b: Offset) -> i64 {
    a[0] * b[0] + a[1] * b[1] + a[2] * b[2]
}

#[inline]
pub fn volume([a, b, c, d]: [Position; 4]) -> i64 {
    dot(offset(b, a), cross(offset(c, a), offset(d, a)))
}

/// The four v_i, from the corners' offsets to P.
#[inline]
pub fn sides([a, b, c, d]: [Offset; 4]) -> [i64; 4] {
    let ab = cross(a, b);
    let cd = cross(c, d);
    [dot(b, cd), -dot(a, cd), dot(d, ab), -dot(c, ab)]
}

/// T, with one rounding per operation.
#[inline]
pub fn float_sum(v: [i64; 4], offsets: [Offset; 4]) -> f64 {
    let term = |i: usize| v[i] as f64 * dot(offsets[i], offsets[i]) as f64;
    ((term(0) + term(1)) + term(2)) + term(3)
}

#[inline]
fn exact_sum(v: [i64; 4], offsets: [Offset; 4]) -> i128 {
    let term = |i: usize| v[i] as i128 * dot(offsets[i], offsets[i]) as i128;
    term(0) + term(1) + term(2) + term(3)
}

/// Is E above 0? T lies within 2^39 of it, and so has its sign beyond that.
#[inline]
pub fn is_inside(t: f64, v: [i64; 4], offsets: [Offset; 4]) -> bool {
    const CLOSE: f64 = (1u64 << 39) as f64;
    if t.abs() > CLOSE {
        t > 0.0
    } else {
        exact_sum(v, offsets) > 0
    }
}

/// The six-fold volume of the C interface, on the coordinates of a, b, c and d in order.
pub fn volume6(numbers: [i32; 12]) -> i64 {
    if numbers.iter().any(|&n| n as u32 > SIDE_LIMIT) {
        return OUT_OF_RANGE;
    }
    let [ax, ay, az, bx, by, bz, cx, cy, cz, dx, dy, dz] = numbers.map(|n| n as u32);
    volume([[ax, ay, az], [bx, by, bz], [cx, cy, cz], [dx, dy, dz]])
}

pub fn sphere_test(corners: [Position; 4], p: Position) -> Sphere {
    let refused = |refusal| Sphere {
        refusal,
        ..Sphere::default()
    };
    let out_of_range = |q: Position| q.iter().any(|&n| n > SIDE_LIMIT);
    if corners.into_iter().any(out_of_range) || out_of_range(p) {
        return refused(4);
    }
    let offsets = corners.map(|q| offset(q, p));
    let v = sides(offsets);
    // The four v_i sum to the cell's volume.
    if v.iter().sum::<i64>() <= 0 {
        return refused(11);
    }
    let t = float_sum(v, offsets);
    let answer = match is_inside(t, v, offsets) {
        true => INSIDE,
        false => OUTSIDE,
    };
    Sphere {
        refusal: 0,
        answer,
        t,
    }
}
