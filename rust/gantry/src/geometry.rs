//! The volume and sphere tests.

use crate::refusal::accepted;
use crate::{raw, Position, Refusal};

/// Six times the volume of a, b, c, d: the determinant of b−a, c−a, d−a. Nothing for a coordinate outside 0 to 131,072.
///
/// ```
/// use gantry::volume6;
///
/// assert_eq!(volume6([[0, 0, 0], [4, 0, 0], [4, 4, 0], [4, 4, 4]]), Some(64));
/// assert_eq!(volume6([[0, 0, 0], [4, 4, 0], [4, 0, 0], [4, 4, 4]]), Some(-64));
/// assert_eq!(volume6([[0, 0, -1], [4, 0, 0], [4, 4, 0], [4, 4, 4]]), None);
/// ```
pub fn volume6(corners: [[i32; 3]; 4]) -> Option<i64> {
    const OUT_OF_RANGE: i64 = 1 << 62;
    match raw::volume6(corners) {
        OUT_OF_RANGE => None,
        volume => Some(volume),
    }
}

/// Where a position lies to the sphere through a cell's corners: by the sign of a whole number E, which is worked out exactly.
/// Each case carries T, the same sum in floats. It is within 2^39 of E, and so may have another sign where it is close to 0.
#[derive(Clone, Copy, Debug, PartialEq)]
pub enum SphereAnswer {
    /// E is above 0: strictly inside.
    Inside(f64),
    /// E is 0 or below: on the sphere or outside.
    Outside(f64),
}

impl SphereAnswer {
    /// The float sum.
    pub fn t(self) -> f64 {
        match self {
            SphereAnswer::Inside(t) | SphereAnswer::Outside(t) => t,
        }
    }
}

/// The sphere test of a position against the cell of four corners. Refused with [`Refusal::Outside`] for a coordinate
/// above 131,072 and with [`Refusal::FlatCell`] for a cell of volume 0 or less.
///
/// ```
/// use gantry::{sphere_test, Refusal, SphereAnswer};
///
/// let cell = [[0, 0, 0], [0, 4, 4], [0, 0, 4], [4, 4, 4]];
/// assert_eq!(sphere_test(cell, [1, 2, 3])?, SphereAnswer::Inside(640.0));
/// // A box corner that is not the cell's: on the sphere, as all eight are.
/// assert_eq!(sphere_test(cell, [4, 0, 0])?, SphereAnswer::Outside(0.0));
/// let flat = [cell[0], cell[0], cell[2], cell[3]];
/// assert_eq!(sphere_test(flat, [1, 2, 3]), Err(Refusal::FlatCell));
/// # Ok::<(), Refusal>(())
/// ```
pub fn sphere_test(corners: [Position; 4], p: Position) -> Result<SphereAnswer, Refusal> {
    let answer = raw::sphere_test(corners, p);
    accepted(answer.refusal)?;
    match answer.answer {
        1 => Ok(SphereAnswer::Inside(answer.t)),
        2 => Ok(SphereAnswer::Outside(answer.t)),
        // The archive is proved to answer no other number. Before 0.5 it had a third.
        number => panic!("{number} is no sphere answer"),
    }
}
