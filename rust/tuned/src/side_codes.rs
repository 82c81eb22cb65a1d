//! Side codes: for each point six bits, below or above P on each axis. A cell holds P only where its four codes share no
//! bit: P is then in the cell's bounding box. Code 0 is a point at P.

use plain::{Position, NONE, POINT_LIMIT};

pub struct SideCodes([u8; POINT_LIMIT]);

impl SideCodes {
    pub fn new() -> SideCodes {
        SideCodes([0; POINT_LIMIT])
    }

    pub fn set(&mut self, points: &[Position], p: Position) {
        for (code, q) in self.0.iter_mut().zip(points) {
            let bits = |axis: usize| (q[axis] < p[axis]) as u8 | ((q[axis] > p[axis]) as u8) << 1;
            *code = bits(0) | bits(1) << 2 | bits(2) << 4;
        }
    }

    pub fn is_taken(&self, points: usize) -> bool {
        self.0[..points].contains(&0)
    }

    /// Of an entry of a mesh, where the first corner tells whether it is freed; few come to that.
    #[inline]
    pub fn may_hold(&self, cell: &[u16; 4]) -> bool {
        let code = |i: usize| self.0[cell[i] as usize % POINT_LIMIT];
        code(0) & code(1) & code(2) & code(3) == 0 && cell[0] != NONE
    }
}
