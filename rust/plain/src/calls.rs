//! The record, the lent tables and the answers, laid out as in `gantry.h`.
//! A field that a refusal leaves without meaning is 0.

/// No neighbour; the end of the chain; and each corner of a freed entry.
pub const NONE: u16 = 65_535;
pub const SIDE_LIMIT: u32 = 131_072;
pub const POINT_LIMIT: usize = 1_024;
pub const CELL_LIMIT: usize = 4_096;
/// A node file's count is at most the points that are not box corners.
pub const NODE_LIMIT: usize = POINT_LIMIT - 8;
/// Corrections are from minus this to this.
pub const CORRECTION_LIMIT: i32 = 1_000;

pub type Position = [u32; 3];

/// The record: sides, counts, and where there is place for new cells.
#[repr(C)]
#[derive(Clone, Copy, Debug, Default, PartialEq, Eq)]
pub struct Mesh {
    pub x: u32,
    pub y: u32,
    pub z: u32,
    pub points: u32,
    pub cells: u32,
    /// The first of the freed numbers, which form a chain; `NONE` if it is empty.
    pub chain: u32,
    /// Entries below it are cells or freed; those from it on have not been used.
    pub used: u32,
}

impl Mesh {
    pub fn sides(self) -> Position {
        [self.x, self.y, self.z]
    }
}

/// The four tables that every call on a mesh is lent, and the corrections, three a point: a start, insertions, looks and the two
/// calls of corrections are lent those, and the others do not touch them.
pub struct Tables<'a> {
    pub points: &'a mut [u32],
    pub corners: &'a mut [u16],
    pub neighbours: &'a mut [u16],
    pub work: &'a mut [u16],
    pub corrections: &'a mut [i32],
}

impl Tables<'_> {
    pub fn point_capacity(&self) -> usize {
        POINT_LIMIT.min(self.points.len() / 3)
    }

    pub fn cell_capacity(&self) -> usize {
        CELL_LIMIT
            .min(self.corners.len() / 4)
            .min(self.neighbours.len() / 4)
            .min(self.work.len() / 3)
    }

    pub fn are_short(&self) -> bool {
        self.point_capacity() < 8 || self.cell_capacity() < 6
    }
}

/// Tables of one's own, to lend.
#[derive(Clone, Debug, PartialEq, Eq)]
pub struct Owned {
    pub points: Vec<u32>,
    pub corners: Vec<u16>,
    pub neighbours: Vec<u16>,
    pub work: Vec<u16>,
    pub corrections: Vec<i32>,
}

impl Owned {
    pub fn with_room(points: usize, cells: usize) -> Owned {
        Owned {
            points: vec![0; 3 * points],
            corners: vec![0; 4 * cells],
            neighbours: vec![0; 4 * cells],
            work: vec![0; 3 * cells],
            corrections: vec![0; 3 * points],
        }
    }

    pub fn largest() -> Owned {
        Owned::with_room(POINT_LIMIT, CELL_LIMIT)
    }

    pub fn lend(&mut self) -> Tables<'_> {
        Tables {
            points: &mut self.points,
            corners: &mut self.corners,
            neighbours: &mut self.neighbours,
            work: &mut self.work,
            corrections: &mut self.corrections,
        }
    }
}

pub fn sides_in_range(sides: Position) -> bool {
    sides.iter().all(|&s| (1..=SIDE_LIMIT).contains(&s))
}

pub fn in_box(sides: Position, p: Position) -> bool {
    (0..3).all(|axis| p[axis] <= sides[axis])
}

#[repr(C)]
#[derive(Clone, Copy, Debug, Default, PartialEq, Eq)]
pub struct Started {
    pub refusal: u8,
    pub mesh: Mesh,
}

impl Started {
    pub fn refused(refusal: u8) -> Started {
        Started {
            refusal,
            ..Started::default()
        }
    }
}

/// An insertion's record and report.
#[repr(C)]
#[derive(Clone, Copy, Debug, Default, PartialEq)]
pub struct Inserted {
    pub refusal: u8,
    pub mesh: Mesh,
    pub point: u32,
    pub before: u32,
    pub after: u32,
    pub made: u32,
    pub least: f64,
}

impl Inserted {
    pub fn refused(refusal: u8, mesh: Mesh) -> Inserted {
        Looked::refused(refusal).with(mesh)
    }

    /// What a look would have answered.
    pub fn report(self) -> Looked {
        Looked {
            refusal: self.refusal,
            point: self.point,
            before: self.before,
            after: self.after,
            made: self.made,
            least: self.least,
        }
    }
}

/// The report alone.
#[repr(C)]
#[derive(Clone, Copy, Debug, Default, PartialEq)]
pub struct Looked {
    pub refusal: u8,
    pub point: u32,
    pub before: u32,
    pub after: u32,
    pub made: u32,
    pub least: f64,
}

impl Looked {
    pub fn refused(refusal: u8) -> Looked {
        Looked {
            refusal,
            ..Looked::default()
        }
    }

    /// The answer of an insertion that leaves this record.
    pub fn with(self, mesh: Mesh) -> Inserted {
        Inserted {
            refusal: self.refusal,
            mesh,
            point: self.point,
            before: self.before,
            after: self.after,
            made: self.made,
            least: self.least,
        }
    }
}

/// `place` is the refused node's place in the list, or how many nodes went in.
#[repr(C)]
#[derive(Clone, Copy, Debug, Default, PartialEq, Eq)]
pub struct Listed {
    pub refusal: u8,
    pub mesh: Mesh,
    pub place: u32,
}

#[repr(C)]
#[derive(Clone, Copy, Debug, Default, PartialEq, Eq)]
pub struct Located {
    pub refusal: u8,
    pub cell: u32,
}

/// How many cells were listed.
#[repr(C)]
#[derive(Clone, Copy, Debug, Default, PartialEq, Eq)]
pub struct Counted {
    pub refusal: u8,
    pub count: u32,
}

impl Counted {
    pub fn refused(refusal: u8) -> Counted {
        Counted { refusal, count: 0 }
    }
}

/// A position's correction on each axis.
#[repr(C)]
#[derive(Clone, Copy, Debug, Default, PartialEq, Eq)]
pub struct Corrected {
    pub refusal: u8,
    pub x: i32,
    pub y: i32,
    pub z: i32,
}

impl Corrected {
    pub fn refused(refusal: u8) -> Corrected {
        Corrected {
            refusal,
            ..Corrected::default()
        }
    }

    pub fn by([x, y, z]: [i32; 3]) -> Corrected {
        Corrected {
            refusal: 0,
            x,
            y,
            z,
        }
    }
}

pub const INSIDE: u8 = 1;
pub const OUTSIDE: u8 = 2;

#[repr(C)]
#[derive(Clone, Copy, Debug, Default, PartialEq)]
pub struct Sphere {
    pub refusal: u8,
    pub answer: u8,
    pub t: f64,
}

#[repr(C)]
#[derive(Clone, Copy, Debug, Default, PartialEq, Eq)]
pub struct Read {
    pub refusal: u8,
    pub x: u32,
    pub y: u32,
    pub z: u32,
    pub count: u32,
}

impl Read {
    pub fn refused(refusal: u8) -> Read {
        Read {
            refusal,
            ..Read::default()
        }
    }
}

#[repr(C)]
#[derive(Clone, Copy, Debug, Default, PartialEq, Eq)]
pub struct Written {
    pub refusal: u8,
    pub bytes: u32,
}

impl Written {
    pub fn refused(refusal: u8) -> Written {
        Written { refusal, bytes: 0 }
    }
}
