//! The calls of `gantry.h` over tables of one's own: its structs, and one safe function a call that is lent slices. A
//! [`Mesh`](crate::Mesh) keeps record and tables together and is what most programs want; this is for tables that live
//! elsewhere, are shorter, or come from another builder.
//!
//! The slices may have any length and content, and the record any numbers: each call answers for all input, and reads and
//! writes nothing but what it is lent. A field that a refusal leaves without meaning is 0; `refusal` 0 is accepted. All
//! `unsafe` of this crate is here.
//!
//! ```
//! use gantry::raw::{self, Tables};
//!
//! let (mut points, mut corners, mut neighbours, mut work) = ([0; 3 * 9], [0; 4 * 18], [0; 4 * 18], [0; 3 * 18]);
//! let mut tables = Tables { points: &mut points, corners: &mut corners, neighbours: &mut neighbours, work: &mut work };
//! let mut corrections = [0; 3 * 9];
//! let started = raw::start([4, 4, 4], &mut tables, &mut corrections);
//! assert_eq!(started.refusal, 0);
//! let inserted = raw::insert(started.mesh, &mut tables, &mut corrections, [1, 2, 3]);
//! assert_eq!((inserted.refusal, inserted.mesh.cells), (0, 12));
//! assert!(raw::check(inserted.mesh, &mut tables));
//!
//! // The cells are the numbers below the used length that are not freed: here the last twelve.
//! let corners = &corners.as_chunks::<4>().0[..inserted.mesh.used as usize];
//! let cells = (0..18).filter(|&number| corners[number] != raw::FREED);
//! assert!(cells.eq(6..18));
//! ```

#![allow(unsafe_code)]

use crate::Position;

/// `GANTRY_NONE`: no neighbour, and the end of the chain of freed cell numbers.
pub const NO_NEIGHBOUR: u16 = 65_535;

/// The corners of a freed cell number: four times `GANTRY_NONE`.
pub const FREED: [u16; 4] = [65_535; 4];

/// `gantry_mesh`: the record of sides, counts, chain and used length. `chain` and `used` are the library's: they are handed
/// on as a call answers them.
#[repr(C)]
#[derive(Clone, Copy, Debug, Default, PartialEq, Eq)]
pub struct Record {
    /// The box's side along x.
    pub x: u32,
    /// The box's side along y.
    pub y: u32,
    /// The box's side along z.
    pub z: u32,
    /// The point count, the eight box corners among them.
    pub points: u32,
    /// The cell count.
    pub cells: u32,
    /// The first of the chain of freed cell numbers; 65,535 where none is freed.
    pub chain: u32,
    /// The used length: every cell's number is below it.
    pub used: u32,
}

/// `gantry_started`
#[repr(C)]
#[derive(Clone, Copy, Debug)]
pub struct Started {
    /// 0 for accepted, else the refusal's number.
    pub refusal: u8,
    /// The record of the started mesh; zeros where refused.
    pub mesh: Record,
}

/// `gantry_inserted`: the record and the report.
#[repr(C)]
#[derive(Clone, Copy, Debug)]
pub struct Inserted {
    /// 0 for accepted, else the refusal's number.
    pub refusal: u8,
    /// The record to go on with, also after a refusal.
    pub mesh: Record,
    /// The new point's number.
    pub point: u32,
    /// The cavity's size before its correction.
    pub before: u32,
    /// The cavity's size after it.
    pub after: u32,
    /// How many cells were made.
    pub made: u32,
    /// The least T over the cavity before correction, a float that may be 0 or below; 0 for answers handed in.
    pub least: f64,
}

/// `gantry_looked`: the report of the insertion that was looked at.
#[repr(C)]
#[derive(Clone, Copy, Debug)]
pub struct Looked {
    /// 0 for accepted, else the refusal's number.
    pub refusal: u8,
    /// The number that the new point would get.
    pub point: u32,
    /// The cavity's size before its correction.
    pub before: u32,
    /// The cavity's size after it.
    pub after: u32,
    /// How many cells would be made.
    pub made: u32,
    /// The least T over the cavity before correction, a float that may be 0 or below.
    pub least: f64,
}

/// `gantry_listed`
#[repr(C)]
#[derive(Clone, Copy, Debug)]
pub struct Listed {
    /// 0 for accepted, else the refusal's number.
    pub refusal: u8,
    /// The record to go on with, also after a refusal.
    pub mesh: Record,
    /// The refused node's place in the list, or how many nodes went in.
    pub place: u32,
}

/// `gantry_located`
#[repr(C)]
#[derive(Clone, Copy, Debug)]
pub struct Located {
    /// 0 for accepted, else the refusal's number.
    pub refusal: u8,
    /// The cell's number.
    pub cell: u32,
}

/// `gantry_counted`
#[repr(C)]
#[derive(Clone, Copy, Debug)]
pub struct Counted {
    /// 0 for accepted, else the refusal's number.
    pub refusal: u8,
    /// How many cells were listed.
    pub count: u32,
}

/// `gantry_corrected`
#[repr(C)]
#[derive(Clone, Copy, Debug)]
pub struct Corrected {
    /// 0 for accepted, else the refusal's number.
    pub refusal: u8,
    /// The correction along x.
    pub x: i32,
    /// The correction along y.
    pub y: i32,
    /// The correction along z.
    pub z: i32,
}

/// `gantry_sphere`
#[repr(C)]
#[derive(Clone, Copy, Debug)]
pub struct Sphere {
    /// 0 for accepted, else the refusal's number.
    pub refusal: u8,
    /// 1 inside, 2 outside; 3 is retired, and never answered.
    pub answer: u8,
    /// The float sum T.
    pub t: f64,
}

/// `gantry_read`
#[repr(C)]
#[derive(Clone, Copy, Debug)]
pub struct Read {
    /// 0 for accepted, else the refusal's number.
    pub refusal: u8,
    /// The box's side along x.
    pub x: u32,
    /// The box's side along y.
    pub y: u32,
    /// The box's side along z.
    pub z: u32,
    /// How many nodes were read.
    pub count: u32,
}

/// `gantry_written`
#[repr(C)]
#[derive(Clone, Copy, Debug)]
pub struct Written {
    /// 0 for accepted, else the refusal's number.
    pub refusal: u8,
    /// How many bytes were written.
    pub bytes: u32,
}

/// The four tables that every call on a mesh is lent. A third of the points' length is the room for points, the least of a
/// quarter of the corners', a quarter of the neighbours' and a third of the work area's the room for cells. The calls that are
/// lent corrections too take them as a slice of their own: three entries a point.
pub struct Tables<'a> {
    /// Three entries a point: x, y, z.
    pub points: &'a mut [u32],
    /// Four entries a cell: the point numbers of its corners; [`FREED`] where the number is no cell's.
    pub corners: &'a mut [u16],
    /// Four entries a cell: neighbour i lies across the face opposite corner i; 65,535 at a wall. The first of a freed number
    /// is the next one on the chain, 65,535 at the end; the other three are 65,535.
    pub neighbours: &'a mut [u16],
    /// Three entries a cell, of any content: zero after every call.
    pub work: &'a mut [u16],
}

#[rustfmt::skip]
unsafe extern "C" {
    safe fn gantry_volume6(
        ax: i32, ay: i32, az: i32, bx: i32, by: i32, bz: i32,
        cx: i32, cy: i32, cz: i32, dx: i32, dy: i32, dz: i32,
    ) -> i64;
    safe fn gantry_sphere_test(
        ax: u32, ay: u32, az: u32, bx: u32, by: u32, bz: u32,
        cx: u32, cy: u32, cz: u32, dx: u32, dy: u32, dz: u32,
        px: u32, py: u32, pz: u32,
    ) -> Sphere;
    fn gantry_start(
        x: u32, y: u32, z: u32,
        points: *mut u32, points_len: usize, corners: *mut u16, corners_len: usize,
        neighbours: *mut u16, neighbours_len: usize, work: *mut u16, work_len: usize,
        corrections: *mut i32, corrections_len: usize,
    ) -> Started;
    fn gantry_insert(
        mesh: Record,
        points: *mut u32, points_len: usize, corners: *mut u16, corners_len: usize,
        neighbours: *mut u16, neighbours_len: usize, work: *mut u16, work_len: usize,
        corrections: *mut i32, corrections_len: usize,
        x: u32, y: u32, z: u32,
    ) -> Inserted;
    fn gantry_insert_answers(
        mesh: Record,
        points: *mut u32, points_len: usize, corners: *mut u16, corners_len: usize,
        neighbours: *mut u16, neighbours_len: usize, work: *mut u16, work_len: usize,
        corrections: *mut i32, corrections_len: usize,
        answers: *const u8, answers_len: usize, x: u32, y: u32, z: u32,
    ) -> Inserted;
    fn gantry_look(
        mesh: Record,
        points: *mut u32, points_len: usize, corners: *mut u16, corners_len: usize,
        neighbours: *mut u16, neighbours_len: usize, work: *mut u16, work_len: usize,
        corrections: *const i32, corrections_len: usize,
        marks: *mut u8, marks_len: usize, x: u32, y: u32, z: u32,
    ) -> Looked;
    fn gantry_insert_marked(
        mesh: Record,
        points: *mut u32, points_len: usize, corners: *mut u16, corners_len: usize,
        neighbours: *mut u16, neighbours_len: usize, work: *mut u16, work_len: usize,
        corrections: *mut i32, corrections_len: usize,
        marks: *const u8, marks_len: usize, x: u32, y: u32, z: u32,
    ) -> Inserted;
    fn gantry_insert_list(
        mesh: Record,
        points: *mut u32, points_len: usize, corners: *mut u16, corners_len: usize,
        neighbours: *mut u16, neighbours_len: usize, work: *mut u16, work_len: usize,
        corrections: *mut i32, corrections_len: usize,
        nodes: *const u32, nodes_len: usize,
    ) -> Listed;
    fn gantry_locate(
        mesh: Record,
        points: *mut u32, points_len: usize, corners: *mut u16, corners_len: usize,
        neighbours: *mut u16, neighbours_len: usize, work: *mut u16, work_len: usize,
        x: u32, y: u32, z: u32,
    ) -> Located;
    fn gantry_drive_cells(
        mesh: Record,
        points: *mut u32, points_len: usize, corners: *mut u16, corners_len: usize,
        neighbours: *mut u16, neighbours_len: usize, work: *mut u16, work_len: usize,
        ax: u32, ay: u32, az: u32, bx: u32, by: u32, bz: u32,
        cells: *mut u16, cells_len: usize,
    ) -> Counted;
    fn gantry_correction(
        mesh: Record,
        points: *mut u32, points_len: usize, corners: *mut u16, corners_len: usize,
        neighbours: *mut u16, neighbours_len: usize, work: *mut u16, work_len: usize,
        corrections: *const i32, corrections_len: usize,
        x: u32, y: u32, z: u32,
    ) -> Corrected;
    fn gantry_set_correction(
        mesh: Record,
        points: *mut u32, points_len: usize, corners: *mut u16, corners_len: usize,
        neighbours: *mut u16, neighbours_len: usize, work: *mut u16, work_len: usize,
        corrections: *mut i32, corrections_len: usize,
        point: u32, x: i32, y: i32, z: i32,
    ) -> u8;
    fn gantry_check(
        mesh: Record,
        points: *mut u32, points_len: usize, corners: *mut u16, corners_len: usize,
        neighbours: *mut u16, neighbours_len: usize, work: *mut u16, work_len: usize,
    ) -> bool;
    fn gantry_read_nodes(
        file: *const u8, file_len: usize, nodes: *mut u32, nodes_len: usize,
    ) -> Read;
    fn gantry_write_nodes(
        mesh: Record,
        points: *mut u32, points_len: usize, corners: *mut u16, corners_len: usize,
        neighbours: *mut u16, neighbours_len: usize, work: *mut u16, work_len: usize,
        out: *mut u8, out_len: usize,
    ) -> Written;
    fn gantry_merge(
        first: *const u8, first_len: usize, second: *const u8, second_len: usize,
        out: *mut u8, out_len: usize,
    ) -> Written;
}

/// A call on tables: its words before them, the tables, its words after them.
macro_rules! call {
    ($call:ident($($before:expr),*; $tables:ident; $($after:expr),*)) => {{
        let Tables { points, corners, neighbours, work } = $tables;
        // SAFETY: each pointer and length is that of a slice borrowed until the call returns, those written to are
        // borrowed mutably, and the call keeps none of them.
        unsafe {
            $call(
                $($before,)*
                points.as_mut_ptr(), points.len(),
                corners.as_mut_ptr(), corners.len(),
                neighbours.as_mut_ptr(), neighbours.len(),
                work.as_mut_ptr(), work.len(),
                $($after),*
            )
        }
    }};
}

/// `gantry_volume6`: six times the volume of four points; 2^62 for a coordinate outside 0 to 131,072.
pub fn volume6([a, b, c, d]: [[i32; 3]; 4]) -> i64 {
    gantry_volume6(
        a[0], a[1], a[2], b[0], b[1], b[2], c[0], c[1], c[2], d[0], d[1], d[2],
    )
}

/// `gantry_sphere_test`: whether a position lies strictly inside the sphere through four corners. Refusals 4 11.
pub fn sphere_test([a, b, c, d]: [Position; 4], p: Position) -> Sphere {
    gantry_sphere_test(
        a[0], a[1], a[2], b[0], b[1], b[2], c[0], c[1], c[2], d[0], d[1], d[2], p[0], p[1], p[2],
    )
}

/// `gantry_start`: the eight corners, with corrections 0, and six cells of a box. Refusals 1 2.
pub fn start([x, y, z]: Position, tables: &mut Tables, corrections: &mut [i32]) -> Started {
    call!(gantry_start(x, y, z; tables; corrections.as_mut_ptr(), corrections.len()))
}

/// `gantry_insert`: one node, by the sphere test. Refusals 1 2 3 4 5 12 6 7 8.
pub fn insert(
    mesh: Record,
    tables: &mut Tables,
    corrections: &mut [i32],
    [x, y, z]: Position,
) -> Inserted {
    call!(gantry_insert(mesh; tables; corrections.as_mut_ptr(), corrections.len(), x, y, z))
}

/// `gantry_insert_answers`: one node, by a byte for each cell number below the used length, nonzero for inside its sphere; a
/// freed number's is ignored. Refused as [`insert`] is.
pub fn insert_answers(
    mesh: Record,
    tables: &mut Tables,
    corrections: &mut [i32],
    answers: &[u8],
    [x, y, z]: Position,
) -> Inserted {
    call!(gantry_insert_answers(
        mesh; tables; corrections.as_mut_ptr(), corrections.len(), answers.as_ptr(), answers.len(), x, y, z
    ))
}

/// `gantry_look`: the report of a node's insertion by the sphere test, and a mark for each cell number below the used length,
/// 1 where the node would replace the cell and 0 elsewhere; marks beyond stay. Refused as [`insert`] is, then with 10.
pub fn look(
    mesh: Record,
    tables: &mut Tables,
    corrections: &[i32],
    marks: &mut [u8],
    [x, y, z]: Position,
) -> Looked {
    call!(gantry_look(
        mesh; tables; corrections.as_ptr(), corrections.len(), marks.as_mut_ptr(), marks.len(), x, y, z
    ))
}

/// `gantry_insert_marked`: one node, by the sphere test, only if a look would now give these marks. Refused as [`insert`] is,
/// then with 14.
pub fn insert_marked(
    mesh: Record,
    tables: &mut Tables,
    corrections: &mut [i32],
    marks: &[u8],
    [x, y, z]: Position,
) -> Inserted {
    call!(gantry_insert_marked(
        mesh; tables; corrections.as_mut_ptr(), corrections.len(), marks.as_ptr(), marks.len(), x, y, z
    ))
}

/// `gantry_insert_list`: nodes, three numbers each, up to the first that is refused; one or two numbers after the last whole
/// node are not read. Each is refused as by [`insert`].
pub fn insert_list(
    mesh: Record,
    tables: &mut Tables,
    corrections: &mut [i32],
    nodes: &[u32],
) -> Listed {
    call!(gantry_insert_list(
        mesh; tables; corrections.as_mut_ptr(), corrections.len(), nodes.as_ptr(), nodes.len()
    ))
}

/// `gantry_locate`: of the cells that hold a position, the one whose four corner numbers, sorted upward, come first in order.
/// Refusals 1 2 3 4 7.
pub fn locate(mesh: Record, tables: &mut Tables, [x, y, z]: Position) -> Located {
    call!(gantry_locate(mesh; tables; x, y, z))
}

/// `gantry_drive_cells`: the numbers of the cells that share a place with the segment from one position to the other, rising;
/// entries beyond stay. Refusals 1 2 3 4 10.
pub fn drive_cells(
    mesh: Record,
    tables: &mut Tables,
    [a, b]: [Position; 2],
    cells: &mut [u16],
) -> Counted {
    call!(gantry_drive_cells(
        mesh; tables; a[0], a[1], a[2], b[0], b[1], b[2], cells.as_mut_ptr(), cells.len()
    ))
}

/// `gantry_correction`: the correction of a position, by the corrections of the located cell's corners. Refusals 1 2 3 4 12 7.
pub fn correction(
    mesh: Record,
    tables: &mut Tables,
    corrections: &[i32],
    [x, y, z]: Position,
) -> Corrected {
    call!(gantry_correction(mesh; tables; corrections.as_ptr(), corrections.len(), x, y, z))
}

/// `gantry_set_correction`: gives a point these corrections, and answers the refusal, or 0. Refusals 1 2 3 13 12.
pub fn set_correction(
    mesh: Record,
    tables: &mut Tables,
    corrections: &mut [i32],
    point: u32,
    [x, y, z]: [i32; 3],
) -> u8 {
    call!(gantry_set_correction(
        mesh; tables; corrections.as_mut_ptr(), corrections.len(), point, x, y, z
    ))
}

/// `gantry_check`: whether record and tables are a mesh.
pub fn check(mesh: Record, tables: &mut Tables) -> bool {
    call!(gantry_check(mesh; tables;))
}

/// `gantry_read_nodes`: the sides and nodes of a node file, three numbers a node. Refusals 9 2 10.
pub fn read_nodes(file: &[u8], nodes: &mut [u32]) -> Read {
    // SAFETY: as in `call`.
    unsafe { gantry_read_nodes(file.as_ptr(), file.len(), nodes.as_mut_ptr(), nodes.len()) }
}

/// `gantry_write_nodes`: the nodes of a mesh as a node file. Refusals 1 2 3 10.
pub fn write_nodes(mesh: Record, tables: &mut Tables, out: &mut [u8]) -> Written {
    call!(gantry_write_nodes(mesh; tables; out.as_mut_ptr(), out.len()))
}

/// `gantry_merge`: two node files of one box as one, without a note; the two may be one slice. Refusals 9 2 of the first,
/// 9 2 of the second, then 19 4 6 10.
pub fn merge(first: &[u8], second: &[u8], out: &mut [u8]) -> Written {
    // SAFETY: as in `call`; the two files are only read, so they may overlap.
    unsafe {
        gantry_merge(
            first.as_ptr(),
            first.len(),
            second.as_ptr(),
            second.len(),
            out.as_mut_ptr(),
            out.len(),
        )
    }
}

/// The layouts; `tests/layout.c` asks the same of `gantry.h`.
const _: () = {
    use std::mem::{offset_of, size_of};
    assert!(size_of::<Record>() == 28 && offset_of!(Record, cells) == 16);
    assert!(offset_of!(Record, chain) == 20 && offset_of!(Record, used) == 24);
    assert!(size_of::<Started>() == 32 && offset_of!(Started, mesh) == 4);
    assert!(size_of::<Inserted>() == 56 && offset_of!(Inserted, mesh) == 4);
    assert!(offset_of!(Inserted, point) == 32 && offset_of!(Inserted, before) == 36);
    assert!(offset_of!(Inserted, after) == 40 && offset_of!(Inserted, made) == 44);
    assert!(offset_of!(Inserted, least) == 48);
    assert!(size_of::<Looked>() == 32 && offset_of!(Looked, point) == 4);
    assert!(offset_of!(Looked, before) == 8 && offset_of!(Looked, after) == 12);
    assert!(offset_of!(Looked, made) == 16 && offset_of!(Looked, least) == 24);
    assert!(size_of::<Listed>() == 36 && offset_of!(Listed, mesh) == 4);
    assert!(offset_of!(Listed, place) == 32);
    assert!(size_of::<Located>() == 8 && offset_of!(Located, cell) == 4);
    assert!(size_of::<Counted>() == 8 && offset_of!(Counted, count) == 4);
    assert!(size_of::<Corrected>() == 16 && offset_of!(Corrected, x) == 4);
    assert!(offset_of!(Corrected, y) == 8 && offset_of!(Corrected, z) == 12);
    assert!(size_of::<Sphere>() == 16 && offset_of!(Sphere, answer) == 1);
    assert!(offset_of!(Sphere, t) == 8);
    assert!(size_of::<Read>() == 20 && offset_of!(Read, x) == 4);
    assert!(offset_of!(Read, count) == 16);
    assert!(size_of::<Written>() == 8 && offset_of!(Written, bytes) == 4);
};
