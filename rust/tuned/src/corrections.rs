//! The corrections of points and positions: any cell that holds a position will do, and one division rounds.

use plain::corrections::Correction;
use plain::{in_box, Corrected, Mesh, Position, Tables, CORRECTION_LIMIT};

use crate::check::{mesh_refusal, used};
use crate::geometry::{offset, sides};
use crate::side_codes::SideCodes;

pub fn correction(mesh: Mesh, tables: &mut Tables, p: Position) -> Corrected {
    tables.work.fill(0);
    let refusal = lent_refusal(mesh, tables, usize::MAX);
    if refusal != 0 {
        return Corrected::refused(refusal);
    }
    if !in_box(mesh.sides(), p) {
        return Corrected::refused(4);
    }
    if !are_in_range(mesh, tables) {
        return Corrected::refused(12);
    }
    let (points, corners, _) = used(mesh, tables);
    match any_holding(points, corners, p) {
        Some(c) => Corrected::by(in_cell(points, &corners[c], tables.corrections, p)),
        None => Corrected::refused(7),
    }
}

pub fn set_correction(mesh: Mesh, tables: &mut Tables, point: u32, numbers: Correction) -> u8 {
    tables.work.fill(0);
    let refusal = lent_refusal(mesh, tables, usize::MAX);
    if refusal != 0 {
        return refusal;
    }
    if point >= mesh.points {
        return 13;
    }
    if !numbers.iter().all(is_in_range) || !are_in_range(mesh, tables) {
        return 12;
    }
    tables.corrections.as_chunks_mut().0[point as usize] = numbers;
    0
}

/// Refusals 1 to 3 of a call that is lent the corrections too, or 0.
pub fn lent_refusal(mesh: Mesh, tables: &Tables, answer_bytes: usize) -> u8 {
    match tables.corrections.len() < 3 * tables.point_capacity() {
        true => 1,
        false => mesh_refusal(mesh, tables, answer_bytes),
    }
}

fn is_in_range(number: &i32) -> bool {
    (-CORRECTION_LIMIT..=CORRECTION_LIMIT).contains(number)
}

/// Those of the points of a mesh.
pub fn are_in_range(mesh: Mesh, tables: &Tables) -> bool {
    let standing = &tables.corrections[..3 * mesh.points as usize];
    standing.iter().all(is_in_range)
}

fn any_holding(points: &[Position], corners: &[[u16; 4]], p: Position) -> Option<usize> {
    let mut codes = SideCodes::new();
    codes.set(points, p);
    let holds = |cell: &[u16; 4]| {
        let v = sides(cell.map(|point| offset(points[point as usize], p)));
        v.iter().all(|&side| side >= 0)
    };
    corners
        .iter()
        .position(|cell| codes.may_hold(cell) && holds(cell))
}

/// By the corners of a cell that holds the position. The four v_i add up to its volume.
pub fn in_cell(
    points: &[Position],
    cell: &[u16; 4],
    corrections: &[i32],
    p: Position,
) -> Correction {
    let v = sides(cell.map(|point| offset(points[point as usize], p)));
    let volume: i64 = v.iter().sum();
    let (corrections, _) = corrections.as_chunks::<3>();
    let own = cell.map(|point| corrections[point as usize]);
    [0, 1, 2].map(|axis| {
        let term = |i: usize| v[i] * i64::from(own[i][axis]);
        rounded(term(0) + term(1) + term(2) + term(3), volume)
    })
}

/// Halves away from zero. A sum is within 1,000 × 2^52 in size.
fn rounded(sum: i64, volume: i64) -> i32 {
    let size = (sum.abs() + volume / 2) / volume;
    (sum.signum() * size) as i32
}
