//! "Corrections at the nodes": of points, by their numbers in the table, and of positions, by the cells.

use crate::calls::{in_box, Corrected, Mesh, Position, Tables, CORRECTION_LIMIT};
use crate::check::mesh_refusal;
use crate::loaded::Loaded;
use crate::rules::{RightRules, Rules};

/// A correction on each axis.
pub type Correction = [i32; 3];

/// The correction of a position.
pub fn correction(mesh: Mesh, tables: &mut Tables, p: Position) -> Corrected {
    correction_with(&RightRules, mesh, tables, p)
}

/// Gives a point these corrections; answers the refusal, or 0.
pub fn set_correction(mesh: Mesh, tables: &mut Tables, point: u32, numbers: Correction) -> u8 {
    set_correction_with(&RightRules, mesh, tables, point, numbers)
}

pub fn correction_with(
    rules: &dyn Rules,
    mesh: Mesh,
    tables: &mut Tables,
    p: Position,
) -> Corrected {
    let answer = corrected(rules, mesh, tables, p);
    tables.work.fill(0);
    answer.map_or_else(Corrected::refused, Corrected::by)
}

pub fn set_correction_with(
    rules: &dyn Rules,
    mesh: Mesh,
    tables: &mut Tables,
    point: u32,
    numbers: Correction,
) -> u8 {
    let refusal = match lent_refusal(rules, mesh, tables, usize::MAX) {
        0 => rules.setting_refusal(
            point >= mesh.points,
            !numbers.iter().all(is_in_range),
            !are_in_range(rules, mesh, tables),
        ),
        refusal => refusal,
    };
    if refusal == 0 {
        put(tables, point, numbers);
    }
    tables.work.fill(0);
    refusal
}

fn corrected(
    rules: &dyn Rules,
    mesh: Mesh,
    tables: &Tables,
    p: Position,
) -> Result<Correction, u8> {
    match lent_refusal(rules, mesh, tables, usize::MAX) {
        0 => {}
        refusal => return Err(refusal),
    }
    if !in_box(mesh.sides(), p) {
        return Err(4);
    }
    if !are_in_range(rules, mesh, tables) {
        return Err(12);
    }
    of_position(&Loaded::load(rules, mesh, tables), tables, p).ok_or(7)
}

/// Refusals 1 to 3 of a call that is lent the corrections too, or 0.
pub fn lent_refusal(rules: &dyn Rules, mesh: Mesh, tables: &Tables, answer_bytes: usize) -> u8 {
    match are_short(rules, tables) {
        true => 1,
        false => mesh_refusal(rules, mesh, tables, answer_bytes),
    }
}

pub fn are_short(rules: &dyn Rules, tables: &Tables) -> bool {
    tables.corrections.len() < rules.corrections_wanted(tables.point_capacity())
}

fn is_in_range(number: &i32) -> bool {
    (-CORRECTION_LIMIT..=CORRECTION_LIMIT).contains(number)
}

/// Of those that stand "in the table for a point of the mesh".
pub fn are_in_range(rules: &dyn Rules, mesh: Mesh, tables: &Tables) -> bool {
    let points = rules.points_in_range(mesh, tables.point_capacity());
    let mut standing = tables.corrections.iter().take(3 * points);
    standing.all(is_in_range)
}

/// By the located cell, in a mesh: "the sum of v_i × correction i over the cell's six-fold volume, rounded".
pub fn of_position(mesh: &Loaded, tables: &Tables, p: Position) -> Option<Correction> {
    let c = mesh.first_holding(p)?;
    let sides = [0, 1, 2, 3].map(|i| mesh.side(c, i, p));
    let corners = mesh.entries[c]
        .corners
        .map(|point| of_point(tables, point.into()));
    // Wrong rules leave cells of volume 0.
    let volume = mesh.rules.divisor(mesh, c).max(1);
    let on_axis = |axis: usize| {
        let terms = sides.iter().zip(corners);
        let sum = terms.map(|(v, own)| v * i128::from(own[axis])).sum();
        mesh.rules.rounded(sum, volume) as i32
    };
    Some([0, 1, 2].map(on_axis))
}

/// What stands in the table; 0 where it ends, which wrong rules let pass.
pub fn of_point(tables: &Tables, point: u32) -> Correction {
    let number = |axis: usize| tables.corrections.get(3 * point as usize + axis);
    [0, 1, 2].map(|axis| number(axis).copied().unwrap_or(0))
}

/// The three numbers of a point, as far as there are entries.
pub fn put(tables: &mut Tables, point: u32, numbers: Correction) {
    let entries = tables.corrections.iter_mut().skip(3 * point as usize);
    for (entry, number) in entries.zip(numbers) {
        *entry = number;
    }
}
