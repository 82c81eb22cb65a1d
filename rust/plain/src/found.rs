//! What an insertion goes by: tests 4 to 8 with 12 among them, the corrected cavity and the report. A look ends here.

use crate::calls::{in_box, Looked, Position, Tables};
use crate::cavity::{Answers, Cavity};
use crate::corrections::are_in_range;
use crate::loaded::Loaded;

/// A node's corrected cavity, and what else its report and marks need.
pub struct Found<'a> {
    pub cavity: Cavity<'a>,
    /// The cavity before its correction.
    pub grown: Vec<bool>,
    pub made: usize,
    pub least: f64,
}

/// Tests 4, 5, 12, 6 and 7, and the cavity, in tables that pass the mesh check.
pub fn find<'a>(
    mesh: &'a Loaded,
    tables: &Tables,
    answers: Answers,
    p: Position,
) -> Result<Found<'a>, u8> {
    if !in_box(mesh.record.sides(), p) {
        return Err(4);
    }
    let is_out_of_range = !are_in_range(mesh.rules, mesh.record, tables);
    let is_taken = mesh.points.contains(&p);
    match mesh.rules.node_refusal(is_taken, is_out_of_range) {
        0 => {}
        refusal => return Err(refusal),
    }
    if mesh.points.len() == tables.point_capacity() {
        return Err(6);
    }
    let mut cavity = Cavity::base(mesh, p);
    if cavity.cells().is_empty() {
        return Err(7);
    }
    mesh.rules.grow(&mut cavity, answers);
    let grown = cavity.in_cavity.clone();
    let least = cavity.least(answers);
    mesh.rules.correct(&mut cavity);
    Ok(Found {
        made: cavity.starred_faces().len(),
        cavity,
        grown,
        least,
    })
}

impl Found<'_> {
    /// Test 8: "old count plus new cells exceeds cell capacity".
    pub fn is_too_large(&self, tables: &Tables) -> bool {
        self.cavity.mesh.record.cells as usize + self.made > tables.cell_capacity()
    }

    /// Which entries a look marks.
    pub fn replaced(&self) -> Vec<bool> {
        self.cavity.mesh.rules.replaced(&self.grown, &self.cavity)
    }

    /// The node's number.
    pub fn point(&self) -> u16 {
        self.cavity.mesh.points.len() as u16
    }

    pub fn report(&self) -> Looked {
        Looked {
            refusal: 0,
            point: self.point().into(),
            before: self.grown.iter().filter(|&&yes| yes).count() as u32,
            after: self.cavity.cells().len() as u32,
            made: self.made as u32,
            least: self.least,
        }
    }
}
