//! The rules of documents 01 and 02 that a build is known, or likely, to get wrong. They are right as they stand here; a
//! wrong build gives one of them another body.

use std::cmp::Ordering;
use std::ops::Range;

use crate::calls::{Mesh, Position, Tables, NONE};
use crate::cavity::{Answers, Candidate, Cavity, Face};
use crate::corrections::Correction;
use crate::drive::{Fraction, Interval};
use crate::found::Found;
use crate::loaded::{Chain, End, Loaded};
use crate::numbers::{self, Free};

pub trait Rules {
    /// "Inside means E above 0, outside means the rest": T, the same sum in floats, has no part in it.
    fn is_inside(&self, e: i128, _t: f64) -> bool {
        e > 0
    }

    /// A freed entry is no cell, and holds no position: its four corners are one, so that its four sides would be 0.
    fn may_hold(&self, is_freed: bool) -> bool {
        !is_freed
    }

    /// "The base, and again and again each neighbour of a spot cell whose answer is yes": a freed entry is no neighbour, so that
    /// its "answer is ignored".
    fn grow(&self, cavity: &mut Cavity, answers: Answers) {
        cavity.grow(answers);
    }

    /// "Flat if it has no neighbour and P lies in its plane; seen if P lies strictly on its cell's side": `side` is P's,
    /// above 0 on the cell's side and 0 in the plane.
    fn outer_face(&self, side: i128, has_neighbour: bool) -> Face {
        if side > 0 {
            Face::Visible
        } else if side == 0 && !has_neighbour {
            Face::Coplanar
        } else {
            Face::Hidden
        }
    }

    /// A corner "that is on no seen outer face" is lost.
    fn keeps_corners(&self, face: Face) -> bool {
        face == Face::Visible
    }

    /// "Mark each spot cell outside the base that has an outer face neither flat nor seen, or a corner that is on no seen
    /// outer face of the whole spot."
    fn is_marked(&self, cell: Candidate) -> bool {
        !cell.in_base && (cell.has_hidden_face || cell.has_lost_corner)
    }

    /// One round: "Remove all marked cells together." Says how many.
    fn remove_marked(&self, cavity: &mut Cavity) -> usize {
        let marked = cavity.marked();
        cavity.remove(&marked);
        marked.len()
    }

    /// "Stop when none is marked."
    fn correct(&self, cavity: &mut Cavity) {
        while self.remove_marked(cavity) > 0 {}
    }

    /// "Each seen outer face makes a cell."
    fn makes_cell(&self, face: Face) -> bool {
        face == Face::Visible
    }

    /// What becomes of the tables and of the record, whose point count is that with the node already: "a cell outside the spot
    /// keeps its number".
    fn put_in(&self, mesh: Mesh, tables: &mut Tables, found: &Found) -> Mesh {
        numbers::put_in(mesh, tables, found)
    }

    /// The numbers of so many new cells, which "take the chain, then the end of the table; the spot's own numbers join the chain
    /// afterwards one by one, rising". The cavity's are rising.
    fn allot(&self, free: &mut Free, cavity: &[usize], made: usize) -> Vec<usize> {
        let new = free.take(made);
        free.join(cavity);
        new
    }

    /// The used length after an insertion that leaves so many cells: up to where "the end of the table" has come.
    fn used_after(&self, _before: usize, end: usize, _cells: usize) -> usize {
        end
    }

    /// "Bytes are counted against the used length": so many answers must be handed in.
    fn answers_wanted(&self, mesh: Mesh) -> usize {
        mesh.used as usize
    }

    /// Of a look: it "marks each cell of the corrected spot". A mark an entry "up to the used length". `grown` is the cavity before
    /// its correction.
    fn replaced(&self, _grown: &[bool], corrected: &Cavity) -> Vec<bool> {
        corrected.in_cavity.clone()
    }

    /// "With byte 1, all other cells with 0", of a freed entry too "its mark is 0", "and changes nothing else": no mark beyond the
    /// entries either.
    fn write_marks(&self, _mesh: &Loaded, replaced: &[bool], marks: &mut [u8]) {
        for (mark, &is_replaced) in marks.iter_mut().zip(replaced) {
            *mark = is_replaced.into();
        }
    }

    /// Is a mark that is handed in the one that a look would write?
    fn is_same_mark(&self, mark: u8, is_replaced: bool, _is_freed: bool) -> bool {
        mark == is_replaced.into()
    }

    /// The last two tests of an insertion with marks, or 0: "14 if the marks differ or are too few, after 8".
    fn last_refusal(&self, is_full: bool, are_other: bool) -> u8 {
        match (is_full, are_other) {
            (true, _) => 8,
            (false, true) => 14,
            (false, false) => 0,
        }
    }

    /// "A freed entry has four corners of 65,535": with fewer it is a cell with a wrong corner.
    fn is_freed(&self, corners: [u16; 4]) -> bool {
        corners == [NONE; 4]
    }

    /// Of the mesh check: a freed entry's "other three" neighbours "are 65,535".
    fn are_freed_neighbours(&self, others: [u16; 3]) -> bool {
        others == [NONE; 3]
    }

    /// Of the mesh check, with so many entries freed: "every freed entry on it, each one time, and nothing else".
    fn is_whole(&self, chain: &Chain, freed: usize) -> bool {
        chain.end == End::Last && chain.numbers.len() == freed
    }

    /// Of the mesh check: "the cell count must be the number of entries below the used length that aren't freed".
    fn is_cell_count(&self, count: usize, cells: usize) -> bool {
        count == cells
    }

    /// Of the mesh check: it "uses" the used length, "not the cell count, to bound neighbour numbers".
    fn neighbour_limit(&self, mesh: Mesh) -> usize {
        mesh.used as usize
    }

    /// Of the mesh check: the neighbour's "fourth corner lies strictly on the other side", where `side` is below 0.
    fn is_on_far_side(&self, side: i128) -> bool {
        side < 0
    }

    /// Of locating: "the one whose four corner numbers, sorted upward, come first in order". The cell with the least of
    /// these is located, compared from the first number on.
    fn order(&self, _cell: usize, mut corners: [u16; 4]) -> [u16; 4] {
        corners.sort();
        corners
    }

    /// Of a drive: "every cell"; a freed entry is none.
    fn may_be_listed(&self, is_freed: bool) -> bool {
        !is_freed
    }

    /// Of a drive: the faces whose half-spaces, together, are a cell.
    fn half_spaces(&self) -> Range<usize> {
        0..4
    }

    /// Of a drive: does it enter a half-space in which its ends have these signed volumes, and not leave it? Where it enters one,
    /// the parameters have a lower bound.
    fn is_entering(&self, from: i128, to: i128) -> bool {
        from < to
    }

    /// Of a drive: two parameters, exactly.
    fn compared(&self, one: Fraction, other: Fraction) -> Ordering {
        let [one, other] = one.products(other);
        one.cmp(&other)
    }

    /// Of a drive: "at least one place", "ends included". The parameters are those that all half-spaces leave.
    fn has_a_place(&self, shared: Interval) -> bool {
        self.compared(shared.lower, shared.upper).is_le()
    }

    /// Of a drive: "in rising number", as these are.
    fn listed(&self, cells: Vec<usize>) -> Vec<usize> {
        cells
    }

    /// Entries of a correction table for so many points of capacity: fewer "than three entries for each point of capacity is 1".
    fn corrections_wanted(&self, capacity: usize) -> usize {
        3 * capacity
    }

    /// Of a start: "box corners start at 0".
    fn start_corrections(&self, corrections: &mut [i32]) {
        // As many as there are, where wrong rules let a short table pass.
        corrections.iter_mut().take(24).for_each(|entry| *entry = 0);
    }

    /// How many points must have their corrections in range: those "standing in the table for a point of the mesh".
    fn points_in_range(&self, mesh: Mesh, _capacity: usize) -> usize {
        mesh.points as usize
    }

    /// Of a node, or 0: "12 for a correction out of range" comes after 5.
    fn node_refusal(&self, is_taken: bool, is_out_of_range: bool) -> u8 {
        match (is_taken, is_out_of_range) {
            (true, _) => 5,
            (false, true) => 12,
            (false, false) => 0,
        }
    }

    /// Of a setting, or 0: "12 for a correction out of range, handed in or standing in the table .., 13 for a point number not in
    /// the mesh, .. 13 first".
    fn setting_refusal(&self, is_no_point: bool, is_given_wrong: bool, is_any_wrong: bool) -> u8 {
        match (is_no_point, is_given_wrong || is_any_wrong) {
            (true, _) => 13,
            (false, true) => 12,
            (false, false) => 0,
        }
    }

    /// What the sum for a position is divided by: "the cell's six-fold volume".
    fn divisor(&self, mesh: &Loaded, cell: usize) -> i128 {
        mesh.volume(cell)
    }

    /// A sum over a volume above 0, "rounded to the nearest whole number, halves away from zero".
    fn rounded(&self, sum: i128, volume: i128) -> i128 {
        sum.signum() * ((2 * sum.abs() + volume) / (2 * volume))
    }

    /// "A new node starts with the correction its position had before", whatever stands in the table where its own goes.
    fn node_starts(&self, before: Correction, _standing: Correction) -> Correction {
        before
    }

    /// Of two files: "the first file's nodes in order, then the second's".
    fn surveyed(&self, first: &[Position], second: &[Position]) -> Vec<Position> {
        [first, second].concat()
    }

    /// "Each position a single time where it first stands": does the node at a place stand earlier too, in either file?
    /// The first so many are the first file's.
    fn stands_earlier(&self, surveyed: &[Position], _first: usize, place: usize) -> bool {
        surveyed[..place].contains(&surveyed[place])
    }
}

/// The right rules.
pub struct RightRules;

impl Rules for RightRules {}
