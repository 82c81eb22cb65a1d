//! The star (document 01, step 5): the cells after the insertion, whatever numbers they get.

use crate::calls::NONE;
use crate::cavity::{Cavity, Face};
use crate::loaded::{others, Cell};

/// The numbers that cells have after an insertion.
pub struct Numbers {
    /// Of each entry that is a cell outside the cavity; any of another.
    pub kept: Vec<usize>,
    /// Of the new cells, "by old cell number, then face number".
    pub new: Vec<usize>,
}

/// The cells outside the cavity, then a new one on each starred face, each with its number.
pub fn star(cavity: &Cavity, point: u16, numbers: &Numbers) -> Vec<(usize, Cell)> {
    let star = Star {
        cavity,
        faces: cavity.starred_faces(),
        numbers,
    };
    let mut kept = cavity.mesh.cells();
    kept.retain(|&c| !cavity.in_cavity[c]);
    let kept = kept.iter().map(|&c| (numbers.kept[c], star.kept_cell(c)));
    let new = star.faces.iter().map(|&(c, i)| star.new_cell(c, i, point));
    kept.chain(numbers.new.iter().copied().zip(new)).collect()
}

struct Star<'a> {
    cavity: &'a Cavity<'a>,
    /// In the order of their new cells.
    faces: Vec<(usize, usize)>,
    numbers: &'a Numbers,
}

impl Star<'_> {
    /// The number of the new cell on a face of the cavity, or none.
    fn new_number(&self, face: Option<(usize, usize)>) -> u16 {
        match self.faces.iter().position(|&f| Some(f) == face) {
            Some(place) => self.numbers.new[place] as u16,
            None => NONE,
        }
    }

    fn kept_cell(&self, c: usize) -> Cell {
        let mesh = self.cavity.mesh;
        let neighbours = [0, 1, 2, 3].map(|i| match mesh.across(c, i) {
            None => NONE,
            Some(u) if self.cavity.in_cavity[u] => self.new_number(mesh.mate(c, i)),
            Some(u) => self.numbers.kept[u] as u16,
        });
        Cell {
            corners: mesh.entries[c].corners,
            neighbours,
        }
    }

    /// "The old cell's corners with the corner opposite that face replaced by P."
    fn new_cell(&self, c: usize, i: usize, point: u16) -> Cell {
        let mesh = self.cavity.mesh;
        let mut cell = mesh.entries[c];
        cell.corners[i] = point;
        let across = mesh.across(c, i);
        cell.neighbours[i] = across.map_or(NONE, |u| self.numbers.kept[u] as u16);
        for j in others(i) {
            cell.neighbours[j] = self.new_number(self.next_outer_face(c, i, j));
        }
        cell
    }

    /// "Turn round that edge through spot cells to the next outer face": in cell c, having come in by face i, about to
    /// leave by face j. In a mesh the turn ends; the bound is for tables that wrong rules left.
    fn next_outer_face(&self, mut c: usize, mut i: usize, mut j: usize) -> Option<(usize, usize)> {
        let mesh = self.cavity.mesh;
        for _ in 0..12 * mesh.entries.len() {
            if self.cavity.face(c, j) != Face::Inner {
                return Some((c, j));
            }
            let (u, k) = mesh.mate(c, j)?;
            let came_from = mesh.entries[c].corners[i];
            let corners = mesh.entries[u].corners;
            let l = corners.iter().position(|&p| p == came_from)?;
            (c, i, j) = (u, k, l);
        }
        None
    }
}
