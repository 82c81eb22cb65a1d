//! Base, cavity (document 01: spot) and its correction.

use std::collections::BTreeSet;

use crate::calls::Position;
use crate::geometry::{float_sum, is_inside};
use crate::loaded::{others, Loaded};

/// Where the insertion's yes or no comes from.
#[derive(Clone, Copy)]
pub enum Answers<'a> {
    SphereTest,
    /// One byte an entry; nonzero is yes.
    Given(&'a [u8]),
}

#[derive(Clone, Copy, PartialEq, Eq)]
pub enum Face {
    /// The neighbour is in the cavity.
    Inner,
    /// Outer, no neighbour, P in its plane.
    Coplanar,
    /// Outer, P strictly on its cell's side.
    Visible,
    /// Outer, neither of the two.
    Hidden,
}

/// What the correction asks of a cell of the cavity.
#[derive(Clone, Copy)]
pub struct Candidate {
    pub in_base: bool,
    pub has_hidden_face: bool,
    pub has_lost_corner: bool,
}

pub struct Cavity<'a> {
    pub mesh: &'a Loaded<'a>,
    pub p: Position,
    /// One an entry.
    pub in_base: Vec<bool>,
    pub in_cavity: Vec<bool>,
}

impl<'a> Cavity<'a> {
    /// "Base: every cell that holds P."
    pub fn base(mesh: &'a Loaded, p: Position) -> Cavity<'a> {
        let in_base: Vec<bool> = (0..mesh.entries.len()).map(|c| mesh.holds(c, p)).collect();
        Cavity {
            mesh,
            p,
            in_cavity: in_base.clone(),
            in_base,
        }
    }

    pub fn cells(&self) -> Vec<usize> {
        (0..self.in_cavity.len())
            .filter(|&c| self.in_cavity[c])
            .collect()
    }

    /// "Again and again each neighbour of a spot cell whose answer is yes."
    pub fn grow(&mut self, answers: Answers) {
        let mut waiting = self.cells();
        while let Some(c) = waiting.pop() {
            for i in 0..4 {
                let Some(u) = self.mesh.across(c, i) else {
                    continue;
                };
                if !self.in_cavity[u] && self.is_yes(u, answers) {
                    self.in_cavity[u] = true;
                    waiting.push(u);
                }
            }
        }
    }

    fn is_yes(&self, c: usize, answers: Answers) -> bool {
        match answers {
            Answers::SphereTest => is_inside(self.mesh.rules, self.mesh.positions(c), self.p),
            Answers::Given(bytes) => bytes.get(c).is_some_and(|&byte| byte != 0),
        }
    }

    /// "The least T over the spot before correction (0.0 for answers handed in)."
    pub fn least(&self, answers: Answers) -> f64 {
        match answers {
            Answers::SphereTest => self
                .cells()
                .iter()
                .map(|&c| float_sum(self.mesh.positions(c), self.p))
                .fold(f64::INFINITY, f64::min),
            Answers::Given(_) => 0.0,
        }
    }

    pub fn face(&self, c: usize, i: usize) -> Face {
        let across = self.mesh.across(c, i);
        if across.is_some_and(|u| self.in_cavity[u]) {
            return Face::Inner;
        }
        let side = self.mesh.side(c, i, self.p);
        self.mesh.rules.outer_face(side, across.is_some())
    }

    /// The faces that make a cell, by cell number, then face number.
    pub fn starred_faces(&self) -> Vec<(usize, usize)> {
        self.cells()
            .iter()
            .flat_map(|&c| (0..4).map(move |i| (c, i)))
            .filter(|&(c, i)| self.mesh.rules.makes_cell(self.face(c, i)))
            .collect()
    }

    pub fn remove(&mut self, cells: &[usize]) {
        for &c in cells {
            self.in_cavity[c] = false;
        }
    }

    pub fn marked(&self) -> Vec<usize> {
        let kept_corners = self.kept_corners();
        let is_marked = |c| self.mesh.rules.is_marked(self.candidate(c, &kept_corners));
        let mut marked = self.cells();
        marked.retain(|&c| is_marked(c));
        marked
    }

    fn candidate(&self, c: usize, kept_corners: &BTreeSet<u16>) -> Candidate {
        let corners = self.mesh.entries[c].corners;
        Candidate {
            in_base: self.in_base[c],
            has_hidden_face: (0..4).any(|i| self.face(c, i) == Face::Hidden),
            has_lost_corner: corners.iter().any(|p| !kept_corners.contains(p)),
        }
    }

    /// The points that are on a visible outer face of the whole cavity.
    fn kept_corners(&self) -> BTreeSet<u16> {
        let mut kept = BTreeSet::new();
        for c in self.cells() {
            for i in 0..4 {
                if self.mesh.rules.keeps_corners(self.face(c, i)) {
                    kept.extend(others(i).map(|j| self.mesh.entries[c].corners[j]));
                }
            }
        }
        kept
    }
}
