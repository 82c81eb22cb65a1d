//! The star: new cells written to free entries and linked while the cavity's still stand, then these freed. Nothing here grows
//! with the mesh.

use plain::{Mesh, Tables, CELL_LIMIT, NONE};

use crate::cavity::{star_faces, Corrected};

/// A neighbour entry of a new cell that is not linked yet; no cell has this number.
const UNLINKED: u16 = 65_534;

/// The cells' tables, and the corrected cavity in the work area.
struct Star<'a> {
    corners: &'a mut [[u16; 4]],
    neighbours: &'a mut [[u16; 4]],
    states: &'a [u16],
    /// The cavity, rising.
    cavity: &'a [u16],
    /// The numbers of the new cells, by cavity cell, then face; in the last third of the work area.
    new: &'a mut [u16],
    /// For each cavity cell the place of its first among these.
    first_new: &'a mut [u16; CELL_LIMIT],
}

/// Answers the record with the new point and the star.
pub fn write_star(
    mesh: Mesh,
    tables: &mut Tables,
    first_new: &mut [u16; CELL_LIMIT],
    corrected: &Corrected,
) -> Mesh {
    let capacity = tables.cell_capacity();
    let (states, rest) = tables.work.split_at_mut(capacity);
    let (list, new) = rest.split_at_mut(capacity);
    let mut star = Star {
        corners: tables.corners.as_chunks_mut().0,
        neighbours: tables.neighbours.as_chunks_mut().0,
        states,
        cavity: &list[..corrected.after],
        new: &mut new[..corrected.made],
        first_new,
    };
    let (chain, used) = star.take_numbers(mesh);
    star.write_new_cells(mesh.points as u16);
    star.link_new_cells();
    Mesh {
        points: mesh.points + 1,
        cells: mesh.cells + corrected.made as u32 - corrected.after as u32,
        chain: star.free_cavity(chain).into(),
        used: used.into(),
        ..mesh
    }
}

impl Star<'_> {
    /// "The chain, then the end of the table": answers what is left of the chain, and the used length.
    fn take_numbers(&mut self, mesh: Mesh) -> (u16, u16) {
        let (mut chain, mut used) = (mesh.chain as u16, mesh.used as u16);
        for number in &mut *self.new {
            if chain != NONE {
                *number = chain;
                chain = self.neighbours[chain as usize][0];
            } else {
                *number = used;
                used += 1;
            }
        }
        (chain, used)
    }

    /// By old cell number, then face number; what lay across the old face names its new cell back.
    fn write_new_cells(&mut self, point: u16) {
        let mut place = 0;
        for &c in self.cavity {
            let c = c as usize;
            self.first_new[c] = place as u16;
            for i in faces(star_faces(self.states[c])) {
                let new = self.new[place] as usize;
                self.corners[new] = self.corners[c];
                self.corners[new][i] = point;
                let across = self.neighbours[c][i];
                self.neighbours[new] = [UNLINKED; 4];
                self.neighbours[new][i] = across;
                if across != NONE {
                    let back = &mut self.neighbours[across as usize];
                    back[self::place(*back, c as u16)] = new as u16;
                }
                place += 1;
            }
        }
    }

    fn link_new_cells(&mut self) {
        let mut place = 0;
        for &c in self.cavity {
            for i in faces(star_faces(self.states[c as usize])) {
                let new = self.new[place] as usize;
                for j in 0..4 {
                    if self.neighbours[new][j] == UNLINKED {
                        self.link(new, c as usize, i, j);
                    }
                }
                place += 1;
            }
        }
    }

    /// Turns from the visible face i of c round the edge without corners i and j, and links both ends.
    fn link(&mut self, new: usize, mut c: usize, mut i: usize, mut j: usize) {
        let edge_face = j;
        loop {
            let star = star_faces(self.states[c]);
            if star >> j & 1 == 1 {
                let earlier = (star & ((1 << j) - 1)).count_ones() as u16;
                let other = self.new[(self.first_new[c] + earlier) as usize];
                self.neighbours[other as usize][i] = new as u16;
                self.neighbours[new][edge_face] = other;
                return;
            }
            let u = self.neighbours[c][j];
            if u == NONE {
                // A coplanar wall face: the cavity has no hidden ones.
                self.neighbours[new][edge_face] = NONE;
                return;
            }
            let u = u as usize;
            let came_from = self.corners[c][i];
            (i, j) = (
                place(self.neighbours[u], c as u16),
                place(self.corners[u], came_from),
            );
            c = u;
        }
    }

    /// "The spot's own numbers join the chain afterwards one by one, rising": answers its first number.
    fn free_cavity(&mut self, mut chain: u16) -> u16 {
        for &c in self.cavity {
            self.corners[c as usize] = [NONE; 4];
            self.neighbours[c as usize] = [chain, NONE, NONE, NONE];
            chain = c;
        }
        chain
    }
}

/// The faces of a mask, rising.
fn faces(mask: u16) -> impl Iterator<Item = usize> {
    (0..4).filter(move |i| mask >> i & 1 == 1)
}

/// The place of a number that is there.
#[inline]
fn place(four: [u16; 4], number: u16) -> usize {
    let is = |i: usize| (four[i] == number) as usize;
    (is(1) + 2 * is(2) + 3 * is(3)) % 4
}
