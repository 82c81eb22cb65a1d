//! A mesh loaded from the lent tables.

use crate::calls::{Mesh, Position, Tables, NONE};
use crate::geometry;
use crate::rules::Rules;

/// "The started box has six cells, in this order."
pub const STARTED_CORNERS: [[u16; 4]; 6] = [
    [0, 1, 3, 7],
    [0, 3, 2, 7],
    [0, 2, 6, 7],
    [0, 6, 4, 7],
    [0, 4, 5, 7],
    [0, 5, 1, 7],
];

/// "Point k has x = X if bit 0 of k is set, y = Y if bit 1, z = Z if bit 2, else 0."
pub fn box_corner(sides: Position, k: usize) -> Position {
    [0, 1, 2].map(|axis| if k >> axis & 1 == 1 { sides[axis] } else { 0 })
}

#[derive(Clone, Copy, Debug, PartialEq, Eq)]
pub struct Cell {
    pub corners: [u16; 4],
    pub neighbours: [u16; 4],
}

/// The record and the tables, read by some rules.
#[derive(Clone)]
pub struct Loaded<'a> {
    pub rules: &'a dyn Rules,
    pub record: Mesh,
    pub points: Vec<Position>,
    /// Those below the used length: cells and freed entries.
    pub entries: Vec<Cell>,
}

impl<'a> Loaded<'a> {
    /// The point count must be within its capacity; the entries may be any.
    pub fn load(rules: &'a dyn Rules, record: Mesh, tables: &Tables) -> Loaded<'a> {
        let (points, _) = tables.points.as_chunks();
        let (corners, _) = tables.corners.as_chunks();
        let (neighbours, _) = tables.neighbours.as_chunks();
        let cell = |(&corners, &neighbours)| Cell {
            corners,
            neighbours,
        };
        let entries = corners.iter().zip(neighbours).map(cell);
        Loaded {
            rules,
            record,
            points: points[..record.points as usize].to_vec(),
            entries: entries.take(record.used as usize).collect(),
        }
    }

    pub fn is_freed(&self, c: usize) -> bool {
        self.rules.is_freed(self.entries[c].corners)
    }

    /// The numbers of the cells, rising: all but the freed ones.
    pub fn cells(&self) -> Vec<usize> {
        let mut numbers: Vec<usize> = (0..self.entries.len()).collect();
        numbers.retain(|&c| !self.is_freed(c));
        numbers
    }

    /// At the box corner 0 where a number is no point's: only wrong rules ask that of a freed entry.
    pub fn positions(&self, c: usize) -> [Position; 4] {
        let position = |p: u16| self.points.get(p as usize).copied().unwrap_or_default();
        self.entries[c].corners.map(position)
    }

    pub fn volume(&self, c: usize) -> i128 {
        geometry::volume(self.positions(c))
    }

    pub fn side(&self, c: usize, i: usize, p: Position) -> i128 {
        geometry::side(self.positions(c), i, p)
    }

    /// Faces, edges and corners included.
    pub fn holds(&self, c: usize, p: Position) -> bool {
        self.rules.may_hold(self.is_freed(c)) && (0..4).all(|i| self.side(c, i, p) >= 0)
    }

    /// The cells that hold a position, by number.
    pub fn holding(&self, p: Position) -> Vec<usize> {
        (0..self.entries.len())
            .filter(|&c| self.holds(c, p))
            .collect()
    }

    /// The one of these that is located.
    pub fn first_holding(&self, p: Position) -> Option<usize> {
        let order = |&c: &usize| self.rules.order(c, self.entries[c].corners);
        self.holding(p).into_iter().min_by_key(order)
    }

    /// The cell across face i. Only wrong rules leave a number from the used length on.
    pub fn across(&self, c: usize, i: usize) -> Option<usize> {
        let neighbour = self.entries[c].neighbours[i] as usize;
        (neighbour < self.entries.len()).then_some(neighbour)
    }

    /// The three points of face i, sorted.
    pub fn face(&self, c: usize, i: usize) -> [u16; 3] {
        let mut points = others(i).map(|j| self.entries[c].corners[j]);
        points.sort();
        points
    }

    /// Face i as the cell across it numbers it: the same three points, and this cell named back there.
    pub fn mate(&self, c: usize, i: usize) -> Option<(usize, usize)> {
        let u = self.across(c, i)?;
        let same = |&k: &usize| self.face(u, k) == self.face(c, i) && self.across(u, k) == Some(c);
        Some((u, (0..4).find(same)?))
    }

    /// The chain, as far as it goes through freed entries.
    pub fn chain(&self) -> Chain {
        let mut numbers = vec![];
        let mut is_on_it = vec![false; self.entries.len()];
        let mut next = self.record.chain;
        loop {
            let c = next as usize;
            let end = if next == NONE.into() {
                End::Last
            } else if c >= self.entries.len() || !self.is_freed(c) {
                End::NotFreed
            } else if is_on_it[c] {
                End::Circle
            } else {
                is_on_it[c] = true;
                numbers.push(c);
                next = self.entries[c].neighbours[0].into();
                continue;
            };
            return Chain { numbers, end };
        }
    }
}

/// "Freed numbers form a chain": from the record's first one, each entry "names the next".
pub struct Chain {
    /// Each one time.
    pub numbers: Vec<usize>,
    pub end: End,
}

/// What comes after the numbers of a chain.
#[derive(Clone, Copy, PartialEq, Eq)]
pub enum End {
    /// "65,535 at the end."
    Last,
    /// A number that is on it already.
    Circle,
    /// A number that is no freed entry's.
    NotFreed,
}

/// The three places of a cell other than i.
pub fn others(i: usize) -> [usize; 3] {
    match i {
        0 => [1, 2, 3],
        1 => [0, 2, 3],
        2 => [0, 1, 3],
        _ => [0, 1, 2],
    }
}
