//! "Cells on a straight drive": "every cell that shares at least one place with the segment, ends included, fractions of a step
//! included, and no other". A cell is what its four half-spaces share, and each cuts the segment's interval of parameters.

use crate::calls::{in_box, Counted, Mesh, Position, Tables};
use crate::check::mesh_refusal;
use crate::loaded::Loaded;
use crate::rules::{RightRules, Rules};

/// A parameter of a segment, 0 at A and 1 at B. The denominator is above 0.
#[derive(Clone, Copy, Debug)]
pub struct Fraction {
    pub numerator: i128,
    pub denominator: i128,
}

impl Fraction {
    pub const ZERO: Fraction = Fraction::whole(0);
    pub const ONE: Fraction = Fraction::whole(1);

    const fn whole(numerator: i128) -> Fraction {
        Fraction {
            numerator,
            denominator: 1,
        }
    }

    /// Of two: each numerator times the other's denominator, in the order of the two. Volumes are within 2^52, and differences of
    /// two within 2^53, so that these are within 2^106.
    pub fn products(self, other: Fraction) -> [i128; 2] {
        [
            self.numerator * other.denominator,
            other.numerator * self.denominator,
        ]
    }
}

/// The parameters from `lower` to `upper`, ends included; none where `lower` is above `upper`.
#[derive(Clone, Copy, Debug)]
pub struct Interval {
    pub lower: Fraction,
    pub upper: Fraction,
}

impl Interval {
    /// The whole segment, "ends included".
    pub const WHOLE: Interval = Interval {
        lower: Fraction::ZERO,
        upper: Fraction::ONE,
    };

    /// What is left of it in the half-space of a face, by the signed volumes that A and B have there, below 0 outside. At the
    /// parameter t the volume is `from` + t × (`to` − `from`).
    fn clipped(mut self, rules: &dyn Rules, from: i128, to: i128) -> Option<Interval> {
        if from == to {
            return (from >= 0).then_some(self);
        }
        let bound = Fraction {
            numerator: from * (from - to).signum(),
            denominator: (from - to).abs(),
        };
        if rules.is_entering(from, to) {
            if rules.compared(bound, self.lower).is_gt() {
                self.lower = bound;
            }
        } else if rules.compared(bound, self.upper).is_lt() {
            self.upper = bound;
        }
        Some(self)
    }
}

/// Does a cell, or a freed entry that wrong rules ask of, share a place with the segment?
fn is_on_drive(mesh: &Loaded, c: usize, [a, b]: [Position; 2]) -> bool {
    let rules = mesh.rules;
    let mut faces = rules.half_spaces();
    let clipped = faces.try_fold(Interval::WHOLE, |interval, i| {
        interval.clipped(rules, mesh.side(c, i, a), mesh.side(c, i, b))
    });
    clipped.is_some_and(|interval| rules.has_a_place(interval))
}

/// The numbers of the cells on a drive from A to B, as they are listed.
pub fn on_drive(mesh: &Loaded, ends: [Position; 2]) -> Vec<usize> {
    let mut cells: Vec<usize> = (0..mesh.entries.len()).collect();
    cells.retain(|&c| mesh.rules.may_be_listed(mesh.is_freed(c)) && is_on_drive(mesh, c, ends));
    mesh.rules.listed(cells)
}

/// Lists the cells on a drive; what is behind the list in the output stays, and all of it where the call is refused.
pub fn drive_cells(
    mesh: Mesh,
    tables: &mut Tables,
    ends: [Position; 2],
    cells: &mut [u16],
) -> Counted {
    drive_cells_with(&RightRules, mesh, tables, ends, cells)
}

pub fn drive_cells_with(
    rules: &dyn Rules,
    mesh: Mesh,
    tables: &mut Tables,
    ends: [Position; 2],
    cells: &mut [u16],
) -> Counted {
    let answer = listed(rules, mesh, tables, ends, cells);
    tables.work.fill(0);
    answer.unwrap_or_else(Counted::refused)
}

/// "An end outside the box is 4; an output list too short is 10."
fn listed(
    rules: &dyn Rules,
    mesh: Mesh,
    tables: &Tables,
    ends: [Position; 2],
    cells: &mut [u16],
) -> Result<Counted, u8> {
    match mesh_refusal(rules, mesh, tables, usize::MAX) {
        0 => {}
        refusal => return Err(refusal),
    }
    if !ends.iter().all(|&end| in_box(mesh.sides(), end)) {
        return Err(4);
    }
    let listed = on_drive(&Loaded::load(rules, mesh, tables), ends);
    let output = cells.get_mut(..listed.len()).ok_or(10)?;
    for (entry, &c) in output.iter_mut().zip(&listed) {
        *entry = c as u16;
    }
    Ok(Counted {
        refusal: 0,
        count: listed.len() as u32,
    })
}
