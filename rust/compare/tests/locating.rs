//! The random histories come to every situation in which builds of locate are likely to part.

mod common;

use common::{each_step, Counts};
use compare::call::{Answer, Call, Left};
use compare::generate::Step;
use plain::loaded::Loaded;
use plain::{Position, RightRules, Rules};
use wrong::{CornersUnsorted, GreatestFirst, LowestNumbered};

type Situations = Vec<(&'static str, bool)>;

/// A position and the cells that hold it, in the order of their corners.
struct Held {
    p: Position,
    mesh: Loaded<'static>,
    cells: Vec<usize>,
}

impl Held {
    /// Of a call that was accepted.
    fn of(step: &Step, left: &Left) -> Option<Held> {
        let (Call::Locate(p), Answer::Located(located)) = (&step.call, left.answer) else {
            return None;
        };
        if located.refusal != 0 {
            return None;
        }
        let mesh = Loaded::load(&RightRules, step.mesh, &step.tables.clone().lend());
        let mut cells = mesh.holding(*p);
        cells.sort_by_key(|&c| RightRules.order(c, mesh.entries[c].corners));
        Some(Held { p: *p, mesh, cells })
    }

    /// The cell that is located by some rules.
    fn by(&self, rules: &dyn Rules) -> usize {
        let cells = self.cells.iter().copied();
        let first = cells.min_by_key(|&c| rules.order(c, self.mesh.entries[c].corners));
        first.expect("a cell holds it")
    }

    fn sorted(&self, c: usize) -> [u16; 4] {
        RightRules.order(c, self.mesh.entries[c].corners)
    }

    /// Is there a cell with these corners?
    fn has(&self, corners: [u16; 4]) -> bool {
        let mut cells = self.mesh.cells().into_iter();
        cells.any(|c| self.sorted(c) == corners)
    }

    /// Of the same position, before an insertion or more?
    fn is_before(&self, other: &Held) -> bool {
        self.p == other.p && self.mesh.points.len() < other.mesh.points.len()
    }
}

#[rustfmt::skip]
fn of_place(held: &Held) -> Situations {
    let count = held.cells.len();
    let zeros = (0..4).filter(|&i| held.mesh.side(held.cells[0], i, held.p) == 0).count();
    let point = held.mesh.points.iter().position(|&q| q == held.p);
    vec![
        ("strictly inside a cell", zeros == 0),
        ("on a face of one cell, on a wall", zeros == 1 && count == 1),
        ("on a face of two cells", zeros == 1 && count == 2),
        ("on an edge of two cells", zeros == 2 && count == 2),
        ("on an edge of more cells", zeros == 2 && count > 2),
        ("at a box corner", point.is_some_and(|point| point < 8)),
        ("at a node", point.is_some_and(|point| point >= 8)),
        ("in more than 20 cells", count > 20),
    ]
}

#[rustfmt::skip]
fn of_order(held: &Held) -> Situations {
    let cells = &held.cells;
    let (first, lowest, highest) = (cells[0], cells.iter().min(), cells.iter().max());
    let pair = cells.get(1).map(|&second| [first, second].map(|c| held.sorted(c)));
    let place = pair.and_then(|[a, b]| (0..4).find(|&i| a[i] != b[i]));
    let low_bytes = pair.map(|pair| pair.map(|corners| corners.map(|point| point as u8)));
    vec![
        ("the first is not the lowest-numbered", lowest != Some(&first)),
        ("the first is the highest-numbered of several", cells.len() > 2 && highest == Some(&first)),
        ("the first is neither lowest- nor highest-numbered", lowest != Some(&first) && highest != Some(&first)),
        ("cell 0 holds it, and is not the first", lowest == Some(&0) && first != 0),
        ("another comes first by unsorted corners", held.by(&CornersUnsorted) != first),
        ("another comes first from the greatest down", held.by(&GreatestFirst) != first),
        ("the first corner decides", place == Some(0)),
        ("the second corner decides", place == Some(1)),
        ("the third corner decides", place == Some(2)),
        ("the fourth corner decides", place == Some(3)),
        ("the low bytes would decide otherwise", low_bytes.is_some_and(|[a, b]| a > b)),
    ]
}

/// Of a position that was located before an insertion too.
#[rustfmt::skip]
fn of_parked(before: &Held, now: &Held) -> Situations {
    let corners = before.sorted(before.cells[0]);
    let stays = now.sorted(now.cells[0]) == corners;
    let is_new = |&c: &usize| now.sorted(c)[3] as usize >= before.mesh.points.len();
    let lowest = [before, now].map(|held| held.sorted(held.by(&LowestNumbered)));
    vec![
        ("parked, and the cell has the same number", stays && now.cells[0] == before.cells[0]),
        ("parked, and the cell has another number", stays && now.cells[0] != before.cells[0]),
        ("parked, and a new cell holds it too", stays && now.cells.iter().any(is_new)),
        ("parked, and the lowest-numbered is another cell", stays && lowest[0] != lowest[1]),
        ("parked, and the cell was replaced", !now.has(corners)),
    ]
}

/// Each situation, and how often the histories come to it.
fn counts(seed: u64, calls: u64) -> Counts {
    let mut counts = Counts::default();
    let mut parked: Option<Held> = None;
    each_step(seed, calls, |step, left, begins| {
        if begins || matches!(step.call, Call::Start(_)) {
            parked = None;
        }
        let Some(held) = Held::of(step, left).filter(|_| step.is_kept) else {
            return;
        };
        let mut situations = [of_place(&held), of_order(&held)].concat();
        if let Some(before) = parked.take().filter(|before| before.is_before(&held)) {
            situations.extend(of_parked(&before, &held));
        }
        counts.add(situations);
        parked = Some(held);
    });
    counts
}

#[test]
fn every_situation_occurs() {
    counts(1, 60_000).all_occur(24);
}
