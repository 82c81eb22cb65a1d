//! The random histories come to every situation in which builds of a look, or of an insertion with marks, are likely to part.

mod common;

use common::{each_step, Counts};
use compare::call::{Call, Left};
use compare::generate::Step;
use plain::found::{find, Found};
use plain::loaded::Loaded;
use plain::{Answers, Mesh, Position, RightRules};

type Situations = Vec<(&'static str, bool)>;

/// The marks of three cavities: the base, before the correction, and after it; and the freed entries.
struct Marks {
    base: Vec<u8>,
    grown: Vec<u8>,
    right: Vec<u8>,
    is_freed: Vec<bool>,
    least: f64,
}

impl Marks {
    fn of(found: &Found) -> Marks {
        let bytes = |cells: &[bool]| cells.iter().map(|&yes| yes.into()).collect();
        Marks {
            base: bytes(&found.cavity.in_base),
            grown: bytes(&found.grown),
            right: bytes(&found.cavity.in_cavity),
            is_freed: (0..found.grown.len())
                .map(|c| found.cavity.mesh.is_freed(c))
                .collect(),
            least: found.least,
        }
    }

    /// Of a call that was not refused before test 8.
    fn of_call(step: &Step, p: Position, outcome: u8) -> Option<Marks> {
        if !matches!(outcome, 0 | 8 | 10 | 14) {
            return None;
        }
        let mut tables = step.tables.clone();
        let tables = tables.lend();
        let mesh = Loaded::load(&RightRules, step.mesh, &tables);
        let found = find(&mesh, &tables, Answers::SphereTest, p).ok()?;
        Some(Marks::of(&found))
    }

    fn used(&self) -> usize {
        self.right.len()
    }

    fn cells(&self) -> usize {
        self.is_freed.iter().filter(|&&yes| !yes).count()
    }
}

fn count(marks: &[u8]) -> usize {
    marks.iter().filter(|&&mark| mark == 1).count()
}

/// Of an accepted look that was lent these.
#[rustfmt::skip]
fn of_marked(before: &[u8], marks: &Marks) -> Situations {
    let (base, grown, right) = (count(&marks.base), count(&marks.grown), count(&marks.right));
    let (used, cells) = (marks.used(), marks.cells());
    let beyond = &before[used..];
    let changes = marks.right.windows(2).filter(|pair| pair[0] != pair[1]).count();
    let mut of_freed = before.iter().zip(&marks.is_freed).filter(|(_, &is_freed)| is_freed);
    vec![
        ("a look: more than the base, nothing to correct", base < right && right == grown),
        ("a look: cells are removed, and more than the base is left", base < right && right < grown),
        ("a look: cells are removed, and the base is left", base == right && right < grown),
        ("a look: one cell is marked", right == 1),
        ("a look: every cell is marked", right == cells),
        ("a look: the first cell is not marked", !marks.is_freed[0] && marks.right[0] == 0),
        ("a look: the last cell is not marked", !marks.is_freed[used - 1] && marks.right[used - 1] == 0),
        ("a look: the first entry is freed", marks.is_freed[0]),
        ("a look: the last entry is freed", marks.is_freed[used - 1]),
        ("a look: a freed entry's mark was not 0", of_freed.any(|(&mark, _)| mark != 0)),
        ("a look: a cell past the count is marked", marks.right[cells..].contains(&1)),
        ("a look: marked cells in several runs", changes > 2),
        ("a look: more than 256 cells", cells > 256),
        ("a look: the least T is below 0", marks.least < 0.0),
        ("a look: as many marks as entries", beyond.is_empty()),
        ("a look: marks beyond that are neither 0 nor 1", beyond.iter().any(|&mark| mark > 1)),
        ("a look: all marks are 0 or 1 before", before.iter().all(|&mark| mark < 2)),
    ]
}

#[rustfmt::skip]
fn of_look(lent: &[u8], mesh: Mesh, outcome: u8) -> Situations {
    let (used, cells) = (mesh.used as usize, mesh.cells as usize);
    let is_short = |refusal| outcome == refusal && lent.len() < used;
    vec![
        ("a look: no marks, refused 10", outcome == 10 && lent.is_empty()),
        ("a look: one mark too few, refused 10", outcome == 10 && lent.len() + 1 == used),
        ("a look: as many marks as cells, refused 10", outcome == 10 && lent.len() == cells),
        ("a look: too few marks, refused 1", is_short(1)),
        ("a look: too few marks, refused 2", is_short(2)),
        ("a look: too few marks, refused 3", is_short(3)),
        ("a look: too few marks, refused 4", is_short(4)),
        ("a look: too few marks, refused 5", is_short(5)),
        ("a look: too few marks, refused 6", is_short(6)),
        ("a look: too few marks, refused 8", is_short(8)),
        ("a look: marks that are not 0, refused", outcome != 0 && lent.iter().any(|&mark| mark != 0)),
    ]
}

/// Of marks that are handed in for a node, of which one alone may be another.
#[rustfmt::skip]
fn of_one_mark(given: &[u8], marks: &Marks) -> Situations {
    let right = &marks.right;
    let other: Vec<usize> = (0..given.len().min(right.len())).filter(|&c| given[c] != right[c]).collect();
    let one = match other[..] {
        [c] if given.len() >= right.len() => Some((c, right[c], given[c])),
        _ => None,
    };
    let is_one = |wanted, is_so: fn(u8) -> bool| one.is_some_and(|(_, right, given)| right == wanted && is_so(given));
    vec![
        ("marks: a 0 for a 1", is_one(1, |given| given == 0)),
        ("marks: a 2 for a 1", is_one(1, |given| given == 2)),
        ("marks: a 255 for a 1", is_one(1, |given| given == 255)),
        ("marks: a 1 for a 0", is_one(0, |given| given == 1)),
        ("marks: more than 1 for a 0", is_one(0, |given| given > 1)),
        ("marks: the first entry's alone is another", one.is_some_and(|(c, ..)| c == 0)),
        ("marks: the last entry's alone is another", one.is_some_and(|(c, ..)| c + 1 == right.len())),
        ("marks: a freed entry's alone is another", one.is_some_and(|(c, ..)| marks.is_freed[c])),
        ("marks: several are others", other.len() > 1),
        ("marks: one too few, the rest right", other.is_empty() && given.len() + 1 == right.len()),
        ("marks: as many as cells, the rest right", other.is_empty() && given.len() == marks.cells() && given.len() < right.len()),
    ]
}

#[rustfmt::skip]
fn of_given(given: &[u8], marks: &Marks, outcome: u8) -> Situations {
    let Marks { base, grown, right, .. } = marks;
    let is_right = given.starts_with(right);
    let is_corrected = grown != right;
    let beyond = given.get(right.len()..).unwrap_or(&[]);
    vec![
        ("marks: right", outcome == 0 && beyond.is_empty()),
        ("marks: right, and others beyond", outcome == 0 && beyond.iter().any(|&mark| mark > 1)),
        ("marks: right, where cells are removed", outcome == 0 && is_corrected),
        ("marks: right, with more than 256 entries", outcome == 0 && right.len() > 256),
        ("marks: right, with freed entries", outcome == 0 && marks.cells() < right.len()),
        ("marks: none", outcome == 14 && given.is_empty()),
        ("marks: all 0", outcome == 14 && !given.is_empty() && given.iter().all(|&mark| mark == 0)),
        ("marks: of the cavity before its correction", outcome == 14 && given.starts_with(grown)),
        ("marks: of the base", outcome == 14 && given.starts_with(base)),
        ("marks: right, refused 8", outcome == 8 && is_right),
        ("marks: others, refused 8", outcome == 8 && !is_right && given.len() >= right.len()),
        ("marks: too few, refused 8", outcome == 8 && given.len() < right.len()),
    ]
}

/// Of an insertion that was refused before the cavity is looked for.
#[rustfmt::skip]
fn of_refused(given: &[u8], used: usize, outcome: u8) -> Situations {
    let is_short = |refusal| outcome == refusal && given.len() < used;
    vec![
        ("marks: too few, refused 1", is_short(1)),
        ("marks: too few, refused 2", is_short(2)),
        ("marks: too few, refused 3", is_short(3)),
        ("marks: too few, refused 4", is_short(4)),
        ("marks: too few, refused 5", is_short(5)),
        ("marks: too few, refused 6", is_short(6)),
    ]
}

/// A node and the marks that a look at it left.
type Looked = Option<(Position, Vec<u8>)>;

/// Of marks that an earlier look left.
#[rustfmt::skip]
fn of_looked(given: &[u8], p: Position, looked: &Looked, outcome: u8) -> Situations {
    let is_looks = looked.as_ref().is_some_and(|(node, marks)| *node == p && marks == given);
    vec![
        ("an earlier look's marks: accepted", is_looks && outcome == 0),
        ("an earlier look's marks: out of date", is_looks && outcome == 14),
        ("an earlier look's marks: its node is in", is_looks && outcome == 5),
    ]
}

fn situations(step: &Step, left: &Left, looked: &Looked) -> Situations {
    let outcome = left.answer.outcome();
    match &step.call {
        Call::Look(lent, p) => {
            let marks = Marks::of_call(step, *p, outcome).filter(|_| outcome == 0);
            let marked = marks.map_or(vec![], |marks| of_marked(lent, &marks));
            [marked, of_look(lent, step.mesh, outcome)].concat()
        }
        Call::InsertMarked(given, p) => {
            let of_marks = match Marks::of_call(step, *p, outcome) {
                Some(marks) => {
                    [of_one_mark(given, &marks), of_given(given, &marks, outcome)].concat()
                }
                None => of_refused(given, step.mesh.used as usize, outcome),
            };
            [of_marks, of_looked(given, *p, looked, outcome)].concat()
        }
        _ => vec![],
    }
}

/// Each situation, and how often the histories come to it.
fn counts(seed: u64, calls: u64) -> Counts {
    let mut counts = Counts::default();
    let mut looked = None;
    each_step(seed, calls, |step, left, begins| {
        if begins {
            looked = None;
        }
        counts.add(situations(step, left, &looked));
        match step.call {
            Call::Look(_, p) if step.is_kept && left.answer.outcome() == 0 => {
                looked = Some((p, left.others.output.lent().to_vec()));
            }
            _ => {}
        }
    });
    counts
}

#[test]
fn every_situation_occurs() {
    counts(1, 60_000).all_occur(60);
}
