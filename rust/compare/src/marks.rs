//! Random looks, and marks to insert with.

use plain::random::Random;
use plain::{Mesh, Owned, Position, RightRules, Rules, CELL_LIMIT, POINT_LIMIT};
use wrong::{MarksBeforeCorrection, MarksOfTheBase};

use crate::call::Call;

/// A look with marks of any content: as many as used entries, more, one too few, as many as cells, fewer or none.
pub fn look(random: &mut Random, mesh: Mesh, p: Position) -> Call {
    let (used, cells) = (mesh.used as usize, mesh.cells as usize);
    let (more, fewer) = (used + 1 + random.index(9), random.index(used));
    let too_few = used.saturating_sub(1);
    let counts = [
        used, used, used, used, more, more, more, too_few, cells, fewer, 0,
    ];
    let count = random.pick(&counts);
    let bits = random.pick(&[1, 255]);
    let marks = (0..count).map(|_| random.bits() as u8 & bits);
    Call::Look(marks.collect(), p)
}

/// An insertion with marks: those of a look at the node, of a look at another one, of a wrong look, or with a byte changed; and of
/// these as many as used entries, more, one too few, as many as cells, or none.
pub fn insert_marked(
    random: &mut Random,
    mesh: Mesh,
    tables: &Owned,
    [p, other]: [Position; 2],
) -> Call {
    let looked = |rules, p| marks(rules, mesh, tables, p);
    let mut marks = match random.below(16) {
        0 => vec![0; mesh.used as usize],
        1..3 => looked(&RightRules, other),
        3 => looked(&MarksBeforeCorrection, p),
        4 => looked(&MarksOfTheBase, p),
        5..8 => changed(random, looked(&RightRules, p)),
        _ => looked(&RightRules, p),
    };
    match random.below(13) {
        0 => marks.truncate(marks.len().saturating_sub(1)),
        1 => marks.clear(),
        2 => marks.truncate(mesh.cells as usize),
        3..6 => marks.extend((0..1 + random.index(9)).map(|_| random.bits() as u8)),
        _ => {}
    }
    Call::InsertMarked(marks, p)
}

/// The marks of a look, as if there were room for any node and all corrections were right; all 0 where it is refused.
fn marks(rules: &dyn Rules, mesh: Mesh, tables: &Owned, p: Position) -> Vec<u8> {
    let mut roomy = tables.clone();
    roomy.points.resize(3 * POINT_LIMIT, 0);
    roomy.corners.resize(4 * CELL_LIMIT, 0);
    roomy.neighbours.resize(4 * CELL_LIMIT, 0);
    roomy.work.resize(3 * CELL_LIMIT, 0);
    roomy.corrections = vec![0; 3 * POINT_LIMIT];
    let mut marks = vec![0; mesh.used as usize];
    plain::look_with(rules, mesh, &mut roomy.lend(), &mut marks, p);
    marks
}

/// One byte is another: a 0 for a 1, a 1 for a 0, or neither of the two.
fn changed(random: &mut Random, mut marks: Vec<u8>) -> Vec<u8> {
    let (last, any) = (marks.len().saturating_sub(1), random.index(marks.len()));
    if let Some(mark) = marks.get_mut(random.pick(&[0, last, any, any])) {
        *mark ^= random.pick(&[1, 1, 2, 3, 254, 255]);
    }
    marks
}
