//! The random histories come to every situation in which builds of the cells' numbers, and of the chain of the freed ones, are
//! likely to part.

mod common;

use common::{each_step, Counts};
use compare::call::{Answer, Call, Left};
use compare::entries::Entries;
use compare::generate::Step;
use plain::found::find;
use plain::loaded::{End, Loaded};
use plain::{Answers, Inserted, Mesh, RightRules, Rules, NONE};
use wrong::{CirclePasses, CountAny, FreedNeighboursAny, MissedFreedPasses, OneCornerFrees};

type Situations = Vec<(&'static str, bool)>;

fn capacity(step: &Step) -> usize {
    step.tables.clone().lend().cell_capacity()
}

fn chain(step: &Step) -> Vec<usize> {
    Entries::of(step.mesh, &step.tables).chain
}

/// Of an insertion that was accepted.
#[rustfmt::skip]
fn of_inserted(step: &Step, answer: Inserted) -> Situations {
    let (before, after) = (step.mesh, answer.mesh);
    let free = before.used - before.cells;
    let chain = chain(step);
    let is_full = before.cells + answer.made == capacity(step) as u32;
    let is_falling = chain.is_sorted_by(|a, b| a > b);
    vec![
        ("no number is free", free == 0),
        ("more numbers are free than are taken", free > answer.made),
        ("just as many numbers are free", free == answer.made),
        ("the chain, then the end of the table", 0 < free && free < answer.made),
        ("the used length stays", after.used == before.used),
        ("the whole capacity is used", after.used as usize == capacity(step)),
        ("there is just room, with numbers on the chain", is_full && free > 0),
        ("one cell is replaced", answer.after == 1),
        ("every cell is replaced", answer.after == before.cells),
        ("fewer cells than before", after.cells < before.cells),
        ("a chain whose numbers do not fall", !is_falling),
        ("a number of two bytes from the chain", free > 0 && chain[0] > 255),
        ("a freed number behind the last cell", chain.contains(&(before.used as usize - 1))),
        ("cell 0 is freed", chain.contains(&0)),
    ]
}

/// Of an insertion that is refused 8, of a node that would make so many cells.
#[rustfmt::skip]
fn of_full(step: &Step, made: usize) -> Situations {
    let Mesh { cells, used, .. } = step.mesh;
    let capacity = capacity(step);
    vec![
        ("full, with no number free", used == cells),
        ("full, with numbers on the chain", used > cells),
        ("full by one", cells as usize + made == capacity + 1),
        ("full, and the whole capacity is used", used as usize == capacity && used > cells),
    ]
}

#[rustfmt::skip]
fn of_answers(step: &Step, bytes: &[u8], outcome: u8) -> Situations {
    let (used, cells) = (step.mesh.used as usize, step.mesh.cells as usize);
    let is_short = bytes.len() < used;
    let is_yes = |&c: &usize| bytes.get(c).is_some_and(|&byte| byte != 0);
    let freed = Entries::of(step.mesh, &step.tables).freed;
    let yes = freed.iter().filter(|c| is_yes(c)).count();
    let is_mesh = || plain::check(step.mesh, &mut step.tables.clone().lend());
    vec![
        ("answers: one too few", outcome == 1 && bytes.len() + 1 == used && is_mesh()),
        ("answers: as many as cells, which are too few", outcome == 1 && bytes.len() == cells && is_mesh()),
        ("answers: too few, and no mesh", outcome == 1 && is_short && !is_mesh()),
        ("answers: just enough", outcome == 0 && bytes.len() == used),
        ("answers: all freed entries yes", outcome == 0 && yes > 0 && yes == freed.len()),
        ("answers: all freed entries no", outcome == 0 && yes == 0 && !freed.is_empty()),
        ("answers: some freed entries yes", outcome == 0 && 0 < yes && yes < freed.len()),
    ]
}

/// Of a record and tables that are no mesh: whether they would be one but for this.
#[rustfmt::skip]
fn of_no_mesh(step: &Step) -> Situations {
    let mesh = step.mesh;
    let passes = |rules: &dyn Rules, record: Mesh| plain::check_with(rules, record, &mut step.tables.clone().lend());
    let is_but_for = |rules: &dyn Rules| passes(rules, mesh);
    let with = |record: Mesh| passes(&RightRules, record);
    let loaded = Loaded::load(&RightRules, Mesh { points: 0, ..mesh }, &step.tables.clone().lend());
    let chain = loaded.chain();
    let nones = |c: &usize| loaded.entries[*c].corners.iter().filter(|&&p| p == NONE).count();
    let some_nones = |count: usize| loaded.cells().iter().any(|c| nones(c) == count);
    let ends = |end: End| chain.end == end && is_but_for(&CirclePasses);
    let is_first = |c: usize| chain.numbers.first() == Some(&c);
    let last = chain.numbers.last().map(|&c| loaded.entries[c].neighbours[0] as usize);
    vec![
        ("but for a circle", ends(End::Circle)),
        ("but for a circle through all", ends(End::Circle) && last.is_some_and(is_first)),
        ("but for a cell at the end of the chain", ends(End::NotFreed) && last.is_some_and(|c| c < mesh.used as usize)),
        ("but for no entry at the end of the chain", ends(End::NotFreed) && last.is_some_and(|c| c >= mesh.used as usize)),
        ("but for a freed entry off the chain", is_but_for(&MissedFreedPasses) && mesh.chain != NONE.into()),
        ("but for an empty chain", is_but_for(&MissedFreedPasses) && mesh.chain == NONE.into()),
        ("but for the high bits of the chain", mesh.chain > 65_535 && with(Mesh { chain: mesh.chain & 65_535, ..mesh })),
        ("but for a corner of a freed entry", is_but_for(&OneCornerFrees)),
        ("but for another neighbour of a freed entry", is_but_for(&FreedNeighboursAny)),
        ("but for a cell too many in the count", is_but_for(&CountAny) && with(Mesh { cells: mesh.cells.wrapping_sub(1), ..mesh })),
        ("but for a cell too few in the count", is_but_for(&CountAny) && with(Mesh { cells: mesh.cells.wrapping_add(1), ..mesh })),
        ("but for the used length as the count", is_but_for(&CountAny) && mesh.cells == mesh.used),
        ("but for an entry too many", mesh.used > 0 && with(Mesh { used: mesh.used - 1, ..mesh })),
        ("but for an entry too few", with(Mesh { used: mesh.used.wrapping_add(1), ..mesh })),
        ("a used length of 0", mesh.used == 0 && mesh.cells != 0),
        ("a used length past the capacity", mesh.used as usize > capacity(step)),
        ("one corner of 65,535", some_nones(1)),
        ("two corners of 65,535", some_nones(2)),
        ("three corners of 65,535", some_nones(3)),
        ("a cell that names a freed entry", names_a_freed_entry(&loaded)),
    ]
}

/// Is a freed entry across a face of a cell?
fn names_a_freed_entry(mesh: &Loaded) -> bool {
    let across = |c: usize| (0..4).filter_map(move |i| mesh.across(c, i));
    let mut cells = mesh.cells().into_iter();
    cells.any(|c| across(c).any(|u| mesh.is_freed(u)))
}

/// How many cells the node of a call makes, if it is not refused before that.
fn made(step: &Step) -> Option<usize> {
    let (answers, p) = match &step.call {
        Call::Insert(p) | Call::Look(_, p) | Call::InsertMarked(_, p) => (Answers::SphereTest, *p),
        Call::InsertAnswers(bytes, p) => (Answers::Given(bytes), *p),
        _ => return None,
    };
    let mut tables = step.tables.clone();
    let tables = tables.lend();
    let mesh = Loaded::load(&RightRules, step.mesh, &tables);
    find(&mesh, &tables, answers, p)
        .ok()
        .map(|found| found.made)
}

fn situations(step: &Step, left: &Left) -> Situations {
    let outcome = left.answer.outcome();
    let of_answer = match left.answer {
        Answer::Inserted(answer) if outcome == 0 => of_inserted(step, answer),
        Answer::Inserted(_) | Answer::Looked(_) if outcome == 8 => {
            made(step).map_or(vec![], |made| of_full(step, made))
        }
        Answer::Checked(false) => of_no_mesh(step),
        _ if outcome == 3 => of_no_mesh(step),
        _ => vec![],
    };
    let of_answers = match &step.call {
        Call::InsertAnswers(bytes, _) => of_answers(step, bytes, outcome),
        _ => vec![],
    };
    [of_answer, of_answers].concat()
}

#[test]
fn every_situation_occurs() {
    let mut counts = Counts::default();
    each_step(1, 60_000, |step, left, _| {
        counts.add(situations(step, left))
    });
    counts.all_occur(14 + 4 + 7 + 20);
}
