//! What is proved of looks in crates/look_first, looked at on each build by itself: a look changes nothing but marks, and marks
//! the cells that the node takes the place of; with its marks the insertion is the plain one, and with others it is refused.

mod common;

use std::collections::BTreeSet;

use common::{each_breaks, each_holds, BuiltMesh, Counts};
use compare::nodes;
use compare::Builder;
use plain::loaded::Loaded;
use plain::random::Random;
use plain::{Answers, Inserted, Looked, Mesh, Owned, Position, RightRules, Rules};

/// An insertion's answer, and what it left.
type Insertion = (Inserted, Owned);

/// In some of them points run out, in others cells.
fn small_room(random: &mut Random) -> Owned {
    Owned::with_room(20, random.pick(&[40, 90]))
}

impl BuiltMesh<'_> {
    /// Now and then one that is refused.
    fn node(&self, random: &mut Random) -> Position {
        let points = &self.tables.points[..3 * self.mesh.points as usize];
        nodes::node(random, self.sides, self.spread, points)
    }

    /// With a work area that each call has to clear.
    fn lent(&self) -> Owned {
        let mut tables = self.tables.clone();
        tables.work.fill(0x7777);
        tables
    }

    fn insert(&self, answers: Answers, p: Position) -> Insertion {
        let mut left = self.lent();
        let answer = self.build.insert(self.mesh, &mut left.lend(), answers, p);
        (answer, left)
    }

    fn insert_marked(&self, marks: &[u8], p: Position) -> Insertion {
        let mut left = self.lent();
        let answer = self
            .build
            .insert_marked(self.mesh, &mut left.lend(), marks, p);
        (answer, left)
    }

    fn look(&self, before: Vec<u8>, p: Position) -> Look {
        let (mut marks, mut left) = (before.clone(), self.lent());
        let answer = self.build.look(self.mesh, &mut left.lend(), &mut marks, p);
        Look {
            p,
            answer,
            before,
            marks,
            left,
            plainly: self.insert(Answers::SphereTest, p),
        }
    }

    /// Goes on with what an insertion left.
    fn take(&mut self, (answer, left): Insertion) {
        self.mesh = answer.mesh;
        self.tables = left;
    }
}

/// The cells by number, and their corners, each sorted upward.
fn cells(mesh: Mesh, tables: &Owned) -> Vec<(usize, [u16; 4])> {
    let mesh = Loaded::load(&RightRules, mesh, &tables.clone().lend());
    let corners = |c: usize| RightRules.order(c, mesh.entries[c].corners);
    let cells = mesh.cells().into_iter();
    cells.map(|c| (c, corners(c))).collect()
}

/// A look at a node, with the marks before it and after it, and the plain insertion beside it.
struct Look {
    p: Position,
    answer: Looked,
    before: Vec<u8>,
    marks: Vec<u8>,
    left: Owned,
    plainly: Insertion,
}

impl Look {
    fn is_accepted(&self) -> bool {
        self.answer.refusal == 0
    }
}

/// Neither the tables, nor marks beyond the used entries, nor any mark where it is refused.
fn changes_nothing_else(built: &BuiltMesh, look: &Look, _: &mut Random) -> bool {
    let used = match look.is_accepted() {
        true => built.mesh.used as usize,
        false => 0,
    };
    look.left == built.tables && look.marks[used..] == look.before[used..]
}

/// The same report, or refused with the same number.
fn answers_the_report(_: &BuiltMesh, look: &Look, _: &mut Random) -> bool {
    let report = look.plainly.0.report();
    look.answer == report && look.answer.least.to_bits() == report.least.to_bits()
}

/// With too few it is refused 10, unless the insertion is refused; and nothing changes.
fn needs_a_mark_an_entry(built: &BuiltMesh, look: &Look, random: &mut Random) -> bool {
    let count = random.index(built.mesh.used as usize);
    let short = built.look(look.before[..count].to_vec(), look.p);
    let refusal = match look.is_accepted() {
        true => 10,
        false => look.answer.refusal,
    };
    short.answer == Looked::refused(refusal)
        && short.marks == short.before
        && short.left == built.tables
}

/// With the marks of the look.
fn goes_in_plainly(built: &BuiltMesh, look: &Look, _: &mut Random) -> bool {
    !look.is_accepted() || built.insert_marked(&look.marks, look.p) == look.plainly
}

/// One byte is another, or they are too few: 14, and nothing changes.
fn refuses_other_marks(built: &BuiltMesh, look: &Look, random: &mut Random) -> bool {
    let mut marks = look.marks.clone();
    let place = random.index(built.mesh.used as usize);
    match random.one_in(4) {
        true => marks.truncate(place),
        false => marks[place] ^= random.pick(&[1, 2, 3, 254]),
    }
    let refused = Inserted::refused(14, built.mesh);
    !look.is_accepted() || built.insert_marked(&marks, look.p) == (refused, built.tables.clone())
}

/// Whatever the marks, an insertion is refused where the plain one is, with the same number.
fn is_refused_alike(built: &BuiltMesh, look: &Look, random: &mut Random) -> bool {
    let marks = vec![random.below(3) as u8; random.pick(&[0, built.mesh.used as usize])];
    look.is_accepted() || built.insert_marked(&marks, look.p) == look.plainly
}

/// Of the corners of a marked cell no cell is left, and one with those of another cell has its number still; freed entries are not
/// marked.
fn marks_what_is_replaced(built: &BuiltMesh, look: &Look, _: &mut Random) -> bool {
    let (answer, tables) = &look.plainly;
    let before: BTreeSet<_> = cells(built.mesh, &built.tables).into_iter().collect();
    let left = cells(answer.mesh, tables).into_iter().collect();
    let replaced: Vec<usize> = before.difference(&left).map(|&(c, _)| c).collect();
    let mut marks = look.marks[..built.mesh.used as usize].iter().enumerate();
    !look.is_accepted() || marks.all(|(c, &mark)| mark == u8::from(replaced.contains(&c)))
}

type Law = fn(&BuiltMesh, &Look, &mut Random) -> bool;

const LAWS: [(&str, Law); 7] = [
    ("changes nothing else", changes_nothing_else),
    ("answers the report", answers_the_report),
    ("needs a mark an entry", needs_a_mark_an_entry),
    ("goes in plainly", goes_in_plainly),
    ("refuses other marks", refuses_other_marks),
    ("is refused alike", is_refused_alike),
    ("marks what is replaced", marks_what_is_replaced),
];

#[rustfmt::skip]
fn situations(built: &BuiltMesh, look: &Look) -> [(&'static str, bool); 10] {
    let Looked { refusal, before, after, .. } = look.answer;
    let cells = built.mesh.cells;
    [
        ("cells are removed by the correction", before > after),
        ("nothing is removed", refusal == 0 && before == after),
        ("every cell is replaced", after == cells),
        ("few cells are replaced", refusal == 0 && 3 * after < cells),
        ("freed entries", refusal == 0 && built.mesh.used > cells),
        ("marks beyond the used entries", refusal == 0 && look.marks.len() > built.mesh.used as usize),
        ("outside", refusal == 4),
        ("taken", refusal == 5),
        ("points are full", refusal == 6),
        ("cells are full", refusal == 8),
    ]
}

/// Looks at a node, and says which law is broken; then a node goes in, this one or another.
fn look_first(
    built: &mut BuiltMesh,
    random: &mut Random,
    counts: &mut Counts,
) -> Result<(), &'static str> {
    let p = built.node(random);
    let count = built.mesh.used as usize + random.index(4);
    let before = (0..count).map(|_| random.bits() as u8).collect();
    let look = built.look(before, p);
    for (law, holds) in LAWS {
        if !holds(built, &look, random) {
            return Err(law);
        }
    }
    counts.add(situations(built, &look));
    let answers = nodes::answers(random, built.mesh);
    let next = match random.below(3) {
        0 => built.insert_marked(&look.marks, p),
        _ => built.insert(Answers::Given(&answers), built.node(random)),
    };
    built.take(next);
    Ok(())
}

/// Many looks, or the law that is broken first.
fn many_looks(build: &dyn Builder) -> Result<Counts, &'static str> {
    let mut counts = Counts::default();
    for seed in 0..150 {
        let mut random = Random::new(seed);
        let mut built = BuiltMesh::started(build, &mut random, small_room);
        for _ in 0..16 {
            look_first(&mut built, &mut random, &mut counts)?;
        }
    }
    Ok(counts)
}

#[test]
fn they_hold_of_each_right_build() {
    each_holds(10, many_looks);
}

#[test]
fn which_law_each_wrong_build_breaks() {
    let broken = [
        // The insertion goes by the same marks, so that look and insertion agree.
        ("marks-before-correction", "marks what is replaced"),
        ("marks-of-the-base", "marks what is replaced"),
        ("marks-cleared-past-the-used", "changes nothing else"),
        ("any-nonzero-mark", "refuses other marks"),
        ("marks-first", "is refused alike"),
        ("marks-by-the-count", "marks what is replaced"),
        ("freed-unmarked", "goes in plainly"),
        ("freed-mark-ignored", "refuses other marks"),
    ];
    each_breaks(&broken, many_looks);
}
