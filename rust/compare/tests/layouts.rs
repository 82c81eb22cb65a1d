//! "Compared with the old layout, every sequence from an accepted start .. gives the same cells by their corners, the same
//! neighbours by theirs, and 8 in the same cases": each build, beside the packed one, on the same calls. Other answers agree too:
//! every refusal, the counts of a report, its least T, and a located cell's corners.

mod common;

use std::cmp::Ordering::Equal;
use std::collections::BTreeMap;

use common::{right_builds, Counts};
use compare::call::{Answer, Call, Left};
use compare::guarded::GuardedTables;
use compare::nodes::{self, Spread};
use compare::{named, Builder};
use plain::found::find;
use plain::geometry::exact_sum;
use plain::loaded::Loaded;
use plain::random::Random;
use plain::{in_box, Answers, Looked, Mesh, Owned, Position, RightRules};

/// A cell's four corner numbers, in their places.
type Corners = [u16; 4];

/// Answers or marks, by the cells that they follow.
type Bytes = BTreeMap<Corners, u8>;

/// The mesh that a build makes.
struct Bed<'a> {
    build: &'a dyn Builder,
    mesh: Mesh,
    tables: Owned,
}

impl Bed<'_> {
    fn started(build: &dyn Builder, sides: Position, cells: usize) -> Bed<'_> {
        let mut tables = Owned::with_room(24, cells);
        let mesh = build.start(sides, &mut tables.lend()).mesh;
        Bed {
            build,
            mesh,
            tables,
        }
    }

    fn loaded(&self) -> Loaded<'static> {
        Loaded::load(&RightRules, self.mesh, &self.tables.clone().lend())
    }

    /// The numbers of the cells, by their corners, of which no two are the same.
    fn cells(&self) -> BTreeMap<Corners, usize> {
        let mesh = self.loaded();
        let numbers = mesh.cells().into_iter();
        let cells: BTreeMap<_, _> = numbers.map(|c| (mesh.entries[c].corners, c)).collect();
        assert_eq!(cells.len(), mesh.cells().len());
        cells
    }

    /// What lies across each cell's faces, all by their corners.
    fn neighbours(&self) -> BTreeMap<Corners, [Option<Corners>; 4]> {
        let mesh = self.loaded();
        let corners = |c: usize| mesh.entries[c].corners;
        let across = |c: usize| [0, 1, 2, 3].map(|i| mesh.across(c, i).map(corners));
        let numbers = mesh.cells().into_iter();
        numbers.map(|c| (corners(c), across(c))).collect()
    }

    /// As many as are wanted, and some more; those of freed entries, and those beyond, are another byte.
    fn bytes(&self, of_cells: &Bytes, other: u8) -> Vec<u8> {
        let mut bytes = vec![other; self.mesh.used as usize + 2];
        for (corners, c) in self.cells() {
            bytes[c] = of_cells.get(&corners).copied().unwrap_or(0);
        }
        bytes
    }

    /// The marks of a look, by its cells; none where it is refused.
    fn marks(&self, p: Position) -> Bytes {
        let mut marks = vec![0; self.mesh.used as usize];
        let mut tables = self.tables.clone();
        self.build
            .look(self.mesh, &mut tables.lend(), &mut marks, p);
        let cells = self.cells().into_iter();
        cells.map(|(corners, c)| (corners, marks[c])).collect()
    }

    /// Lent a work area for so many cells.
    fn make(&mut self, call: &Call, room: usize) -> Left {
        self.tables.work = vec![0x5A5A; 3 * room];
        let tables = GuardedTables::new(&self.tables);
        let left = call.make(self.build, self.mesh, &tables);
        self.tables = left.tables.owned();
        self.mesh = left.answer.mesh().unwrap_or(self.mesh);
        left
    }
}

/// A call on both beds.
#[derive(Debug)]
enum Asked {
    Insert(Position),
    Answers(Bytes, Position),
    Look(Position),
    Marked(Bytes, Position),
    List(Vec<u32>),
    Locate(Position),
}

impl Asked {
    fn any(random: &mut Random, stable: &Bed, spread: Spread) -> Asked {
        let points = &stable.tables.points[..3 * stable.mesh.points as usize];
        let mut node = || nodes::node(random, stable.mesh.sides(), spread, points);
        let (p, list) = (node(), [node(), node(), node(), node()]);
        match random.below(8) {
            0..2 => Asked::Insert(p),
            2..4 => {
                let one_in = random.pick(&[1, 2, 2, 5]);
                let answer = |corners| (corners, (random.below(one_in) != 0) as u8);
                Asked::Answers(stable.cells().into_keys().map(answer).collect(), p)
            }
            4 => Asked::Look(p),
            5 => {
                let mut marks = stable.marks(p);
                if random.one_in(3) {
                    let place = random.index(marks.len());
                    let mark = marks.values_mut().nth(place).expect("a mark");
                    *mark ^= random.pick(&[1, 2, 3]);
                }
                Asked::Marked(marks, p)
            }
            6 => Asked::List(list.as_flattened()[..3 * (1 + random.index(4))].to_vec()),
            _ => Asked::Locate(p),
        }
    }

    /// Answers of freed entries are any, and so are marks before a look; marks that are handed in are 0 there.
    fn on(&self, bed: &Bed) -> Call {
        match self {
            Asked::Insert(p) => Call::Insert(*p),
            Asked::Answers(bytes, p) => Call::InsertAnswers(bed.bytes(bytes, 1), *p),
            Asked::Look(p) => Call::Look(bed.bytes(&Bytes::new(), 9), *p),
            Asked::Marked(bytes, p) => Call::InsertMarked(bed.bytes(bytes, 0), *p),
            Asked::List(numbers) => Call::InsertList(numbers.clone()),
            Asked::Locate(p) => Call::Locate(*p),
        }
    }
}

/// "The same cells by their corners, the same neighbours by theirs."
fn are_alike(stable: &Bed, packed: &Bed) -> bool {
    let counts = |mesh: Mesh| (mesh.sides(), mesh.points, mesh.cells);
    counts(stable.mesh) == counts(packed.mesh)
        && stable.tables.points == packed.tables.points
        && stable.neighbours() == packed.neighbours()
}

/// Of the least T neither is below the other.
fn is_same_report(one: Looked, other: Looked) -> bool {
    let counts = |looked: Looked| Looked {
        least: 0.0,
        ..looked
    };
    counts(one) == counts(other) && one.least.partial_cmp(&other.least) == Some(Equal)
}

/// The beds are those after the call; a look and a locate call leave them as they were.
fn is_same_answer([stable, packed]: [&Bed; 2], [left, right]: [&Left; 2]) -> bool {
    match (left.answer, right.answer) {
        (Answer::Inserted(l), Answer::Inserted(r)) => is_same_report(l.report(), r.report()),
        (Answer::Listed(l), Answer::Listed(r)) => (l.refusal, l.place) == (r.refusal, r.place),
        (Answer::Looked(l), Answer::Looked(r)) => {
            let marks = [left, right].map(|left| left.others.output.lent());
            is_same_report(l, r) && (l.refusal != 0 || marks_are_same([stable, packed], marks))
        }
        (Answer::Located(l), Answer::Located(r)) => {
            let corners = |bed: &Bed, c: u32| bed.loaded().entries[c as usize].corners;
            l.refusal == r.refusal
                && (l.refusal != 0 || corners(stable, l.cell) == corners(packed, r.cell))
        }
        _ => false,
    }
}

/// By the cells' corners, and 0 for freed entries.
fn marks_are_same([stable, packed]: [&Bed; 2], [marks, others]: [&[u8]; 2]) -> bool {
    let (mesh, numbers) = (stable.loaded(), packed.cells());
    let is_same = |c: usize| match mesh.is_freed(c) {
        true => marks[c] == 0,
        false => marks[c] == others[numbers[&mesh.entries[c].corners]],
    };
    (0..mesh.entries.len()).all(is_same)
}

/// Does the cavity of an insertion by the sphere test have its cells in another order in the packed tables?
fn is_reordered(mesh: &Loaded, tables: &Owned, packed: &Bed, p: Position) -> bool {
    let numbers = packed.cells();
    let found = find(mesh, &tables.clone().lend(), Answers::SphereTest, p);
    found.is_ok_and(|found| {
        let cells = found.cavity.cells().into_iter();
        let packed: Vec<_> = cells.map(|c| numbers[&mesh.entries[c].corners]).collect();
        !packed.is_sorted()
    })
}

/// Of where a node or a position is, before the call.
#[rustfmt::skip]
fn of_place(asked: &Asked, stable: &Bed, packed: &Bed) -> Vec<(&'static str, bool)> {
    let mesh = stable.loaded();
    let is_new = |p: Position| in_box(mesh.record.sides(), p) && !mesh.points.contains(&p);
    let is_tie = |p: Position| mesh.cells().iter().any(|&c| exact_sum(mesh.positions(c), p) == 0);
    match *asked {
        Asked::Insert(p) => vec![
            ("a node on a cell's sphere", is_new(p) && is_tie(p)),
            ("the cavity is in another order", is_reordered(&mesh, &stable.tables, packed, p)),
        ],
        Asked::Locate(p) => vec![("a position in several cells", mesh.holding(p).len() > 1)],
        _ => vec![],
    }
}

#[rustfmt::skip]
fn of_call(asked: &Asked, before: Mesh, room: usize, left: &Left) -> Vec<(&'static str, bool)> {
    let outcome = left.answer.outcome();
    let report = match left.answer {
        Answer::Inserted(inserted) => inserted.report(),
        Answer::Looked(looked) => looked,
        _ => Looked::default(),
    };
    let (is_insertion, free) = (left.answer.mesh().is_some(), before.used - before.cells);
    let has_put_in = is_insertion && outcome == 0;
    vec![
        ("a node by the sphere test", has_put_in && matches!(asked, Asked::Insert(_))),
        ("a node by answers", has_put_in && matches!(asked, Asked::Answers(..))),
        ("a node by marks", has_put_in && matches!(asked, Asked::Marked(..))),
        ("a list", has_put_in && matches!(asked, Asked::List(_))),
        ("a look", outcome == 0 && matches!(asked, Asked::Look(_))),
        ("a located cell", outcome == 0 && matches!(asked, Asked::Locate(_))),
        ("cells are removed by the correction", report.before > report.after),
        ("numbers of the chain alone", has_put_in && report.made > 0 && report.made <= free),
        ("numbers of the chain and of the end", has_put_in && 0 < free && free < report.made),
        ("numbers of the end alone", has_put_in && report.made > 0 && free == 0),
        ("outside", outcome == 4),
        ("taken", outcome == 5),
        ("points are full", outcome == 6),
        ("cells are full", outcome == 8 && is_insertion),
        ("cells are full, with numbers on the chain", outcome == 8 && free > 0),
        ("cells are full, with as much room as is used", outcome == 8 && room == before.used as usize && free > 0),
        ("cells are full in a list", outcome == 8 && matches!(asked, Asked::List(_))),
        ("cells are full for a look", outcome == 8 && matches!(asked, Asked::Look(_))),
        ("a node goes in with as much room as is used", has_put_in && report.made > 0 && room == before.used as usize),
        ("other marks", outcome == 14),
    ]
}

/// Of the numbers that cells have in the two layouts.
#[rustfmt::skip]
fn of_numbers(stable: &Bed, packed: &Bed) -> [(&'static str, bool); 3] {
    let (cells, numbers) = (stable.cells(), packed.cells());
    let mut in_order: Vec<_> = cells.iter().collect();
    in_order.sort_by_key(|(_, &c)| c);
    let packed: Vec<usize> = in_order.iter().map(|(corners, _)| numbers[*corners]).collect();
    [
        ("a cell has the same number in both", cells.iter().any(|(corners, c)| numbers[corners] == *c)),
        ("cells have other numbers", cells != numbers),
        ("cells come in another order", !packed.is_sorted()),
    ]
}

/// One call on both, with room for at least the used entries, and what differs.
fn ask(
    [stable, packed]: [&mut Bed; 2],
    asked: &Asked,
    room: usize,
    counts: &mut Counts,
) -> Result<(), String> {
    counts.add(of_place(asked, stable, packed));
    let before = stable.mesh;
    let calls = [asked.on(stable), asked.on(packed)];
    let left = stable.make(&calls[0], room);
    let right = packed.make(&calls[1], room);
    let beds = [&*stable, &*packed];
    if !is_same_answer(beds, [&left, &right]) {
        let (one, other) = (left.answer, right.answer);
        return Err(format!("{asked:?}: {one:?}, packed {other:?}"));
    }
    if !are_alike(stable, packed) {
        return Err(format!("{asked:?}: other cells or neighbours"));
    }
    counts.add(of_call(asked, before, room, &left));
    counts.add(of_numbers(stable, packed));
    Ok(())
}

/// Sequences of calls from a start, and what differs first.
fn many_sequences(build: &dyn Builder) -> Result<Counts, String> {
    let packed_build = named("packed").expect("a build");
    let mut counts = Counts::default();
    for seed in 0..250 {
        let mut random = Random::new(seed);
        let small = [0; 3].map(|_| 2 + random.below(4) as u32);
        let sides = random.pick(&[[4; 3], small, small, [60_000, 40_000, 30_000]]);
        let spread = random.pick(&[Spread::Anywhere, Spread::Even(4), Spread::Walls]);
        let cells = random.pick(&[20, 30, 60, 120]);
        let mut stable = Bed::started(build, sides, cells);
        let mut packed = Bed::started(packed_build.as_ref(), sides, cells);
        for _ in 0..30 {
            let asked = Asked::any(&mut random, &stable, spread);
            let used = stable.mesh.used as usize;
            let between = used + random.index(cells.saturating_sub(used) + 1);
            let room = random.pick(&[cells, cells, cells, used, between]);
            ask([&mut stable, &mut packed], &asked, room, &mut counts)?;
        }
    }
    Ok(counts)
}

#[test]
fn each_right_build_is_like_the_packed_one() {
    for build in right_builds() {
        let counts = many_sequences(build.as_ref()).expect("the same");
        counts.all_occur(20 + 3 + 3);
    }
}

/// Other numbers for new cells are as good by this law; what the insertion leaves or answers otherwise is not.
#[test]
fn which_wrong_builds_are_not() {
    for (name, holds) in [
        ("packed", true),
        ("chain-from-its-end", true),
        ("freed-falling", true),
        ("freed-first", true),
        ("one-left-off", false),
        ("used-not-raised", false),
        ("used-raised-to-the-count", false),
        ("freed-answer-counted", false),
        ("freed-entries-hold", false),
        ("freed-unmarked", false),
        ("neighbours-by-the-count", false),
        ("one-at-a-time", false),
        ("tie-inside", false),
        ("last-in-order", false),
    ] {
        let build = named(name).expect("a build");
        let counts = many_sequences(build.as_ref());
        assert_eq!(counts.is_ok(), holds, "{name}: {counts:?}");
    }
}
