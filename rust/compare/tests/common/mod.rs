#![allow(dead_code)]

use std::collections::BTreeMap;

use compare::call::{Call, Left};
use compare::generate::{History, Step};
use compare::guarded::GuardedTables;
use compare::nodes::{self, Spread};
use compare::{Builder, Plain, Tuned};
use plain::drive::on_drive;
use plain::loaded::Loaded;
use plain::random::Random;
use plain::{Mesh, Owned, Position, Rules};
use wrong::{EndsLeftOut, TouchingLeftOut};

/// How often each situation occurred.
#[derive(Debug, Default)]
pub struct Counts(BTreeMap<&'static str, u64>);

impl Counts {
    pub fn add(&mut self, situations: impl IntoIterator<Item = (&'static str, bool)>) {
        for (situation, occurs) in situations {
            *self.0.entry(situation).or_default() += u64::from(occurs);
        }
    }

    /// There were so many of them, and each occurred.
    #[track_caller]
    pub fn all_occur(&self, situations: usize) {
        let missing = self.0.iter().filter(|(_, &count)| count == 0);
        let missing: Vec<_> = missing.map(|(situation, _)| situation).collect();
        assert!(missing.is_empty(), "{missing:?}");
        assert_eq!(self.0.len(), situations);
    }
}

/// The mesh that a build makes.
pub struct BuiltMesh<'a> {
    pub build: &'a dyn Builder,
    pub sides: Position,
    pub spread: Spread,
    pub mesh: Mesh,
    pub tables: Owned,
}

impl<'a> BuiltMesh<'a> {
    pub fn started(
        build: &'a dyn Builder,
        random: &mut Random,
        room: impl FnOnce(&mut Random) -> Owned,
    ) -> BuiltMesh<'a> {
        let sides = nodes::sides(random);
        let mut tables = room(random);
        let mesh = build.start(sides, &mut tables.lend()).mesh;
        BuiltMesh {
            build,
            sides,
            spread: nodes::spread(random),
            mesh,
            tables,
        }
    }
}

/// Of each right build the laws hold, and so many situations occur.
#[track_caller]
pub fn each_holds(situations: usize, laws: impl Fn(&dyn Builder) -> Result<Counts, &'static str>) {
    for build in right_builds() {
        let counts = laws(build.as_ref()).expect("every law");
        counts.all_occur(situations);
    }
}

/// Each wrong build breaks its law first.
#[track_caller]
pub fn each_breaks(
    broken: &[(&str, &'static str)],
    laws: impl Fn(&dyn Builder) -> Result<Counts, &'static str>,
) {
    for &(name, law) in broken {
        let build = compare::named(name).expect("a build");
        assert_eq!(laws(build.as_ref()).err(), Some(law), "{name}");
    }
}

/// So many calls of random histories, made on the tuned build: shows each, with what it left, and whether a history begins with it.
pub fn each_step(seed: u64, calls: u64, mut show: impl FnMut(&Step, &Left, bool)) {
    let mut random = Random::new(seed);
    let mut history = History::new(&mut random);
    let mut begins = true;
    for _ in 0..calls {
        let step = history.next(&mut random);
        let tables = GuardedTables::new(&step.tables);
        let left = step.call.make(&Tuned, step.mesh, &tables);
        history.take(&step, &left);
        show(&step, &left, begins);
        begins = history.is_over();
        if begins {
            history = History::new(&mut random);
        }
    }
}

/// The builds of which the laws hold: the archive too, where it is compiled in.
pub fn right_builds() -> Vec<Box<dyn Builder>> {
    vec![
        Box::new(Plain::RIGHT),
        Box::new(Tuned),
        #[cfg(feature = "archive")]
        Box::new(compare::Archive),
    ]
}

/// An insertion with the marks of a look at its node.
pub fn looked(build: &dyn Builder, mesh: Mesh, tables: &Owned, p: Position) -> Call {
    let mut marks = vec![0; mesh.used as usize];
    build.look(mesh, &mut tables.clone().lend(), &mut marks, p);
    Call::InsertMarked(marks, p)
}

/// Does P lie on the segment, and not at an end of it?
fn is_between([a, b]: [Position; 2], p: Position) -> bool {
    let from = |q: Position| [0, 1, 2].map(|axis| i64::from(q[axis]) - i64::from(a[axis]));
    let (along, off) = (from(b), from(p));
    let is_on_line = (0..3).all(|k| along[k] * off[(k + 1) % 3] == along[(k + 1) % 3] * off[k]);
    let is_inside = (0..3).all(|k| a[k].min(b[k]) <= p[k] && p[k] <= a[k].max(b[k]));
    is_on_line && is_inside && p != a && p != b
}

/// The cells that some rules list for a drive in a mesh.
pub fn listed_by(rules: &dyn Rules, mesh: &Loaded, ends: [Position; 2]) -> Vec<usize> {
    let mesh = Loaded {
        rules,
        ..mesh.clone()
    };
    on_drive(&mesh, ends)
}

/// How a drive lies among the cells of a mesh. A cell that it touches in more than a point has it along an edge, within a face, or in
/// its inside.
#[rustfmt::skip]
pub fn of_drive(mesh: &Loaded, ends: [Position; 2]) -> Vec<(&'static str, bool)> {
    let ([a, b], sides) = (ends, mesh.record.sides());
    let is_in = |&axis: &usize| a[axis] == b[axis] && [0, sides[axis]].contains(&a[axis]);
    let walls = (0..3).filter(is_in).count();
    let listed = on_drive(mesh, ends);
    let longer = listed_by(&TouchingLeftOut, mesh, ends);
    let not_at_ends = listed_by(&EndsLeftOut, mesh, ends);
    let planes = |&c: &usize| (0..4).filter(|&i| [a, b].iter().all(|&p| mesh.side(c, i, p) == 0)).count();
    let has = |count: usize| a != b && longer.iter().any(|c| planes(c) == count);
    let nodes = || mesh.points.iter().enumerate().filter(|(point, _)| *point >= 8).map(|(_, &p)| p);
    vec![
        ("length 0", a == b),
        ("length 0, at a node", a == b && nodes().any(|p| p == a)),
        ("through a node", nodes().any(|p| is_between(ends, p))),
        ("along an edge", has(2)),
        ("within a face", has(1)),
        ("through the inside of a cell", has(0)),
        ("a cell is touched in one point", longer.len() < listed.len()),
        ("a cell is touched in one point that is no end", not_at_ends.iter().any(|c| !longer.contains(c))),
        ("a cell has an end alone", not_at_ends.len() < listed.len()),
        ("in a wall", a != b && walls == 1),
        ("on an edge of the box", a != b && walls == 2),
        ("one cell has all of it", listed.len() == 1),
        ("an end in no cell of the other", !listed.iter().any(|&c| mesh.holds(c, a) && mesh.holds(c, b))),
        ("every cell is on it", listed.len() == mesh.cells().len()),
        ("a freed entry between the listed cells", (listed[0]..listed[listed.len() - 1]).any(|c| mesh.is_freed(c))),
    ]
}

/// How many these are.
pub const OF_DRIVE: usize = 15;
