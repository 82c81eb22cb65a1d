//! What is measured: one pass of a work, on any build.

use std::ops::Range;

use compare::call::Answer;
use compare::Builder;
use plain::loaded::Loaded;
use plain::nodefile::encode;
use plain::random::Random;
use plain::{Answers, Inserted, Mesh, Owned, Position, RightRules, NODE_LIMIT};

use crate::nodes::{self, Set};

/// A work's name, what it is, and how it is made ready.
pub struct Entry {
    pub name: &'static str,
    pub title: &'static str,
    /// How often the archive may take `tuned`'s instructions.
    pub bar: Option<f64>,
    make: fn() -> Work,
}

const fn entry(
    name: &'static str,
    title: &'static str,
    bar: Option<f64>,
    make: fn() -> Work,
) -> Entry {
    Entry {
        name,
        title,
        bar,
        make,
    }
}

#[rustfmt::skip]
pub const ENTRIES: [Entry; 33] = [
    entry("random", "620 random nodes", Some(2.0), || list(nodes::random(620))),
    entry("lattice", "lattice 9×9×9", Some(2.0), || list(nodes::lattice(9))),
    entry("lattice-8", "lattice 9×9×9 in a cube of side 8", Some(2.0), || list(nodes::small_lattice(9))),
    entry("walls", "1,016 nodes on walls", Some(2.0), || list(nodes::walls())),
    entry("bed", "600 nodes along a bed", Some(2.0), || list(nodes::bed())),
    entry("even-bed", "evenly spaced bed, 26×4×4", Some(2.0), || list(nodes::even_bed())),
    entry("random-100", "first 100 random nodes", Some(2.0), || list(nodes::random(100))),
    entry("random-200", "first 200 random nodes", Some(2.0), || list(nodes::random(200))),
    entry("random-400", "first 400 random nodes", Some(2.0), || list(nodes::random(400))),
    entry("check", "mesh check", Some(2.0), || call(Kind::Check)),
    entry("locate", "locate", Some(2.0), || locate(anywhere)),
    entry("locate-0", "locate inside cell 0", Some(2.0), || locate(inside_cell_0)),
    entry("locate-point", "locate at the point of most cells", Some(2.0), || locate(at_a_point)),
    entry("drive", "drive along a diagonal of the box", Some(2.0), || drive(DIAGONAL)),
    entry("drive-short", "drive along a fiftieth of it", Some(2.0), || drive(SHORT)),
    entry("drive-wall", "drive in a wall", Some(2.0), || drive(IN_A_WALL)),
    entry("drive-point", "drive of length 0", Some(2.0), || drive(AT_A_PLACE)),
    entry("correction", "correction of a position", Some(2.0), correction),
    entry("look", "look", Some(2.0), look),
    entry("insert", "insert a node", Some(2.0), || insert(false)),
    entry("insert-marked", "insert a node with the marks of a look", Some(2.0), || insert(true)),
    entry("read", "read a node file", None, || call(Kind::Read)),
    entry("write", "write a node file", None, || call(Kind::Write)),
    entry("merge-random", "merge 508 and 508 random nodes", None, || merge(nodes::random(1_016), &HALVES)),
    entry("merge-random-many", "merge 1,016 and 1,016 random nodes: 6", None, || merge(nodes::random(2_032), &MANY)),
    entry("merge-random-same", "merge 1,016 random nodes twice", None, || merge(nodes::random(1_016), &SAME)),
    entry("merge-lattice", "merge 508 and 508 nodes of a lattice", None, || merge(nodes::lattice(13), &HALVES)),
    entry("merge-lattice-many", "merge 1,016 and 1,016 nodes of a lattice: 6", None, || merge(nodes::lattice(13), &MANY)),
    entry("merge-lattice-same", "merge 1,016 nodes of a lattice twice", None, || merge(nodes::lattice(13), &SAME)),
    entry("merge-row", "merge 508 and 508 nodes of a row", None, || merge(nodes::row(1_016), &HALVES)),
    entry("merge-row-many", "merge 1,016 and 1,016 nodes of a row: 6", None, || merge(nodes::row(2_032), &MANY)),
    entry("merge-row-same", "merge 1,016 nodes of a row twice", None, || merge(nodes::row(1_016), &SAME)),
    entry("merge-worst", "merge 1,016 and 1,016 nodes picked against the table: 6", None, || merge(nodes::of_one_start(2_032), &MANY)),
];

/// The parts of a set that two files have, and what merging them answers.
struct Files {
    first: Range<usize>,
    second: Range<usize>,
    refusal: u8,
}

const HALVES: Files = Files {
    first: 0..508,
    second: 508..1_016,
    refusal: 0,
};
const MANY: Files = Files {
    first: 0..1_016,
    second: 1_016..2_032,
    refusal: 6,
};
const SAME: Files = Files {
    first: 0..1_016,
    second: 0..1_016,
    refusal: 0,
};

impl Entry {
    pub fn work(&self) -> Work {
        (self.make)()
    }
}

pub struct Work {
    /// What a pass has many of.
    pub unit: &'static str,
    pub units: usize,
    /// How many passes are to be counted: enough for what is left of the setup to vanish.
    pub passes: u64,
    kind: Kind,
    /// What a pass answers; 0 for accepted.
    refusal: u8,
    mesh: Mesh,
    tables: Owned,
    /// A copy, for nodes that are all to go into the same mesh.
    copy: Owned,
    numbers: Vec<u32>,
    bytes: Vec<u8>,
    /// Those of a drive.
    cells: Vec<u16>,
}

enum Kind {
    /// A start and a list.
    List(Set),
    Check,
    Locate(Vec<Position>),
    Drive([Position; 2]),
    Correction(Vec<Position>),
    /// Marks go to the bytes.
    Look(Vec<Position>),
    /// Nodes into the same mesh, each with the marks of a look at it, or none.
    Insert(Vec<(Position, Option<Vec<u8>>)>),
    Read,
    Write,
    /// Two files.
    Merge([Vec<u8>; 2]),
}

/// What a pass leaves, to be compared.
#[derive(PartialEq)]
pub struct Left(Answer, [Owned; 2], Vec<u32>, Vec<u8>, Vec<u16>);

fn list(set: Set) -> Work {
    Work {
        unit: "node",
        units: set.nodes.len(),
        passes: 1,
        kind: Kind::List(set),
        refusal: 0,
        mesh: Mesh::default(),
        tables: Owned::largest(),
        copy: Owned::with_room(0, 0),
        numbers: vec![],
        bytes: vec![],
        cells: vec![],
    }
}

/// A call on the mesh of 620 random nodes, or on its node file.
fn call(kind: Kind) -> Work {
    let Set { sides, nodes } = nodes::random(620);
    let mut tables = Owned::largest();
    let mesh = tuned::start(sides, &mut tables.lend()).mesh;
    let mesh = tuned::insert_list(mesh, &mut tables.lend(), nodes.as_flattened()).mesh;
    Work {
        unit: "call",
        units: 1,
        passes: 20,
        kind,
        refusal: 0,
        mesh,
        copy: tables.clone(),
        tables,
        numbers: vec![0; 3 * NODE_LIMIT],
        bytes: encode(sides, &nodes),
        cells: vec![],
    }
}

fn merge(Set { sides, nodes }: Set, files: &Files) -> Work {
    let file = |part: &Range<usize>| encode(sides, &nodes[part.clone()]);
    Work {
        unit: "call",
        units: 1,
        passes: 20,
        kind: Kind::Merge([file(&files.first), file(&files.second)]),
        refusal: files.refusal,
        mesh: Mesh::default(),
        tables: Owned::with_room(0, 0),
        copy: Owned::with_room(0, 0),
        numbers: vec![],
        bytes: vec![0; 12 * NODE_LIMIT + 20],
        cells: vec![],
    }
}

fn loaded(work: &mut Work) -> Loaded<'static> {
    Loaded::load(&RightRules, work.mesh, &work.tables.lend())
}

fn locate(positions: fn(&Loaded) -> Vec<Position>) -> Work {
    let mut work = call(Kind::Locate(vec![]));
    let positions = positions(&loaded(&mut work));
    work.units = positions.len();
    work.kind = Kind::Locate(positions);
    work
}

const SIDE: u32 = nodes::CUBE[0];
const DIAGONAL: [Position; 2] = [[0; 3], nodes::CUBE];
/// In the middle.
const SHORT: [Position; 2] = [[SIDE / 100 * 49; 3], [SIDE / 100 * 51; 3]];
const IN_A_WALL: [Position; 2] = [[0; 3], [SIDE, SIDE / 2, 0]];
const AT_A_PLACE: [Position; 2] = [[SIDE / 2; 3]; 2];

fn drive(ends: [Position; 2]) -> Work {
    let mut work = call(Kind::Drive(ends));
    work.cells = vec![0; work.mesh.cells as usize];
    work
}

/// At the positions that are located, between any corrections.
fn correction() -> Work {
    let mut work = call(Kind::Check);
    let positions = anywhere(&loaded(&mut work));
    for (k, number) in work.tables.corrections.iter_mut().enumerate() {
        *number = (k * 77 % 2_001) as i32 - 1_000;
    }
    work.units = positions.len();
    work.kind = Kind::Correction(positions);
    work
}

fn look() -> Work {
    let mut work = call(Kind::Check);
    let nodes = anywhere(&loaded(&mut work));
    work.units = nodes.len();
    work.bytes = vec![9; work.mesh.used as usize];
    work.kind = Kind::Look(nodes);
    work
}

/// The same nodes.
fn insert(with_marks: bool) -> Work {
    let mut work = look();
    let Kind::Look(nodes) = &work.kind else {
        return work;
    };
    let mut looked = |p: Position| {
        let mut marks = vec![0; work.mesh.used as usize];
        tuned::look(work.mesh, &mut work.tables.lend(), &mut marks, p);
        marks
    };
    let nodes = nodes.iter().map(|&p| (p, with_marks.then(|| looked(p))));
    work.kind = Kind::Insert(nodes.collect());
    work
}

fn anywhere(_mesh: &Loaded) -> Vec<Position> {
    let mut random = Random::new(4);
    let mut position = || [0; 3].map(|_| random.below(131_073) as u32);
    (0..20).map(|_| position()).collect()
}

/// In the lowest-numbered cell, which is cell 0 in this mesh.
fn inside_cell_0(mesh: &Loaded) -> Vec<Position> {
    let corners = mesh.positions(mesh.cells()[0]);
    let middle = |axis: usize| corners.iter().map(|corner| corner[axis]).sum::<u32>() / 4;
    vec![[0, 1, 2].map(middle)]
}

fn at_a_point(mesh: &Loaded) -> Vec<Position> {
    let cells = mesh.cells();
    let corners = || cells.iter().flat_map(|&c| mesh.entries[c].corners);
    let count = |point: usize| corners().filter(|&corner| corner as usize == point).count();
    let most = (0..mesh.points.len()).max_by_key(|&point| count(point));
    most.map(|point| mesh.points[point]).into_iter().collect()
}

fn insert_into(
    build: &dyn Builder,
    mesh: Mesh,
    tables: &mut Owned,
    p: Position,
    marks: &Option<Vec<u8>>,
) -> Inserted {
    match marks {
        None => build.insert(mesh, &mut tables.lend(), Answers::SphereTest, p),
        Some(marks) => build.insert_marked(mesh, &mut tables.lend(), marks, p),
    }
}

impl Work {
    /// The nodes of a list.
    pub fn list(&self) -> Option<&Set> {
        match &self.kind {
            Kind::List(set) => Some(set),
            _ => None,
        }
    }

    pub fn pass(&mut self, build: &dyn Builder) -> Answer {
        let (mesh, tables) = (self.mesh, &mut self.tables.lend());
        match &self.kind {
            Kind::List(set) => {
                let mesh = build.start(set.sides, tables).mesh;
                Answer::Listed(build.insert_list(mesh, tables, set.nodes.as_flattened()))
            }
            Kind::Check => Answer::Checked(build.check(mesh, tables)),
            Kind::Locate(positions) => {
                let mut last = Answer::Checked(false);
                for &p in positions {
                    last = Answer::Located(build.locate(mesh, tables, p));
                }
                last
            }
            Kind::Drive(ends) => {
                Answer::Counted(build.drive_cells(mesh, tables, *ends, &mut self.cells))
            }
            Kind::Correction(positions) => {
                let mut last = Answer::Checked(false);
                for &p in positions {
                    last = Answer::Corrected(build.correction(mesh, tables, p));
                }
                last
            }
            Kind::Look(nodes) => {
                let mut last = Answer::Checked(false);
                for &p in nodes {
                    last = Answer::Looked(build.look(mesh, tables, &mut self.bytes, p));
                }
                last
            }
            Kind::Insert(nodes) => {
                let mut last = Answer::Checked(false);
                for (p, marks) in nodes {
                    self.copy.clone_from(&self.tables);
                    last = Answer::Inserted(insert_into(build, mesh, &mut self.copy, *p, marks));
                }
                last
            }
            Kind::Read => Answer::Read(build.read_nodes(&self.bytes, &mut self.numbers)),
            Kind::Write => Answer::Written(build.write_nodes(mesh, tables, &mut self.bytes)),
            Kind::Merge([first, second]) => {
                Answer::Written(build.merge(first, second, &mut self.bytes))
            }
        }
    }

    /// One pass from cleared tables or a cleared output, and all that it leaves.
    pub fn left(&mut self, build: &dyn Builder) -> Left {
        match self.kind {
            Kind::List(_) => self.tables = Owned::largest(),
            Kind::Merge(_) => self.bytes.fill(0),
            Kind::Drive(_) => self.cells.fill(0),
            _ => {}
        }
        let answer = self.pass(build);
        Left(
            answer,
            [self.tables.clone(), self.copy.clone()],
            self.numbers.clone(),
            self.bytes.clone(),
            self.cells.clone(),
        )
    }

    /// Was every node, call or file accepted, or refused where it is to be?
    pub fn is_answered(&self, left: &Left) -> bool {
        left.0.outcome() == self.refusal
    }
}
