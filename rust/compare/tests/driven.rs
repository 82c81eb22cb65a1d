//! What the cells on a drive are to be, looked at on each build by itself: the cells that no plane separates from the segment. So
//! they are the same from B to A, those of both parts where it is cut in two, and for a drive of length 0 those that hold it.

mod common;

use common::{each_breaks, each_holds, of_drive, BuiltMesh, Counts, OF_DRIVE};
use compare::drives::{self, Start};
use compare::{nodes, Builder};
use plain::loaded::Loaded;
use plain::random::Random;
use plain::{Answers, Counted, Owned, Position, RightRules};

type Ends = [Position; 2];
type Vector = [i128; 3];

/// What an output holds before the call: no cell's number.
const FILLED: u16 = 9_999;

impl BuiltMesh<'_> {
    fn loaded(&self) -> Loaded<'static> {
        Loaded::load(&RightRules, self.mesh, &self.tables.clone().lend())
    }

    /// The answer and the output, of so many entries.
    fn drive(&self, ends: Ends, room: usize) -> (Counted, Vec<u16>) {
        let (mut left, mut cells) = (self.tables.clone(), vec![FILLED; room]);
        left.work.fill(0x7777);
        let answer = self
            .build
            .drive_cells(self.mesh, &mut left.lend(), ends, &mut cells);
        let mut expected = self.tables.clone();
        expected.work.fill(0);
        assert_eq!(left, expected);
        (answer, cells)
    }

    /// The cells that are listed; none where the drive is refused.
    fn listed(&self, ends: Ends) -> Vec<usize> {
        let (answer, mut cells) = self.drive(ends, self.mesh.used as usize);
        cells.truncate(answer.count as usize);
        cells.into_iter().map(usize::from).collect()
    }

    fn ends(&self, random: &mut Random) -> Ends {
        let mesh = self.loaded();
        let mut inside = || nodes::inside(random, self.sides, self.spread);
        let any = [inside(), inside()];
        let start = Start {
            sides: self.sides,
            any,
            points: &mesh.points,
            corners: mesh.positions(random.pick(&mesh.cells())),
        };
        drives::ends(random, &start)
    }

    /// A node goes in, by the sphere test or by any answers.
    fn grow(&mut self, random: &mut Random) {
        let bytes = nodes::answers(random, self.mesh);
        let answers = random.pick(&[Answers::SphereTest, Answers::Given(&bytes)]);
        let p = nodes::inside(random, self.sides, self.spread);
        let inserted = self
            .build
            .insert(self.mesh, &mut self.tables.lend(), answers, p);
        self.mesh = inserted.mesh;
    }
}

fn rises(built: &BuiltMesh, ends: Ends) -> bool {
    built.listed(ends).is_sorted_by(|a, b| a < b)
}

fn has_no_freed_entry(built: &BuiltMesh, ends: Ends) -> bool {
    let mesh = built.loaded();
    built.listed(ends).into_iter().all(|c| !mesh.is_freed(c))
}

/// Each end is located in one of them.
fn has_the_located_cells(built: &BuiltMesh, ends: Ends) -> bool {
    let listed = built.listed(ends);
    ends.into_iter().all(|p| {
        let mut tables = built.tables.clone();
        let located = built.build.locate(built.mesh, &mut tables.lend(), p);
        located.refusal == 0 && listed.contains(&(located.cell as usize))
    })
}

fn is_the_same_back(built: &BuiltMesh, [a, b]: Ends) -> bool {
    built.listed([a, b]) == built.listed([b, a])
}

fn is_what_holds_it(built: &BuiltMesh, [a, _]: Ends) -> bool {
    built.listed([a, a]) == built.loaded().holding(a)
}

/// With fewer entries than cells it is refused 10, and none is written; with more, none beyond.
fn needs_an_entry_a_cell(built: &BuiltMesh, ends: Ends) -> bool {
    let listed = built.listed(ends);
    let count = listed.len();
    let is_short =
        |room: usize| built.drive(ends, room) == (Counted::refused(10), vec![FILLED; room]);
    let fits = |room: usize| {
        let (answer, cells) = built.drive(ends, room);
        let list = cells[..count].iter().map(|&c| usize::from(c));
        answer.refusal == 0
            && answer.count as usize == count
            && list.eq(listed.iter().copied())
            && cells[count..].iter().all(|&c| c == FILLED)
    };
    count > 0 && (0..count).all(is_short) && fits(count) && fits(count + 3)
}

fn gcd(a: u32, b: u32) -> u32 {
    match b {
        0 => a,
        b => gcd(b, a % b),
    }
}

/// A whole place on the segment, not an end of it unless there is no other.
fn place_between([a, b]: Ends) -> Position {
    let along = [0, 1, 2].map(|axis| i64::from(b[axis]) - i64::from(a[axis]));
    let parts = along
        .iter()
        .fold(0, |parts, n| gcd(parts, n.unsigned_abs() as u32));
    let parts = i64::from(parts.max(1));
    let at = |axis: usize| i64::from(a[axis]) + along[axis] / parts * (parts / 2);
    [0, 1, 2].map(|axis| at(axis) as u32)
}

fn is_both_parts(built: &BuiltMesh, [a, b]: Ends) -> bool {
    let p = place_between([a, b]);
    let mut parts = [built.listed([a, p]), built.listed([p, b])].concat();
    parts.sort();
    parts.dedup();
    built.listed([a, b]) == parts
}

fn vector(from: Position, to: Position) -> Vector {
    [0, 1, 2].map(|axis| i128::from(to[axis]) - i128::from(from[axis]))
}

fn cross(a: Vector, b: Vector) -> Vector {
    [0, 1, 2].map(|k| a[(k + 1) % 3] * b[(k + 2) % 3] - a[(k + 2) % 3] * b[(k + 1) % 3])
}

fn dot(a: Vector, b: Vector) -> i128 {
    (0..3).map(|k| a[k] * b[k]).sum()
}

/// Is all of the cell strictly on one side of a plane, and all of the segment on the other? Where there is such a plane, there is one
/// that is parallel to a face of the cell, or to an edge of it and to the segment.
fn is_separated(corners: [Position; 4], [a, b]: Ends) -> bool {
    let pairs = [(0, 1), (0, 2), (0, 3), (1, 2), (1, 3), (2, 3)];
    let edges = pairs.map(|(i, j)| vector(corners[i], corners[j]));
    let of_faces = [(0, 1), (0, 2), (1, 2), (3, 4)].map(|(i, j)| cross(edges[i], edges[j]));
    let of_edges = edges.map(|edge| cross(edge, vector(a, b)));
    let mut normals = of_faces.into_iter().chain(of_edges);
    normals.any(|normal| {
        let range = |places: &[Position]| {
            let at = places.iter().map(|&p| dot(normal, vector([0; 3], p)));
            (at.clone().min(), at.max())
        };
        let (cell, segment) = (range(&corners), range(&[a, b]));
        cell.1 < segment.0 || segment.1 < cell.0
    })
}

fn is_what_nothing_separates(built: &BuiltMesh, ends: Ends) -> bool {
    let mesh = built.loaded();
    let mut cells = mesh.cells();
    cells.retain(|&c| !is_separated(mesh.positions(c), ends));
    built.listed(ends) == cells
}

/// A step beyond a side at either end.
fn stays_in_the_box(built: &BuiltMesh, [a, b]: Ends) -> bool {
    (0..3).all(|axis| {
        let mut out = a;
        out[axis] = built.sides[axis] + 1;
        let refused = (Counted::refused(4), vec![]);
        [[out, b], [b, out]]
            .into_iter()
            .all(|ends| built.drive(ends, 0) == refused)
    })
}

type Law = fn(&BuiltMesh, Ends) -> bool;

const LAWS: [(&str, Law); 9] = [
    ("rises", rises),
    ("has no freed entry", has_no_freed_entry),
    ("stays in the box", stays_in_the_box),
    ("has the located cells", has_the_located_cells),
    ("is the same back", is_the_same_back),
    ("is what holds it", is_what_holds_it),
    ("is both parts", is_both_parts),
    ("needs an entry a cell", needs_an_entry_a_cell),
    ("is what nothing separates", is_what_nothing_separates),
];

/// Many drives in meshes as they grow, or the law that is broken first.
fn many_drives(build: &dyn Builder) -> Result<Counts, &'static str> {
    let mut counts = Counts::default();
    for seed in 0..100 {
        let mut random = Random::new(seed);
        let mut built = BuiltMesh::started(build, &mut random, |_| Owned::with_room(30, 200));
        for _ in 0..12 {
            built.grow(&mut random);
            let ends = built.ends(&mut random);
            for (law, holds) in LAWS {
                if !holds(&built, ends) {
                    return Err(law);
                }
            }
            counts.add(of_drive(&built.loaded(), ends));
        }
    }
    Ok(counts)
}

#[test]
fn they_hold_of_each_right_build() {
    each_holds(OF_DRIVE, many_drives);
}

#[test]
fn which_law_each_wrong_build_breaks() {
    let broken = [
        ("falling-order", "rises"),
        ("freed-entries-listed", "has no freed entry"),
        ("ends-left-out", "has the located cells"),
        ("entering-taken-for-leaving", "has the located cells"),
        ("one-half-space-dropped", "is what nothing separates"),
        ("touching-left-out", "has the located cells"),
        ("high-words-compared", "is what nothing separates"),
    ];
    each_breaks(&broken, many_drives);
}
