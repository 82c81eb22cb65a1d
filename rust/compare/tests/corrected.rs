//! What is proved of corrections, looked at on each build by itself: a position has the same one from every cell that holds it,
//! between those of the corners, and a point its own; an insertion moves it nowhere at its node and at no point; a setting is
//! read back.

mod common;

use common::{each_breaks, each_holds, looked, BuiltMesh, Counts};
use compare::call::Call;
use compare::guarded::GuardedTables;
use compare::nodes;
use compare::{corrections, Builder};
use plain::corrections::Correction;
use plain::loaded::Loaded;
use plain::random::Random;
use plain::{Owned, Position, RightRules};

/// Tables that another mesh has left.
fn used_room(random: &mut Random) -> Owned {
    let mut tables = Owned::with_room(30, 200);
    tables.corrections.fill(random.pick(&[0, 7, 1_001]));
    tables
}

impl BuiltMesh<'_> {
    fn loaded(&self) -> Loaded<'static> {
        Loaded::load(&RightRules, self.mesh, &self.tables.clone().lend())
    }

    fn read(&self, p: Position) -> Result<Correction, u8> {
        let mut tables = self.tables.clone();
        let read = self.build.correction(self.mesh, &mut tables.lend(), p);
        match read.refusal {
            0 => Ok([read.x, read.y, read.z]),
            refusal => Err(refusal),
        }
    }

    fn of_point(&self, point: usize) -> Correction {
        self.tables.corrections.as_chunks().0[point]
    }

    fn make(&mut self, call: &Call) -> u8 {
        let left = call.make(self.build, self.mesh, &GuardedTables::new(&self.tables));
        self.tables = left.tables.owned();
        self.mesh = left.answer.mesh().unwrap_or(self.mesh);
        left.answer.outcome()
    }
}

/// A start in these tables gives the box corners 0, and leaves the rest.
fn starts_at_0(built: &mut BuiltMesh, _: &mut Random) -> bool {
    let (mut tables, before) = (built.tables.clone(), &built.tables.corrections);
    built.build.start(built.sides, &mut tables.lend());
    tables.corrections[..24] == [0; 24] && tables.corrections[24..] == before[24..]
}

/// It is within a half of the sum over the volume of any cell that holds the position, and away from zero where it is a half.
fn is_that_of_every_cell(built: &mut BuiltMesh, random: &mut Random) -> bool {
    let mesh = built.loaded();
    let corners = mesh.positions(random.pick(&mesh.cells()));
    let p = nodes::in_cell(random, corners);
    let Ok(read) = built.read(p) else {
        return false;
    };
    mesh.holding(p).into_iter().all(|c| {
        let own = mesh.entries[c]
            .corners
            .map(|point| built.of_point(point.into()));
        (0..3).all(|axis| {
            let term = |i: usize| mesh.side(c, i, p) * i128::from(own[i][axis]);
            let (sum, volume) = ((0..4).map(term).sum::<i128>(), mesh.volume(c));
            let whole = i128::from(read[axis]) * volume;
            let off = 2 * (whole - sum).abs();
            let least = own.iter().map(|numbers| numbers[axis]).min();
            let greatest = own.iter().map(|numbers| numbers[axis]).max();
            (off < volume || off == volume && whole.abs() > sum.abs())
                && least <= Some(read[axis])
                && Some(read[axis]) <= greatest
        })
    })
}

fn is_a_point_s_own(built: &mut BuiltMesh, _: &mut Random) -> bool {
    let points = built.loaded().points.into_iter().enumerate();
    let mut points = points.map(|(point, p)| built.read(p) == Ok(built.of_point(point)));
    points.all(|is_own| is_own)
}

/// What was set is read, and nothing else changes.
fn is_set(built: &mut BuiltMesh, random: &mut Random) -> bool {
    let point = random.index(built.mesh.points as usize);
    let numbers = [0; 3].map(|_| random.below(2_001) as i32 - 1_000);
    let mut expected = built.tables.clone();
    expected.corrections.as_chunks_mut().0[point] = numbers;
    expected.work.fill(0);
    built.make(&Call::SetCorrection(point as u32, numbers)) == 0 && built.tables == expected
}

/// A refused setting leaves all.
fn is_not_set(built: &mut BuiltMesh, random: &mut Random) -> bool {
    let before = built.tables.clone();
    let (points, wrong) = (built.mesh.points, random.pick(&[1_001, -1_001, i32::MIN]));
    let refused = [
        built.make(&Call::SetCorrection(points, [wrong; 3])),
        built.make(&Call::SetCorrection(0, [0, wrong, 0])),
    ];
    built.tables.work.clone_from(&before.work);
    refused == [13, 12] && built.tables == before
}

/// Of any kind: the node has what its position had, and every other point what it had.
fn moves_nothing(built: &mut BuiltMesh, random: &mut Random) -> bool {
    let p = nodes::inside(random, built.sides, built.spread);
    let call = match random.below(4) {
        0 => Call::Insert(p),
        1 => Call::InsertAnswers(nodes::answers(random, built.mesh), p),
        2 => looked(built.build, built.mesh, &built.tables, p),
        _ => Call::InsertList(p.to_vec()),
    };
    let (before, read) = (built.tables.corrections.clone(), built.read(p));
    let mut expected = before.clone();
    let point = built.mesh.points as usize;
    if built.make(&call) == 0 {
        let node = expected.as_chunks_mut().0.get_mut(point);
        let (Some(node), Ok(read)) = (node, read) else {
            return false;
        };
        *node = read;
    }
    built.tables.corrections == expected && built.read(p) == read
}

type Law = fn(&mut BuiltMesh, &mut Random) -> bool;

const LAWS: [(&str, Law); 6] = [
    ("starts at 0", starts_at_0),
    ("is set", is_set),
    ("is not set", is_not_set),
    ("is that of every cell", is_that_of_every_cell),
    ("is a point's own", is_a_point_s_own),
    ("moves nothing", moves_nothing),
];

/// Many meshes as they grow, or the law that is broken first.
fn many_meshes(build: &dyn Builder) -> Result<Counts, &'static str> {
    let mut counts = Counts::default();
    for seed in 0..150 {
        let mut random = Random::new(seed);
        let mut built = BuiltMesh::started(build, &mut random, used_room);
        for round in 0..10 {
            for (law, holds) in LAWS {
                if !holds(&mut built, &mut random) {
                    return Err(law);
                }
            }
            corrections::scatter(&mut random, built.mesh, &mut built.tables);
            counts.add([
                ("a mesh of 8 points", built.mesh.points == 8),
                ("a mesh of more than 12", built.mesh.points > 12),
                ("a node went in", built.mesh.points > 8 && round == 0),
            ]);
        }
    }
    Ok(counts)
}

#[test]
fn they_hold_of_each_right_build() {
    each_holds(3, many_meshes);
}

#[test]
fn which_law_each_wrong_build_breaks() {
    let broken = [
        ("box-corners-not-cleared", "starts at 0"),
        ("range-past-the-points", "is set"),
        ("range-before-the-point", "is not set"),
        ("halves-toward-zero", "is that of every cell"),
        ("halves-up", "is that of every cell"),
        ("halves-to-even", "is that of every cell"),
        // Before the first node all cells have one volume.
        ("volume-of-another-cell", "moves nothing"),
        ("node-starts-at-0", "moves nothing"),
        ("node-starts-as-it-stands", "moves nothing"),
    ];
    each_breaks(&broken, many_meshes);
}
