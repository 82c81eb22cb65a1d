//! What is proved of spheres in crates/spheres, looked at on each build by itself: in a mesh whose nodes have all gone in by the
//! sphere test, with marks or without, whatever was looked at or refused between, no point lies strictly inside the sphere of any
//! cell, and the correction of a cavity removes nothing.

mod common;

use common::{looked, right_builds, Counts};
use compare::call::{Answer, Call};
use compare::guarded::GuardedTables;
use compare::nodes::{self, Spread};
use compare::spheres::NEAR_TIES;
use compare::{Builder, Tuned};
use plain::geometry::{exact_sum, float_sum};
use plain::loaded::Loaded;
use plain::random::Random;
use plain::{Answers, Looked, Mesh, Owned, Position, RightRules, SIDE_LIMIT};

/// How the nodes lie.
#[derive(Clone, Copy)]
enum Places {
    /// At even steps, of an odd number.
    Spaced(u32),
    /// Within a few steps of a position.
    Cluster(Position),
    Spread(Spread),
}

/// The mesh that a build makes.
struct BuiltMesh<'a> {
    build: &'a dyn Builder,
    sides: Position,
    places: Places,
    mesh: Mesh,
    tables: Owned,
}

fn spaced(random: &mut Random) -> (Position, Places) {
    let step = 1_001 + 2 * random.below(10_000) as u32;
    let count = u64::from(SIDE_LIMIT / step).min(7);
    let sides = [0; 3].map(|_| step * (1 + random.below(count) as u32));
    (sides, Places::Spaced(step))
}

fn box_and_places(random: &mut Random) -> (Position, Places) {
    let sides = nodes::sides(random);
    match random.below(4) {
        0..2 => spaced(random),
        2 => {
            let middle = sides.map(|side| random.below(u64::from(side) + 1) as u32);
            (sides, Places::Cluster(middle))
        }
        _ => (sides, Places::Spread(nodes::spread(random))),
    }
}

impl BuiltMesh<'_> {
    fn started<'a>(build: &'a dyn Builder, sides: Position, places: Places) -> BuiltMesh<'a> {
        let mut tables = Owned::with_room(50, 300);
        let mesh = build.start(sides, &mut tables.lend()).mesh;
        BuiltMesh {
            build,
            sides,
            places,
            mesh,
            tables,
        }
    }

    fn node(&self, random: &mut Random) -> Position {
        match self.places {
            Places::Spaced(step) => self.sides.map(|side| {
                let steps = u64::from(side / step);
                step * random.below(steps + 1) as u32
            }),
            Places::Cluster(middle) => [0, 1, 2].map(|axis| {
                let place = middle[axis] + random.below(6) as u32;
                place.min(self.sides[axis])
            }),
            Places::Spread(spread) => {
                let points = &self.tables.points[..3 * self.mesh.points as usize];
                nodes::node(random, self.sides, spread, points)
            }
        }
    }

    /// Any call that may not put a node in by answers handed in.
    fn call(&self, random: &mut Random) -> Call {
        let used = self.mesh.used as usize;
        let taken = self.tables.points.as_chunks().0[random.index(self.mesh.points as usize)];
        let [x, y, _] = self.sides;
        match random.below(12) {
            0..4 => Call::Insert(self.node(random)),
            4..6 => Call::InsertList((0..5).flat_map(|_| self.node(random)).collect()),
            6 => Call::InsertAnswers(vec![1; used - 1], self.node(random)),
            7 => Call::InsertAnswers(vec![1; used], taken),
            8 => Call::Look(vec![0; used - random.index(2)], self.node(random)),
            9 => looked(self.build, self.mesh, &self.tables, self.node(random)),
            10 => Call::InsertMarked(vec![2; used], self.node(random)),
            _ => Call::InsertList([self.node(random), [x, y + 1, 0]].concat()),
        }
    }

    /// Makes the call, and says what it is; or that its report has unequal counts.
    fn make(&mut self, call: &Call) -> Result<&'static str, String> {
        let left = call.make(self.build, self.mesh, &GuardedTables::new(&self.tables));
        self.tables = left.tables.owned();
        self.mesh = left.answer.mesh().unwrap_or(self.mesh);
        match (left.answer, left.answer.outcome()) {
            (Answer::Listed(_), 0) => Ok("a list"),
            (Answer::Listed(listed), _) if listed.place > 0 => Ok("a list that stops"),
            (Answer::Listed(_), _) => Ok("a list that stops at once"),
            (Answer::Inserted(inserted), 0) => uncorrected(call, inserted.report()),
            (Answer::Looked(looked), 0) => uncorrected(call, looked),
            _ => Ok(refused(call)),
        }
    }
}

/// Of an accepted call.
fn uncorrected(call: &Call, report: Looked) -> Result<&'static str, String> {
    let (what, p) = match call {
        Call::Insert(p) => ("a node", p),
        Call::InsertMarked(_, p) => ("a node with marks", p),
        Call::Look(_, p) => ("a look", p),
        _ => panic!("{call:?}"),
    };
    match report.before == report.after {
        true => Ok(what),
        false => Err(format!("{p:?}: {} to {}", report.before, report.after)),
    }
}

fn refused(call: &Call) -> &'static str {
    match call {
        Call::Insert(_) => "a node, refused",
        Call::InsertAnswers(..) => "answers, refused",
        Call::InsertMarked(..) => "marks, refused",
        Call::Look(..) => "a look, refused",
        _ => panic!("{call:?}"),
    }
}

/// Of a point that is not a corner of the cell.
#[rustfmt::skip]
fn situations(e: i128, t: f64) -> [(&'static str, bool); 4] {
    [
        ("on a sphere, T above 0", e == 0 && t > 0.0),
        ("on a sphere, T below 0", e == 0 && t < 0.0),
        ("on a sphere, T = 0", e == 0 && t == 0.0),
        ("outside a sphere, T above 0", e < 0 && t > 0.0),
    ]
}

/// Every cell with every point; or a point that is strictly inside a cell's sphere.
fn look_at_spheres(built: &mut BuiltMesh, counts: &mut Counts) -> Result<(), String> {
    let mesh = Loaded::load(&RightRules, built.mesh, &built.tables.lend());
    for c in mesh.cells() {
        let corners = mesh.positions(c);
        for &p in mesh.points.iter().filter(|p| !corners.contains(p)) {
            let e = exact_sum(corners, p);
            if e > 0 {
                return Err(format!("{p:?} is inside the sphere of {corners:?}: {e}"));
            }
            counts.add(situations(e, float_sum(corners, p)));
        }
    }
    Ok(())
}

fn grow(built: &mut BuiltMesh, calls: &[Call], counts: &mut Counts) -> Result<(), String> {
    for call in calls {
        counts.add([(built.make(call)?, true)]);
    }
    look_at_spheres(built, counts)
}

/// Many meshes, looked at as they grow.
fn grown(build: &dyn Builder) -> Result<Counts, String> {
    let mut counts = Counts::default();
    for seed in 0..200 {
        let mut random = Random::new(seed);
        let (sides, places) = box_and_places(&mut random);
        let mut built = BuiltMesh::started(build, sides, places);
        for _ in 0..6 {
            let calls = [0; 3].map(|_| built.call(&mut random));
            grow(&mut built, &calls, &mut counts)?;
        }
    }
    for tie in &NEAR_TIES {
        let places = Places::Spread(Spread::Anywhere);
        let mut built = BuiltMesh::started(build, tie.sides, places);
        grow(&mut built, &tie.nodes.map(Call::Insert), &mut counts)?;
    }
    Ok(counts)
}

#[test]
fn it_holds_of_each_right_build() {
    for build in right_builds() {
        let counts = grown(build.as_ref()).expect("no point inside");
        counts.all_occur(14);
    }
}

#[test]
fn which_wrong_builds_break_it() {
    for (name, holds) in [
        // Of several meshes with empty spheres it makes another one.
        ("tie-inside", true),
        ("float-sign", false),
        ("close-outside", false),
    ] {
        let build = compare::named(name).expect("a build");
        assert_eq!(grown(build.as_ref()).is_ok(), holds, "{name}");
    }
}

/// The box 4, 4, 4 with nodes put in by the same answer for every cell.
fn handed_in(answer: u8, nodes: &[Position]) -> BuiltMesh<'static> {
    let mut built = BuiltMesh::started(&Tuned, [4; 3], Places::Cluster([0; 3]));
    for &p in nodes {
        let bytes = vec![answer; built.mesh.used as usize];
        let answers = Answers::Given(&bytes);
        built.mesh = Tuned
            .insert(built.mesh, &mut built.tables.lend(), answers, p)
            .mesh;
    }
    built
}

#[test]
fn by_answers_handed_in_it_need_not_hold() {
    let mut built = handed_in(0, &[[1, 2, 3]]);
    let inside = look_at_spheres(&mut built, &mut Counts::default()).unwrap_err();
    assert!(inside.starts_with("[1, 2, 3] is inside the sphere of "));
    // The history of one-round: the correction has work for a node that then goes in by the sphere test.
    let mut built = handed_in(1, &[[1, 0, 0], [4, 1, 0]]);
    let counts = built.make(&Call::Insert([2, 0, 0])).unwrap_err();
    assert_eq!(counts, "[2, 0, 0]: 6 to 2");
}
