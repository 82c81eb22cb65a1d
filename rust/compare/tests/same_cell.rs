//! What is proved of the located cell in crates/located, looked at on each build by itself. After an insertion of any kind it is
//! the same cell, by its corners and by its number, unless it was in a corrected cavity: the parked head. And by its corners it is
//! the same in tables that have the same cells in another order.

mod common;

use std::collections::BTreeSet;

use common::{looked, right_builds, BuiltMesh, Counts};
use compare::call::Call;
use compare::entries::rearrange;
use compare::guarded::GuardedTables;
use compare::nodes;
use compare::Builder;
use plain::cavity::Cavity;
use plain::loaded::Loaded;
use plain::random::Random;
use plain::{Answers, Mesh, Owned, Position, RightRules, Rules};

/// A cell's four corner numbers, sorted upward.
type Corners = [u16; 4];

fn corners(mesh: &Loaded, c: usize) -> Corners {
    RightRules.order(c, mesh.entries[c].corners)
}

/// A position and the cell that it is located in.
struct Parked {
    p: Position,
    number: u32,
    corners: Corners,
    /// The cells that hold it, by number.
    holding: Vec<Corners>,
    /// How many points the mesh has.
    points: u32,
}

impl BuiltMesh<'_> {
    fn loaded(&mut self) -> Loaded<'static> {
        Loaded::load(&RightRules, self.mesh, &self.tables.lend())
    }

    fn locate(&mut self, p: Position) -> Parked {
        let located = self.build.locate(self.mesh, &mut self.tables.lend(), p);
        assert_eq!(located.refusal, 0);
        let mesh = self.loaded();
        let holding = mesh.holding(p);
        Parked {
            p,
            number: located.cell,
            corners: corners(&mesh, located.cell as usize),
            holding: holding.into_iter().map(|c| corners(&mesh, c)).collect(),
            points: self.mesh.points,
        }
    }

    /// Heads at places of some cells: corners, edges, faces and inside.
    fn park(&mut self, random: &mut Random) -> Vec<Parked> {
        let mesh = self.loaded();
        let mut head = || {
            let corners = mesh.positions(random.pick(&mesh.cells()));
            self.locate(nodes::in_cell(random, corners))
        };
        (0..8).map(|_| head()).collect()
    }

    fn node(&self, random: &mut Random) -> Position {
        nodes::inside(random, self.sides, self.spread)
    }

    fn insertion(&self, random: &mut Random) -> Call {
        match random.below(4) {
            0 => Call::Insert(self.node(random)),
            1 => looked(self.build, self.mesh, &self.tables, self.node(random)),
            2 => {
                let bytes = nodes::answers(random, self.mesh);
                Call::InsertAnswers(bytes, self.node(random))
            }
            _ => Call::InsertList((0..4).flat_map(|_| self.node(random)).collect()),
        }
    }

    /// Makes the call; the cells that were in a corrected cavity, by their corners.
    fn insert(&mut self, call: &Call) -> BTreeSet<Corners> {
        let (mesh, tables) = (self.mesh, self.tables.clone());
        let left = call.make(self.build, mesh, &GuardedTables::new(&tables));
        self.tables = left.tables.owned();
        self.mesh = left.answer.mesh().expect("an insertion");
        let went_in = (self.mesh.points - mesh.points) as usize;
        replaced(call, mesh, tables, went_in)
    }
}

/// The cells of the corrected cavities of the first nodes of a call, by the plain build.
fn replaced(call: &Call, mut mesh: Mesh, mut tables: Owned, count: usize) -> BTreeSet<Corners> {
    let (answers, nodes) = match call {
        Call::Insert(p) | Call::InsertMarked(_, p) => (Answers::SphereTest, vec![*p]),
        Call::InsertAnswers(bytes, p) => (Answers::Given(bytes), vec![*p]),
        Call::InsertList(numbers) => (Answers::SphereTest, numbers.as_chunks().0.to_vec()),
        _ => panic!("not an insertion"),
    };
    let mut all = BTreeSet::new();
    for &p in &nodes[..count] {
        let loaded = Loaded::load(&RightRules, mesh, &tables.lend());
        let mut cavity = Cavity::base(&loaded, p);
        cavity.grow(answers);
        RightRules.correct(&mut cavity);
        all.extend(cavity.cells().into_iter().map(|c| corners(&loaded, c)));
        mesh = plain::insert_with(&RightRules, mesh, &mut tables.lend(), answers, p).mesh;
    }
    all
}

/// Of a head whose cell was not replaced.
#[rustfmt::skip]
fn situations(call: &Call, before: &Parked, after: &Parked) -> [(&'static str, bool); 7] {
    let is_shared = before.holding.len() > 1;
    let is_new = |corners: &Corners| corners[3] as u32 >= before.points;
    [
        ("strictly inside, or on a wall", !is_shared),
        ("by the sphere test", is_shared && matches!(call, Call::Insert(_))),
        ("with a look's marks", is_shared && matches!(call, Call::InsertMarked(..))),
        ("by answers handed in", is_shared && matches!(call, Call::InsertAnswers(..))),
        ("by a list, several nodes", is_shared && after.points > before.points + 1),
        ("a new cell holds it too", after.holding.iter().any(is_new)),
        ("the lowest-numbered is another cell", before.holding[0] != after.holding[0]),
    ]
}

/// Parks heads, makes an insertion, and says where a head is in another cell then, though its own was not replaced.
fn insert_elsewhere(
    built: &mut BuiltMesh,
    random: &mut Random,
    counts: &mut Counts,
) -> Result<(), String> {
    let parked = built.park(random);
    let call = built.insertion(random);
    let replaced = built.insert(&call);
    if replaced.is_empty() {
        return Ok(()); // refused
    }
    for before in parked
        .iter()
        .filter(|head| !replaced.contains(&head.corners))
    {
        let after = built.locate(before.p);
        let cell = |head: &Parked| (head.number, head.corners);
        if cell(&after) != cell(before) {
            let (p, one, other) = (before.p, cell(before), cell(&after));
            return Err(format!("{p:?} was in {one:?}, and is in {other:?}"));
        }
        counts.add(situations(&call, before, &after));
    }
    Ok(())
}

/// Many insertions with heads that are parked.
fn parked_heads(build: &dyn Builder) -> Result<Counts, String> {
    let mut counts = Counts::default();
    for seed in 0..150 {
        let mut random = Random::new(seed);
        let mut built = BuiltMesh::started(build, &mut random, |_| Owned::with_room(40, 250));
        for _ in 0..12 {
            insert_elsewhere(&mut built, &mut random, &mut counts)?;
        }
    }
    Ok(counts)
}

/// The cells by their corners, of which no two are the same.
fn cells(built: &mut BuiltMesh) -> BTreeSet<Corners> {
    let mesh = built.loaded();
    let cells: BTreeSet<_> = mesh
        .cells()
        .into_iter()
        .map(|c| corners(&mesh, c))
        .collect();
    assert_eq!(cells.len(), mesh.cells().len());
    cells
}

/// Heads in many meshes, and in tables with the same cells in another order.
fn any_order(build: &dyn Builder) -> Result<(), String> {
    for seed in 0..150 {
        let mut random = Random::new(seed);
        let mut built = BuiltMesh::started(build, &mut random, |_| Owned::with_room(40, 250));
        for _ in 0..4 {
            let call = built.insertion(&mut random);
            built.insert(&call);
        }
        let same = cells(&mut built);
        for one in built.park(&mut random) {
            for _ in 0..20 {
                rearrange(&mut random, &mut built.mesh, &mut built.tables);
            }
            assert_eq!(cells(&mut built), same);
            let other = built.locate(one.p);
            if other.corners != one.corners {
                let (p, one, other) = (one.p, one.corners, other.corners);
                return Err(format!("{p:?} is in {one:?}, or in {other:?}"));
            }
        }
    }
    Ok(())
}

#[test]
fn both_hold_of_each_right_build() {
    for build in right_builds() {
        let counts = parked_heads(build.as_ref()).expect("heads stay");
        counts.all_occur(7);
        any_order(build.as_ref()).expect("one cell");
    }
}

/// Whether heads stay in their cells, and whether the order of the cells does not matter, of each wrong build of locate, and of
/// the one that renumbers cells.
#[test]
fn which_law_each_wrong_build_breaks() {
    for (name, stays, is_any_order) in [
        // A new cell may have a lower number.
        ("lowest-numbered", false, false),
        ("corners-unsorted", true, false),
        // Another order than the one that is asked for, but an order of the corners.
        ("greatest-first", true, true),
        ("last-in-order", false, true),
        // The cell is the same by its corners, and has another number.
        ("packed", false, true),
    ] {
        let build = compare::named(name).expect("a build");
        assert_eq!(parked_heads(build.as_ref()).is_ok(), stays, "{name}");
        assert_eq!(any_order(build.as_ref()).is_ok(), is_any_order, "{name}");
    }
}
