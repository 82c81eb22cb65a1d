//! The random calls come to every situation in which builds of the sphere test are likely to part, by themselves and in
//! insertions.

mod common;

use std::cmp::Ordering::{self, Equal, Greater, Less};
use std::collections::BTreeMap;

use common::each_step;
use compare::call::{Answer, Call, Left};
use compare::generate::Step;
use compare::spheres::NEAR_TIES;
use plain::cavity::Cavity;
use plain::geometry::{exact_sum, float_sum};
use plain::loaded::Loaded;
use plain::{Answers, Owned, Position, RightRules};

/// E and T of a cell and a position.
type Sums = (i128, f64);

fn sums(corners: [Position; 4], p: Position) -> Sums {
    (exact_sum(corners, p), float_sum(corners, p))
}

/// T lies within this of E.
const LIMIT: f64 = (1u64 << 39) as f64;

#[rustfmt::skip]
fn situations((e, t): Sums) -> [(&'static str, bool); 16] {
    let near = |limit: f64| (t - limit).abs() <= LIMIT / 64.0;
    [
        ("E above 0, T above 2^39", e > 0 && t > LIMIT),
        ("E below 0, T below -2^39", e < 0 && t < -LIMIT),
        ("E above 0, T close", e > 0 && t.abs() <= LIMIT),
        ("E below 0, T close", e < 0 && t.abs() <= LIMIT),
        ("a tie, T above 0", e == 0 && t > 0.0),
        ("a tie, T below 0", e == 0 && t < 0.0),
        ("a tie, T = 0", e == 0 && t == 0.0),
        ("E above 0, T below 0", e > 0 && t < 0.0),
        ("E above 0, T = 0", e > 0 && t == 0.0),
        ("E below 0, T above 0", e < 0 && t > 0.0),
        ("E below 0, T = 0", e < 0 && t == 0.0),
        ("T = 2^39", t == LIMIT),
        ("T = -2^39", t == -LIMIT),
        ("T a little beyond 2^39 in size", t.abs() > LIMIT && near(LIMIT.copysign(t))),
        ("T a little within 2^39 in size", t.abs() < LIMIT && near(LIMIT.copysign(t))),
        ("E above 2^85 in size", e.abs() > 1 << 85),
    ]
}

/// The sums of the cells that are asked when a node goes in by the sphere test: those of its cavity, and their neighbours.
fn asked(mesh: &Loaded, p: Position) -> Vec<Sums> {
    let mut cavity = Cavity::base(mesh, p);
    cavity.grow(Answers::SphereTest);
    let is_asked = |&c: &usize| {
        let mut across = (0..4).filter_map(|i| mesh.across(c, i));
        cavity.in_cavity[c] || across.any(|u| cavity.in_cavity[u])
    };
    let cells = mesh.cells().into_iter().filter(is_asked);
    cells.map(|c| sums(mesh.positions(c), p)).collect()
}

/// The sums that go with nodes which are put in one after the other.
fn asked_in_turn(step: &Step, nodes: &[Position]) -> Vec<Sums> {
    let (mut mesh, mut tables) = (step.mesh, step.tables.clone());
    let mut sums = vec![];
    for &p in nodes {
        let loaded = Loaded::load(&RightRules, mesh, &tables.lend());
        sums.extend(asked(&loaded, p));
        mesh = plain::insert(mesh, &mut tables.lend(), p).mesh;
    }
    sums
}

/// The sums that an accepted call goes by, after what it is. Of a list, those of its first nodes.
fn gone_by(step: &Step, left: &Left) -> (&'static str, Vec<Sums>) {
    match (&step.call, left.answer) {
        (Call::SphereTest(corners, p), Answer::Sphere(sphere)) if sphere.refusal == 0 => {
            ("sphere test", vec![sums(*corners, *p)])
        }
        (Call::Insert(p), Answer::Inserted(inserted)) if inserted.refusal == 0 => {
            ("insertion", asked_in_turn(step, &[*p]))
        }
        (Call::InsertList(numbers), Answer::Listed(listed)) if listed.place > 0 => {
            let went_in = listed.place.min(3) as usize;
            (
                "insertion",
                asked_in_turn(step, &numbers.as_chunks().0[..went_in]),
            )
        }
        _ => ("", vec![]),
    }
}

type Counts = BTreeMap<(&'static str, &'static str), u64>;

/// Each situation after what is called, and how many calls come to it.
fn counts(seed: u64, calls: u64) -> Counts {
    let mut counts = Counts::new();
    each_step(seed, calls, |step, left, _| {
        let (call, sums) = gone_by(step, left);
        let mut found: BTreeMap<&str, bool> = BTreeMap::new();
        for (situation, occurs) in sums.into_iter().flat_map(situations) {
            *found.entry(situation).or_default() |= occurs;
        }
        for (situation, occurs) in found {
            *counts.entry((call, situation)).or_default() += u64::from(occurs);
        }
    });
    counts
}

/// Too rare for random insertions.
const OF_SPHERE_TESTS_ALONE: [&str; 2] = ["T = -2^39", "E above 2^85 in size"];

#[test]
fn every_situation_occurs() {
    let mut counts = counts(1, 60_000);
    counts.retain(|(call, situation), _| {
        *call == "sphere test" || !OF_SPHERE_TESTS_ALONE.contains(situation)
    });
    assert_eq!(counts.len(), 16 + 14);
    let missing: Vec<_> = counts.iter().filter(|(_, &count)| count == 0).collect();
    assert!(missing.is_empty(), "{missing:?}");
}

/// E and T beside 0, of each in order.
const SIGNS: [(Ordering, Ordering); 6] = [
    (Greater, Less),
    (Greater, Less),
    (Greater, Equal),
    (Less, Greater),
    (Less, Greater),
    (Less, Equal),
];

#[test]
fn near_ties_are_in_meshes_of_two_nodes() {
    for (tie, signs) in NEAR_TIES.iter().zip(SIGNS) {
        let [a, b, c, d, p] = tie.positions();
        let (e, t) = sums([a, b, c, d], p);
        assert_eq!((e.cmp(&0), t.total_cmp(&0.0)), signs);
        let mut tables = Owned::with_room(10, 40);
        let mesh = plain::start(tie.sides, &mut tables.lend()).mesh;
        let nodes = tie.nodes[..2].as_flattened();
        let mesh = plain::insert_list(mesh, &mut tables.lend(), nodes).mesh;
        let mesh = Loaded::load(&RightRules, mesh, &tables.lend());
        let mut cells = mesh.cells().into_iter();
        assert!(cells.any(|cell| mesh.positions(cell) == [a, b, c, d]));
    }
}
