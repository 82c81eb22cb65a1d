//! The random pairs of files come to every situation in which builds of a merge are likely to part.

mod common;

use std::collections::HashSet;

use common::Counts;
use compare::call::Merge;
use compare::merges::merge;
use plain::loaded::box_corner;
use plain::random::Random;
use plain::{in_box, Position, NODE_LIMIT};

/// What a file reads as.
struct Survey {
    refusal: u8,
    /// Those of the last 20 bytes, also where the file is refused.
    sides: Option<Position>,
    nodes: Vec<Position>,
    has_note: bool,
}

fn survey(file: &[u8]) -> Survey {
    let mut numbers = vec![0; 3 * NODE_LIMIT];
    let read = plain::read_nodes(file, &mut numbers);
    let nodes = &numbers.as_chunks().0[..read.count as usize];
    let number = |four: &[u8; 4]| u32::from_le_bytes(*four);
    let trailer = file.last_chunk::<20>();
    let sides = trailer.map(|bytes| [0, 1, 2].map(|k| number(&bytes.as_chunks().0[k])));
    Survey {
        refusal: read.refusal,
        sides,
        nodes: nodes.to_vec(),
        has_note: read.refusal == 0 && file.len() > 12 * nodes.len() + 20,
    }
}

/// Does a node stand twice among these?
fn repeats(nodes: &[Position]) -> bool {
    let different: HashSet<Position> = nodes.iter().copied().collect();
    different.len() < nodes.len()
}

type Situations = Vec<(&'static str, bool)>;

#[rustfmt::skip]
fn of_bytes(lent: &Merge, [first, second]: &[Survey; 2]) -> Situations {
    let refused = |a, b| first.refusal == a && second.refusal == b;
    let is_one = lent.first == lent.second;
    let is_apart = lent.first.end <= lent.second.start || lent.second.end <= lent.first.start;
    let has_other_sides = second.sides.is_some() && first.sides != second.sides;
    vec![
        ("a first file of no bytes", lent.first.is_empty()),
        ("a second file of no bytes", lent.second.is_empty()),
        ("one file for both", is_one && !lent.first.is_empty()),
        ("one file is the other's note", !is_one && !is_apart),
        ("notes in front of both", first.has_note && second.has_note),
        ("2 of the first, 9 of the second", refused(2, 9)),
        ("9 of the first, 2 of the second", refused(9, 2)),
        ("2 of the second alone", refused(0, 2)),
        ("9 of the second with equal sides", refused(0, 9) && first.sides == second.sides),
        ("9 of the second with other sides", refused(0, 9) && has_other_sides),
    ]
}

/// Of two files that read, of one box.
#[rustfmt::skip]
fn of_nodes(lent: &Merge, sides: Position, [first, second]: &[Survey; 2]) -> Situations {
    let [a, b] = [&first.nodes, &second.nodes];
    let all = [&a[..], b].concat();
    let outside = |nodes: &[Position]| nodes.iter().filter(|&&p| !in_box(sides, p)).count();
    let corners: HashSet<Position> = (0..8).map(|k| box_corner(sides, k)).collect();
    let different: HashSet<Position> = all.iter().copied().collect();
    let left = different.difference(&corners).count();
    let is_inside = outside(&all) == 0;
    let is_accepted = is_inside && left <= NODE_LIMIT;
    let is_full = a.len() == NODE_LIMIT && b.len() == NODE_LIMIT;
    let bytes = 12 * left + 20;
    vec![
        ("no nodes in the first", a.is_empty()),
        ("no nodes in the second", b.is_empty()),
        ("outside in the first alone", outside(a) > 0 && outside(b) == 0),
        ("outside in the second alone", outside(a) == 0 && outside(b) > 0),
        ("outside, and stands there twice", outside(&all) > 1),
        ("outside, and too many left", !is_inside && left > NODE_LIMIT),
        ("outside, and a short output", !is_inside && lent.room < bytes),
        ("too many left, and a short output", is_inside && left > NODE_LIMIT && lent.room < bytes),
        ("1,016 left", is_accepted && left == 1_016),
        ("1,017 left", is_inside && left == 1_017),
        ("1,016 left of two full files", is_accepted && left == 1_016 && is_full),
        ("repeated in the first alone", is_accepted && repeats(a) && !repeats(b)),
        ("repeated in the second alone", is_accepted && !repeats(a) && repeats(b)),
        ("repeated across the files alone", is_accepted && repeats(&all) && !repeats(a) && !repeats(b)),
        ("box corners", is_accepted && !different.is_disjoint(&corners)),
        ("room for just the file", is_accepted && lent.room == bytes),
        ("a byte too little room", is_accepted && lent.room + 1 == bytes),
        ("more room", is_accepted && lent.room > bytes),
    ]
}

fn situations(lent: &Merge) -> Situations {
    let surveys = lent.files(&lent.area).map(survey);
    let mut all = of_bytes(lent, &surveys);
    let is_read = surveys.iter().all(|survey| survey.refusal == 0);
    match surveys[0].sides {
        Some(sides) if is_read && surveys[1].sides == Some(sides) => {
            all.extend(of_nodes(lent, sides, &surveys));
        }
        _ => all.push(("unequal sides", is_read)),
    }
    all
}

#[test]
fn every_situation_occurs() {
    let mut random = Random::new(1);
    let mut counts = Counts::default();
    for _ in 0..20_000 {
        counts.add(situations(&merge(&mut random)));
    }
    counts.all_occur(29);
}
