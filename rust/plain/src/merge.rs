//! "Two surveys in one file."

use crate::calls::{in_box, sides_in_range, Position, Written, NODE_LIMIT};
use crate::loaded::box_corner;
use crate::nodefile::{encode, put, records, split};
use crate::rules::{RightRules, Rules};

/// "Two node files with equal sides become one without a note."
pub fn merge(first: &[u8], second: &[u8], out: &mut [u8]) -> Written {
    merge_with(&RightRules, first, second, out)
}

pub fn merge_with(rules: &dyn Rules, first: &[u8], second: &[u8], out: &mut [u8]) -> Written {
    match merged(rules, first, second) {
        Ok(file) => put(&file, out),
        Err(refusal) => Written::refused(refusal),
    }
}

/// Sides and nodes of a file, or 9 or 2.
fn survey(file: &[u8]) -> Result<(Position, Vec<Position>), u8> {
    let (sides, bytes) = split(file).ok_or(9)?;
    match sides_in_range(sides) {
        true => Ok((sides, records(bytes))),
        false => Err(2),
    }
}

fn merged(rules: &dyn Rules, first: &[u8], second: &[u8]) -> Result<Vec<u8>, u8> {
    let (sides, first) = survey(first)?;
    let (other_sides, second) = survey(second)?;
    if sides != other_sides {
        return Err(19);
    }
    let nodes = rules.surveyed(&first, &second);
    if !nodes.iter().all(|&p| in_box(sides, p)) {
        return Err(4);
    }
    let is_left = |place: usize| {
        !is_box_corner(sides, nodes[place]) && !rules.stands_earlier(&nodes, first.len(), place)
    };
    let left: Vec<Position> = (0..nodes.len())
        .filter(|&place| is_left(place))
        .map(|place| nodes[place])
        .collect();
    match left.len() > NODE_LIMIT {
        true => Err(6),
        false => Ok(encode(sides, &left)),
    }
}

fn is_box_corner(sides: Position, p: Position) -> bool {
    (0..8).any(|k| box_corner(sides, k) == p)
}
