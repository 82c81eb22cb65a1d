//! The node file's writer, and two files in one.

use std::collections::HashSet;

use plain::loaded::box_corner;
use plain::nodefile::{RECORD, TRAILER};
use plain::{in_box, read_nodes, Mesh, Position, Tables, Written, NODE_LIMIT};

use crate::check::mesh_refusal;

/// "Puts no note and writes points 8 onward."
pub fn write_nodes(mesh: Mesh, tables: &mut Tables, out: &mut [u8]) -> Written {
    tables.work.fill(0);
    let refusal = mesh_refusal(mesh, tables, usize::MAX);
    if refusal != 0 {
        return Written::refused(refusal);
    }
    let coordinates = &tables.points[24..3 * mesh.points as usize];
    put(mesh.sides(), coordinates, out)
}

/// A file of these coordinates, if there is place for it.
fn put([x, y, z]: Position, coordinates: &[u32], out: &mut [u8]) -> Written {
    let count = coordinates.len() / 3;
    let distance = RECORD * count;
    let bytes = distance + TRAILER;
    if out.len() < bytes {
        return Written::refused(10);
    }
    let trailer = [x, y, z, count as u32, distance as u32];
    let (places, _) = out[..bytes].as_chunks_mut();
    for (place, number) in places.iter_mut().zip(coordinates.iter().chain(&trailer)) {
        *place = number.to_le_bytes();
    }
    Written {
        refusal: 0,
        bytes: bytes as u32,
    }
}

/// "Two node files with equal sides become one without a note."
pub fn merge(first: &[u8], second: &[u8], out: &mut [u8]) -> Written {
    let mut numbers = [0; 2 * 3 * NODE_LIMIT];
    let one = read_nodes(first, &mut numbers);
    if one.refusal != 0 {
        return Written::refused(one.refusal);
    }
    let other = read_nodes(second, &mut numbers[3 * one.count as usize..]);
    if other.refusal != 0 {
        return Written::refused(other.refusal);
    }
    let sides = [one.x, one.y, one.z];
    if sides != [other.x, other.y, other.z] {
        return Written::refused(19);
    }
    let (nodes, _) = numbers.as_chunks();
    merge_nodes(sides, &nodes[..(one.count + other.count) as usize], out)
}

fn merge_nodes(sides: Position, nodes: &[Position], out: &mut [u8]) -> Written {
    if !nodes.iter().all(|&p| in_box(sides, p)) {
        return Written::refused(4);
    }
    let mut seen = HashSet::with_capacity(8 + nodes.len());
    seen.extend((0..8).map(|k| box_corner(sides, k)));
    let left: Vec<Position> = nodes.iter().copied().filter(|&p| seen.insert(p)).collect();
    if left.len() > NODE_LIMIT {
        return Written::refused(6);
    }
    put(sides, left.as_flattened(), out)
}
