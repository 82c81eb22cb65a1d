//! Node files: a note, records of 12 bytes, a trailer of 20.

use crate::calls::{sides_in_range, Mesh, Position, Read, Tables, Written, NODE_LIMIT};
use crate::check::mesh_refusal;
use crate::rules::{RightRules, Rules};

pub const TRAILER: usize = 20;
pub const RECORD: usize = 12;

fn number(bytes: &[u8], place: usize) -> u32 {
    let four = &bytes[4 * place..4 * place + 4];
    u32::from_le_bytes([four[0], four[1], four[2], four[3]])
}

/// The trailer's sides and the file's part from first record to trailer, or nothing where the trailer is wrong.
pub(crate) fn split(file: &[u8]) -> Option<(Position, &[u8])> {
    let trailer_at = file.len().checked_sub(TRAILER)?;
    let trailer = &file[trailer_at..];
    let count = number(trailer, 3) as usize;
    let distance = number(trailer, 4) as usize;
    if count > NODE_LIMIT || distance != RECORD * count {
        return None;
    }
    let first = trailer_at.checked_sub(distance)?;
    let sides = [0, 1, 2].map(|k| number(trailer, k));
    Some((sides, &file[first..trailer_at]))
}

/// The positions of records.
pub(crate) fn records(bytes: &[u8]) -> Vec<Position> {
    let position = |record: &[u8]| [0, 1, 2].map(|axis| number(record, axis));
    bytes.chunks_exact(RECORD).map(position).collect()
}

pub fn read_nodes(file: &[u8], nodes: &mut [u32]) -> Read {
    let Some((sides, records)) = split(file) else {
        return Read::refused(9);
    };
    if !sides_in_range(sides) {
        return Read::refused(2);
    }
    let numbers = records.len() / 4;
    if nodes.len() < numbers {
        return Read::refused(10);
    }
    for (place, node) in nodes[..numbers].iter_mut().enumerate() {
        *node = number(records, place);
    }
    Read {
        refusal: 0,
        x: sides[0],
        y: sides[1],
        z: sides[2],
        count: (numbers / 3) as u32,
    }
}

/// A node file without a note.
pub fn encode(sides: Position, nodes: &[Position]) -> Vec<u8> {
    let count = nodes.len() as u32;
    let trailer = [sides[0], sides[1], sides[2], count, RECORD as u32 * count];
    let numbers = nodes.iter().flatten().chain(&trailer);
    numbers.flat_map(|n| n.to_le_bytes()).collect()
}

/// A file into an output, if there is place for it.
pub(crate) fn put(file: &[u8], out: &mut [u8]) -> Written {
    if out.len() < file.len() {
        return Written::refused(10);
    }
    out[..file.len()].copy_from_slice(file);
    Written {
        refusal: 0,
        bytes: file.len() as u32,
    }
}

/// "Writes points 8 onward."
pub fn write_nodes(mesh: Mesh, tables: &mut Tables, out: &mut [u8]) -> Written {
    write_nodes_with(&RightRules, mesh, tables, out)
}

pub fn write_nodes_with(
    rules: &dyn Rules,
    mesh: Mesh,
    tables: &mut Tables,
    out: &mut [u8],
) -> Written {
    let answer = written(rules, mesh, tables, out);
    tables.work.fill(0);
    answer
}

fn written(rules: &dyn Rules, mesh: Mesh, tables: &Tables, out: &mut [u8]) -> Written {
    let refusal = mesh_refusal(rules, mesh, tables, usize::MAX);
    if refusal != 0 {
        return Written::refused(refusal);
    }
    let coordinates = &tables.points[24..3 * mesh.points as usize];
    let nodes: Vec<Position> = coordinates
        .chunks_exact(3)
        .map(|node| [node[0], node[1], node[2]])
        .collect();
    put(&encode(mesh.sides(), &nodes), out)
}
