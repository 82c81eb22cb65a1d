//! The listing program, from the file's bytes to the text that it prints.

use std::fmt::Write;

use crate::calls::{Mesh, Owned, NODE_LIMIT, NONE};
use crate::{insert_list, read_nodes, start};

pub const INPUT_LIMIT: usize = 65_536;

pub fn listing(file: &[u8]) -> String {
    if file.len() > INPUT_LIMIT {
        return "refused 9\n".to_string();
    }
    let mut nodes = [0; 3 * NODE_LIMIT];
    let read = read_nodes(file, &mut nodes);
    if read.refusal != 0 {
        return format!("refused {}\n", read.refusal);
    }
    let mut owned = Owned::largest();
    let mesh = start([read.x, read.y, read.z], &mut owned.lend()).mesh;
    let nodes = &nodes[..3 * read.count as usize];
    let listed = insert_list(mesh, &mut owned.lend(), nodes);
    let mut text = cells(listed.mesh, &owned);
    if listed.refusal != 0 {
        text += &format!("stopped {} {}\n", listed.place, listed.refusal);
    }
    text
}

/// The box with its counts, then a line a cell: number, corners, neighbours, a dash for none. "Listings leave freed entries out
/// and go by rising number."
pub fn cells(mesh: Mesh, tables: &Owned) -> String {
    let Mesh {
        x,
        y,
        z,
        points,
        cells,
        used,
        ..
    } = mesh;
    let mut text = format!("box {x} {y} {z} points {points} cells {cells}\n");
    let (corners, _) = tables.corners.as_chunks();
    let (neighbours, _) = tables.neighbours.as_chunks::<4>();
    let entries = corners.iter().zip(neighbours).enumerate();
    for (c, (corners, neighbours)) in entries.take(used as usize) {
        if *corners == [NONE; 4] {
            continue;
        }
        let _ = write!(text, "{c}");
        for corner in corners {
            let _ = write!(text, " {corner}");
        }
        for neighbour in neighbours {
            let _ = match *neighbour {
                NONE => write!(text, " -"),
                number => write!(text, " {number}"),
            };
        }
        text.push('\n');
    }
    text
}
