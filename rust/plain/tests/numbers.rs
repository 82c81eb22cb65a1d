//! "Cell numbers that stay": which numbers new cells take, the chain of the freed ones, and what the mesh check asks of it.

mod common;

use common::Kit;
use plain::{Mesh, Position, NONE};

/// The freed numbers, from the chain's first on.
fn chain(kit: &mut Kit) -> Vec<usize> {
    kit.loaded().chain().numbers
}

/// Chain, cell count and used length.
fn record(kit: &mut Kit) -> (Vec<usize>, u32, u32) {
    assert!(kit.check());
    (chain(kit), kit.mesh.cells, kit.mesh.used)
}

/// An entry's corners and neighbours.
fn entry(kit: &Kit, c: usize) -> [[u16; 4]; 2] {
    [&kit.tables.corners, &kit.tables.neighbours].map(|table| table.as_chunks().0[c])
}

/// The box 4, 4, 4 with entry 0 freed, by answers of no: cells 1 to 5 of the start, and two new ones.
fn split() -> Kit {
    let mut kit = Kit::box4();
    kit.insert_answers(&[0; 6], [4, 1, 0]);
    kit
}

#[test]
fn a_running_table_starts_with_an_empty_chain() {
    assert_eq!(record(&mut Kit::box4()), (vec![], 6, 6));
}

/// No number is free at first, so the new cells go to the end; then the chain is taken from its front.
#[test]
fn new_cells_take_the_chain_then_the_end_of_the_table() {
    let mut kit = Kit::box4();
    kit.insert([1, 2, 3]);
    assert_eq!(record(&mut kit), (vec![5, 4, 3, 2, 1, 0], 12, 18));
    // Cells 6 and 7 hold the node, and go; of the six new cells three have cell 6's corners, then three those of cell 7.
    let [six, seven] = [6, 7].map(|c| entry(&kit, c)[0]);
    kit.insert_answers(&[0; 18], [2, 2, 2]);
    assert_eq!(record(&mut kit), (vec![7, 6], 16, 18));
    for (old, new) in [(six, [5, 4, 3]), (seven, [2, 1, 0])] {
        for c in new {
            let corners = entry(&kit, c)[0];
            assert_eq!((0..4).filter(|&i| corners[i] == old[i]).count(), 3);
        }
    }
    // Two numbers of the chain are not enough for four cells: two come from the end.
    let base = kit.loaded().holding([2, 1, 2]);
    assert_eq!(kit.insert_answers(&[0; 18], [2, 1, 2]).made, 4);
    assert_eq!(record(&mut kit), (base, 19, 20));
}

#[test]
fn a_cell_outside_the_cavity_keeps_its_number() {
    let mut kit = Kit::box4();
    for p in [[1, 2, 3], [2, 2, 2], [3, 1, 1], [0, 3, 2], [4, 2, 2]] {
        let before = kit.clone();
        let mut marks = vec![9; kit.mesh.used as usize];
        assert_eq!(kit.look(&mut marks, p).refusal, 0);
        kit.insert(p);
        for c in before.clone().loaded().cells() {
            let [corners, neighbours] = entry(&before, c);
            let [corners_after, neighbours_after] = entry(&kit, c);
            if marks[c] == 1 {
                assert_eq!(corners_after, [NONE; 4]);
                continue;
            }
            assert_eq!(corners_after, corners);
            for (u, now) in neighbours.into_iter().zip(neighbours_after) {
                let is_replaced = u != NONE && marks[u as usize] == 1;
                assert_eq!(u == now, !is_replaced);
            }
        }
    }
}

#[test]
fn a_freed_entry_names_the_next() {
    let mut kit = Kit::box4();
    kit.insert([1, 2, 3]);
    for (c, next) in [(5, 4), (4, 3), (3, 2), (2, 1), (1, 0), (0, NONE)] {
        assert_eq!(entry(&kit, c), [[NONE; 4], [next, NONE, NONE, NONE]]);
    }
}

/// 8 goes by the counts, which is the same as that the chain and the end of the table do not suffice.
#[test]
fn cells_full_with_numbers_on_the_chain() {
    let mut full = Kit::started([4; 3], 64, 18);
    full.insert([1, 2, 3]);
    assert_eq!((full.mesh.cells, full.mesh.used), (12, 18));
    let refused = full.clone();
    assert_eq!(full.insert([2, 2, 2]).refusal, 8);
    assert_eq!(full, refused);
    assert_eq!(full.insert_answers(&[0; 18], [2, 2, 2]).made, 6);
    assert_eq!((full.mesh.cells, full.mesh.used), (16, 18));
    assert!(full.check());
}

#[test]
fn a_freed_entrys_answer_is_ignored() {
    let p = [3, 3, 1];
    let mut no = split();
    let mut yes = no.clone();
    let answer = no.insert_answers(&[0; 8], p);
    assert_eq!(answer.refusal, 0);
    assert_eq!(yes.insert_answers(&[255, 0, 0, 0, 0, 0, 0, 0], p), answer);
    assert_eq!(yes, no);
}

/// A freed entry's mark is 0, whatever it was before, and no other byte is one that a look gives.
#[test]
fn a_freed_entrys_mark_is_0() {
    let (mut kit, p) = (split(), [3, 3, 1]);
    let mut marks = [9; 8];
    assert_eq!(kit.look(&mut marks, p).refusal, 0);
    assert_eq!(marks[0], 0);
    for byte in [1, 2, 255] {
        let mut other = marks;
        other[0] = byte;
        assert_eq!(kit.insert_marked(&other, p).refusal, 14);
    }
    assert_eq!(kit.insert_marked(&marks, p).refusal, 0);
}

/// No position is in a freed entry, though its four sides would be 0.
#[test]
fn a_freed_entry_holds_nothing() {
    let mut kit = split();
    for p in [[0, 0, 0], [4, 4, 4], [2, 2, 2], [4, 1, 0], [1, 2, 3]] {
        assert!(!kit.loaded().holding(p).contains(&0));
        assert_ne!(plain::locate(kit.mesh, &mut kit.tables.lend(), p).cell, 0);
    }
}

#[test]
fn listings_leave_freed_entries_out() {
    let kit = split();
    let text = plain::listing::cells(kit.mesh, &kit.tables);
    let lines: Vec<&str> = text.lines().collect();
    assert_eq!(lines[0], "box 4 4 4 points 9 cells 7");
    let numbers: Vec<&str> = lines[1..]
        .iter()
        .filter_map(|line| line.split_once(' ').map(|(number, _)| number))
        .collect();
    assert_eq!(numbers, ["1", "2", "3", "4", "5", "6", "7"]);
}

type Damage = fn(&mut Kit);

/// Each on a mesh with the chain 5, 4, 3, 2, 1, 0 and cells 6 to 17.
#[rustfmt::skip]
const NO_MESH: [(&str, Damage); 23] = [
    ("an empty chain", |kit| kit.mesh.chain = NONE.into()),
    ("the first left off", |kit| kit.mesh.chain = 4),
    ("one in the middle left off", |kit| kit.tables.neighbours[4 * 4] = 2),
    ("the last left off", |kit| kit.tables.neighbours[4] = NONE),
    ("a circle", |kit| kit.tables.neighbours[0] = 5),
    ("a circle that misses the first", |kit| kit.tables.neighbours[0] = 4),
    ("an entry that is its own next", |kit| kit.tables.neighbours[4 * 3] = 3),
    ("a cell first", |kit| kit.mesh.chain = 6),
    ("a cell at the end", |kit| kit.tables.neighbours[0] = 6),
    ("past the used length first", |kit| kit.mesh.chain = 18),
    ("past the used length at the end", |kit| kit.tables.neighbours[0] = 18),
    ("past the tables at the end", |kit| kit.tables.neighbours[0] = 65_534),
    ("a first number of more than 16 bits", |kit| kit.mesh.chain = 65_536 + 5),
    ("65,535 with more bits", |kit| kit.mesh.chain = 2 * 65_536 - 1),
    ("the greatest number", |kit| kit.mesh.chain = u32::MAX),
    ("a cell fewer", |kit| kit.mesh.cells = 11),
    ("a cell more", |kit| kit.mesh.cells = 13),
    ("as many cells as entries", |kit| kit.mesh.cells = 18),
    ("an entry less", |kit| kit.mesh.used = 17),
    ("an entry more", |kit| kit.mesh.used = 19),
    ("no entries", |kit| kit.mesh.used = 0),
    ("more than the capacity", |kit| kit.mesh.used = 257),
    ("the greatest used length", |kit| kit.mesh.used = u32::MAX),
];

#[test]
fn chains_and_records_that_are_no_mesh() {
    let mut kit = Kit::box4();
    kit.insert([1, 2, 3]);
    assert!(kit.check());
    for (name, damage) in NO_MESH {
        let mut damaged = kit.clone();
        damage(&mut damaged);
        assert!(!damaged.check(), "{name}");
    }
    // One entry at a time: a corner of its own, or one of its other three neighbours.
    for entry in 0..6 {
        for i in 0..4 {
            let mut damaged = kit.clone();
            damaged.tables.corners[4 * entry + i] = 0;
            assert!(!damaged.check(), "corner {i} of {entry}");
            if i > 0 {
                for number in [0, 5, 6, 18, 65_534] {
                    let mut damaged = kit.clone();
                    damaged.tables.neighbours[4 * entry + i] = number;
                    assert!(!damaged.check(), "neighbour {i} of {entry}");
                }
            }
        }
    }
}

/// One to three corners of 65,535 are a cell with a wrong corner, on the chain or not.
#[test]
fn an_entry_with_some_corners_of_65535_is_not_freed() {
    let mut kit = Kit::box4();
    kit.insert([1, 2, 3]);
    for places in 1..15 {
        for c in [2, 9] {
            let mut damaged = kit.clone();
            for i in (0..4).filter(|i| places >> i & 1 == 1) {
                damaged.tables.corners[4 * c + i] = if c == 2 { 1 } else { NONE };
            }
            assert!(!damaged.check());
            damaged.mesh.cells = if c == 2 { 13 } else { 11 };
            assert!(!damaged.check());
        }
    }
}

/// A whole chain in another order, and one with more numbers, are as good.
#[test]
fn any_order_of_the_chain_is_a_mesh() {
    let mut kit = Kit::box4();
    kit.insert([1, 2, 3]);
    let order = [3, 0, 18, 5, 1, 19, 4, 2];
    for (place, &c) in order.iter().enumerate() {
        let next = order.get(place + 1).map_or(NONE, |&next| next as u16);
        kit.tables.corners[4 * c..4 * c + 4].fill(NONE);
        kit.tables.neighbours[4 * c..4 * c + 4].copy_from_slice(&[next, NONE, NONE, NONE]);
    }
    kit.mesh = Mesh {
        chain: 3,
        used: 20,
        ..kit.mesh
    };
    assert_eq!(record(&mut kit), (order.to_vec(), 12, 20));
    kit.insert_answers(&[0; 20], [2, 2, 2]);
    assert_eq!(record(&mut kit), (vec![7, 6, 4, 2], 16, 20));
}

/// A cell may not name a freed entry, whose number is below the used length.
#[test]
fn a_cell_that_names_a_freed_entry_is_no_mesh() {
    let mut kit = Kit::box4();
    kit.insert([1, 2, 3]);
    for face in 24..72 {
        let mut damaged = kit.clone();
        damaged.tables.neighbours[face] = 3;
        assert!(!damaged.check());
    }
}

/// Entries from the used length on are not looked at, and stay.
#[test]
fn entries_that_are_not_used_may_be_any() {
    let mut kit = Kit::box4();
    kit.insert([1, 2, 3]);
    for number in [0, 1, 5, 17, 18, NONE] {
        kit.tables.corners[72..].fill(number);
        kit.tables.neighbours[72..].fill(number);
        assert!(kit.check());
        let mut after = kit.clone();
        let p: Position = [2, 2, 2];
        assert_eq!(after.insert_answers(&[0; 18], p).refusal, 0);
        assert_eq!(after.tables.corners[72..], kit.tables.corners[72..]);
        assert_eq!(after.tables.neighbours[72..], kit.tables.neighbours[72..]);
    }
}
