//! "Which cells a travel from A to B touches": "in rising number, every cell that shares at least one place with the segment, ends
//! included, fractions of a step included, and no other".

mod common;

use common::Kit;
use plain::{Counted, Mesh, Owned, Position, SIDE_LIMIT};

/// What an output holds before the call.
const FILLED: u16 = 777;

/// The answer and the output, of so many entries.
fn drive(kit: &mut Kit, ends: [Position; 2], room: usize) -> (Counted, Vec<u16>) {
    let mut cells = vec![FILLED; room];
    kit.tables.work.fill(0xAAAA);
    let answer = plain::drive_cells(kit.mesh, &mut kit.tables.lend(), ends, &mut cells);
    assert!(kit.tables.work.iter().all(|&w| w == 0));
    (answer, cells)
}

/// The cells on a drive, which are the same both ways; nothing but the work area changes.
fn listed(kit: &mut Kit, [a, b]: [Position; 2]) -> Vec<u16> {
    let before = kit.clone();
    let room = kit.mesh.cells as usize;
    let (answer, mut cells) = drive(kit, [a, b], room);
    assert_eq!(answer.refusal, 0);
    assert_eq!(drive(kit, [b, a], room), (answer, cells.clone()));
    kit.tables.work.clone_from(&before.tables.work);
    assert_eq!(*kit, before);
    cells.truncate(answer.count as usize);
    cells
}

/// The six cells are those of the ways from point 0 to point 7 along three edges of the box.
#[test]
fn in_the_started_box() {
    let mut kit = Kit::box4();
    for (ends, cells) in [
        // Through the inside of three cells.
        ([[3, 0, 1], [3, 4, 1]], vec![0, 1, 5]),
        // Along the edge that all six share.
        ([[0, 0, 0], [4, 4, 4]], vec![0, 1, 2, 3, 4, 5]),
        ([[1, 1, 1], [2, 2, 2]], vec![0, 1, 2, 3, 4, 5]),
        // Along a box edge: cell 0 has all of it, and cells 5 and 1 an end each.
        ([[4, 0, 0], [4, 4, 0]], vec![0, 1, 5]),
        ([[4, 1, 0], [4, 3, 0]], vec![0]),
        // In the face of points 0, 3 and 7, which cells 0 and 1 share.
        ([[2, 2, 1], [3, 3, 1]], vec![0, 1]),
        // In a wall, across its diagonal, and up to that diagonal.
        ([[4, 0, 3], [4, 3, 0]], vec![0, 5]),
        ([[4, 2, 3], [4, 2, 2]], vec![0, 5]),
        ([[4, 2, 1], [4, 3, 1]], vec![0]),
        // It ends in a face of another cell.
        ([[3, 0, 1], [3, 1, 1]], vec![0, 5]),
    ] {
        assert_eq!(listed(&mut kit, ends), cells, "{ends:?}");
    }
}

/// All twelve cells have the node, and a drive through it touches most of them there alone.
#[test]
fn through_a_node() {
    let mut kit = Kit::box4();
    kit.insert([2, 2, 2]);
    let all: Vec<u16> = (6..18).collect();
    assert_eq!(listed(&mut kit, [[0, 2, 2], [4, 2, 2]]), all);
    assert_eq!(listed(&mut kit, [[1, 2, 3], [3, 2, 1]]), all);
    assert_eq!(listed(&mut kit, [[2, 2, 2], [4, 2, 2]]), all);
    // A step beside it.
    let beside = listed(&mut kit, [[0, 2, 1], [4, 2, 1]]);
    assert!(beside.len() < 12, "{beside:?}");
}

/// Between two whole steps a drive is in a cell that holds no whole place of it.
#[test]
fn fractions_of_a_step() {
    let mut kit = Kit::started([1; 3], 8, 6);
    assert_eq!(listed(&mut kit, [[1, 0, 0], [0, 1, 1]]), [0, 1, 2, 3, 4, 5]);
    let mut kit = Kit::started([2, 3, 5], 8, 6);
    let ends = [[2, 0, 1], [1, 3, 3]];
    let held = |kit: &mut Kit, p: Position| kit.loaded().holding(p);
    let at_ends = [held(&mut kit, ends[0]), held(&mut kit, ends[1])].concat();
    let cells = listed(&mut kit, ends);
    assert!(
        cells.iter().any(|&c| !at_ends.contains(&c.into())),
        "{cells:?}"
    );
}

#[test]
fn of_length_0() {
    let mut kit = Kit::box4();
    for p in (0..125).map(|k| [k % 5, k / 5 % 5, k / 25]) {
        let holding = kit.loaded().holding(p);
        let cells = listed(&mut kit, [p, p]).into_iter().map(usize::from);
        assert!(cells.eq(holding));
    }
}

/// In the longest box, ends a step apart part two lists: products are above 2^100.
#[test]
fn in_the_longest_box() {
    let last = SIDE_LIMIT;
    let mut kit = Kit::started([last; 3], 8, 6);
    // Across the edge from point 0 to point 7, and a step beside it.
    let across = [[last, 1, 0], [0, last - 1, last]];
    assert_eq!(listed(&mut kit, across), [0, 1, 2, 3, 4, 5]);
    let beside = listed(&mut kit, [[last, 2, 0], [0, last - 1, last]]);
    assert!(beside.len() < 6, "{beside:?}");
}

#[test]
fn a_freed_entry_is_no_cell() {
    let mut kit = Kit::box4();
    kit.insert([1, 2, 3]);
    assert_eq!((kit.mesh.cells, kit.mesh.used), (12, 18));
    assert_eq!(listed(&mut kit, [[0; 3], [0; 3]]), [7, 9, 11, 13, 15, 17]);
}

#[test]
fn an_output_too_short() {
    let mut kit = Kit::box4();
    let ends = [[3, 0, 1], [3, 4, 1]];
    for room in 0..3 {
        let refused = (Counted::refused(10), vec![FILLED; room]);
        assert_eq!(drive(&mut kit, ends, room), refused);
    }
    let three = Counted {
        refusal: 0,
        count: 3,
    };
    assert_eq!(drive(&mut kit, ends, 3), (three, vec![0, 1, 5]));
    let cells = vec![0, 1, 5, FILLED, FILLED];
    assert_eq!(drive(&mut kit, ends, 5), (three, cells));
}

/// Each test comes before the next: with all that is wrong from it on, it is the one that refuses.
#[test]
fn refusals_in_order() {
    let refusal = |change: fn(&mut Mesh, &mut Owned), ends: [Position; 2]| {
        let mut kit = Kit::box4();
        change(&mut kit.mesh, &mut kit.tables);
        let (answer, _) = drive(&mut kit, ends, 0);
        assert_eq!(answer.count, 0);
        answer.refusal
    };
    let (inside, outside) = ([4; 3], [4, 5, 4]);
    let short = |mesh: &mut Mesh, tables: &mut Owned| {
        mesh.x = 0;
        tables.points.truncate(23);
    };
    assert_eq!(refusal(short, [outside; 2]), 1);
    assert_eq!(refusal(|mesh, _| mesh.x = 0, [outside; 2]), 2);
    assert_eq!(refusal(|mesh, _| mesh.cells = 5, [outside; 2]), 3);
    for ends in [[inside, outside], [outside, inside], [outside; 2]] {
        assert_eq!(refusal(|_, _| {}, ends), 4);
    }
    assert_eq!(refusal(|_, _| {}, [inside; 2]), 10);
    // The corrections are not looked at.
    assert_eq!(
        refusal(|_, tables| tables.corrections.clear(), [inside; 2]),
        10
    );
}
