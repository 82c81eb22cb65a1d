//! "Locating now answers, among the cells that hold the position, the one whose four corner numbers, sorted upward, come first
//! in order."

mod common;

use common::Kit;
use plain::Position;

/// The located cell, and its corners sorted upward.
fn located(kit: &mut Kit, p: Position) -> (u32, [u16; 4]) {
    let answer = plain::locate(kit.mesh, &mut kit.tables.lend(), p);
    assert_eq!(answer.refusal, 0);
    let mut corners = kit.tables.corners.as_chunks().0[answer.cell as usize];
    corners.sort();
    (answer.cell, corners)
}

fn holding(kit: &mut Kit, p: Position) -> Vec<usize> {
    kit.loaded().holding(p)
}

/// In the order of their corners the six cells are 0, 5, 1, 2, 4, 3.
#[test]
fn faces_and_edges_of_the_started_box() {
    let mut kit = Kit::box4();
    for (p, cells, first) in [
        ([2, 1, 2], vec![4, 5], 5),
        ([1, 1, 2], vec![3, 4], 4),
        ([1, 2, 2], vec![2, 3], 2),
        ([2, 2, 1], vec![0, 1], 0),
        ([0, 0, 2], vec![3, 4], 4),
        ([2, 2, 2], vec![0, 1, 2, 3, 4, 5], 0),
        ([4, 0, 4], vec![4, 5], 5),
    ] {
        assert_eq!(holding(&mut kit, p), cells);
        assert_eq!(located(&mut kit, p).0, first);
    }
}

/// README's example: a head is parked in the face of points 1, 5 and 8, and the middle of the wall x = 4 goes in.
#[test]
fn a_parked_head() {
    let (mut kit, head) = (Kit::box4(), [3, 1, 2]);
    kit.insert([2, 2, 2]);
    assert_eq!(holding(&mut kit, head), [16, 17]);
    assert_eq!(located(&mut kit, head), (17, [0, 1, 5, 8]));
    let answer = kit.insert([4, 2, 2]);
    assert_eq!((answer.after, answer.made, answer.mesh.cells), (2, 4, 14));
    assert_eq!(holding(&mut kit, head), [2, 17]);
    assert_eq!(located(&mut kit, head), (17, [0, 1, 5, 8]));
}

/// The numbers of points are compared as numbers, not by digits or bytes.
#[test]
fn numbers_of_more_digits() {
    let mut kit = Kit::started([16; 3], 400, 2_000);
    for k in 0..300 {
        kit.insert([1 + k % 7 * 2, 1 + k / 7 % 7 * 2, 1 + k / 49 * 2]);
    }
    assert!(kit.mesh.points > 300);
    let order = |kit: &Kit, c: usize| {
        let mut corners = kit.tables.corners.as_chunks::<4>().0[c].map(u64::from);
        corners.sort();
        corners.into_iter().fold(0, |all, point| all << 16 | point)
    };
    for point in (8..kit.mesh.points as usize).step_by(9) {
        let p = kit.tables.points.as_chunks().0[point];
        let cells = holding(&mut kit, p);
        assert!(cells.len() > 3);
        let first = cells.into_iter().min_by_key(|&c| order(&kit, c));
        assert_eq!(first, Some(located(&mut kit, p).0 as usize));
    }
}
