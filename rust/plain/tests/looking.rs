//! "Look first, then insert": the marks and the report of a look, and the insertion that takes them.

mod common;

use common::Kit;
use plain::{Inserted, Looked, Mesh, Position};

/// The marks that an accepted look writes.
fn marks(kit: &mut Kit, p: Position) -> Vec<u8> {
    let mut marks = vec![9; kit.mesh.used as usize];
    assert_eq!(kit.look(&mut marks, p).refusal, 0);
    marks
}

#[test]
fn pieces_of_the_started_box() {
    for (p, made, least) in [
        ([1, 2, 3], 12, 640.0),
        ([2, 2, 0], 10, 512.0),
        ([2, 0, 0], 8, 256.0),
    ] {
        let mut kit = Kit::box4();
        let before = kit.clone();
        let mut marks = [9; 8];
        let looked = Looked {
            refusal: 0,
            point: 8,
            before: 6,
            after: 6,
            made,
            least,
        };
        assert_eq!(kit.look(&mut marks, p), looked);
        assert_eq!(marks, [1, 1, 1, 1, 1, 1, 9, 9]);
        assert_eq!(kit, before);
        assert_eq!(kit.insert_marked(&marks, p).report(), looked);
        assert_ne!(kit, before);
    }
}

#[test]
fn the_cells_of_the_corrected_cavity_are_marked() {
    let mut kit = Kit::box4();
    kit.insert([1, 2, 3]);
    // Entries 0 to 5 are freed.
    assert_eq!(
        marks(&mut kit, [2, 2, 2]),
        [0, 0, 0, 0, 0, 0, 1, 1, 1, 1, 1, 0, 0, 0, 0, 1, 1, 1]
    );
    // Entry 0 is freed. The base is cell 6; the cavity is cells 1 to 6 before the correction.
    let mut kit = Kit::box4();
    kit.insert_answers(&[0; 6], [4, 1, 0]);
    let mut marks = [9; 8];
    let looked = kit.look(&mut marks, [4, 2, 0]);
    assert_eq!((looked.before, looked.after, looked.made), (6, 3, 5));
    assert_eq!(marks, [0, 1, 1, 0, 0, 0, 1, 0]);
}

/// Each look's marks, with bytes beyond that are not read, and the plain insertion beside.
#[test]
fn an_insertion_with_a_looks_marks_is_the_plain_one() {
    let mut kit = Kit::box4();
    kit.insert_answers(&[0; 6], [4, 1, 0]);
    for p in [[4, 2, 0], [1, 2, 3], [2, 2, 2], [0, 3, 3], [2, 0, 0]] {
        let before = kit.clone();
        let mut marks = marks(&mut kit, p);
        assert_eq!(kit, before);
        marks.extend([0, 1, 2, 255]);
        let mut plainly = kit.clone();
        let answer = kit.insert_marked(&marks, p);
        assert_eq!(answer, plainly.insert(p));
        assert_eq!(answer.refusal, 0);
        assert_eq!(kit, plainly);
    }
    assert!(kit.check());
}

/// Asks for 14, and for nothing else.
#[track_caller]
fn are_other(kit: &mut Kit, marks: &[u8], p: Position) {
    let before = kit.clone();
    let refused = Inserted::refused(14, kit.mesh);
    assert_eq!(kit.insert_marked(marks, p), refused);
    assert_eq!(*kit, before);
}

#[test]
fn other_marks() {
    let mut kit = Kit::box4();
    kit.insert([1, 2, 3]);
    let p = [2, 2, 2];
    let right = marks(&mut kit, p);
    for place in 0..right.len() {
        for byte in (0..=255).filter(|&byte| byte != right[place]) {
            let mut marks = right.clone();
            marks[place] = byte;
            are_other(&mut kit, &marks, p);
        }
    }
    for count in 0..right.len() {
        are_other(&mut kit, &right[..count], p);
    }
    are_other(&mut kit, &[0; 18], p);
    are_other(&mut kit, &[1; 18], p);
    let other = marks(&mut kit, [3, 1, 1]);
    are_other(&mut kit, &other, p);
    assert_eq!(kit.insert_marked(&right, p).refusal, 0);
}

#[test]
fn a_look_that_is_out_of_date() {
    let mut kit = Kit::box4();
    let [first, second] = [[1, 2, 3], [3, 1, 1]].map(|p| (p, marks(&mut kit.clone(), p)));
    assert_eq!(kit.insert_marked(&first.1, first.0).refusal, 0);
    are_other(&mut kit, &second.1, second.0);
    let again = marks(&mut kit, second.0);
    assert_eq!(kit.insert_marked(&again, second.0).refusal, 0);
}

/// A look and an insertion with these marks are refused so, and leave all as it was.
#[track_caller]
fn refuse(kit: &mut Kit, marks: &[u8], p: Position, refusals: [u8; 2]) {
    let before = kit.clone();
    let mut looked = marks.to_vec();
    assert_eq!(kit.look(&mut looked, p), Looked::refused(refusals[0]));
    assert_eq!(looked, marks);
    let refused = Inserted::refused(refusals[1], kit.mesh);
    assert_eq!(kit.insert_marked(marks, p), refused);
    assert_eq!(*kit, before);
}

/// With no marks each has 10 or 14 due as well.
#[test]
fn refusals_in_order() {
    let mut short = Kit::started([4; 3], 8, 6);
    short.mesh.x = 0;
    short.tables.corners.truncate(23);
    refuse(&mut short, &[], [9; 3], [1; 2]);
    let mut kit = Kit::started([4; 3], 8, 17);
    kit.mesh = Mesh {
        x: 0,
        cells: 7,
        ..kit.mesh
    };
    refuse(&mut kit, &[], [9; 3], [2; 2]);
    kit.mesh.x = 4;
    refuse(&mut kit, &[], [9; 3], [3; 2]);
    kit.mesh.cells = 6;
    refuse(&mut kit, &[], [9; 3], [4; 2]);
    refuse(&mut kit, &[], [4; 3], [5; 2]);
    refuse(&mut kit, &[], [1, 2, 3], [6; 2]);
    kit.tables.points.resize(27, 0);
    kit.tables.corrections.resize(27, 0);
    for marks in [&[][..], &[0; 6], &[1; 6], &[2; 9]] {
        refuse(&mut kit, marks, [1, 2, 3], [8; 2]);
    }
    kit.tables.corners.resize(72, 0);
    kit.tables.neighbours.resize(72, 0);
    kit.tables.work.resize(54, 0);
    for count in 0..6 {
        refuse(&mut kit, &[1; 6][..count], [1, 2, 3], [10, 14]);
    }
    assert_eq!(kit.insert_marked(&[1; 6], [1, 2, 3]).refusal, 0);
}

/// Marks are counted against the used length of the record, in tables with room for more.
#[test]
fn as_many_marks_as_used_entries_are_enough() {
    let mut kit = Kit::box4();
    kit.insert([1, 2, 3]);
    let p = [2, 2, 2];
    refuse(&mut kit, &[7; 17], p, [10, 14]);
    let right = marks(&mut kit, p);
    assert_eq!(kit.insert_marked(&right, p).refusal, 0);
}
