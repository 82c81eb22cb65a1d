//! Corrections of points and positions, over the archive.

mod common;

use common::lattice;
use gantry::{raw, Correction, Mesh, Position, Refusal, Room, CORRECTION_LIMIT};

/// A lattice whose points have different corrections on each axis.
fn corrected() -> Mesh {
    let mut mesh = Mesh::start(15, 15, 15).unwrap();
    mesh.insert_list(&lattice(4, 5)).unwrap();
    for point in 0..mesh.points().len() {
        let k = point as i32;
        let numbers = [7 * k - 200, 300 - k, k % 3 * 500 - 500];
        mesh.set_correction(point, numbers).unwrap();
    }
    mesh
}

#[test]
fn a_point_has_its_own() {
    let mut mesh = corrected();
    for point in 0..mesh.points().len() {
        let (at, own) = (mesh.points()[point], mesh.corrections()[point]);
        assert_eq!(mesh.correction(at), Ok(own));
    }
}

/// On the way from a corner of a cell to another one.
#[test]
fn a_position_lies_between_the_corners() {
    let mut mesh = corrected();
    for cell in Vec::from_iter(mesh.cells()) {
        let [a, b, ..] = cell.corners;
        let [p, q] = [a, b].map(|point| mesh.points()[point]);
        let middle = [0, 1, 2].map(|axis| (p[axis] + q[axis]) / 2);
        let read = mesh.correction(middle).unwrap();
        let four = cell.corners.map(|point| mesh.corrections()[point]);
        if (0..3).all(|axis| (p[axis] + q[axis]) % 2 == 0) {
            let halves = [0, 1, 2].map(|axis| {
                let sum = four[0][axis] + four[1][axis];
                (sum + sum.signum() * (sum % 2).abs()) / 2
            });
            assert_eq!(read, halves);
        }
        let number = cell.number;
        if mesh.locate(middle) == Ok(number) {
            for axis in 0..3 {
                let numbers = four.map(|numbers| numbers[axis]);
                assert!(numbers.iter().min() <= Some(&read[axis]));
                assert!(numbers.iter().max() >= Some(&read[axis]));
            }
        }
    }
}

#[test]
fn an_insertion_moves_nothing_at_its_node() {
    let mut mesh = corrected();
    for (k, p) in [[1, 2, 3], [7, 7, 8], [14, 1, 9], [4, 11, 0]]
        .into_iter()
        .enumerate()
    {
        let before = mesh.correction(p).unwrap();
        let (points, corrections) = (mesh.points().len(), mesh.corrections().to_vec());
        match k {
            0 => assert!(mesh.insert(p).is_ok()),
            1 => assert!(mesh.insert_answers(&vec![1; mesh.used()], p).is_ok()),
            2 => {
                let look = mesh.look(p).unwrap();
                assert_eq!(mesh.corrections(), corrections);
                assert!(mesh.insert_looked(&look).is_ok());
            }
            _ => assert_eq!(mesh.insert_list(&[p]), Ok(1)),
        }
        assert_eq!(mesh.corrections()[..points], corrections);
        assert_eq!(mesh.corrections()[points..], [before]);
        assert_eq!(mesh.correction(p), Ok(before));
    }
}

#[test]
fn settings_and_readings_that_are_refused() {
    let mut mesh = corrected();
    let (before, points) = (mesh.clone(), mesh.points().len());
    let limit = CORRECTION_LIMIT;
    for wrong in [limit + 1, -limit - 1, i32::MAX, i32::MIN] {
        for axis in 0..3 {
            let mut numbers = [0; 3];
            numbers[axis] = wrong;
            assert_eq!(mesh.set_correction(0, numbers), Err(Refusal::OutOfRange));
            for point in [points, points + 1, 1 << 32, usize::MAX] {
                assert_eq!(mesh.set_correction(point, numbers), Err(Refusal::NoPoint));
            }
        }
    }
    assert_eq!(mesh.correction([0, 16, 0]), Err(Refusal::Outside));
    assert_eq!(mesh, before);
    assert_eq!(mesh.set_correction(points - 1, [limit, -limit, 0]), Ok(()));
    assert_ne!(mesh, before);
}

#[test]
fn the_largest_box() {
    let side = 131_072;
    let mut mesh = Mesh::start(side, side, side).unwrap();
    mesh.insert([1, 2, 131_071]).unwrap();
    for numbers in [[1_000; 3], [-1_000; 3]] {
        for point in 0..9 {
            mesh.set_correction(point, numbers).unwrap();
        }
        for p in [[0, 0, 1], [side / 2, 1, side], [1, 2, 131_070], [side; 3]] {
            assert_eq!(mesh.correction(p), Ok(numbers));
        }
    }
}

/// A start, an insertion, a look, a reading and a setting, lent these corrections.
fn refusals(corrections: &[i32], p: Position, numbers: Correction) -> [u8; 5] {
    let (mut points, mut corners) = ([0; 3 * 9], [0; 4 * 18]);
    let (mut neighbours, mut work) = ([0; 4 * 18], [0; 3 * 18]);
    let mut tables = raw::Tables {
        points: &mut points,
        corners: &mut corners,
        neighbours: &mut neighbours,
        work: &mut work,
    };
    let mesh = raw::start([4; 3], &mut tables, &mut [0; 27]).mesh;
    let mut lent = corrections.to_vec();
    let looked = raw::look(mesh, &mut tables, &lent, &mut [0; 6], p);
    let read = raw::correction(mesh, &mut tables, &lent, p);
    let set = raw::set_correction(mesh, &mut tables, &mut lent.clone(), 0, numbers);
    let inserted = raw::insert(mesh, &mut tables, &mut lent, p);
    if inserted.refusal != 0 {
        assert_eq!(lent, corrections);
    }
    let started = raw::start([4; 3], &mut tables, &mut lent);
    [
        started.refusal,
        inserted.refusal,
        looked.refusal,
        read.refusal,
        set,
    ]
}

/// Only the raw calls are lent a table that is short, or has a wrong number.
#[test]
fn tables_that_are_wrong() {
    assert_eq!(refusals(&[0; 27], [1, 2, 3], [0; 3]), [0; 5]);
    assert_eq!(refusals(&[0; 26], [1, 2, 3], [0; 3]), [1; 5]);
    assert_eq!(refusals(&[], [9; 3], [0; 3]), [1; 5]);
    for (place, twelve) in [(0, 12), (23, 12), (24, 0), (26, 0)] {
        let mut wrong = [0; 27];
        wrong[place] = -1_001;
        let refused = refusals(&wrong, [1, 2, 3], [0; 3]);
        assert_eq!(refused, [0, twelve, twelve, twelve, twelve], "{place}");
    }
    let mut wrong = [0; 27];
    wrong[5] = i32::MIN;
    assert_eq!(refusals(&wrong, [9; 3], [0; 3]), [0, 4, 4, 4, 12]);
    assert_eq!(refusals(&wrong, [4; 3], [0; 3]), [0, 5, 5, 12, 12]);
}

#[test]
fn room_for_the_corrections_of_every_point() {
    let room = Room {
        points: 9,
        cells: 18,
    };
    let mut mesh = Mesh::start_with_room(4, 4, 4, room).unwrap();
    mesh.insert([1, 2, 3]).unwrap();
    assert_eq!(mesh.set_correction(8, [5, 6, 7]), Ok(()));
    assert_eq!(mesh.corrections()[8], [5, 6, 7]);
    assert_eq!(mesh.insert([2, 2, 2]), Err(Refusal::PointsFull));
}
