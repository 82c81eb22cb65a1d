//! Cells on a straight drive, over the archive.

mod common;

use common::lattice;
use gantry::{raw, Mesh, Position, Refusal, SIDE_LIMIT};

/// A lattice at steps of 5 in a box of side 15.
fn built() -> Mesh {
    let mut mesh = Mesh::start(15, 15, 15).unwrap();
    mesh.insert_list(&lattice(4, 5)).unwrap();
    assert!(mesh.used() > mesh.cells().len());
    mesh
}

/// The cells that have all of these points as corners.
fn with_corners(mesh: &Mesh, points: &[Position]) -> Vec<usize> {
    let has = |corners: [usize; 4], p: &Position| {
        corners.into_iter().any(|point| mesh.points()[point] == *p)
    };
    let cells = mesh.cells();
    let cells = cells.filter(|cell| points.iter().all(|p| has(cell.corners, p)));
    cells.map(|cell| cell.number).collect()
}

fn united(lists: &[Vec<usize>]) -> Vec<usize> {
    let mut cells = lists.concat();
    cells.sort();
    cells.dedup();
    cells
}

/// At a point it is the cells that have it as a corner.
#[test]
fn of_length_0() {
    let mut mesh = built();
    for p in mesh.points().to_vec() {
        let cells = with_corners(&mesh, &[p]);
        assert_eq!(mesh.drive_cells(p, p), Ok(cells));
    }
}

/// From a node to the next along an edge, and on through it: the cells of the nodes, and no other.
#[test]
fn along_edges_and_through_nodes() {
    let mut mesh = built();
    let [a, p, b] = [5, 10, 15].map(|x| [x, 5, 10]);
    let [of_a, of_p, of_b] = [a, p, b].map(|q| with_corners(&mesh, &[q]));
    assert!(!with_corners(&mesh, &[a, p]).is_empty());
    assert_eq!(
        mesh.drive_cells(a, p).unwrap(),
        united(&[of_a.clone(), of_p.clone()])
    );
    assert_eq!(
        mesh.drive_cells(b, a).unwrap(),
        united(&[of_a, of_p.clone(), of_b])
    );
    // Short of both nodes it is the cells of the edge.
    let edge = with_corners(&mesh, &[a, p]);
    assert_eq!(mesh.drive_cells([6, 5, 10], [9, 5, 10]).unwrap(), edge);
    // Up to the node and not along an edge: all of its cells.
    let cells = mesh.drive_cells([10, 6, 12], p).unwrap();
    assert!(of_p.iter().all(|cell| cells.contains(cell)));
}

/// Both ends are located in cells of the list, which is the same back, rising, and not one of freed numbers.
#[test]
fn from_anywhere_to_anywhere() {
    let mut mesh = built();
    for k in 0..400u32 {
        let at = |by: u32| [by * k % 16, (by + 2) * k / 3 % 16, (by + 5) * k / 7 % 16];
        let (a, b) = (at(7), at(11));
        let cells = mesh.drive_cells(a, b).unwrap();
        assert_eq!(mesh.drive_cells(b, a).as_ref(), Ok(&cells));
        for end in [a, b] {
            let located = mesh.locate(end).unwrap();
            assert!(cells.contains(&located));
        }
        assert!(cells.is_sorted_by(|one, next| one < next));
        assert!(cells.iter().all(|&number| mesh.cell(number).is_some()));
    }
}

#[test]
fn every_cell_of_the_longest_box() {
    let mut mesh = Mesh::start(SIDE_LIMIT, SIDE_LIMIT, SIDE_LIMIT).unwrap();
    let cells = mesh.drive_cells([0; 3], [SIDE_LIMIT; 3]).unwrap();
    assert_eq!(cells, [0, 1, 2, 3, 4, 5]);
}

#[test]
fn an_end_outside() {
    let mut mesh = built();
    let before = mesh.clone();
    for outside in [[16, 0, 0], [0, 16, 0], [0, 0, u32::MAX]] {
        assert_eq!(mesh.drive_cells(outside, [1; 3]), Err(Refusal::Outside));
        assert_eq!(mesh.drive_cells([1; 3], outside), Err(Refusal::Outside));
    }
    assert_eq!(mesh, before);
}

/// Only the raw call is lent an output.
#[test]
fn an_output_too_short() {
    let (mut points, mut corners, mut neighbours, mut work) = ([0; 24], [0; 24], [0; 24], [7; 20]);
    let mut tables = raw::Tables {
        points: &mut points,
        corners: &mut corners,
        neighbours: &mut neighbours,
        work: &mut work,
    };
    let mesh = raw::start([4; 3], &mut tables, &mut [0; 24]).mesh;
    let ends = [[3, 0, 1], [3, 4, 1]];
    for room in 0..3 {
        let mut cells = [9; 5];
        let short = raw::drive_cells(mesh, &mut tables, ends, &mut cells[..room]);
        assert_eq!((short.refusal, short.count, cells), (10, 0, [9; 5]));
    }
    let mut cells = [9; 5];
    tables.work.fill(7);
    let listed = raw::drive_cells(mesh, &mut tables, ends, &mut cells);
    assert_eq!((listed.refusal, listed.count), (0, 3));
    assert_eq!(cells, [0, 1, 5, 9, 9]);
    assert_eq!(tables.work, [0; 20]);
}
