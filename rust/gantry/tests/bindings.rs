//! The bindings over the archive: what a caller of the C interface would see, in Rust's words.

mod common;

use common::lattice;
use gantry::{merge, raw, read_nodes, sphere_test, volume6};
use gantry::{
    Mesh, NodeFile, Position, Refusal, Room, SphereAnswer, Stopped, CELL_LIMIT, NODE_LIMIT,
    POINT_LIMIT,
};

#[test]
fn numbers_and_names_are_the_table_s() {
    let names = Refusal::ALL.map(Refusal::name);
    let table = "short, box, no mesh, outside, taken, points full, unheld, cells full, trailer, no place, flat cell, \
                 out of range, no point, other marks, unequal sides";
    assert_eq!(names.join(", "), table);
    let numbers = Refusal::ALL.map(Refusal::number);
    assert_eq!(numbers, [1, 2, 3, 4, 5, 6, 7, 8, 9, 10, 11, 12, 13, 14, 19]);
    for number in 0..=u8::MAX {
        let refusal = Refusal::ALL.into_iter().find(|r| r.number() == number);
        assert_eq!(Refusal::from_number(number), refusal);
    }
}

#[test]
fn boxes_and_rooms() {
    assert!(Mesh::start(131_072, 1, 131_072).is_ok());
    assert_eq!(Mesh::start(131_073, 1, 1).unwrap_err(), Refusal::Box);
    let started = |points, cells| Mesh::start_with_room(4, 4, 4, Room { points, cells });
    assert_eq!(started(7, 6).unwrap_err(), Refusal::Short);
    assert_eq!(started(8, 5).unwrap_err(), Refusal::Short);
    assert_eq!(started(0, 0).unwrap_err(), Refusal::Short);
    let mut tight = started(8, 6).unwrap();
    assert_eq!(tight.insert([1, 2, 3]), Err(Refusal::PointsFull));
    assert_eq!(
        started(usize::MAX, usize::MAX).unwrap().room(),
        Room::default()
    );
}

#[test]
fn a_lattice_with_every_cell_counted() {
    let nodes = lattice(5, 3);
    let mut mesh = Mesh::start(12, 12, 12).unwrap();
    assert_eq!(mesh.insert_list(&nodes), Ok(117));
    assert_eq!(mesh.points()[8..], nodes);
    assert!(mesh.check());
    let volumes = mesh.cells().map(|cell| {
        let corners = mesh.corner_positions(cell.number).unwrap();
        volume6(corners.map(|q| q.map(|n| n as i32))).unwrap()
    });
    let volumes = Vec::from_iter(volumes);
    assert!(volumes.iter().all(|&volume| volume > 0));
    assert_eq!(volumes.iter().sum::<i64>(), 6 * 12 * 12 * 12);
    for cell in mesh.cells() {
        for across in cell.neighbours.into_iter().flatten() {
            let back = mesh.cell(across).unwrap().neighbours;
            assert!(back.contains(&Some(cell.number)));
        }
    }
    let read = read_nodes(&mesh.write_nodes().unwrap()).unwrap();
    assert_eq!((read.sides, read.nodes), ([12; 3], nodes));
}

#[test]
fn a_list_stops_where_the_room_ends() {
    let walls: Vec<Position> = (0..2_000).map(|k| [1 + k % 50, 1 + k / 50, 0]).collect();
    let mut mesh = Mesh::start(52, 52, 52).unwrap();
    let stopped = Stopped {
        place: POINT_LIMIT - 8,
        refusal: Refusal::PointsFull,
    };
    assert_eq!(mesh.insert_list(&walls), Err(stopped));
    assert_eq!(mesh.points().len(), POINT_LIMIT);
    let inner = lattice(12, 7);
    let mut mesh = Mesh::start(77, 77, 77).unwrap();
    let stopped = mesh.insert_list(&inner).unwrap_err();
    assert_eq!(stopped.refusal, Refusal::CellsFull);
    assert_eq!(mesh.points().len(), 8 + stopped.place);
    assert!(mesh.cells().len() <= CELL_LIMIT && mesh.check());
}

#[test]
fn refusals_leave_the_mesh() {
    let mut mesh = Mesh::start(4, 4, 4).unwrap();
    mesh.insert([1, 2, 3]).unwrap();
    let before = mesh.clone();
    assert_eq!(mesh.insert([4, 4, 4]), Err(Refusal::Taken));
    assert_eq!(mesh.insert([0, 0, u32::MAX]), Err(Refusal::Outside));
    // Enough for the cells, but not for all numbers below the used length.
    let short = vec![1; mesh.used() - 1];
    assert!(short.len() > mesh.cells().len());
    assert_eq!(mesh.insert_answers(&short, [2, 2, 2]), Err(Refusal::Short));
    assert_eq!(mesh.insert_list(&[]), Ok(0));
    assert_eq!(mesh, before);
    assert_eq!(format!("{mesh:?}"), format!("{before:?}"));
}

fn sorted(mut corners: [usize; 4]) -> [usize; 4] {
    corners.sort();
    corners
}

#[test]
fn what_a_look_says_comes_true() {
    let nodes = lattice(4, 5);
    let mut mesh = Mesh::start(15, 15, 15).unwrap();
    mesh.insert_list(&nodes[..20]).unwrap();
    for &p in &nodes[20..] {
        let before = mesh.clone();
        let look = mesh.look(p).unwrap();
        assert_eq!(mesh, before);
        assert_eq!(look.cells().count(), look.report().after);
        let mut plainly = mesh.clone();
        assert_eq!(plainly.insert(p), Ok(look.report()));
        assert_eq!(mesh.insert_looked(&look), Ok(look.report()));
        assert_eq!(mesh, plainly);
        let after: Vec<_> = mesh.cells().map(|cell| sorted(cell.corners)).collect();
        for cell in before.cells() {
            let is_marked = look.cells().any(|number| number == cell.number);
            assert_eq!(after.contains(&sorted(cell.corners)), !is_marked);
        }
    }
}

#[test]
fn looks_that_are_refused() {
    let mut mesh = Mesh::start_with_room(
        4,
        4,
        4,
        Room {
            points: 9,
            cells: 30,
        },
    )
    .unwrap();
    let look = mesh.look([2, 2, 2]).unwrap();
    assert_eq!(mesh.look([4, 0, 4]), Err(Refusal::Taken));
    assert_eq!(mesh.look([4, 0, 5]), Err(Refusal::Outside));
    mesh.insert([1, 2, 3]).unwrap();
    assert_eq!(mesh.look([2, 2, 2]), Err(Refusal::PointsFull));
    // Before its marks are looked at.
    assert_eq!(mesh.insert_looked(&look), Err(Refusal::PointsFull));
    let mut other = Mesh::start(4, 4, 4).unwrap();
    other.insert([1, 2, 3]).unwrap();
    let before = other.clone();
    assert_eq!(other.insert_looked(&look), Err(Refusal::OtherMarks));
    assert_eq!(other, before);
    let mut tight = Mesh::start_with_room(
        4,
        4,
        4,
        Room {
            points: 9,
            cells: 17,
        },
    )
    .unwrap();
    assert_eq!(tight.look([1, 2, 3]), Err(Refusal::CellsFull));
}

#[test]
fn equal_where_every_call_answers_alike() {
    let built = |room, nodes: &[Position]| {
        let mut mesh = Mesh::start_with_room(4, 4, 4, room).unwrap();
        mesh.insert_list(nodes).unwrap();
        mesh
    };
    let [p, q] = [[1, 2, 3], [2, 2, 2]];
    let mesh = built(Room::FULL, &[p, q]);
    let mut one_by_one = Mesh::start(4, 4, 4).unwrap();
    one_by_one.insert(p).unwrap();
    one_by_one.insert(q).unwrap();
    assert_eq!(mesh, one_by_one);
    assert_ne!(mesh, built(Room::FULL, &[q, p]));
    assert_ne!(
        mesh,
        built(
            Room {
                points: 20,
                cells: 40
            },
            &[p, q]
        )
    );
    assert_ne!(mesh, Mesh::start(4, 4, 5).unwrap());
}

#[test]
fn sphere_answers() {
    let side = 131_072;
    let cell = [[0, 0, 0], [side, 0, 0], [side, side, 0], [side; 3]];
    let inside = SphereAnswer::Inside(3.0 * 2f64.powi(83));
    assert_eq!(sphere_test(cell, [side / 2; 3]), Ok(inside));
    let small = [[0, 0, 0], [9, 0, 0], [0, 9, 0], [0, 0, 9]];
    let outside = sphere_test(small, [side; 3]).unwrap();
    assert!(matches!(outside, SphereAnswer::Outside(t) if t < 0.0));
    assert_eq!(sphere_test(small, [side + 1, 0, 0]), Err(Refusal::Outside));
    // A tie, though T is above 0, and E above 0, though T is below it.
    let tie = [[0; 3], [3_500, 3_500, 0], [0, 3_500, 0], [120, 520, 3_370]];
    let answer = SphereAnswer::Outside(128.0);
    assert_eq!(sphere_test(tie, [3_380, 520, 3_370]), Ok(answer));
    let [q, r] = [[10_122, 6_325, 1_013], [115_625, 2_556, 1_400]];
    let near = [[0; 3], r, [120_000, 0, 0], q];
    let answer = SphereAnswer::Inside(-2_773_504.0);
    assert_eq!(sphere_test(near, [7_461, 3_986, 2_802]), Ok(answer));
}

/// In the box of that last cell: T is below 0 for a cell that its third node takes the place of.
#[test]
fn a_least_t_below_0() {
    let mut mesh = Mesh::start(120_000, 8_000, 8_000).unwrap();
    let nodes = [[10_122, 6_325, 1_013], [115_625, 2_556, 1_400]];
    assert_eq!(mesh.insert_list(&nodes), Ok(2));
    let report = mesh.insert([7_461, 3_986, 2_802]).unwrap();
    assert_eq!((report.before, report.after), (9, 9));
    assert_eq!(report.least, -2_773_504.0);
}

#[test]
fn files_that_are_refused() {
    assert_eq!(read_nodes(&[0; 19]), Err(Refusal::Trailer));
    assert_eq!(read_nodes(&[0; 20]), Err(Refusal::Box));
    assert_eq!(read_nodes(&[]), Err(Refusal::Trailer));
}

/// A node file, as the documents have it.
fn file(sides: Position, nodes: &[Position]) -> Vec<u8> {
    let count = nodes.len() as u32;
    let numbers = nodes.iter().flatten().chain(&sides);
    let trailer = [count, 12 * count];
    let numbers = numbers.chain(&trailer);
    numbers.flat_map(|n| n.to_le_bytes()).collect()
}

#[test]
fn two_files_in_one() {
    let [p, q, r] = [[1, 2, 3], [2, 2, 0], [3, 1, 1]];
    let first = file([4; 3], &[p, [4; 3], q, p]);
    let second = [b"a note", &file([4; 3], &[r, q, [0; 3]])[..]].concat();
    let both = merge(&first, &second).unwrap();
    assert_eq!(both, file([4; 3], &[p, q, r]));
    let expected = NodeFile {
        sides: [4; 3],
        nodes: vec![p, q, r],
    };
    assert_eq!(read_nodes(&both), Ok(expected));
    assert_eq!(merge(&second, &first), Ok(file([4; 3], &[r, q, p])));
    assert_eq!(merge(&both, &both).as_ref(), Ok(&both));
    assert_eq!(merge(&first, &first), Ok(file([4; 3], &[p, q])));
}

#[test]
fn merges_that_are_refused() {
    let good = file([4; 3], &[[1, 2, 3]]);
    let flat = file([4, 0, 4], &[]);
    assert_eq!(merge(&good[1..], &flat), Err(Refusal::Trailer));
    assert_eq!(merge(&flat, &good[1..]), Err(Refusal::Box));
    assert_eq!(merge(&good, &good[1..]), Err(Refusal::Trailer));
    assert_eq!(merge(&good, &flat), Err(Refusal::Box));
    let other = file([4, 5, 4], &[[9; 3]]);
    assert_eq!(merge(&good, &other), Err(Refusal::UnequalSides));
    let outside = file([4; 3], &[[1, 5, 1]]);
    assert_eq!(merge(&good, &outside), Err(Refusal::Outside));
    assert_eq!(merge(&outside, &good), Err(Refusal::Outside));
    let row: Vec<Position> = (1..=1_017).map(|k| [k, 2, 2]).collect();
    let [full, last] =
        [&row[..NODE_LIMIT], &row[NODE_LIMIT..]].map(|nodes| file([2_000; 3], nodes));
    assert_eq!(merge(&full, &full).as_ref(), Ok(&full));
    assert_eq!(merge(&full, &last), Err(Refusal::PointsFull));
}

/// Only the raw call is lent an output.
#[test]
fn a_merge_writes_all_or_nothing() {
    let [first, second] = [[1, 2, 3], [2, 2, 0]].map(|p| file([4; 3], &[p]));
    let both = file([4; 3], &[[1, 2, 3], [2, 2, 0]]);
    let mut out = [7; 50];
    let short = raw::merge(&first, &second, &mut out[..43]);
    assert_eq!((short.refusal, short.bytes, out), (10, 0, [7; 50]));
    let written = raw::merge(&first, &second, &mut out);
    assert_eq!((written.refusal, written.bytes), (0, 44));
    assert_eq!((&out[..44], &out[44..]), (&both[..], &[7; 6][..]));
}
