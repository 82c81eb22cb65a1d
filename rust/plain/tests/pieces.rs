//! Document 01's test pieces, with "the piece that read close reads inside" of document 02.

mod common;

use common::Kit;
use plain::nodefile::encode;
use plain::{Inserted, Mesh, Owned, Position, Sphere, INSIDE};

const CELL_3: [Position; 4] = [[0, 0, 0], [0, 4, 4], [0, 0, 4], [4, 4, 4]];

#[test]
fn started_box() {
    let mut kit = Kit::box4();
    assert_eq!(kit.volumes(), [64; 6]);
    assert_eq!(kit.volumes().iter().sum::<i64>(), 384);
    assert!(kit.check());
    let record = Mesh {
        x: 4,
        y: 4,
        z: 4,
        points: 8,
        cells: 6,
        chain: 65_535,
        used: 6,
    };
    assert_eq!(kit.mesh, record);
}

#[test]
fn base_and_sphere_of_1_2_3() {
    let mut kit = Kit::box4();
    let p = [1, 2, 3];
    let holds = |corners: [Position; 4]| (0..4).all(|i| plain::geometry::side(corners, i, p) >= 0);
    let loaded = kit.loaded();
    let base: Vec<usize> = (0..6).filter(|&c| holds(loaded.positions(c))).collect();
    assert_eq!(base, [3]);
    assert_eq!(loaded.positions(3), CELL_3);
    assert_eq!(
        [0, 1, 2, 3].map(|i| plain::geometry::side(CELL_3, i, p)),
        [16; 4]
    );
    assert_eq!(
        CELL_3.map(|q| plain::geometry::squared_distance(q, p)),
        [14, 6, 6, 14]
    );
    let answer = Sphere {
        refusal: 0,
        answer: INSIDE,
        t: 640.0,
    };
    assert_eq!(plain::sphere_test(CELL_3, p), answer);
    assert_eq!(plain::geometry::exact_sum(CELL_3, p), 640);
    assert_eq!(plain::locate(kit.mesh, &mut kit.tables.lend(), p).cell, 3);
}

#[test]
fn inserted_1_2_3() {
    let mut kit = Kit::box4();
    let answer = kit.insert([1, 2, 3]);
    assert_eq!((answer.refusal, answer.point), (0, 8));
    assert_eq!((answer.before, answer.after, answer.made), (6, 6, 12));
    assert_eq!((answer.mesh.points, answer.mesh.cells), (9, 12));
    assert!(kit.check() && kit.has_corner(8));
}

#[test]
fn nodes_on_a_face_and_an_edge_of_the_box() {
    let mut kit = Kit::box4();
    assert_eq!(kit.insert([2, 2, 0]).mesh.cells, 10);
    assert!(kit.check());
    let mut kit = Kit::box4();
    assert_eq!(kit.insert([2, 0, 0]).mesh.cells, 8);
    assert!(kit.check());
}

#[test]
fn taken_and_outside() {
    let mut kit = Kit::box4();
    let before = kit.clone();
    assert_eq!(kit.insert([4, 4, 4]), Inserted::refused(5, kit.mesh));
    assert_eq!(kit.insert([5, 0, 0]), Inserted::refused(4, kit.mesh));
    assert_eq!(kit, before);
}

#[test]
fn capacity_17_and_18() {
    let mut kit = Kit::started([4, 4, 4], 64, 17);
    let before = kit.clone();
    assert_eq!(kit.insert([1, 2, 3]), Inserted::refused(8, kit.mesh));
    assert_eq!(kit, before);
    let mut kit = Kit::started([4, 4, 4], 64, 18);
    let record = Mesh {
        points: 9,
        cells: 12,
        chain: 5,
        used: 18,
        ..kit.mesh
    };
    assert_eq!(kit.insert([1, 2, 3]).mesh, record);
    assert!(kit.check());
}

#[test]
fn every_answer_yes_and_every_answer_no() {
    let mut yes = Kit::box4();
    yes.insert([1, 2, 3]);
    let mut no = yes.clone();
    let answer = yes.insert_answers(&[1; 18], [2, 2, 2]);
    assert_eq!((answer.before, answer.after, answer.made), (12, 2, 6));
    assert_eq!((answer.mesh.cells, answer.least), (16, 0.0));
    let answer = no.insert_answers(&[0; 18], [2, 2, 2]);
    assert_eq!((answer.before, answer.after, answer.made), (2, 2, 6));
    assert_eq!(yes, no);
    assert!(yes.check());
}

#[test]
fn largest_box() {
    let side = 131_072;
    let mut kit = Kit::started([side; 3], 64, 64);
    let loaded = kit.loaded();
    let answer = Sphere {
        refusal: 0,
        answer: INSIDE,
        t: 3.0 * 2f64.powi(83),
    };
    let half = [side / 2; 3];
    assert_eq!(plain::sphere_test(loaded.positions(0), half), answer);
    assert_eq!(kit.insert(half).refusal, 0);
    assert!(kit.check());
    let mut owned = Owned::with_room(8, 6);
    assert_eq!(plain::start([4, side + 1, 4], &mut owned.lend()).refusal, 2);
}

#[test]
fn listing_of_a_started_box() {
    let text = "\
box 4 4 4 points 8 cells 6
0 0 1 3 7 - 1 5 -
1 0 3 2 7 - 2 0 -
2 0 2 6 7 - 3 1 -
3 0 6 4 7 - 4 2 -
4 0 4 5 7 - 5 3 -
5 0 5 1 7 - 0 4 -
";
    assert_eq!(plain::listing(&encode([4; 3], &[])), text);
}

#[test]
fn listing_refused_and_stopped() {
    assert_eq!(plain::listing(&[0; 19]), "refused 9\n");
    assert_eq!(plain::listing(&encode([4, 0, 4], &[])), "refused 2\n");
    let mut long = vec![7; 65_536 - 20];
    long.extend(encode([4; 3], &[]));
    assert!(plain::listing(&long).starts_with("box 4 4 4 points 8 cells 6\n"));
    long.insert(0, 7);
    assert_eq!(plain::listing(&long), "refused 9\n");
    let stopped = plain::listing(&encode([4; 3], &[[1, 2, 3], [0, 0, 0], [2, 2, 2]]));
    assert!(stopped.starts_with("box 4 4 4 points 9 cells 12\n"));
    assert!(stopped.ends_with("\nstopped 1 5\n"));
}
