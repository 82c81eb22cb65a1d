//! Each refusal, its order, and what a refused call leaves.

mod common;

use common::Kit;
use plain::{Inserted, Listed, Located, Mesh, Owned, Read, Sphere, Started, Written, OUT_OF_RANGE};

/// Calls every mesh call and gives the refusals: insert, answers, list, locate, drive, look, marks, write.
fn refusals(mesh: Mesh, tables: &mut Owned) -> [u8; 8] {
    let before = tables.clone();
    let bytes = vec![0; (mesh.used as usize).min(5_000)];
    let (mut out, mut cells) = ([9; 64], [9; 64]);
    let refusals = [
        plain::insert(mesh, &mut tables.lend(), [9, 9, 9]).refusal,
        plain::insert_answers(mesh, &mut tables.lend(), &bytes, [9, 9, 9]).refusal,
        plain::insert_list(mesh, &mut tables.lend(), &[9, 9, 9]).refusal,
        plain::locate(mesh, &mut tables.lend(), [9, 9, 9]).refusal,
        plain::drive_cells(mesh, &mut tables.lend(), [[9, 9, 9]; 2], &mut cells).refusal,
        plain::look(mesh, &mut tables.lend(), &mut out[..3], [9, 9, 9]).refusal,
        plain::insert_marked(mesh, &mut tables.lend(), &out[..3], [9, 9, 9]).refusal,
        plain::write_nodes(mesh, &mut tables.lend(), &mut out[..3]).refusal,
    ];
    assert!(tables.work.iter().all(|&w| w == 0));
    assert_eq!(before.corners, tables.corners);
    assert_eq!(before.neighbours, tables.neighbours);
    assert_eq!(before.points, tables.points);
    assert_eq!((out, cells), ([9; 64], [9; 64]));
    refusals
}

#[test]
fn short_tables() {
    let Kit { mesh, tables } = Kit::started([4; 3], 8, 6);
    assert_eq!(
        refusals(mesh, &mut tables.clone()),
        [4, 4, 4, 4, 4, 4, 4, 10]
    );
    let cuts: [fn(&mut Owned); 4] = [
        |t| t.points.truncate(23),
        |t| t.corners.truncate(23),
        |t| t.neighbours.truncate(23),
        |t| t.work.truncate(17),
    ];
    for cut in cuts {
        let mut short = tables.clone();
        cut(&mut short);
        short.work.fill(7);
        // 1 comes before 2 and 3.
        let wild = Mesh { x: 0, ..mesh };
        assert_eq!(refusals(wild, &mut short), [1; 8]);
        assert!(!plain::check(mesh, &mut short.lend()));
        short.work.fill(7);
        let started = plain::start([0; 3], &mut short.lend());
        assert_eq!(started, Started::refused(1));
        assert!(short.work.iter().all(|&w| w == 0));
    }
}

#[test]
fn fewer_answer_bytes_than_the_used_length() {
    let mut kit = Kit::box4();
    let wild = Mesh {
        x: 0,
        used: u32::MAX,
        ..kit.mesh
    };
    let answer = plain::insert_answers(wild, &mut kit.tables.lend(), &[1; 100], [1, 2, 3]);
    assert_eq!(answer, Inserted::refused(1, wild));
    let wild = Mesh {
        cells: u32::MAX,
        ..kit.mesh
    };
    let answer = plain::insert_answers(wild, &mut kit.tables.lend(), &[1; 6], [1, 2, 3]);
    assert_eq!(answer, Inserted::refused(3, wild));
    assert_eq!(kit.insert_answers(&[1; 5], [1, 2, 3]).refusal, 1);
    assert_eq!(kit.insert_answers(&[1; 7], [1, 2, 3]).refusal, 0);
    assert_eq!((kit.mesh.cells, kit.mesh.used), (12, 18));
    assert_eq!(kit.insert_answers(&[1; 17], [2, 2, 2]).refusal, 1);
    assert_eq!(kit.insert_answers(&[1; 18], [2, 2, 2]).refusal, 0);
}

#[test]
fn sides_out_of_range() {
    let mut kit = Kit::box4();
    for side in [0, 131_073, u32::MAX] {
        for mesh in [
            Mesh {
                x: side,
                ..kit.mesh
            },
            Mesh {
                y: side,
                ..kit.mesh
            },
            Mesh {
                z: side,
                ..kit.mesh
            },
        ] {
            let started = plain::start(mesh.sides(), &mut kit.tables.lend());
            assert_eq!(started, Started::refused(2));
            let wild = Mesh { cells: 0, ..mesh };
            assert_eq!(refusals(wild, &mut kit.tables), [2; 8]);
        }
    }
}

#[test]
fn no_mesh() {
    let Kit { mesh, tables } = Kit::started([4; 3], 12, 16);
    let records = [
        Mesh { x: 5, ..mesh },
        Mesh { points: 7, ..mesh },
        Mesh { points: 9, ..mesh },
        Mesh { points: 13, ..mesh },
        Mesh {
            points: u32::MAX,
            ..mesh
        },
        Mesh { cells: 0, ..mesh },
        Mesh { cells: 5, ..mesh },
        Mesh { cells: 7, ..mesh },
        Mesh { used: 0, ..mesh },
        Mesh { used: 5, ..mesh },
        Mesh { used: 7, ..mesh },
        Mesh { used: 17, ..mesh },
        Mesh { chain: 0, ..mesh },
        Mesh { chain: 6, ..mesh },
        Mesh {
            chain: 65_536 + 65_535,
            ..mesh
        },
    ];
    for record in records {
        assert_eq!(refusals(record, &mut tables.clone()), [3; 8], "{record:?}");
        assert!(!plain::check(record, &mut tables.clone().lend()));
    }
    let damages: [fn(&mut Owned); 7] = [
        |t| t.points[3] = 3,
        |t| t.corners[0] = 8,
        |t| t.corners.swap(0, 1),
        |t| t.corners.copy_within(0..4, 4),
        |t| t.neighbours[0] = 6,
        |t| t.neighbours[1] = 65_535,
        |t| t.neighbours.swap(1, 2),
    ];
    for damage in damages {
        let mut damaged = tables.clone();
        damage(&mut damaged);
        assert_eq!(refusals(mesh, &mut damaged), [3; 8]);
    }
    let mut short_work = tables.clone();
    short_work.work.truncate(18);
    assert!(plain::check(mesh, &mut short_work.lend()));
    let mut grown = Kit { mesh, tables };
    assert_eq!(grown.insert([2, 0, 0]).mesh.used, 14);
    grown.tables.work.truncate(42);
    assert!(grown.check());
    grown.tables.work.truncate(41);
    assert_eq!(refusals(grown.mesh, &mut grown.tables), [3; 8]);
}

/// Three of the started cells, each twice, each mated with its double: the volumes add up, and every face is named back.
#[test]
fn folded_pairs_are_no_mesh() {
    let mut kit = Kit::box4();
    for (k, cell) in [[0, 1, 3, 7], [0, 2, 6, 7], [0, 4, 5, 7]]
        .iter()
        .enumerate()
    {
        for (c, double) in [(2 * k, 2 * k + 1), (2 * k + 1, 2 * k)] {
            kit.tables.corners[4 * c..4 * c + 4].copy_from_slice(cell);
            kit.tables.neighbours[4 * c..4 * c + 4].fill(double as u16);
        }
    }
    assert_eq!(kit.volumes().iter().sum::<i64>(), 384);
    assert!(!kit.check());
}

#[test]
fn every_face_needs_its_neighbour() {
    let mut kit = Kit::box4();
    kit.insert([1, 2, 3]);
    for face in 0..4 * kit.mesh.used as usize {
        let mut changed = kit.clone();
        let entry = &mut changed.tables.neighbours[face];
        *entry = if *entry == 65_535 { 0 } else { 65_535 };
        assert!(!changed.check());
    }
}

#[test]
fn points_full_and_the_order_of_4_5_6() {
    let mut kit = Kit::started([4; 3], 8, 20);
    assert_eq!(kit.insert([5, 5, 5]).refusal, 4);
    assert_eq!(kit.insert([4, 4, 0]).refusal, 5);
    assert_eq!(kit.insert([2, 2, 2]).refusal, 6);
    let answers = [1; 6];
    assert_eq!(kit.insert_answers(&answers, [2, 2, 2]).refusal, 6);
}

#[test]
fn more_than_1024_points_and_4096_cells_are_not_used() {
    let mut kit = Kit::started([100; 3], 1_100, 4_200);
    let mesh = Mesh {
        points: 1_025,
        ..kit.mesh
    };
    assert!(!plain::check(mesh, &mut kit.tables.lend()));
    assert_eq!(kit.tables.lend().point_capacity(), 1_024);
    assert_eq!(kit.tables.lend().cell_capacity(), 4_096);
}

#[test]
fn locate_and_write() {
    let mut kit = Kit::box4();
    let located = |kit: &mut Kit, p| plain::locate(kit.mesh, &mut kit.tables.lend(), p);
    let first = Located {
        refusal: 0,
        cell: 0,
    };
    assert_eq!(located(&mut kit, [0, 0, 0]), first);
    assert_eq!(located(&mut kit, [4, 4, 4]), first);
    let refused = Located {
        refusal: 4,
        cell: 0,
    };
    assert_eq!(located(&mut kit, [0, 5, 0]), refused);
    let mut out = [0; 19];
    let written = plain::write_nodes(kit.mesh, &mut kit.tables.lend(), &mut out);
    let short = Written {
        refusal: 10,
        bytes: 0,
    };
    assert_eq!(written, short);
}

#[test]
fn sphere_and_volume() {
    let cell = [[0, 0, 0], [4, 0, 0], [0, 4, 0], [0, 0, 4]];
    let refused = |refusal| Sphere {
        refusal,
        ..Sphere::default()
    };
    assert_eq!(plain::sphere_test(cell, [131_073, 0, 0]), refused(4));
    let outside_and_flat = [[u32::MAX; 3]; 4];
    assert_eq!(plain::sphere_test(outside_and_flat, [0; 3]), refused(4));
    assert_eq!(plain::sphere_test([[1; 3]; 4], [0; 3]), refused(11));
    let turned = [cell[1], cell[0], cell[2], cell[3]];
    assert_eq!(plain::sphere_test(turned, [0; 3]), refused(11));
    assert_eq!(plain::sphere_test(cell, [4, 4, 4]).t, 0.0);
    let far = plain::sphere_test(cell, [131_072; 3]);
    assert_eq!((far.refusal, far.answer), (0, plain::OUTSIDE));

    let s = 131_072;
    let volume = plain::volume6([0, 0, 0, s, s, 0, s, 0, s, 0, s, s]);
    assert_eq!(volume, -(1 << 52));
    assert_eq!(plain::volume6([0; 12]), 0);
    for wrong in [-1, s + 1, i32::MIN, i32::MAX] {
        for place in 0..12 {
            let mut numbers = [1; 12];
            numbers[place] = wrong;
            assert_eq!(plain::volume6(numbers), OUT_OF_RANGE);
        }
    }
}

#[test]
fn lists() {
    let mut kit = Kit::box4();
    let mut one_by_one = kit.clone();
    let nodes = [1, 2, 3, 2, 2, 2, 3, 1, 0, 77, 78];
    let listed = plain::insert_list(kit.mesh, &mut kit.tables.lend(), &nodes);
    for node in nodes.chunks_exact(3) {
        one_by_one.insert([node[0], node[1], node[2]]);
    }
    kit.mesh = listed.mesh;
    assert_eq!((listed.refusal, listed.place), (0, 3));
    assert_eq!(kit, one_by_one);

    let before = kit.clone();
    let nodes = [0, 3, 1, 5, 0, 0, 1, 1, 1];
    let listed = plain::insert_list(kit.mesh, &mut kit.tables.lend(), &nodes);
    assert_eq!((listed.refusal, listed.place), (4, 1));
    one_by_one.insert([0, 3, 1]);
    kit.mesh = listed.mesh;
    assert_eq!(kit, one_by_one);
    assert_ne!(kit, before);

    let empty = plain::insert_list(kit.mesh, &mut kit.tables.lend(), &[1, 1]);
    let ends = Listed {
        refusal: 0,
        mesh: kit.mesh,
        place: 0,
    };
    assert_eq!(empty, ends);
    let wild = Mesh { z: 0, ..kit.mesh };
    let refused = Listed {
        refusal: 2,
        mesh: wild,
        place: 0,
    };
    let listed = plain::insert_list(wild, &mut kit.tables.lend(), &[]);
    assert_eq!(listed, refused);
}

#[test]
fn entries_beyond_are_unchanged() {
    let mut kit = Kit::started([4; 3], 12, 30);
    kit.tables.points[24..].fill(77);
    kit.tables.corners[24..].fill(78);
    kit.tables.neighbours[24..].fill(79);
    kit.insert([1, 2, 3]);
    assert_eq!(kit.tables.points[24..27], [1, 2, 3]);
    assert!(kit.tables.points[27..].iter().all(|&n| n == 77));
    assert_eq!(kit.mesh.used, 18);
    for (table, mark) in [(&kit.tables.corners, 78), (&kit.tables.neighbours, 79)] {
        assert!(table[24..72].iter().all(|&n| n != mark));
        assert!(table[72..].iter().all(|&n| n == mark));
    }
}

#[test]
fn a_start_leaves_the_rest() {
    let mut tables = Owned::with_room(9, 7);
    tables.points.fill(5);
    tables.corners.fill(6);
    tables.neighbours.fill(7);
    assert_eq!(plain::start([1, 2, 3], &mut tables.lend()).refusal, 0);
    assert_eq!(tables.points[24..], [5; 3]);
    assert_eq!(tables.corners[24..], [6; 4]);
    assert_eq!(tables.neighbours[24..], [7; 4]);
}

#[test]
fn node_file_refusals() {
    let nodes = [[1, 2, 3], [9, 9, 9]];
    let file = plain::nodefile::encode([4; 3], &nodes);
    let mut out = [8; 7];
    let read = Read {
        refusal: 0,
        x: 4,
        y: 4,
        z: 4,
        count: 2,
    };
    assert_eq!(plain::read_nodes(&file, &mut out), read);
    assert_eq!(out, [1, 2, 3, 9, 9, 9, 8]);
    assert_eq!(plain::read_nodes(&file, &mut out[..5]), Read::refused(10));
    for length in 0..file.len() {
        let refused = plain::read_nodes(&file[file.len() - length..], &mut out);
        assert_eq!(refused, Read::refused(9), "length {length}");
    }
    let with = |place: usize, number: u32| {
        let mut file = file.clone();
        file[24 + 4 * place..28 + 4 * place].copy_from_slice(&number.to_le_bytes());
        file
    };
    let mut refusal = |file: &[u8]| plain::read_nodes(file, &mut out).refusal;
    assert_eq!(refusal(&with(1, 0)), 2);
    assert_eq!(refusal(&with(2, 131_073)), 2);
    assert_eq!(refusal(&with(3, 1)), 9);
    assert_eq!(refusal(&with(4, 12)), 9);
    assert_eq!(refusal(&with(3, u32::MAX)), 9);
    // 9 comes before 2 in a file.
    let mut both = with(0, 0);
    both.remove(0);
    assert_eq!(refusal(&both), 9);
}

#[test]
fn node_file_count_limit() {
    let file = |count| plain::nodefile::encode([4; 3], &vec![[1; 3]; count]);
    let mut out = vec![0; 4_000];
    assert_eq!(plain::read_nodes(&file(1_016), &mut out).count, 1_016);
    assert_eq!(plain::read_nodes(&file(1_017), &mut out).refusal, 9);
    assert_eq!(plain::read_nodes(&file(1_016), &mut []).refusal, 10);
}
