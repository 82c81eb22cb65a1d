//! "Corrections at the nodes": what is read, set and kept, and the refusals of these calls in their order.

mod common;

use common::Kit;
use plain::corrections::Correction;
use plain::random::Random;
use plain::{Corrected, Inserted, Looked, Mesh, Owned, Position, Started};

/// The correction that an accepted call gives.
#[track_caller]
fn read(kit: &mut Kit, p: Position) -> Correction {
    let Corrected { refusal, x, y, z } = kit.correction(p);
    assert_eq!(refusal, 0);
    [x, y, z]
}

/// On the edge from point 0, which has 0, to point 1: the middle, and a quarter of the way.
#[test]
fn halves_go_away_from_zero() {
    for (own, half, quarter) in [
        (1, 1, 0),
        (2, 1, 1),
        (3, 2, 1),
        (5, 3, 1),
        (6, 3, 2),
        (7, 4, 2),
        (999, 500, 250),
        (1_000, 500, 250),
    ] {
        for side in [4, 131_072] {
            let mut kit = Kit::started([side; 3], 9, 18);
            assert_eq!(kit.set(1, [own, -own, 0]), 0);
            assert_eq!(read(&mut kit, [side / 2, 0, 0]), [half, -half, 0]);
            assert_eq!(read(&mut kit, [side / 4, 0, 0]), [quarter, -quarter, 0]);
        }
    }
}

/// Just beside a half, in the largest box: 2^50 and a step's share in 2^51.
#[test]
fn beside_halves_of_the_largest_box() {
    let (side, half) = (131_072, 65_536);
    let mut kit = Kit::started([side; 3], 9, 18);
    assert_eq!(kit.set(1, [1, -1, 1_000]), 0);
    assert_eq!(read(&mut kit, [half - 1, 0, 0]), [0, 0, 500]);
    assert_eq!(read(&mut kit, [half, 0, 0]), [1, -1, 500]);
    assert_eq!(read(&mut kit, [half + 1, 0, 0]), [1, -1, 500]);
    for number in [1_000, -1_000] {
        for point in 0..8 {
            assert_eq!(kit.set(point, [number; 3]), 0);
        }
        for p in [[0; 3], [side; 3], [1, 2, 3], [half, half, 1], [side, 1, 0]] {
            assert_eq!(read(&mut kit, p), [number; 3]);
        }
    }
}

/// A box with nodes put in anyhow, and any corrections in range.
fn any_kit(random: &mut Random) -> Kit {
    let side = random.pick(&[4, 16, 1_001, 131_072]);
    let mut kit = Kit::started([side; 3], 24, 140);
    for _ in 0..random.below(14) {
        let p = [0; 3].map(|_| random.below(u64::from(side) + 1) as u32);
        let answers = vec![random.below(2) as u8; kit.mesh.used as usize];
        kit.insert_answers(&answers, p);
    }
    let greatest = random.pick(&[1, 7, 1_000]);
    for point in 0..kit.mesh.points {
        let numbers = [0; 3].map(|_| random.below(2 * greatest + 1) as i32 - greatest as i32);
        assert_eq!(kit.set(point, numbers), 0);
    }
    kit
}

/// On an axis, by a cell that holds the position: the nearest whole number, of two the one away from zero, between the least and
/// the greatest. Says whether it was a half.
fn is_half(own: [i32; 4], sides: [i128; 4], read: i32) -> bool {
    let (sum, volume): (i128, i128) = (
        (0..4).map(|i| sides[i] * i128::from(own[i])).sum(),
        sides.iter().sum(),
    );
    let whole = i128::from(read) * volume;
    let off = 2 * (whole - sum).abs();
    assert!(off < volume || off == volume && whole.abs() > sum.abs());
    assert!(own.iter().min() <= Some(&read) && Some(&read) <= own.iter().max());
    off == volume
}

/// "The result must be the same from every cell that holds the position, and lie between the least and greatest of the four."
#[test]
fn from_every_cell_that_holds_it() {
    let mut random = Random::new(1);
    let mut halves = 0;
    for _ in 0..60 {
        let mut kit = any_kit(&mut random);
        let mesh = kit.loaded();
        for _ in 0..20 {
            let [a, b] = [random.pick(&mesh.points), random.pick(&mesh.points)];
            let p = [0, 1, 2].map(|axis| (a[axis] + b[axis]) / 2);
            let read = read(&mut kit, p);
            for c in mesh.holding(p) {
                let sides = [0, 1, 2, 3].map(|i| mesh.side(c, i, p));
                for (axis, number) in read.into_iter().enumerate() {
                    let own = |point: u16| kit.tables.corrections[3 * point as usize + axis];
                    let own = mesh.entries[c].corners.map(own);
                    halves += u32::from(is_half(own, sides, number));
                }
            }
        }
    }
    assert!(halves > 100, "{halves}");
}

#[test]
fn what_was_set_is_read_at_the_point() {
    let mut random = Random::new(2);
    for _ in 0..30 {
        let mut kit = any_kit(&mut random);
        for point in 0..kit.mesh.points {
            let before = kit.clone();
            let numbers = [0; 3].map(|_| random.below(2_001) as i32 - 1_000);
            assert_eq!(kit.set(point, numbers), 0);
            let place = 3 * point as usize;
            assert_eq!(kit.tables.corrections[place..place + 3], numbers);
            let p = kit.loaded().points[point as usize];
            assert_eq!(read(&mut kit, p), numbers);
            // Nothing else is written.
            let standing = &before.tables.corrections[place..place + 3];
            kit.tables.corrections[place..place + 3].copy_from_slice(standing);
            assert_eq!(kit, before);
        }
    }
}

/// By each insertion; what stood in the table where the node's corrections go, and beyond, does not count.
#[test]
fn a_new_node_starts_with_what_its_position_had() {
    let mut random = Random::new(3);
    let mut went_in = 0;
    for _ in 0..60 {
        let mut kit = any_kit(&mut random);
        let points = 3 * kit.mesh.points as usize;
        kit.tables.corrections[points..].fill(i32::MIN);
        let side = kit.mesh.x;
        let p = [0; 3].map(|_| random.below(u64::from(side) + 1) as u32);
        let (before, expected) = (kit.clone(), kit.correction(p));
        let used = kit.mesh.used as usize;
        let refusal = match random.below(4) {
            0 => kit.insert(p).refusal,
            1 => kit.insert_answers(&vec![1; used], p).refusal,
            2 => {
                let mut marks = vec![0; used];
                kit.look(&mut marks, p);
                assert_eq!(kit, before);
                kit.insert_marked(&marks, p).refusal
            }
            _ => {
                let listed = plain::insert_list(kit.mesh, &mut kit.tables.lend(), &p);
                kit.mesh = listed.mesh;
                listed.refusal
            }
        };
        if refusal != 0 {
            assert_eq!(kit, before);
            continue;
        }
        went_in += 1;
        assert_eq!(kit.correction(p), expected);
        let Corrected { x, y, z, .. } = expected;
        let mut corrections = before.tables.corrections;
        corrections[points..points + 3].copy_from_slice(&[x, y, z]);
        assert_eq!(kit.tables.corrections, corrections);
    }
    assert!(went_in > 40, "{went_in}");
}

/// Of two nodes on one edge the second starts from the rounded numbers of the first.
#[test]
fn a_new_node_starts_from_rounded_numbers() {
    let mut kit = Kit::started([4; 3], 12, 60);
    kit.set(1, [1, 0, -1]);
    let nodes = [2, 0, 0, 1, 0, 0];
    let listed = plain::insert_list(kit.mesh, &mut kit.tables.lend(), &nodes);
    assert_eq!((listed.refusal, listed.place), (0, 2));
    // Half of 1 is 1, and half of that is 1 again: a quarter of 1 alone is 0.
    assert_eq!(
        kit.tables.corrections[24..30],
        [1, 0, -1, 1, 0, -1],
        "{:?}",
        kit.tables.corrections
    );
}

#[test]
fn a_start_clears_the_box_corners_alone() {
    for room in [24, 25, 29, 36] {
        let mut tables = Owned::with_room(8, 6);
        tables.corrections = vec![i32::MAX; room];
        assert_eq!(plain::start([4; 3], &mut tables.lend()).refusal, 0);
        assert_eq!(tables.corrections[..24], [0; 24]);
        assert!(tables.corrections[24..].iter().all(|&n| n == i32::MAX));
    }
    let mut tables = Owned::with_room(8, 6);
    tables.corrections.fill(7_777);
    let refused = plain::start([0, 4, 4], &mut tables.lend());
    assert_eq!(refused, Started::refused(2));
    assert_eq!(tables.corrections, [7_777; 24]);
}

/// The refusals of a start, of the insertions, a list and a look, of a reading and of a setting: each is lent the corrections.
/// Nothing but the work area is changed.
fn refusals(mesh: Mesh, tables: &Owned, p: Position) -> [u8; 8] {
    let mut tables = tables.clone();
    let before = tables.clone();
    let bytes = vec![1; 100];
    let mut marks = vec![9; 100];
    let refusals = [
        plain::start([0; 3], &mut tables.lend()).refusal,
        plain::insert(mesh, &mut tables.lend(), p).refusal,
        plain::insert_answers(mesh, &mut tables.lend(), &bytes, p).refusal,
        plain::look(mesh, &mut tables.lend(), &mut marks[..3], p).refusal,
        plain::insert_marked(mesh, &mut tables.lend(), &marks, p).refusal,
        plain::insert_list(mesh, &mut tables.lend(), &p).refusal,
        plain::correction(mesh, &mut tables.lend(), p).refusal,
        plain::set_correction(mesh, &mut tables.lend(), u32::MAX, [1_001; 3]),
    ];
    tables.work.clone_from(&before.work);
    assert_eq!(tables, before);
    refusals
}

#[test]
fn short_tables() {
    for (points, wanted) in [(8, 24), (12, 36), (1_024, 3_072), (1_100, 3_072)] {
        let Kit { mesh, mut tables } = Kit::started([4; 3], points, 60);
        let wild = Mesh { x: 0, ..mesh };
        for room in [0, 23, wanted - 1] {
            tables.corrections.resize(room, 5_000);
            assert_eq!(refusals(wild, &tables, [9; 3]), [1; 8]);
            // The other calls are not lent them.
            let mut lent = tables.clone();
            assert_eq!(plain::locate(mesh, &mut lent.lend(), [1; 3]).refusal, 0);
            assert!(plain::check(mesh, &mut lent.lend()));
            let written = plain::write_nodes(mesh, &mut lent.lend(), &mut [0; 20]);
            assert_eq!(written.refusal, 0);
        }
        tables.corrections.resize(wanted, 5_000);
        assert_eq!(refusals(wild, &tables, [9; 3]), [2; 8]);
        assert_eq!(plain::start([4; 3], &mut tables.lend()).refusal, 0);
    }
}

/// All three, an entry after the other, from the first point's to the last one's, and beyond.
#[test]
fn numbers_out_of_range_in_the_table() {
    let mut kit = Kit::started([4; 3], 12, 60);
    kit.insert([1, 2, 3]);
    let free = [2, 1, 1];
    for place in 0..36 {
        for (number, is_wrong) in [
            (1_000, false),
            (-1_000, false),
            (1_001, true),
            (-1_001, true),
            (i32::MAX, true),
            (i32::MIN, true),
        ] {
            let mut tables = kit.tables.clone();
            tables.corrections[place] = number;
            let [start, insertions @ .., reading, setting] = refusals_of(kit.mesh, &tables, free);
            let twelve = if is_wrong && place < 27 { 12 } else { 0 };
            assert_eq!((start, insertions), (0, [twelve; 5]), "{place} {number}");
            assert_eq!([reading, setting], [twelve; 2]);
        }
    }
}

/// What each call answers where it would else be accepted; the setting is at the first point.
fn refusals_of(mesh: Mesh, tables: &Owned, p: Position) -> [u8; 8] {
    let mut marks = vec![0; mesh.used as usize];
    let mut right = tables.clone();
    right.corrections.fill(0);
    plain::look(mesh, &mut right.lend(), &mut marks, p);
    let lent = || tables.clone();
    [
        plain::start([4; 3], &mut lent().lend()).refusal,
        plain::insert(mesh, &mut lent().lend(), p).refusal,
        plain::insert_answers(mesh, &mut lent().lend(), &[1; 60], p).refusal,
        plain::look(mesh, &mut lent().lend(), &mut [0; 60], p).refusal,
        plain::insert_marked(mesh, &mut lent().lend(), &marks, p).refusal,
        plain::insert_list(mesh, &mut lent().lend(), &p).refusal,
        plain::correction(mesh, &mut lent().lend(), p).refusal,
        plain::set_correction(mesh, &mut lent().lend(), 0, [0; 3]),
    ]
}

/// With a wrong number at a point of the mesh each has 12 due as well, and what comes after it.
#[test]
fn refusals_in_order() {
    let mut kit = Kit::started([4; 3], 8, 6);
    kit.tables.corrections[0] = 1_001;
    kit.mesh = Mesh {
        x: 0,
        cells: 7,
        ..kit.mesh
    };
    let ordered = |mesh: Mesh, p: Position| refusals(mesh, &kit.tables, p);
    assert_eq!(ordered(kit.mesh, [9; 3])[1..], [2; 7]);
    kit.mesh.x = 4;
    assert_eq!(ordered(kit.mesh, [9; 3])[1..], [3; 7]);
    kit.mesh.cells = 6;
    let outside = ordered(kit.mesh, [9; 3]);
    assert_eq!(outside[1..], [4, 4, 4, 4, 4, 4, 13]);
    // A reading at a point is no insertion.
    let taken = ordered(kit.mesh, [4; 3]);
    assert_eq!(taken[1..], [5, 5, 5, 5, 5, 12, 13]);
    // There is no room for a further point, nor for cells.
    let full = ordered(kit.mesh, [1, 2, 3]);
    assert_eq!(full[1..], [12, 12, 12, 12, 12, 12, 13]);
    kit.tables.corrections[0] = 1_000;
    let full = refusals(kit.mesh, &kit.tables, [1, 2, 3]);
    assert_eq!(full[1..], [6, 6, 6, 6, 6, 0, 13]);
}

/// 13 first; then 12 for a number handed in, and for one that stands, also where the call would mend it.
#[test]
fn settings_that_are_refused() {
    let mut kit = Kit::box4();
    for point in [8, 9, 63, 64, 65_535, u32::MAX] {
        for number in [0, 1_001] {
            assert_eq!(kit.set(point, [0, 0, number]), 13);
        }
    }
    let before = kit.clone();
    for wrong in [1_001, -1_001, i32::MIN, i32::MAX] {
        for axis in 0..3 {
            let mut numbers = [0; 3];
            numbers[axis] = wrong;
            assert_eq!(kit.set(7, numbers), 12);
        }
    }
    assert_eq!(kit, before);
    kit.tables.corrections[3 * 7 + 1] = -1_001;
    let before = kit.clone();
    for point in 0..8 {
        assert_eq!(kit.set(point, [0; 3]), 12);
    }
    assert_eq!(kit.set(8, [0; 3]), 13);
    assert_eq!(kit, before);
    assert_eq!(kit.correction([0; 3]), Corrected::refused(12));
    assert_eq!(kit.correction([5; 3]), Corrected::refused(4));
}

#[test]
fn lists_over_a_wrong_table() {
    let mut kit = Kit::box4();
    kit.tables.corrections[23] = 1_001;
    let before = kit.clone();
    let mut list = |nodes: &[u32]| {
        let listed = plain::insert_list(kit.mesh, &mut kit.tables.lend(), nodes);
        assert_eq!(listed.mesh, before.mesh);
        (listed.refusal, listed.place)
    };
    assert_eq!(list(&[]), (0, 0));
    assert_eq!(list(&[1, 2]), (0, 0));
    assert_eq!(list(&[1, 2, 3, 9, 9, 9]), (12, 0));
    assert_eq!(list(&[4, 4, 4]), (5, 0));
    assert_eq!(list(&[9, 9, 9]), (4, 0));
    assert_eq!(kit, before);
    kit.tables.corrections.truncate(3 * 64 - 1);
    let listed = plain::insert_list(kit.mesh, &mut kit.tables.lend(), &[]);
    assert_eq!((listed.refusal, listed.place), (1, 0));
}

/// In full tables an insertion is refused 8, then 10 or 14, after 12.
#[test]
fn twelve_before_the_room_for_cells() {
    let mut kit = Kit::started([4; 3], 9, 17);
    kit.tables.corrections[5] = -1_001;
    let mut marks = [9; 2];
    for (number, refusals) in [(-1_001, [12, 12, 12]), (-1_000, [8, 8, 8])] {
        kit.tables.corrections[5] = number;
        let (mesh, p) = (kit.mesh, [1, 2, 3]);
        assert_eq!(kit.insert(p), Inserted::refused(refusals[0], mesh));
        assert_eq!(kit.look(&mut marks, p), Looked::refused(refusals[1]));
        let marked = kit.insert_marked(&marks, p);
        assert_eq!(marked, Inserted::refused(refusals[2], mesh));
    }
}
