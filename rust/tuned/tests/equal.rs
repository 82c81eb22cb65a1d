//! `tuned` gives the answers and entries of `plain`, T bit for bit.

use plain::nodefile::encode;
use plain::random::Random;
use plain::{Inserted, Mesh, Owned, Position, Written};

fn bits(answer: Inserted) -> (Inserted, u64) {
    (answer, answer.least.to_bits())
}

struct Pair {
    mesh: Mesh,
    plain: Owned,
    tuned: Owned,
}

impl Pair {
    fn started(sides: Position, points: usize, cells: usize) -> Pair {
        let mut owned = Owned::with_room(points, cells);
        let mesh = plain::start(sides, &mut owned.lend()).mesh;
        Pair {
            mesh,
            plain: owned.clone(),
            tuned: owned,
        }
    }

    fn insert(&mut self, p: Position) -> u8 {
        self.tuned.work.fill(0xAAAA);
        let left = plain::insert(self.mesh, &mut self.plain.lend(), p);
        let right = tuned::insert(self.mesh, &mut self.tuned.lend(), p);
        assert_eq!(bits(left), bits(right));
        assert_eq!(self.plain, self.tuned);
        self.mesh = left.mesh;
        left.refusal
    }

    fn insert_answers(&mut self, answers: &[u8], p: Position) {
        let left = plain::insert_answers(self.mesh, &mut self.plain.lend(), answers, p);
        let right = tuned::insert_answers(self.mesh, &mut self.tuned.lend(), answers, p);
        assert_eq!(bits(left), bits(right));
        assert_eq!(self.plain, self.tuned);
        self.mesh = left.mesh;
    }

    /// The marks that a look leaves, of so many.
    fn look(&mut self, p: Position, room: usize) -> Vec<u8> {
        self.tuned.work.fill(0xAAAA);
        let [mut marks, mut other] = [vec![7; room], vec![7; room]];
        let left = plain::look(self.mesh, &mut self.plain.lend(), &mut marks, p);
        let right = tuned::look(self.mesh, &mut self.tuned.lend(), &mut other, p);
        assert_eq!((left, left.least.to_bits()), (right, right.least.to_bits()));
        assert_eq!(self.plain, self.tuned);
        assert_eq!(marks, other);
        marks
    }

    fn insert_marked(&mut self, marks: &[u8], p: Position) -> u8 {
        self.tuned.work.fill(0xAAAA);
        let left = plain::insert_marked(self.mesh, &mut self.plain.lend(), marks, p);
        let right = tuned::insert_marked(self.mesh, &mut self.tuned.lend(), marks, p);
        assert_eq!(bits(left), bits(right));
        assert_eq!(self.plain, self.tuned);
        self.mesh = left.mesh;
        left.refusal
    }

    fn insert_list(&mut self, nodes: &[u32]) {
        let left = plain::insert_list(self.mesh, &mut self.plain.lend(), nodes);
        let right = tuned::insert_list(self.mesh, &mut self.tuned.lend(), nodes);
        assert_eq!(left, right);
        assert_eq!(self.plain, self.tuned);
        self.mesh = left.mesh;
    }

    fn set_correction(&mut self, point: u32, numbers: [i32; 3]) -> u8 {
        self.tuned.work.fill(0xAAAA);
        let left = plain::set_correction(self.mesh, &mut self.plain.lend(), point, numbers);
        let right = tuned::set_correction(self.mesh, &mut self.tuned.lend(), point, numbers);
        assert_eq!(left, right);
        assert_eq!(self.plain, self.tuned);
        left
    }

    fn correction(&mut self, p: Position) -> u8 {
        self.tuned.work.fill(0xAAAA);
        let left = plain::correction(self.mesh, &mut self.plain.lend(), p);
        let right = tuned::correction(self.mesh, &mut self.tuned.lend(), p);
        assert_eq!(left, right);
        assert_eq!(self.plain, self.tuned);
        left.refusal
    }

    fn locate(&mut self, p: Position) {
        let left = plain::locate(self.mesh, &mut self.plain.lend(), p);
        assert_eq!(left, tuned::locate(self.mesh, &mut self.tuned.lend(), p));
    }

    /// The refusal of a drive with so much room.
    fn drive_cells(&mut self, ends: [Position; 2], room: usize) -> u8 {
        self.tuned.work.fill(0xAAAA);
        let [mut cells, mut other] = [vec![7; room], vec![7; room]];
        let left = plain::drive_cells(self.mesh, &mut self.plain.lend(), ends, &mut cells);
        let right = tuned::drive_cells(self.mesh, &mut self.tuned.lend(), ends, &mut other);
        assert_eq!(left, right);
        assert_eq!(self.plain, self.tuned);
        assert_eq!(cells, other);
        left.refusal
    }
}

fn position(random: &mut Random, side: u32, spacing: u32) -> Position {
    [0; 3].map(|_| random.below((side / spacing) as u64 + 1) as u32 * spacing)
}

#[test]
fn single_insertions() {
    for seed in 0..30 {
        let mut random = Random::new(seed);
        let (side, spacing) = random.pick(&[
            (4, 1),
            (16, 1),
            (131_072, 1),
            (131_072, 8_192),
            // Ties that T rounds.
            (120_000, 10_000),
        ]);
        let mut pair = Pair::started([side; 3], 60, 300);
        for _ in 0..40 {
            let p = position(&mut random, side, spacing);
            let used = pair.mesh.used as usize;
            match random.below(4) {
                0 => pair.insert_answers(&vec![1; used], p),
                1 => pair.insert_answers(&vec![0; used], p),
                2 => {
                    let bytes: Vec<u8> = (0..used).map(|_| random.below(2) as u8).collect();
                    pair.insert_answers(&bytes, p)
                }
                _ => {
                    pair.insert(p);
                }
            }
            pair.locate(position(&mut random, side + side / 4, spacing));
        }
    }
}

/// Right marks, some of them with a byte changed: how often each was refused, by number.
#[test]
fn looks_and_marks() {
    let mut refusals = [0; 15];
    for seed in 0..40 {
        let mut random = Random::new(seed);
        let (side, spacing) = random.pick(&[(4, 1), (16, 2), (131_072, 1)]);
        let room = random.pick(&[40, 120, 300]);
        let mut pair = Pair::started([side; 3], 30, room);
        for _ in 0..40 {
            let p = position(&mut random, side, spacing);
            let used = pair.mesh.used as usize;
            if random.one_in(3) {
                let bytes: Vec<u8> = (0..used).map(|_| random.below(2) as u8).collect();
                pair.insert_answers(&bytes, p);
                continue;
            }
            pair.look(p, used.saturating_sub(random.index(3)));
            let mut marks = pair.look(p, used + random.index(3));
            if random.one_in(3) {
                marks[random.index(used)] ^= random.pick(&[1, 2, 3, 255]);
            }
            marks.truncate(marks.len() - random.pick(&[0, 0, 0, 1]));
            refusals[pair.insert_marked(&marks, p) as usize] += 1;
        }
    }
    for refusal in [0, 5, 6, 8, 14] {
        assert!(refusals[refusal] > 0, "{refusal}: {refusals:?}");
    }
}

/// Settings, readings and nodes in turn; now and then a number out of range stands in the table.
#[test]
fn corrections() {
    let mut refusals = [0; 14];
    for seed in 0..30 {
        let mut random = Random::new(seed);
        let side = random.pick(&[4, 16, 131_072]);
        let mut pair = Pair::started([side; 3], 40, 300);
        for _ in 0..40 {
            let point = random.below(u64::from(pair.mesh.points) + 1) as u32;
            let numbers = [0; 3].map(|_| random.below(2_005) as i32 - 1_002);
            refusals[pair.set_correction(point, numbers) as usize] += 1;
            pair.correction(position(&mut random, side, 1));
            pair.correction(position(&mut random, side, side / 2));
            pair.insert(position(&mut random, side, 1));
            pair.insert_list(position(&mut random, side, 1).as_slice());
        }
        let place = random.index(pair.plain.corrections.len());
        for tables in [&mut pair.plain, &mut pair.tuned] {
            tables.corrections[place] = -1_001;
        }
        let p = position(&mut random, side, 1);
        refusals[pair.correction(p) as usize] += 1;
        pair.insert(p);
        pair.insert_list(&[p, p].concat());
        pair.look(p, 300);
        pair.set_correction(0, [0; 3]);
    }
    for refusal in [0, 12, 13] {
        assert!(refusals[refusal] > 0, "{refusal}: {refusals:?}");
    }
}

/// Between whole places that are often points, in planes of faces or in walls.
#[test]
fn drives() {
    let mut refusals = [0; 11];
    for seed in 0..40 {
        let mut random = Random::new(seed);
        let (side, spacing) = random.pick(&[(4, 1), (16, 2), (131_072, 1), (131_072, 16_384)]);
        let mut pair = Pair::started([side; 3], 60, 400);
        for _ in 0..25 {
            pair.insert(position(&mut random, side, spacing));
            for _ in 0..6 {
                let far = side + spacing * u32::from(random.one_in(12));
                let ends = [0; 2].map(|_| position(&mut random, far, spacing));
                let few = random.index(40);
                let room = random.pick(&[400, 400, few]);
                refusals[pair.drive_cells(ends, room) as usize] += 1;
            }
            let at = pair.plain.points.as_chunks().0[pair.mesh.points as usize - 1];
            pair.drive_cells([at, position(&mut random, side, spacing)], 400);
            pair.drive_cells([at; 2], 400);
        }
    }
    for refusal in [0, 4, 10] {
        assert!(refusals[refusal] > 0, "{refusal}: {refusals:?}");
    }
}

#[test]
fn lists() {
    for seed in 0..10 {
        let mut random = Random::new(seed);
        let side = random.pick(&[9, 131_072]);
        let mut pair = Pair::started([side; 3], 200, 900);
        for _ in 0..6 {
            let nodes: Vec<Position> = (0..25).map(|_| position(&mut random, side, 1)).collect();
            pair.insert_list(nodes.as_flattened());
        }
    }
}

#[test]
fn a_lattice_that_fills_the_tables() {
    let mut pair = Pair::started([6; 3], 1_024, 1_300);
    let lattice: Vec<Position> = (0..343u32)
        .map(|k| [k % 7, k / 7 % 7, k / 49])
        .filter(|p| p.iter().any(|&n| n != 0 && n != 6))
        .collect();
    pair.insert_list(lattice.as_flattened());
    assert!(pair.mesh.cells > 1_000);
    // At points with many cells, most of them with numbers of more than eight bits.
    for &p in lattice.iter().step_by(5) {
        pair.locate(p);
    }
}

/// What both builds make of a record and tables that need be no mesh.
fn any_tables(mesh: Mesh, tables: &Owned) {
    let [mut left, mut right] = [tables.clone(), tables.clone()];
    let yes = plain::check(mesh, &mut left.lend());
    assert_eq!(yes, tuned::check(mesh, &mut right.lend()));
    let p = [3, 3, 1];
    let mut marks = [[1; 60]; 2];
    let looked = plain::look(mesh, &mut left.lend(), &mut marks[0], p);
    assert_eq!(
        looked,
        tuned::look(mesh, &mut right.lend(), &mut marks[1], p)
    );
    assert_eq!(marks[0], marks[1]);
    let mut cells = [[7; 60]; 2];
    let ends = [p, [0, 4, 4]];
    let counted = plain::drive_cells(mesh, &mut left.lend(), ends, &mut cells[0]);
    assert_eq!(
        counted,
        tuned::drive_cells(mesh, &mut right.lend(), ends, &mut cells[1])
    );
    assert_eq!(cells[0], cells[1]);
    let answers = [1; 50];
    let inserted = plain::insert_answers(mesh, &mut left.lend(), &answers, p);
    assert_eq!(
        bits(inserted),
        bits(tuned::insert_answers(mesh, &mut right.lend(), &answers, p))
    );
    assert_eq!(left, right);
}

/// With freed entries.
fn two_nodes() -> Pair {
    let mut pair = Pair::started([4; 3], 12, 60);
    pair.insert([1, 2, 3]);
    pair.insert([2, 0, 2]);
    assert_eq!(pair.mesh.used - pair.mesh.cells, 6);
    pair
}

#[test]
fn every_table_entry_changed() {
    let mut random = Random::new(1);
    let Pair { mesh, plain, .. } = two_nodes();
    for table in 0..3 {
        let used = if table == 0 {
            3 * mesh.points
        } else {
            4 * mesh.used
        };
        for place in 0..used as usize {
            let mut tables = plain.clone();
            let number = random.pick(&[0, 1, 2, 3, 4, 5, 8, 65_535]);
            match table {
                0 => tables.points[place] = number as u32,
                1 => tables.corners[place] = number,
                _ => tables.neighbours[place] = number,
            }
            any_tables(mesh, &tables);
        }
    }
}

#[test]
fn every_number_of_the_record_changed() {
    let fields: [fn(&mut Mesh) -> &mut u32; 7] = [
        |mesh| &mut mesh.x,
        |mesh| &mut mesh.y,
        |mesh| &mut mesh.z,
        |mesh| &mut mesh.points,
        |mesh| &mut mesh.cells,
        |mesh| &mut mesh.chain,
        |mesh| &mut mesh.used,
    ];
    for Pair { mesh, plain, .. } in [Pair::started([4; 3], 12, 60), two_nodes()] {
        let same_low_bits = 1 << 16 | mesh.chain;
        for field in fields {
            for number in (0..80).chain([65_534, 65_535, 65_536, same_low_bits, u32::MAX]) {
                let mut mesh = mesh;
                *field(&mut mesh) = number;
                any_tables(mesh, &plain);
            }
        }
    }
}

/// What both builds answer, and leave in an output of so many bytes.
fn merged(first: &[u8], second: &[u8], room: usize) -> Written {
    let [mut left, mut right] = [vec![7; room], vec![7; room]];
    let answer = plain::merge(first, second, &mut left);
    assert_eq!(answer, tuned::merge(first, second, &mut right));
    assert_eq!(left, right);
    answer
}

#[test]
fn merged_files() {
    let mut refusals = [0; 20];
    for seed in 0..400 {
        let mut random = Random::new(seed);
        let side = random.pick(&[1, 3, 20, 131_072]);
        let mut file = || {
            let count = random.pick(&[0, 1, 5, 40, 700, 1_016, 1_017]);
            let mut sides = [side; 3];
            if random.one_in(10) {
                sides[random.index(3)] = random.pick(&[0, side + 1]);
            }
            let far = side + random.one_in(4) as u32;
            let nodes: Vec<Position> = (0..count).map(|_| position(&mut random, far, 1)).collect();
            encode(sides, &nodes)
        };
        let (first, second) = (file(), file());
        let answer = merged(&first, &second, 30_000);
        if answer.refusal == 0 {
            assert_eq!(merged(&first, &second, answer.bytes as usize), answer);
            assert_eq!(
                merged(&first, &second, answer.bytes as usize - 1).refusal,
                10
            );
        }
        refusals[answer.refusal as usize] += 1;
    }
    for refusal in [0, 2, 4, 6, 9, 19] {
        assert!(refusals[refusal] > 0, "{refusal}: {refusals:?}");
    }
}
