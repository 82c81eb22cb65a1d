//! Long histories of insertions with a fixed seed: the mesh stays a mesh, and each new node is a corner.

mod common;

use common::Kit;
use plain::random::Random;
use plain::{Mesh, Position};

#[derive(Clone, Copy, Debug)]
enum Nodes {
    Random,
    Lattice,
    Cospherical,
    Wall,
}

const KINDS: [Nodes; 4] = [
    Nodes::Random,
    Nodes::Lattice,
    Nodes::Cospherical,
    Nodes::Wall,
];

/// The signed places of (±6, ±3, ±2) in any order lie on a sphere of radius 7.
fn on_a_sphere(random: &mut Random) -> Position {
    let mut legs = [6i64, 3, 2];
    let turn = random.index(3);
    legs.rotate_left(turn);
    if random.one_in(2) {
        legs.swap(0, 1);
    }
    legs.map(|leg| (8 + if random.one_in(2) { leg } else { -leg }) as u32)
}

fn node(random: &mut Random, kind: Nodes, sides: Position) -> Position {
    let anywhere = sides.map(|side| random.below(side as u64 + 1) as u32);
    match kind {
        Nodes::Random => anywhere,
        Nodes::Lattice => anywhere.map(|n| n / 4 * 4),
        Nodes::Cospherical => on_a_sphere(random),
        Nodes::Wall => {
            let axis = random.index(3);
            let mut p = anywhere;
            p[axis] = random.pick(&[0, sides[axis]]);
            p
        }
    }
}

/// By the sphere test, or all yes, all no, or random bytes.
fn insert_somehow(kit: &mut Kit, random: &mut Random, p: Position) -> plain::Inserted {
    let used = kit.mesh.used as usize;
    match random.below(4) {
        0 => kit.insert_answers(&vec![1; used], p),
        1 => kit.insert_answers(&vec![0; used], p),
        2 => {
            let bytes: Vec<u8> = (0..used).map(|_| random.below(2) as u8).collect();
            kit.insert_answers(&bytes, p)
        }
        _ => kit.insert(p),
    }
}

fn history(seed: u64, kind: Nodes) {
    let mut random = Random::new(seed);
    let side = random.pick(&[16, 16, 16, 1_000, 131_072]);
    let sides = match kind {
        Nodes::Cospherical => [16; 3],
        _ => [side, side / random.pick(&[1, 2, 4]), side],
    };
    let mut kit = Kit::started(sides, 40, 200);
    for _ in 0..40 {
        let p = node(&mut random, kind, sides);
        let before = kit.clone();
        let answer = insert_somehow(&mut kit, &mut random, p);
        assert!(kit.check(), "seed {seed} {kind:?}");
        if answer.refusal == 0 {
            assert!(kit.has_corner(answer.point));
            assert!((0..kit.mesh.points).all(|point| kit.has_corner(point)));
            assert!(answer.after <= answer.before);
            let used = before.mesh.used.max(before.mesh.cells + answer.made);
            assert_eq!(kit.mesh.used, used);
        } else {
            assert!([5, 6, 8].contains(&answer.refusal), "seed {seed} {kind:?}");
            assert_eq!(kit, before);
        }
        let located = plain::locate(kit.mesh, &mut kit.tables.lend(), p);
        assert_eq!(located.refusal, 0);
    }
}

#[test]
fn the_mesh_stays_a_mesh() {
    for seed in 0..12 {
        for kind in KINDS {
            history(seed, kind);
        }
    }
}

fn grown(seed: u64) -> Kit {
    let mut random = Random::new(seed);
    let mut kit = Kit::started([16; 3], 24, 120);
    for _ in 0..12 {
        let kind = random.pick(&KINDS);
        let p = node(&mut random, kind, [16; 3]);
        insert_somehow(&mut kit, &mut random, p);
    }
    kit
}

fn damage(kit: &mut Kit, random: &mut Random) {
    let number = random.bits() as u32;
    let number = random.pick(&[0, 1, 5, 8, 9, 16, 17, 65_535, number]);
    let entry = random.pick(&[0, 1, 6, 7, 65_535, number as u16]);
    let Mesh { points, used, .. } = kit.mesh;
    let in_points = random.index(3 * points as usize);
    let in_cells = random.index(4 * used as usize);
    match random.below(11) {
        0 => kit.mesh.x = number,
        1 => kit.mesh.points = number,
        2 => kit.mesh.cells = number,
        3 => kit.mesh.chain = number,
        4 => kit.mesh.used = number,
        5 => kit.tables.points[in_points] = number,
        6 => kit.tables.corners[in_cells] = entry,
        7 => kit.tables.neighbours[in_cells] = entry,
        8 => kit.tables.corners.truncate(in_cells),
        9 => kit.tables.neighbours.truncate(in_cells),
        _ => kit.tables.work.truncate(in_cells),
    }
}

/// Every call answers, and what it leaves is a mesh or what it found.
fn call_everything(kit: &mut Kit, random: &mut Random) {
    let p = node(random, Nodes::Lattice, [20; 3]);
    let was_mesh = kit.check();
    let before = kit.clone();
    let answer = insert_somehow_in(kit, random, p);
    if answer.refusal != 0 {
        assert_eq!(*kit, before);
    }
    assert_eq!(kit.check(), was_mesh);
    let nodes: Vec<u32> = (0..7).map(|_| random.below(18) as u32).collect();
    let listed = plain::insert_list(kit.mesh, &mut kit.tables.lend(), &nodes);
    kit.mesh = listed.mesh;
    assert_eq!(kit.check(), was_mesh);
    plain::locate(kit.mesh, &mut kit.tables.lend(), p);
    plain::look(kit.mesh, &mut kit.tables.lend(), &mut [0; 150], p);
    plain::write_nodes(kit.mesh, &mut kit.tables.lend(), &mut [0; 400]);
}

fn insert_somehow_in(kit: &mut Kit, random: &mut Random, p: Position) -> plain::Inserted {
    let answer = match random.below(3) {
        0 => plain::insert(kit.mesh, &mut kit.tables.lend(), p),
        1 => plain::insert_marked(kit.mesh, &mut kit.tables.lend(), &[1; 150], p),
        _ => plain::insert_answers(kit.mesh, &mut kit.tables.lend(), &[1; 150], p),
    };
    kit.mesh = answer.mesh;
    answer
}

#[test]
fn damaged_tables_are_answered() {
    let mut random = Random::new(7);
    for seed in 0..20 {
        let kit = grown(seed);
        for _ in 0..100 {
            let mut damaged = kit.clone();
            for _ in 0..=random.below(2) {
                if damaged.mesh.points < 1_000 && damaged.mesh.used < 1_000 {
                    let fits = damaged.tables.corners.len() >= 4 * damaged.mesh.used as usize
                        && damaged.tables.neighbours.len() >= 4 * damaged.mesh.used as usize
                        && damaged.tables.points.len() >= 3 * damaged.mesh.points as usize;
                    if fits {
                        damage(&mut damaged, &mut random);
                    }
                }
            }
            call_everything(&mut damaged, &mut random);
        }
    }
}

#[test]
fn node_files_read_back() {
    for seed in 0..20 {
        let mut kit = grown(seed);
        let nodes = kit.mesh.points as usize - 8;
        let mut file = vec![3; 12 * nodes + 25];
        let written = plain::write_nodes(kit.mesh, &mut kit.tables.lend(), &mut file);
        assert_eq!(
            (written.refusal, written.bytes),
            (0, 12 * nodes as u32 + 20)
        );
        assert_eq!(file[written.bytes as usize..], [3; 5]);
        file.truncate(written.bytes as usize);
        file.splice(0..0, *b"a note");
        let mut read_back = vec![0; 3 * nodes];
        let read = plain::read_nodes(&file, &mut read_back);
        assert_eq!([read.x, read.y, read.z], kit.mesh.sides());
        assert_eq!(read.count as usize, nodes);
        assert_eq!(read_back, kit.tables.points[24..24 + 3 * nodes]);
    }
}
