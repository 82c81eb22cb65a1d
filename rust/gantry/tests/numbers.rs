//! Cell numbers: which stay, which are freed and taken again, and what the record and the tables say of them.

mod common;

use common::lattice;
use gantry::{raw, Mesh, Position};

fn numbers(mesh: &Mesh) -> Vec<usize> {
    mesh.cells().map(|cell| cell.number).collect()
}

/// Of the cells outside a look's, number and corners stay, and each neighbour that was not among these.
#[test]
fn cells_outside_a_look_stay() {
    let nodes = lattice(4, 5);
    let mut mesh = Mesh::start(15, 15, 15).unwrap();
    let mut other_neighbours = 0;
    for &p in &nodes {
        let before = mesh.clone();
        let look = mesh.look(p).unwrap();
        mesh.insert_looked(&look).unwrap();
        for old in before.cells() {
            let new = mesh.cell(old.number);
            assert_eq!(mesh.stands(&old), !look.replaces(old.number));
            // The insertion itself takes none of the numbers that it frees.
            assert_eq!(new.is_some(), !look.replaces(old.number));
            let Some(new) = new else { continue };
            assert_eq!(new.corners, old.corners);
            for (was, is) in old.neighbours.into_iter().zip(new.neighbours) {
                match was {
                    Some(number) if look.replaces(number) => {
                        let made = mesh.cell(is.unwrap()).unwrap();
                        assert!(made.corners.contains(&look.report().point));
                        other_neighbours += 1;
                    }
                    _ => assert_eq!(is, was),
                }
            }
        }
    }
    assert!(other_neighbours > 100, "{other_neighbours}");
}

/// New cells take the numbers freed last, then the end of the table; the numbers of the cells that they replace come next.
#[test]
fn freed_numbers_are_taken_again() {
    let mut mesh = Mesh::start(4, 4, 4).unwrap();
    assert_eq!(numbers(&mesh), [0, 1, 2, 3, 4, 5]);
    mesh.insert([1, 2, 3]).unwrap();
    assert_eq!((numbers(&mesh), mesh.used()), ((6..18).collect(), 18));
    for freed in 0..6 {
        assert_eq!(mesh.cell(freed), None);
        assert_eq!(mesh.corner_positions(freed), None);
    }
    let look = mesh.look([2, 2, 2]).unwrap();
    assert_eq!(look.marks().len(), 18);
    assert!(!(0..6).any(|freed| look.replaces(freed)));
    let (before, made) = (numbers(&mesh), look.report().made);
    assert!(made > 6);
    mesh.insert_looked(&look).unwrap();
    let kept = before.iter().filter(|&&number| !look.replaces(number));
    let taken = (0..6).chain(18..12 + made);
    let mut expected: Vec<usize> = kept.copied().chain(taken).collect();
    expected.sort();
    assert_eq!((numbers(&mesh), mesh.used()), (expected, 12 + made));
    // Too few new cells for the numbers that are free: the last freed are taken.
    let before = numbers(&mesh);
    let freed: Vec<usize> = look.cells().collect();
    let report = mesh.insert([4, 4, 1]).unwrap();
    assert!(report.made < freed.len());
    let taken = &freed[freed.len() - report.made..];
    let made = numbers(&mesh)
        .into_iter()
        .filter(|number| !before.contains(number));
    assert_eq!(Vec::from_iter(made), taken);
}

/// A stored number is that of the same cell as long as no corner is a later point.
#[test]
fn stored_numbers_by_the_point_count() {
    let nodes = lattice(4, 5);
    let mut mesh = Mesh::start(15, 15, 15).unwrap();
    mesh.insert_list(&nodes[..20]).unwrap();
    let (stored, points) = (Vec::from_iter(mesh.cells()), mesh.points().len());
    mesh.insert_list(&nodes[20..]).unwrap();
    let mut reused = 0;
    for old in &stored {
        let new = mesh.cell(old.number);
        let is_old = new.is_some_and(|new| new.corners.iter().all(|&point| point < points));
        assert_eq!(mesh.stands(old), is_old);
        reused += usize::from(new.is_some() && !is_old);
    }
    let standing = stored.iter().filter(|cell| mesh.stands(cell)).count();
    assert!(standing > 10 && reused > 10, "{standing} {reused}");
}

/// As many cells as are said, by rising number, wherever the walk is.
#[test]
fn cells_are_counted_beforehand() {
    let mut mesh = Mesh::start(15, 15, 15).unwrap();
    mesh.insert_list(&lattice(4, 5)).unwrap();
    assert!(mesh.used() > mesh.cells().len());
    let mut cells = mesh.cells();
    let (mut left, mut next) = (cells.len(), 0);
    while let Some(cell) = cells.next() {
        left -= 1;
        assert_eq!(cells.len(), left);
        assert!(cell.number >= next);
        next = cell.number + 1;
    }
    assert_eq!((left, cells.next()), (0, None));
}

/// Tables of a test's own, for what only the raw calls are lent.
struct Owned {
    points: [u32; 30],
    corners: [u16; 88],
    neighbours: [u16; 88],
    work: [u16; 66],
    corrections: [i32; 30],
}

impl Owned {
    fn new() -> Owned {
        Owned {
            points: [0; 30],
            corners: [0; 88],
            neighbours: [0; 88],
            work: [0; 66],
            corrections: [0; 30],
        }
    }

    fn lend(&mut self) -> raw::Tables<'_> {
        self.lend_room(22).0
    }

    fn lend_both(&mut self) -> (raw::Tables<'_>, &mut [i32]) {
        self.lend_room(22)
    }

    /// The tables with room for so many cells, and the corrections.
    fn lend_room(&mut self, cells: usize) -> (raw::Tables<'_>, &mut [i32]) {
        let tables = raw::Tables {
            points: &mut self.points,
            corners: &mut self.corners[..4 * cells],
            neighbours: &mut self.neighbours[..4 * cells],
            work: &mut self.work[..3 * cells],
        };
        (tables, &mut self.corrections)
    }

    fn start(&mut self, sides: Position) -> raw::Started {
        let (mut tables, corrections) = self.lend_both();
        raw::start(sides, &mut tables, corrections)
    }

    fn insert(&mut self, mesh: raw::Record, p: Position) -> raw::Inserted {
        let (mut tables, corrections) = self.lend_both();
        raw::insert(mesh, &mut tables, corrections, p)
    }

    fn insert_answers(&mut self, mesh: raw::Record, answers: &[u8], p: Position) -> raw::Inserted {
        let (mut tables, corrections) = self.lend_both();
        raw::insert_answers(mesh, &mut tables, corrections, answers, p)
    }

    fn insert_marked(&mut self, mesh: raw::Record, marks: &[u8], p: Position) -> raw::Inserted {
        let (mut tables, corrections) = self.lend_both();
        raw::insert_marked(mesh, &mut tables, corrections, marks, p)
    }

    fn look(&mut self, mesh: raw::Record, marks: &mut [u8], p: Position) -> raw::Looked {
        let (mut tables, corrections) = self.lend_both();
        raw::look(mesh, &mut tables, corrections, marks, p)
    }

    /// The started box with one node in it: numbers 0 to 5 are freed, 6 to 17 are the cells.
    fn with_node() -> (Owned, raw::Record) {
        let mut owned = Owned::new();
        let started = owned.start([4; 3]);
        let inserted = owned.insert(started.mesh, [1, 2, 3]);
        assert_eq!(inserted.refusal, 0);
        (owned, inserted.mesh)
    }
}

#[test]
fn chain_and_used_length_of_a_record() {
    let mut owned = Owned::new();
    let refused = owned.start([0; 3]);
    assert_eq!((refused.refusal, refused.mesh), (2, raw::Record::default()));
    let mesh = owned.start([4; 3]).mesh;
    assert_eq!((mesh.cells, mesh.chain, mesh.used), (6, 65_535, 6));
    let (owned, mesh) = Owned::with_node();
    assert_eq!((mesh.cells, mesh.chain, mesh.used), (12, 5, 18));
    let (corners, neighbours) = (owned.corners.as_chunks().0, owned.neighbours.as_chunks().0);
    for (number, next) in [65_535, 0, 1, 2, 3, 4].into_iter().enumerate() {
        assert_eq!(corners[number], raw::FREED);
        assert_eq!(neighbours[number], [next, 65_535, 65_535, 65_535]);
    }
    assert!(!corners[6..18].contains(&raw::FREED));
    // Nothing is cleared, and nothing is written past the used length.
    assert_eq!(corners[18..], [[0; 4]; 4]);
}

/// A record and tables with one thing wrong are no mesh.
#[test]
fn wrong_chains_are_refused() {
    let refused = |wrong: fn(&mut Owned, &mut raw::Record)| {
        let (mut owned, mut mesh) = Owned::with_node();
        wrong(&mut owned, &mut mesh);
        assert!(!raw::check(mesh, &mut owned.lend()));
        let located = raw::locate(mesh, &mut owned.lend(), [2; 3]);
        let inserted = owned.insert(mesh, [2; 3]);
        assert_eq!([located.refusal, inserted.refusal], [3; 2]);
        assert_eq!(inserted.mesh, mesh);
    };
    // It leaves entries out, has a cell on it, leaves the used length, or is none.
    refused(|_, mesh| mesh.chain = 65_535);
    refused(|_, mesh| mesh.chain = 4);
    refused(|_, mesh| mesh.chain = 6);
    refused(|_, mesh| mesh.chain = 18);
    refused(|_, mesh| mesh.chain = 65_536);
    refused(|owned, _| owned.neighbours[4 * 2] = 7);
    refused(|owned, _| owned.neighbours[4 * 2] = 65_535);
    // It goes round.
    refused(|owned, _| owned.neighbours[0] = 5);
    // One of the other three neighbours, and one of the four corners.
    refused(|owned, _| owned.neighbours[4 * 3 + 2] = 0);
    refused(|owned, _| owned.corners[4 * 3 + 1] = 0);
    // The counts.
    refused(|_, mesh| mesh.cells = 11);
    refused(|_, mesh| mesh.used = 17);
    refused(|_, mesh| mesh.used = 19);
    // The chain may have the freed numbers in any order.
    let (mut owned, mut mesh) = Owned::with_node();
    for (number, next) in [3, 65_535, 5, 4, 1, 0].into_iter().enumerate() {
        owned.neighbours[4 * number] = next;
    }
    mesh.chain = 2;
    assert!(raw::check(mesh, &mut owned.lend()));
}

#[test]
fn less_room_than_the_used_length() {
    let (mut owned, mesh) = Owned::with_node();
    assert!(raw::check(mesh, &mut owned.lend_room(18).0));
    assert!(!raw::check(mesh, &mut owned.lend_room(17).0));
    let located = raw::locate(mesh, &mut owned.lend_room(17).0, [2; 3]);
    assert_eq!(located.refusal, 3);
}

#[test]
fn marks_up_to_the_used_length() {
    let (p, mut marks) = ([1, 2, 3], [7; 9]);
    let mut owned = Owned::new();
    let mesh = owned.start([4; 3]).mesh;
    let short = owned.look(mesh, &mut marks[..5], p);
    assert_eq!((short.refusal, short.after, marks), (10, 0, [7; 9]));
    let looked = owned.look(mesh, &mut marks, p);
    assert_eq!((looked.refusal, looked.after), (0, 6));
    assert_eq!(marks, [1, 1, 1, 1, 1, 1, 7, 7, 7]);
    let mut refused = |marks: &[u8]| {
        let answer = owned.insert_marked(mesh, marks, p);
        assert_eq!(answer.mesh, mesh);
        answer.refusal
    };
    assert_eq!(refused(&marks[..5]), 14);
    assert_eq!(refused(&[1, 1, 1, 1, 1, 2]), 14);
    assert_eq!(refused(&[1, 1, 1, 1, 1, 0]), 14);
    let inserted = owned.insert_marked(mesh, &marks, p);
    assert_eq!((inserted.refusal, inserted.mesh.cells), (0, 12));
}

/// Twelve cells, and numbers up to 17: bytes for the cells alone are too few.
#[test]
fn bytes_of_freed_numbers() {
    let (mut owned, mesh) = Owned::with_node();
    let (p, mut marks) = ([4, 4, 2], [7; 19]);
    let short = owned.look(mesh, &mut marks[..17], p);
    assert_eq!((short.refusal, marks), (10, [7; 19]));
    let looked = owned.look(mesh, &mut marks, p);
    assert_eq!((looked.refusal, looked.after), (0, 4));
    let expected: [u8; 18] = std::array::from_fn(|number| [6, 8, 10, 16].contains(&number).into());
    assert_eq!((&marks[..18], marks[18]), (&expected[..], 7));
    let mut other = marks;
    other[0] = 1;
    for wrong in [&marks[..17], &other] {
        let refused = owned.insert_marked(mesh, wrong, p);
        assert_eq!(refused.refusal, 14);
    }
    let short = owned.insert_answers(mesh, &[0; 17], p);
    assert_eq!(short.refusal, 1);
    // A yes for every freed number: the cavity is the two cells at the box edge that holds the node.
    let answers: [u8; 18] = std::array::from_fn(|number| (number < 6).into());
    let answered = owned.insert_answers(mesh, &answers, p);
    assert_eq!((answered.refusal, answered.before), (0, 2));
    assert!(raw::check(answered.mesh, &mut owned.lend()));
}
