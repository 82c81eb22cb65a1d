//! The comparison sees a single wrong entry or bit.

use compare::{run, Builder, Stop, Tuned};
use plain::corrections::Correction;
use plain::{
    Answers, Corrected, Counted, Inserted, Listed, Located, Looked, Mesh, Position, Read, Sphere,
    Started, Tables, Written,
};

#[derive(Clone, Copy, PartialEq)]
enum Harm {
    None,
    /// A work entry is left.
    Work,
    /// An entry past the used ones is cleared.
    Corner,
    /// An entry is freed with a neighbour left.
    Freed,
    /// The used length is one more.
    Used,
    /// The chain is another one in its high bits.
    Chain,
    /// The least T of handed-in answers is −0.0.
    Sign,
    /// A refused record is cleared.
    Record,
    /// A byte past the written file is cleared.
    Byte,
    /// A byte past the merged file is cleared.
    Merged,
    /// The list's place is one more.
    Place,
    /// A located cell is refused.
    Unheld,
    /// A look changes a mark past the used entries.
    MarkBeyond,
    /// A refused look changes a mark.
    MarkRefused,
    /// A look inserts the node.
    Look,
    /// The record of an insertion with other marks is cleared.
    OtherMarks,
    /// An insertion clears the corrections behind its node's.
    CorrectionBeyond,
    /// A start clears the corrections behind the box corners'.
    CorrectionAtStart,
    /// A setting that is refused is made.
    CorrectionRefused,
    /// A look changes a correction.
    CorrectionByLook,
    /// A refused reading gives a number.
    CorrectionRead,
    /// A drive changes an entry past the listed cells.
    CellBeyond,
    /// A refused drive changes an entry.
    CellRefused,
    /// A refused drive has a count.
    CountRefused,
    /// A drive gives its last cell another number.
    LastCell,
}

/// `tuned` with one harm done.
struct Harmed(Harm);

impl Harmed {
    fn harm(&self, tables: &mut Tables) {
        match self.0 {
            Harm::Work => tables.work.iter_mut().rev().take(1).for_each(|w| *w = 1),
            Harm::Corner => tables.corners.iter_mut().rev().take(1).for_each(|c| *c = 0),
            _ => {}
        }
    }

    /// Of one that was accepted, and freed an entry.
    fn harm_insertion(&self, tables: &mut Tables, answer: &mut Inserted) {
        let Inserted { refusal, mesh, .. } = answer;
        match self.0 {
            Harm::Freed if *refusal == 0 => tables.neighbours[4 * mesh.chain as usize + 3] = 0,
            Harm::Used if *refusal == 0 => mesh.used += 1,
            Harm::Chain if *refusal == 0 => mesh.chain |= 1 << 16,
            Harm::CorrectionBeyond if *refusal == 0 => {
                clear_corrections(tables, 3 * mesh.points as usize)
            }
            _ => {}
        }
    }

    fn harm_output(&self, harm: Harm, answer: Written, out: &mut [u8]) {
        if self.0 == harm && out.len() > answer.bytes as usize {
            out[answer.bytes as usize] = 0;
        }
    }
}

/// From this entry on.
fn clear_corrections(tables: &mut Tables, place: usize) {
    let entries = tables.corrections.iter_mut().skip(place);
    entries.for_each(|entry| *entry = 0);
}

impl Builder for Harmed {
    fn name(&self) -> String {
        "harmed".to_string()
    }

    fn volume6(&self, numbers: [i32; 12]) -> i64 {
        Tuned.volume6(numbers)
    }

    fn sphere_test(&self, corners: [Position; 4], p: Position) -> Sphere {
        Tuned.sphere_test(corners, p)
    }

    fn start(&self, sides: Position, tables: &mut Tables) -> Started {
        let answer = Tuned.start(sides, tables);
        if self.0 == Harm::CorrectionAtStart && answer.refusal == 0 {
            clear_corrections(tables, 24);
        }
        answer
    }

    fn insert(&self, mesh: Mesh, tables: &mut Tables, answers: Answers, p: Position) -> Inserted {
        let mut answer = Tuned.insert(mesh, tables, answers, p);
        self.harm_insertion(tables, &mut answer);
        match (self.0, answers) {
            (Harm::Record, Answers::SphereTest) if answer.refusal != 0 => {
                answer.mesh = Mesh::default()
            }
            (Harm::Sign, Answers::Given(_)) => answer.least = -answer.least,
            _ => {}
        }
        answer
    }

    fn look(&self, mesh: Mesh, tables: &mut Tables, marks: &mut [u8], p: Position) -> Looked {
        let answer = Tuned.look(mesh, tables, marks, p);
        let place = match (self.0, answer.refusal) {
            (Harm::MarkBeyond, 0) => mesh.used as usize,
            (Harm::MarkRefused, 1..) => 0,
            _ => marks.len(),
        };
        marks.iter_mut().skip(place).take(1).for_each(|m| *m ^= 1);
        match self.0 {
            Harm::Look => {
                Tuned.insert(mesh, tables, Answers::SphereTest, p);
            }
            Harm::CorrectionByLook => tables.corrections.iter_mut().take(1).for_each(|n| *n ^= 1),
            _ => {}
        }
        answer
    }

    fn insert_marked(
        &self,
        mesh: Mesh,
        tables: &mut Tables,
        marks: &[u8],
        p: Position,
    ) -> Inserted {
        let mut answer = Tuned.insert_marked(mesh, tables, marks, p);
        if self.0 == Harm::OtherMarks && answer.refusal == 14 {
            answer.mesh = Mesh::default();
        }
        answer
    }

    fn insert_list(&self, mesh: Mesh, tables: &mut Tables, nodes: &[u32]) -> Listed {
        let mut answer = Tuned.insert_list(mesh, tables, nodes);
        answer.place += matches!(self.0, Harm::Place) as u32;
        answer
    }

    fn locate(&self, mesh: Mesh, tables: &mut Tables, p: Position) -> Located {
        let mut answer = Tuned.locate(mesh, tables, p);
        self.harm(tables);
        if matches!(self.0, Harm::Unheld) && answer.refusal == 0 {
            answer.refusal = 7;
        }
        answer
    }

    fn drive_cells(
        &self,
        mesh: Mesh,
        tables: &mut Tables,
        ends: [Position; 2],
        cells: &mut [u16],
    ) -> Counted {
        let mut answer = Tuned.drive_cells(mesh, tables, ends, cells);
        let place = match (self.0, answer.refusal) {
            (Harm::CellBeyond, 0) => answer.count as usize,
            (Harm::CellRefused, 1..) => 0,
            (Harm::LastCell, 0) => answer.count as usize - 1,
            _ => cells.len(),
        };
        cells.iter_mut().skip(place).take(1).for_each(|c| *c ^= 1);
        if self.0 == Harm::CountRefused && answer.refusal != 0 {
            answer.count = 1;
        }
        answer
    }

    fn correction(&self, mesh: Mesh, tables: &mut Tables, p: Position) -> Corrected {
        let mut answer = Tuned.correction(mesh, tables, p);
        if self.0 == Harm::CorrectionRead && answer.refusal != 0 {
            answer.y = 1;
        }
        answer
    }

    fn set_correction(
        &self,
        mesh: Mesh,
        tables: &mut Tables,
        point: u32,
        numbers: Correction,
    ) -> u8 {
        let answer = Tuned.set_correction(mesh, tables, point, numbers);
        if self.0 == Harm::CorrectionRefused && answer == 12 {
            tables.corrections.as_chunks_mut().0[point as usize] = numbers;
        }
        answer
    }

    fn check(&self, mesh: Mesh, tables: &mut Tables) -> bool {
        Tuned.check(mesh, tables)
    }

    fn read_nodes(&self, file: &[u8], nodes: &mut [u32]) -> Read {
        Tuned.read_nodes(file, nodes)
    }

    fn write_nodes(&self, mesh: Mesh, tables: &mut Tables, out: &mut [u8]) -> Written {
        let answer = Tuned.write_nodes(mesh, tables, out);
        self.harm_output(Harm::Byte, answer, out);
        answer
    }

    fn merge(&self, first: &[u8], second: &[u8], out: &mut [u8]) -> Written {
        let answer = Tuned.merge(first, second, out);
        self.harm_output(Harm::Merged, answer, out);
        answer
    }
}

fn stop(left: Harm, right: Harm) -> Option<Box<Stop>> {
    run(&Harmed(left), &Harmed(right), 1, 2_000).err()
}

#[test]
fn every_harm_is_found() {
    let cases = [
        (Harm::Work, "work["),
        (Harm::Corner, "corners["),
        (Harm::Freed, "neighbours["),
        (Harm::Used, "answer: "),
        (Harm::Chain, "answer: "),
        (Harm::Sign, "answer: "),
        (Harm::Record, "answer: "),
        (Harm::Byte, "output["),
        (Harm::Merged, "output["),
        (Harm::Place, "answer: "),
        (Harm::MarkBeyond, "output["),
        (Harm::MarkRefused, "output["),
        (Harm::Look, "points["),
        (Harm::OtherMarks, "answer: "),
        (Harm::CorrectionBeyond, "corrections["),
        (Harm::CorrectionAtStart, "corrections["),
        (Harm::CorrectionRefused, "corrections["),
        (Harm::CorrectionByLook, "corrections["),
        (Harm::CorrectionRead, "answer: "),
        (Harm::CellBeyond, "cells["),
        (Harm::CellRefused, "cells["),
        (Harm::CountRefused, "answer: "),
        (Harm::LastCell, "cells["),
    ];
    for (harm, what) in cases {
        for stop in [stop(harm, Harm::None), stop(Harm::None, harm)] {
            assert!(stop.is_some_and(|stop| stop.is_difference && stop.what.starts_with(what)));
        }
    }
    assert!(stop(Harm::None, Harm::None).is_none());
}

#[test]
fn a_work_area_that_neither_clears_is_found() {
    let stop = stop(Harm::Work, Harm::Work).expect("a stop");
    assert!(!stop.is_difference && stop.what.ends_with("not cleared"));
    assert!(stop
        .to_string()
        .starts_with("wrong with both: seed 1 step "));
}

#[test]
fn corrections_that_both_write_are_found() {
    for harm in [Harm::CorrectionByLook, Harm::CorrectionRefused] {
        let stop = stop(harm, harm).expect("a stop");
        assert!(!stop.is_difference);
        assert_eq!(stop.what, "corrections: written");
    }
}

#[test]
fn entries_beyond_a_list_that_both_write_are_found() {
    for harm in [Harm::CellBeyond, Harm::CellRefused] {
        let stop = stop(harm, harm).expect("a stop");
        assert!(!stop.is_difference);
        assert!(stop.what.starts_with("cells[") && stop.what.ends_with("]: written"));
    }
}

#[test]
fn an_unheld_position_stops_both() {
    let stop = stop(Harm::Unheld, Harm::Unheld).expect("a stop");
    assert!(!stop.is_difference);
    assert_eq!(
        stop.what,
        "answer: 7 to locate, which that call never gives"
    );
}
