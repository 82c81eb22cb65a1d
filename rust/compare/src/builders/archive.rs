use gantry::raw::{self, Record};
use plain::corrections::Correction;
use plain::{
    Answers, Corrected, Counted, Inserted, Listed, Located, Looked, Mesh, Position, Read, Sphere,
    Started, Tables, Written,
};

use super::Builder;

/// The proved archive, by its C calls on the lent slices.
pub struct Archive;

fn record(mesh: Mesh) -> Record {
    Record {
        x: mesh.x,
        y: mesh.y,
        z: mesh.z,
        points: mesh.points,
        cells: mesh.cells,
        chain: mesh.chain,
        used: mesh.used,
    }
}

fn mesh(record: Record) -> Mesh {
    Mesh {
        x: record.x,
        y: record.y,
        z: record.z,
        points: record.points,
        cells: record.cells,
        chain: record.chain,
        used: record.used,
    }
}

/// The tables of a mesh, and the corrections.
fn lent<'a>(tables: &'a mut Tables) -> (raw::Tables<'a>, &'a mut [i32]) {
    let of_mesh = raw::Tables {
        points: tables.points,
        corners: tables.corners,
        neighbours: tables.neighbours,
        work: tables.work,
    };
    (of_mesh, tables.corrections)
}

fn inserted(answer: raw::Inserted) -> Inserted {
    Inserted {
        refusal: answer.refusal,
        mesh: mesh(answer.mesh),
        point: answer.point,
        before: answer.before,
        after: answer.after,
        made: answer.made,
        least: answer.least,
    }
}

fn written(answer: raw::Written) -> Written {
    Written {
        refusal: answer.refusal,
        bytes: answer.bytes,
    }
}

impl Builder for Archive {
    fn name(&self) -> String {
        "archive".to_string()
    }

    fn volume6(&self, numbers: [i32; 12]) -> i64 {
        let position = |k: usize| [0, 1, 2].map(|axis| numbers[3 * k + axis]);
        raw::volume6([0, 1, 2, 3].map(position))
    }

    fn sphere_test(&self, corners: [Position; 4], p: Position) -> Sphere {
        let raw::Sphere { refusal, answer, t } = raw::sphere_test(corners, p);
        Sphere { refusal, answer, t }
    }

    fn start(&self, sides: Position, tables: &mut Tables) -> Started {
        let (mut tables, corrections) = lent(tables);
        let answer = raw::start(sides, &mut tables, corrections);
        Started {
            refusal: answer.refusal,
            mesh: mesh(answer.mesh),
        }
    }

    fn insert(&self, mesh: Mesh, tables: &mut Tables, answers: Answers, p: Position) -> Inserted {
        let (mesh, (mut tables, corrections)) = (record(mesh), lent(tables));
        inserted(match answers {
            Answers::SphereTest => raw::insert(mesh, &mut tables, corrections, p),
            Answers::Given(bytes) => raw::insert_answers(mesh, &mut tables, corrections, bytes, p),
        })
    }

    fn look(&self, mesh: Mesh, tables: &mut Tables, marks: &mut [u8], p: Position) -> Looked {
        let (mut tables, corrections) = lent(tables);
        let answer = raw::look(record(mesh), &mut tables, corrections, marks, p);
        Looked {
            refusal: answer.refusal,
            point: answer.point,
            before: answer.before,
            after: answer.after,
            made: answer.made,
            least: answer.least,
        }
    }

    fn insert_marked(
        &self,
        mesh: Mesh,
        tables: &mut Tables,
        marks: &[u8],
        p: Position,
    ) -> Inserted {
        let (mesh, (mut tables, corrections)) = (record(mesh), lent(tables));
        inserted(raw::insert_marked(mesh, &mut tables, corrections, marks, p))
    }

    fn insert_list(&self, mesh: Mesh, tables: &mut Tables, nodes: &[u32]) -> Listed {
        let (mut tables, corrections) = lent(tables);
        let answer = raw::insert_list(record(mesh), &mut tables, corrections, nodes);
        Listed {
            refusal: answer.refusal,
            mesh: self::mesh(answer.mesh),
            place: answer.place,
        }
    }

    fn locate(&self, mesh: Mesh, tables: &mut Tables, p: Position) -> Located {
        let raw::Located { refusal, cell } = raw::locate(record(mesh), &mut lent(tables).0, p);
        Located { refusal, cell }
    }

    fn drive_cells(
        &self,
        mesh: Mesh,
        tables: &mut Tables,
        ends: [Position; 2],
        cells: &mut [u16],
    ) -> Counted {
        let mut tables = lent(tables).0;
        let raw::Counted { refusal, count } =
            raw::drive_cells(record(mesh), &mut tables, ends, cells);
        Counted { refusal, count }
    }

    fn correction(&self, mesh: Mesh, tables: &mut Tables, p: Position) -> Corrected {
        let (mut tables, corrections) = lent(tables);
        let raw::Corrected { refusal, x, y, z } =
            raw::correction(record(mesh), &mut tables, corrections, p);
        Corrected { refusal, x, y, z }
    }

    fn set_correction(
        &self,
        mesh: Mesh,
        tables: &mut Tables,
        point: u32,
        numbers: Correction,
    ) -> u8 {
        let (mut tables, corrections) = lent(tables);
        raw::set_correction(record(mesh), &mut tables, corrections, point, numbers)
    }

    fn check(&self, mesh: Mesh, tables: &mut Tables) -> bool {
        raw::check(record(mesh), &mut lent(tables).0)
    }

    fn read_nodes(&self, file: &[u8], nodes: &mut [u32]) -> Read {
        let answer = raw::read_nodes(file, nodes);
        Read {
            refusal: answer.refusal,
            x: answer.x,
            y: answer.y,
            z: answer.z,
            count: answer.count,
        }
    }

    fn write_nodes(&self, mesh: Mesh, tables: &mut Tables, out: &mut [u8]) -> Written {
        written(raw::write_nodes(record(mesh), &mut lent(tables).0, out))
    }

    fn merge(&self, first: &[u8], second: &[u8], out: &mut [u8]) -> Written {
        written(raw::merge(first, second, out))
    }
}
