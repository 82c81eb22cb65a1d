use plain::corrections::Correction;
use plain::{
    Answers, Corrected, Counted, Inserted, Listed, Located, Looked, Mesh, Position, Read, Sphere,
    Started, Tables, Written,
};

use super::Builder;

pub struct Tuned;

impl Builder for Tuned {
    fn name(&self) -> String {
        "tuned".to_string()
    }

    fn volume6(&self, numbers: [i32; 12]) -> i64 {
        tuned::volume6(numbers)
    }

    fn sphere_test(&self, corners: [Position; 4], p: Position) -> Sphere {
        tuned::sphere_test(corners, p)
    }

    fn start(&self, sides: Position, tables: &mut Tables) -> Started {
        tuned::start(sides, tables)
    }

    fn insert(&self, mesh: Mesh, tables: &mut Tables, answers: Answers, p: Position) -> Inserted {
        match answers {
            Answers::SphereTest => tuned::insert(mesh, tables, p),
            Answers::Given(bytes) => tuned::insert_answers(mesh, tables, bytes, p),
        }
    }

    fn look(&self, mesh: Mesh, tables: &mut Tables, marks: &mut [u8], p: Position) -> Looked {
        tuned::look(mesh, tables, marks, p)
    }

    fn insert_marked(
        &self,
        mesh: Mesh,
        tables: &mut Tables,
        marks: &[u8],
        p: Position,
    ) -> Inserted {
        tuned::insert_marked(mesh, tables, marks, p)
    }

    fn insert_list(&self, mesh: Mesh, tables: &mut Tables, nodes: &[u32]) -> Listed {
        tuned::insert_list(mesh, tables, nodes)
    }

    fn locate(&self, mesh: Mesh, tables: &mut Tables, p: Position) -> Located {
        tuned::locate(mesh, tables, p)
    }

    fn drive_cells(
        &self,
        mesh: Mesh,
        tables: &mut Tables,
        ends: [Position; 2],
        cells: &mut [u16],
    ) -> Counted {
        tuned::drive_cells(mesh, tables, ends, cells)
    }

    fn correction(&self, mesh: Mesh, tables: &mut Tables, p: Position) -> Corrected {
        tuned::correction(mesh, tables, p)
    }

    fn set_correction(
        &self,
        mesh: Mesh,
        tables: &mut Tables,
        point: u32,
        numbers: Correction,
    ) -> u8 {
        tuned::set_correction(mesh, tables, point, numbers)
    }

    fn check(&self, mesh: Mesh, tables: &mut Tables) -> bool {
        tuned::check(mesh, tables)
    }

    fn read_nodes(&self, file: &[u8], nodes: &mut [u32]) -> Read {
        tuned::read_nodes(file, nodes)
    }

    fn write_nodes(&self, mesh: Mesh, tables: &mut Tables, out: &mut [u8]) -> Written {
        tuned::write_nodes(mesh, tables, out)
    }

    fn merge(&self, first: &[u8], second: &[u8], out: &mut [u8]) -> Written {
        tuned::merge(first, second, out)
    }
}
