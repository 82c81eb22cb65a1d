use plain::corrections::Correction;
use plain::{
    Answers, Corrected, Counted, Inserted, Listed, Located, Looked, Mesh, Position, Read,
    RightRules, Rules, Sphere, Started, Tables, Written,
};

use super::Builder;

/// The plain build, by the right rules or by wrong ones.
pub struct Plain {
    name: &'static str,
    rules: &'static dyn Rules,
}

impl Plain {
    pub const RIGHT: Plain = Plain {
        name: "plain",
        rules: &RightRules,
    };

    pub fn wrong(build: wrong::Build) -> Plain {
        Plain {
            name: build.name,
            rules: build.rules,
        }
    }
}

impl Builder for Plain {
    fn name(&self) -> String {
        self.name.to_string()
    }

    fn volume6(&self, numbers: [i32; 12]) -> i64 {
        plain::volume6(numbers)
    }

    fn sphere_test(&self, corners: [Position; 4], p: Position) -> Sphere {
        plain::sphere_test_with(self.rules, corners, p)
    }

    fn start(&self, sides: Position, tables: &mut Tables) -> Started {
        plain::start_with(self.rules, sides, tables)
    }

    fn insert(&self, mesh: Mesh, tables: &mut Tables, answers: Answers, p: Position) -> Inserted {
        plain::insert_with(self.rules, mesh, tables, answers, p)
    }

    fn look(&self, mesh: Mesh, tables: &mut Tables, marks: &mut [u8], p: Position) -> Looked {
        plain::look_with(self.rules, mesh, tables, marks, p)
    }

    fn insert_marked(
        &self,
        mesh: Mesh,
        tables: &mut Tables,
        marks: &[u8],
        p: Position,
    ) -> Inserted {
        plain::insert_marked_with(self.rules, mesh, tables, marks, p)
    }

    fn insert_list(&self, mesh: Mesh, tables: &mut Tables, nodes: &[u32]) -> Listed {
        plain::insert_list_with(self.rules, mesh, tables, nodes)
    }

    fn locate(&self, mesh: Mesh, tables: &mut Tables, p: Position) -> Located {
        plain::locate_with(self.rules, mesh, tables, p)
    }

    fn drive_cells(
        &self,
        mesh: Mesh,
        tables: &mut Tables,
        ends: [Position; 2],
        cells: &mut [u16],
    ) -> Counted {
        plain::drive_cells_with(self.rules, mesh, tables, ends, cells)
    }

    fn correction(&self, mesh: Mesh, tables: &mut Tables, p: Position) -> Corrected {
        plain::correction_with(self.rules, mesh, tables, p)
    }

    fn set_correction(
        &self,
        mesh: Mesh,
        tables: &mut Tables,
        point: u32,
        numbers: Correction,
    ) -> u8 {
        plain::set_correction_with(self.rules, mesh, tables, point, numbers)
    }

    fn check(&self, mesh: Mesh, tables: &mut Tables) -> bool {
        plain::check_with(self.rules, mesh, tables)
    }

    fn read_nodes(&self, file: &[u8], nodes: &mut [u32]) -> Read {
        plain::read_nodes(file, nodes)
    }

    fn write_nodes(&self, mesh: Mesh, tables: &mut Tables, out: &mut [u8]) -> Written {
        plain::write_nodes_with(self.rules, mesh, tables, out)
    }

    fn merge(&self, first: &[u8], second: &[u8], out: &mut [u8]) -> Written {
        plain::merge_with(self.rules, first, second, out)
    }
}
