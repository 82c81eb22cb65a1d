//! The calls of the C interface as a trait, and the builds that have them.

#[cfg(feature = "archive")]
mod archive;
mod plain;
mod tuned;

#[cfg(feature = "archive")]
pub use self::archive::Archive;
pub use self::plain::Plain;
pub use self::tuned::Tuned;

use ::plain::corrections::Correction;
use ::plain::{
    Answers, Corrected, Counted, Inserted, Listed, Located, Looked, Mesh, Position, Read, Sphere,
    Started, Tables, Written,
};

/// The build with this name: plain, tuned, archive, or a wrong one.
pub fn named(name: &str) -> Result<Box<dyn Builder>, String> {
    match name {
        "plain" => Ok(Box::new(Plain::RIGHT)),
        "tuned" => Ok(Box::new(Tuned)),
        #[cfg(feature = "archive")]
        "archive" => Ok(Box::new(Archive)),
        #[cfg(not(feature = "archive"))]
        "archive" => Err("archive: compiled without '--features archive'".to_string()),
        _ => match wrong::ALL.into_iter().find(|build| build.name == name) {
            Some(build) => Ok(Box::new(Plain::wrong(build))),
            None => Err(format!("{name}: not one of {}", names())),
        },
    }
}

pub fn names() -> String {
    let wrong = wrong::ALL.map(|build| build.name).join(", ");
    format!("plain, tuned, archive, {wrong}")
}

pub trait Builder {
    fn name(&self) -> String;
    fn volume6(&self, numbers: [i32; 12]) -> i64;
    fn sphere_test(&self, corners: [Position; 4], p: Position) -> Sphere;
    fn start(&self, sides: Position, tables: &mut Tables) -> Started;
    /// By the sphere test or by answers handed in: two calls of the interface.
    fn insert(&self, mesh: Mesh, tables: &mut Tables, answers: Answers, p: Position) -> Inserted;
    fn look(&self, mesh: Mesh, tables: &mut Tables, marks: &mut [u8], p: Position) -> Looked;
    fn insert_marked(&self, mesh: Mesh, tables: &mut Tables, marks: &[u8], p: Position)
        -> Inserted;
    fn insert_list(&self, mesh: Mesh, tables: &mut Tables, nodes: &[u32]) -> Listed;
    fn locate(&self, mesh: Mesh, tables: &mut Tables, p: Position) -> Located;
    /// Lists the cells on the segment between the two ends.
    fn drive_cells(
        &self,
        mesh: Mesh,
        tables: &mut Tables,
        ends: [Position; 2],
        cells: &mut [u16],
    ) -> Counted;
    fn correction(&self, mesh: Mesh, tables: &mut Tables, p: Position) -> Corrected;
    /// Answers the refusal, or 0.
    fn set_correction(
        &self,
        mesh: Mesh,
        tables: &mut Tables,
        point: u32,
        numbers: Correction,
    ) -> u8;
    fn check(&self, mesh: Mesh, tables: &mut Tables) -> bool;
    fn read_nodes(&self, file: &[u8], nodes: &mut [u32]) -> Read;
    fn write_nodes(&self, mesh: Mesh, tables: &mut Tables, out: &mut [u8]) -> Written;
    fn merge(&self, first: &[u8], second: &[u8], out: &mut [u8]) -> Written;
}
