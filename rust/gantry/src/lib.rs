//! Safe bindings over `libgantry.a`, the proved builder of tetrahedra (*cells*) over nodes in a box.
//!
//! A [`Mesh`] owns the tables that the archive's calls are lent. Only those calls write them, so a `Mesh` is a mesh after
//! every list of calls: that is what is proved of the archive. Every call answers for all input; a refusal has its number,
//! its name and the words of `docs/MANUAL.md` ([`Refusal`]). A refusal changes nothing but the work area; a list that
//! stops at a refused node keeps the nodes before it.
//!
//! Coordinates are whole steps: positions are three unsigned numbers, and a box runs from 0 to its sides, ends included.
//!
//! Cells and points have numbers. A point keeps its number for good, a cell until an insertion [replaces](Look) it.
//!
//! ```
//! use gantry::{Mesh, Refusal};
//!
//! let mut mesh = Mesh::start(4, 4, 4)?;
//! let report = mesh.insert([1, 2, 3])?;
//! assert_eq!((report.point, report.made), (8, 12));
//! assert_eq!(mesh.cells().len(), 12);
//! assert_eq!(mesh.insert([1, 2, 3]), Err(Refusal::Taken));
//! assert_eq!(mesh.insert([5, 0, 0]), Err(Refusal::Outside));
//!
//! let cell = mesh.locate([2, 2, 2])?;
//! assert!(mesh.corner_positions(cell).is_some());
//! assert!(mesh.check());
//! # Ok::<(), Refusal>(())
//! ```
//!
//! Each point has a [correction](Mesh#corrections), and so each position one between those of its cell's corners:
//!
//! ```
//! use gantry::{Mesh, Refusal};
//!
//! let mut mesh = Mesh::start(2_000, 1_200, 800)?;
//! let node = mesh.insert([500, 400, 300])?.point;
//! mesh.set_correction(node, [-12, 7, 3])?;
//! assert_eq!(mesh.correction([500, 400, 300]), Ok([-12, 7, 3]));
//! assert_eq!(mesh.correction([250, 200, 150]), Ok([-6, 4, 2]));
//! # Ok::<(), Refusal>(())
//! ```
//!
//! Which cells a straight drive from one position to another touches:
//!
//! ```
//! use gantry::{Mesh, Refusal};
//!
//! let mut mesh = Mesh::start(2_000, 1_200, 800)?;
//! mesh.insert_list(&[[500, 400, 300], [1_500, 400, 300], [1_000, 900, 600]]).unwrap();
//! let cells = mesh.drive_cells([200, 300, 500], [1_900, 700, 300])?;
//! assert_eq!(cells, [5, 6, 13, 18, 19, 25, 27]);
//! assert!(cells.contains(&mesh.locate([200, 300, 500])?));
//! # Ok::<(), Refusal>(())
//! ```
//!
//! A node file to a mesh, and back:
//!
//! ```
//! use gantry::{read_nodes, Mesh};
//!
//! # fn main() -> Result<(), Box<dyn std::error::Error>> {
//! let mut mesh = Mesh::start(4, 4, 4)?;
//! mesh.insert_list(&[[1, 2, 3], [2, 2, 0]])?;
//! let file = mesh.write_nodes()?;
//!
//! let read = read_nodes(&file)?;
//! let [x, y, z] = read.sides;
//! let mut again = Mesh::start(x, y, z)?;
//! again.insert_list(&read.nodes)?;
//! assert_eq!(again, mesh);
//! # Ok(())
//! # }
//! ```
//!
//! # Adding it to a program
//!
//! The crate is not in a registry; `Cargo.toml` names it by its path, and Rust is 1.88 or later, on x86-64 Linux:
//!
//! ```toml
//! [dependencies]
//! gantry = { path = "../porchdittany/rust/gantry" }
//! ```
//!
//! The build looks for `libgantry.a` in the directory that `GANTRY_ARCHIVE_DIR` names, else in the repository's
//! `crates/gantry/out`, where `rt lib --cpu=x86-64` in `crates/gantry` puts it.

mod geometry;
mod mesh;
mod nodefile;
pub mod raw;
mod refusal;

pub use geometry::{sphere_test, volume6, SphereAnswer};
pub use mesh::{Cell, Look, Mesh, Report, Room};
pub use nodefile::{merge, read_nodes, NodeFile};
pub use refusal::{Refusal, Stopped};

/// Three coordinates.
pub type Position = [u32; 3];

/// In steps along x, y and z, each from -1,000 to 1,000.
pub type Correction = [i32; 3];

/// The most points of a mesh, the eight box corners among them.
pub const POINT_LIMIT: usize = 1_024;
/// The most cells of a mesh.
pub const CELL_LIMIT: usize = 4_096;
/// The most nodes of a node file.
pub const NODE_LIMIT: usize = POINT_LIMIT - 8;
/// The longest side of a box.
pub const SIDE_LIMIT: u32 = 131_072;
/// The greatest correction, up or down.
pub const CORRECTION_LIMIT: i32 = 1_000;
