//! The calls of document 01 and of the requests that have landed, made fast: volumes in i64 that share cross products, lists of
//! cavity cells in the work area, side codes instead of volumes where they decide, the exact sphere sum only where the float one
//! is close to 0, the far-side test by parity, the nodes of two files in a hash set. Of what a node costs, only the search for its
//! base grows with the mesh.
//! Every answer and every entry equals that of `plain`. From there come the record and answer types, and what has nothing
//! to gain: the start and the node file's reader.

mod cavity;
mod check;
mod corrections;
mod drive;
mod geometry;
mod insertion;
mod locate;
mod look;
mod nodefile;
mod side_codes;
mod star;

pub use check::check;
pub use corrections::{correction, set_correction};
pub use drive::drive_cells;
pub use geometry::{sphere_test, volume6};
pub use insertion::{insert, insert_answers, insert_list, insert_marked};
pub use locate::locate;
pub use look::look;
pub use nodefile::{merge, write_nodes};
pub use plain::{read_nodes, start};
pub use plain::{
    Corrected, Counted, Inserted, Listed, Located, Looked, Mesh, Owned, Position, Read, Sphere,
    Started, Tables, Written,
};
