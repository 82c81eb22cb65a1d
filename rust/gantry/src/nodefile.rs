//! The node file's reader, and two files in one; the writer is a call on a mesh.

use crate::refusal::accepted;
use crate::{raw, Position, Refusal, NODE_LIMIT};

/// What a node file holds.
#[derive(Clone, Debug, PartialEq, Eq)]
pub struct NodeFile {
    /// The sides of the box.
    pub sides: Position,
    /// The nodes as they stand; a position may lie outside the box.
    pub nodes: Vec<Position>,
}

/// The sides and nodes of a node file. Refused with [`Refusal::Trailer`] or [`Refusal::Box`].
///
/// ```
/// use gantry::{read_nodes, Refusal};
///
/// let numbers = [1u32, 2, 3, /* the trailer: */ 4, 4, 4, 1, 12];
/// let file: Vec<u8> = numbers.iter().flat_map(|n| n.to_le_bytes()).collect();
/// let read = read_nodes(&file)?;
/// assert_eq!((read.sides, read.nodes), ([4, 4, 4], vec![[1, 2, 3]]));
/// assert_eq!(read_nodes(&file[13..]), Err(Refusal::Trailer));
/// # Ok::<(), Refusal>(())
/// ```
pub fn read_nodes(file: &[u8]) -> Result<NodeFile, Refusal> {
    let mut numbers = [0; 3 * NODE_LIMIT];
    let read = raw::read_nodes(file, &mut numbers);
    accepted(read.refusal)?;
    let (nodes, _) = numbers.as_chunks();
    Ok(NodeFile {
        sides: [read.x, read.y, read.z],
        nodes: nodes[..read.count as usize].to_vec(),
    })
}

/// The longest node file without a note.
const FILE_LIMIT: usize = 12 * NODE_LIMIT + 20;

/// Two node files of one box as one, without a note: the first's nodes in order, then the second's, each position a single
/// time where it first stands, within one file too. Box corners are left out.
///
/// Refused with [`Refusal::Trailer`] or [`Refusal::Box`] of the first file, then of the second; then with
/// [`Refusal::UnequalSides`], with [`Refusal::Outside`] for a node of either file, and with [`Refusal::PointsFull`] for more
/// than 1,016 nodes left.
///
/// ```
/// use gantry::{merge, read_nodes, Mesh, Refusal};
///
/// # fn main() -> Result<(), Box<dyn std::error::Error>> {
/// let survey = |z, nodes: &[_]| -> Result<Vec<u8>, Box<dyn std::error::Error>> {
///     let mut mesh = Mesh::start(4, 4, z)?;
///     mesh.insert_list(nodes)?;
///     Ok(mesh.write_nodes()?)
/// };
/// let first = survey(4, &[[1, 2, 3], [2, 2, 0]])?;
/// let second = survey(4, &[[2, 2, 0], [3, 1, 1]])?;
/// let both = merge(&first, &second)?;
/// assert_eq!(read_nodes(&both)?.nodes, [[1, 2, 3], [2, 2, 0], [3, 1, 1]]);
/// assert_eq!(merge(&first, &survey(5, &[])?), Err(Refusal::UnequalSides));
/// # Ok(())
/// # }
/// ```
pub fn merge(first: &[u8], second: &[u8]) -> Result<Vec<u8>, Refusal> {
    let mut file = vec![0; FILE_LIMIT];
    let written = raw::merge(first, second, &mut file);
    accepted(written.refusal)?;
    file.truncate(written.bytes as usize);
    Ok(file)
}
