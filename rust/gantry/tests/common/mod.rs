//! Nodes for the tests.

use gantry::Position;

/// Its box corners left out.
pub fn lattice(parts: u32, spacing: u32) -> Vec<Position> {
    let last = parts - 1;
    (0..parts * parts * parts)
        .map(|k| [k % parts, k / parts % parts, k / (parts * parts)])
        .filter(|p| p.iter().any(|&n| n != 0 && n != last))
        .map(|p| p.map(|n| n * spacing))
        .collect()
}
