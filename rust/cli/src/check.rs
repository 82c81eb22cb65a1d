//! What holds of a grid. The verdict is the proved mesh check's; the conditions one by one, with the first place where one
//! fails, are worked out here to explain it.

use gantry::raw::{self, Record, Tables};
use gantry::{Cell, Position};

use crate::grid::Grid;

/// Whether a condition holds: with some numbers, or with what fails.
pub type Outcome = Result<String, String>;

/// As a line of text.
pub fn says(condition: &str, outcome: &Outcome) -> String {
    match outcome {
        Ok(numbers) => format!("{condition}: yes, {numbers}\n"),
        Err(fault) => format!("{condition}: no, {fault}\n"),
    }
}

/// The mesh check of the archive.
pub fn is_mesh(grid: &Grid) -> bool {
    let used = grid.cells.last().map_or(0, |cell| cell.number + 1);
    let mut entries = Entries::of(grid, used);
    let mut points = grid.points.as_flattened().to_vec();
    let mut work = vec![0; 3 * entries.corners.len()];
    let [x, y, z] = grid.sides;
    let record = Record {
        x,
        y,
        z,
        points: grid.points.len() as u32,
        cells: grid.cells.len() as u32,
        chain: entries.chain.into(),
        used: used as u32,
    };
    let mut tables = Tables {
        points: &mut points,
        corners: entries.corners.as_flattened_mut(),
        neighbours: entries.neighbours.as_flattened_mut(),
        work: &mut work,
    };
    raw::check(record, &mut tables)
}

/// Cells as the tables have them.
struct Entries {
    corners: Vec<[u16; 4]>,
    neighbours: Vec<[u16; 4]>,
    chain: u16,
}

impl Entries {
    /// A listing leaves the chain out; the check takes the numbers that no cell has in any order on it.
    fn of(grid: &Grid, used: usize) -> Entries {
        // A mesh has room for six cells at least, whatever it holds.
        let room = used.max(6);
        let mut entries = Entries {
            corners: vec![raw::FREED; room],
            neighbours: vec![[raw::NO_NEIGHBOUR; 4]; room],
            chain: raw::NO_NEIGHBOUR,
        };
        for number in 0..used {
            match grid.cell(number) {
                Some(cell) => entries.put(cell),
                None => {
                    entries.neighbours[number][0] = entries.chain;
                    entries.chain = number as u16;
                }
            }
        }
        entries
    }

    fn put(&mut self, cell: &Cell) {
        let across = |across: Option<usize>| across.map_or(raw::NO_NEIGHBOUR, |cell| cell as u16);
        self.corners[cell.number] = cell.corners.map(|point| point as u16);
        self.neighbours[cell.number] = cell.neighbours.map(across);
    }
}

/// What a mesh is, in words, and whether it holds. Numbers in range and points in the box are what makes a `Grid`.
pub fn conditions(grid: &Grid) -> [(&'static str, Outcome); 4] {
    [
        (
            "every point is a corner of some cell",
            every_point_used(grid),
        ),
        (
            "every cell has a positive volume",
            every_volume_positive(grid),
        ),
        (
            "every face lies on a wall or is shared with the cell across it",
            every_face_stands(grid),
        ),
        ("the volumes add up to the box's", volumes_add_up(grid)),
    ]
}

fn every_point_used(grid: &Grid) -> Outcome {
    let mut is_used = vec![false; grid.points.len()];
    for cell in &grid.cells {
        cell.corners
            .into_iter()
            .for_each(|point| is_used[point] = true);
    }
    match is_used.iter().position(|&used| !used) {
        None => Ok(format!("{} points", grid.points.len())),
        Some(point) => Err(format!("point {point} is not")),
    }
}

fn volumes(grid: &Grid) -> impl Iterator<Item = i64> + '_ {
    grid.cells.iter().map(|cell| grid.volume6(cell, None))
}

fn every_volume_positive(grid: &Grid) -> Outcome {
    let numbers = grid.cells.iter().map(|cell| cell.number);
    let least = numbers.zip(volumes(grid)).min_by_key(|&(_, volume)| volume);
    let greatest = volumes(grid).max();
    match (least, greatest) {
        (Some((_, least)), Some(greatest)) if least > 0 => {
            Ok(format!("six-fold from {least} to {greatest}"))
        }
        (Some((cell, least)), _) => Err(format!("cell {cell} has the six-fold volume {least}")),
        (None, _) => Err("there is no cell".to_string()),
    }
}

fn every_face_stands(grid: &Grid) -> Outcome {
    let mut walls = 0;
    for cell in &grid.cells {
        for face in 0..4 {
            let fault = match cell.neighbours[face] {
                None => wall_fault(grid, cell, face),
                Some(across) => mate_fault(grid, cell, face, across),
            };
            if let Some(fault) = fault {
                return Err(format!("cell {} face {face}: {fault}", cell.number));
            }
            walls += usize::from(cell.neighbours[face].is_none());
        }
    }
    let shared = (4 * grid.cells.len() - walls) / 2;
    Ok(format!("{walls} on walls, {shared} shared"))
}

/// The three points of the face opposite a corner, by number.
fn face_points(cell: &Cell, face: usize) -> [usize; 3] {
    let mut points = [1, 2, 3].map(|k| cell.corners[(face + k) % 4]);
    points.sort_unstable();
    points
}

fn wall_fault(grid: &Grid, cell: &Cell, face: usize) -> Option<String> {
    let points = face_points(cell, face).map(|point| grid.points[point]);
    let all_at = |axis: usize, value: u32| points.iter().all(|p: &Position| p[axis] == value);
    let is_on_wall = (0..3).any(|axis| all_at(axis, 0) || all_at(axis, grid.sides[axis]));
    (!is_on_wall).then(|| "no neighbour, and its corners are not on one wall".to_string())
}

fn mate_fault(grid: &Grid, cell: &Cell, face: usize, across: usize) -> Option<String> {
    let Some(other) = grid.cell(across) else {
        return Some(format!("there is no cell {across}"));
    };
    let points = face_points(cell, face);
    let Some(back) = (0..4).find(|&i| face_points(other, i) == points) else {
        return Some(format!("cell {across} has no face with the same points"));
    };
    if other.neighbours[back] != Some(cell.number) {
        return Some(format!("cell {across} does not name it back"));
    }
    let far = grid.points[other.corners[back]];
    let side = grid.volume6(cell, Some((face, far)));
    (side >= 0).then(|| format!("the fourth corner of cell {across} is not on the far side"))
}

fn volumes_add_up(grid: &Grid) -> Outcome {
    let [x, y, z] = grid.sides;
    let (sum, wanted) = (
        volumes(grid).map(i128::from).sum::<i128>(),
        i128::from(grid.box_volume6()),
    );
    match sum == wanted {
        true => Ok(format!("six-fold 6 × {x} × {y} × {z} = {sum}")),
        false => Err(format!(
            "six-fold {sum}, and 6 × {x} × {y} × {z} = {wanted}"
        )),
    }
}
