//! Answers about positions and points.

use std::fmt::Write;

use gantry::{sphere_test, volume6, Mesh, Position, Refusal, SphereAnswer, SIDE_LIMIT};

use super::read_survey;
use crate::grid::Grid;
use crate::look::Replacing;
use crate::survey::refused;
use crate::words::{numbers, position, Words};
use crate::{because, counted, grouped, spaced, Done, Failure};

pub fn locate(words: &Words) -> Result<Done, Failure> {
    each(words, "position", |mesh, grid, p| {
        Ok(shares(grid, p, mesh.locate(p)?))
    })
}

pub fn look(words: &Words) -> Result<Done, Failure> {
    each(words, "node", |mesh, _, p| {
        Ok(Replacing::of(mesh, p)?.text())
    })
}

/// What `answer` says of each position after FILE, in the mesh of FILE.
fn each(
    words: &Words,
    what: &str,
    answer: fn(&mut Mesh, &Grid, Position) -> Result<String, Refusal>,
) -> Result<Done, Failure> {
    let Some((file, coordinates)) = words.plain.split_first() else {
        return Err(Failure::Usage("no FILE".to_string()));
    };
    if coordinates.is_empty() || coordinates.len() % 3 != 0 {
        let count = counted(coordinates.len(), "word");
        let message = format!("{count} after FILE, and a {what} has three, x y z");
        return Err(Failure::Usage(message));
    }
    let positions = coordinates.chunks_exact(3).map(numbers);
    let positions: Vec<[i64; 3]> = positions.collect::<Result<_, _>>()?;
    let survey = read_survey(file, words)?;
    let mut built = survey.build()?;
    let grid = Grid::from(&built.mesh);
    let mut done = Done {
        complaints: survey.complaint(&built).into_iter().collect(),
        notes: survey.notes,
        ..Done::default()
    };
    for numbers in positions {
        match answer(&mut built.mesh, &grid, position(numbers)) {
            Ok(text) => done.output.extend(text.into_bytes()),
            Err(refusal) => {
                let why = refused_at(&built.mesh, what, numbers, refusal);
                done.complaints.push(why);
            }
        }
    }
    match done.output.is_empty() {
        true => Err(done.failure()),
        false => Ok(done),
    }
}

/// As the numbers were given.
pub fn refused_at(mesh: &Mesh, what: &str, numbers: [i64; 3], refusal: Refusal) -> String {
    let [x, y, z] = numbers;
    let why = refused(mesh, position(numbers), refusal);
    format!("{what} {x} {y} {z}: {why}")
}

/// So many of the cells that hold a position are named.
const HOLDING_TOLD: usize = 6;

/// A line with the cells that hold p, where there are several, in the order of which locate takes the first. It is worked out
/// here, to explain the answer.
fn holding(grid: &Grid, p: Position) -> String {
    let mut holding = vec![];
    for cell in &grid.cells {
        if grid.holds(cell, p) {
            let mut corners = cell.corners;
            corners.sort_unstable();
            holding.push((corners, cell.number));
        }
    }
    holding.sort_unstable();
    let named = holding.iter().take(HOLDING_TOLD);
    let named = named.map(|([a, b, c, d], number)| format!("{number} ({a} {b} {c} {d})"));
    let named = Vec::from_iter(named).join(", ");
    let more = match holding.len().saturating_sub(HOLDING_TOLD) {
        0 => String::new(),
        more => format!(" and {more} more"),
    };
    match holding.len() {
        ..2 => String::new(),
        count => format!("  held by {count} cells, in the order of their corners: {named}{more}\n"),
    }
}

/// The cell that holds p, and what a controller weighs its corners with.
fn shares(grid: &Grid, p: Position, number: usize) -> String {
    let cell = grid.cell(number).expect("a cell of the mesh");
    let volume = grid.volume6(cell, None);
    let head = format!("position {}: cell {number}", spaced(p));
    let mut text = format!("{head}, six-fold volume {volume}\n");
    text += &holding(grid, p);
    for (place, &point) in cell.corners.iter().enumerate() {
        let own = grid.volume6(cell, Some((place, p)));
        let share = own as f64 / volume as f64;
        let at = spaced(grid.points[point]);
        let corner = format!("corner {place}: point {point} at {at}");
        let _ = writeln!(text, "  {corner}, volume {own}, share {share:.4}");
    }
    text
}

fn no_coordinate() -> String {
    let limit = grouped(SIDE_LIMIT as usize);
    format!("a coordinate is outside 0 to {limit}")
}

pub fn volume(words: &Words) -> Result<Done, Failure> {
    let numbers: [i64; 12] = numbers(&words.plain)?;
    // What no i32 holds is no coordinate either.
    let numbers = numbers.map(|number| i32::try_from(number).unwrap_or(-1));
    let (corners, _) = numbers.as_chunks();
    let volume = volume6([corners[0], corners[1], corners[2], corners[3]]);
    let volume = volume.ok_or_else(|| Failure::input(no_coordinate()))?;
    Ok(Done::of(format!("{volume}\n")))
}

pub fn sphere(words: &Words) -> Result<Done, Failure> {
    let numbers: [i64; 15] = numbers(&words.plain)?;
    let refused = |refusal| {
        let why = match refusal {
            Refusal::FlatCell => "the volume of a, b, c, d is 0 or less".to_string(),
            _ => no_coordinate(),
        };
        Failure::input(because(refusal, &why))
    };
    let (positions, _) = numbers.as_chunks();
    let [a, b, c, d, p] = [0, 1, 2, 3, 4].map(|place| position(positions[place]));
    let answer = sphere_test([a, b, c, d], p).map_err(refused)?;
    let name = match answer {
        SphereAnswer::Inside(_) => "inside",
        SphereAnswer::Outside(_) => "outside",
    };
    // T is a whole number, and all of its digits are shown.
    Ok(Done::of(format!("{name}, T = {:.0}\n", answer.t())))
}
