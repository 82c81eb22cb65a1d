//! Listings: the box with its counts, then a line a cell, by rising number: number, corners, neighbours, a dash for none.

use std::fmt::Write;

use gantry::{Cell, Mesh, Position, Refusal, Stopped, CELL_LIMIT, POINT_LIMIT};

use crate::grid::Grid;
use crate::survey::Survey;
use crate::{counted, grouped, is_outside, shown, spaced};

/// The listing program reads no more bytes of a node file.
pub const FILE_LIMIT: usize = 65_536;

/// As the listing program prints it.
pub fn text(grid: &Grid, stopped: Option<Stopped>) -> String {
    let (points, cells) = (grid.points.len(), grid.cells.len());
    let mut text = format!("box {} points {points} cells {cells}\n", spaced(grid.sides));
    for cell in &grid.cells {
        let _ = write!(text, "{}", cell.number);
        for corner in cell.corners {
            let _ = write!(text, " {corner}");
        }
        for neighbour in cell.neighbours {
            let _ = match neighbour {
                Some(neighbour) => write!(text, " {neighbour}"),
                None => write!(text, " -"),
            };
        }
        text.push('\n');
    }
    if let Some(Stopped { place, refusal }) = stopped {
        let _ = writeln!(text, "stopped {place} {}", refusal.number());
    }
    text
}

/// Of a file that was refused.
pub fn refused(refusal: Refusal) -> String {
    format!("refused {}\n", refusal.number())
}

/// Is the first line a listing's?
pub fn begins(bytes: &[u8]) -> bool {
    let text = String::from_utf8_lossy(bytes);
    let line = text.lines().next().unwrap_or("");
    line.starts_with("refused ") || parse_head(line).is_some()
}

/// The grid of a listing, with the coordinates of the survey that it was made from; or what is wrong with it.
pub fn read(listing: &[u8], survey: &Survey) -> Result<Grid, String> {
    let text = String::from_utf8_lossy(listing);
    let lines: Vec<&str> = text.trim_end().lines().collect();
    let head = lines.first().copied().unwrap_or("");
    let Head {
        sides,
        points,
        cells,
    } = read_head(head, survey).map_err(|fault| format!("line 1: {fault}"))?;
    let rows = lines.get(1..1 + cells).ok_or_else(|| {
        let there = lines.len() - 1;
        format!("ends after {there} of {cells} cells")
    })?;
    let cells_read = read_cells(rows, points)?;
    let place = read_end(&lines[1 + cells..], survey);
    let listed = place.map_err(|fault| format!("line {}: {fault}", cells + 2))?;
    if points != 8 + listed {
        let nodes = survey.nodes.len();
        let name = &survey.name;
        return Err(format!(
            "line 1: {points} points, and with {name} there are {}",
            8 + nodes
        ));
    }
    let points = points_of(sides, &survey.nodes[..listed]);
    Ok(Grid {
        sides,
        points: points.ok_or_else(|| format!("a node of {} lies outside the box", survey.name))?,
        cells: cells_read,
    })
}

fn read_head(line: &str, survey: &Survey) -> Result<Head, String> {
    let wanted = || format!("{} is not 'box X Y Z points P cells C'", shown(line));
    let head = parse_head(line).ok_or_else(wanted)?;
    if head.points > POINT_LIMIT || head.cells > CELL_LIMIT {
        let [points, cells] = [POINT_LIMIT, CELL_LIMIT].map(grouped);
        return Err(format!("at most {points} points and {cells} cells"));
    }
    if head.sides != survey.sides {
        return Err(format!(
            "the box of {} is {}",
            survey.name,
            spaced(survey.sides)
        ));
    }
    Ok(head)
}

/// A line each, from line 2 on.
fn read_cells(rows: &[&str], points: usize) -> Result<Vec<Cell>, String> {
    let mut cells: Vec<Cell> = Vec::new();
    for (place, row) in rows.iter().enumerate() {
        let cell = parse_cell(row, points).and_then(|cell| match cells.last() {
            Some(last) if last.number >= cell.number => {
                let (number, last) = (cell.number, last.number);
                Err(format!("cell {number} after cell {last}: numbers rise"))
            }
            _ => Ok(cell),
        });
        cells.push(cell.map_err(|fault| format!("line {}: {fault}", place + 2))?);
    }
    Ok(cells)
}

/// The box corners, then the nodes.
fn points_of(sides: Position, nodes: &[Position]) -> Option<Vec<Position>> {
    let [x, y, z] = sides;
    let is_some_outside = nodes.iter().any(|&node| is_outside(sides, node));
    let corners = Mesh::start(x, y, z).ok()?.points().to_vec();
    let points = corners.into_iter().chain(nodes.iter().copied());
    (!is_some_outside).then(|| points.collect())
}

/// `box X Y Z points P cells C`
struct Head {
    sides: Position,
    points: usize,
    cells: usize,
}

fn parse_head(line: &str) -> Option<Head> {
    let words: Vec<&str> = line.split(' ').collect();
    let ["box", x, y, z, "points", points, "cells", cells] = words[..] else {
        return None;
    };
    let side = |word: &str| word.parse().ok();
    Some(Head {
        sides: [side(x)?, side(y)?, side(z)?],
        points: points.parse().ok()?,
        cells: cells.parse().ok()?,
    })
}

/// The number, the corners, the neighbours.
fn parse_cell(line: &str, points: usize) -> Result<Cell, String> {
    let wrong = || format!("{} is no cell: a number, corners, neighbours", shown(line));
    let words: Vec<&str> = line.split(' ').collect();
    let [number, a, b, c, d, e, f, g, h] = words[..] else {
        return Err(wrong());
    };
    let below = |word: &str, limit: usize, what: &str| match word.parse::<usize>() {
        Ok(number) if number < limit => Ok(number),
        Ok(number) => {
            let limit = grouped(limit);
            Err(format!("{what} {number}, and numbers are below {limit}"))
        }
        Err(_) => Err(wrong()),
    };
    let corner = |word| below(word, points, "point");
    let cell = |word| below(word, CELL_LIMIT, "cell");
    let neighbour = |word| match word {
        "-" => Ok(None),
        word => cell(word).map(Some),
    };
    Ok(Cell {
        number: cell(number)?,
        corners: [corner(a)?, corner(b)?, corner(c)?, corner(d)?],
        neighbours: [neighbour(e)?, neighbour(f)?, neighbour(g)?, neighbour(h)?],
    })
}

/// How many nodes went in: all of them, or as many as a last line `stopped`, place and number says.
fn read_end(lines: &[&str], survey: &Survey) -> Result<usize, String> {
    let nodes = survey.nodes.len();
    let [line, more @ ..] = lines else {
        return Ok(nodes);
    };
    let words: Vec<&str> = line.split(' ').collect();
    let place = match words[..] {
        ["stopped", place, refusal] if more.is_empty() && refusal.parse::<u8>().is_ok() => {
            place.parse().ok()
        }
        _ => None,
    };
    match place {
        Some(place) if place < nodes => Ok(place),
        Some(place) => Err(format!(
            "stopped at place {place}, and {} has {}",
            survey.name,
            counted(nodes, "node")
        )),
        None => Err(format!("{} where the cells have ended", shown(line))),
    }
}
