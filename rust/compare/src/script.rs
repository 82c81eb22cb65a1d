//! A start and further calls as lines of text, and what a build answers and leaves for them.

use plain::corrections::Correction;
use plain::listing::cells;
use plain::loaded::Cell;
use plain::nodefile::encode;
use plain::{Answers, Corrected, Inserted, Looked, Mesh, Owned, Position, NONE};

use crate::builders::Builder;

/// The first line is the box and the room, `box 4 4 4 points 11 cells 18`, with `corrections 32` where that table has not three
/// entries a point; then a line a call.
#[derive(Debug, PartialEq, Eq)]
pub struct Script {
    pub sides: Position,
    pub points: u16,
    pub cells: u16,
    pub corrections: usize,
    pub lines: Vec<Line>,
}

#[derive(Debug, PartialEq, Eq)]
pub enum Line {
    /// `sphere 1 2 3`
    Sphere(Position),
    /// `answers 110101 1 2 3`, with a digit an entry, 0 for no.
    Answers(Vec<u8>, Position),
    /// `look 1 2 3`, lent some marks more than used entries.
    Look(Position),
    /// `marked 111111 1 2 3`: an insertion with these marks, a digit a byte.
    Marked(Vec<u8>, Position),
    /// `locate 1 2 3`
    Locate(Position),
    /// `drive 0 0 0 4 4 4 6`: the cells between two positions, with so many entries for them.
    Drive([Position; 2], u16),
    /// `correction 1 2 3`: of a position.
    Correction(Position),
    /// `set 8 5 -5 0`: a point's correction.
    Set(u32, Correction),
    /// `start 4 4 4`: in the same tables.
    Start(Position),
    /// `check`
    Check,
    /// `merge 1 2 3 2 2 2 and 1 2 3`: two files of the box, with these nodes.
    Merge([Vec<Position>; 2]),
    /// `cell 0 0 1 3 7 - 1 5 -`: no call, but a cell put into the tables, as a listing has it; or a freed entry, with dashes for
    /// corners.
    Cell(u16, Cell),
    /// `record cells 12 chain 5 used 18`: no call, but these numbers put into the record.
    Record(Record),
    /// `stands 24 1001`: no call, but a number put into the correction table, at this entry.
    Stands(usize, i32),
}

#[derive(Debug, PartialEq, Eq)]
pub struct Record {
    cells: u32,
    chain: u32,
    used: u32,
}

const KINDS: &str =
    "'sphere', 'answers', 'look', 'marked', 'locate', 'drive', 'correction', 'set', 'start', \
                     'check', 'merge', 'cell', 'record' or 'stands'";

fn number<T: std::str::FromStr>(word: &str) -> Result<T, String> {
    word.parse().map_err(|_| format!("{word}: no number"))
}

/// A dash for 65,535.
fn number_or_dash<T: std::str::FromStr + From<u16>>(word: &str) -> Result<T, String> {
    match word {
        "-" => Ok(NONE.into()),
        word => number(word),
    }
}

fn three<T: std::str::FromStr>(words: &[&str]) -> Result<[T; 3], String> {
    match words {
        [x, y, z] => Ok([number(x)?, number(y)?, number(z)?]),
        _ => Err("not three numbers".to_string()),
    }
}

fn position(words: &[&str]) -> Result<Position, String> {
    three(words)
}

/// A digit a byte, up to the greatest.
fn digits(word: &str, greatest: u8) -> Result<Vec<u8>, String> {
    let digit = |byte: u8| match byte.wrapping_sub(b'0') {
        digit if digit <= greatest => Ok(digit),
        _ => Err(format!("{word}: not digits from 0 to {greatest}")),
    };
    word.bytes().map(digit).collect()
}

fn start(line: &str) -> Result<Script, String> {
    let words: Vec<&str> = line.split_whitespace().collect();
    let ["box", x, y, z, "points", points, "cells", cells, ref more @ ..] = words[..] else {
        return Err("not 'box X Y Z points P cells C'".to_string());
    };
    let points = number(points)?;
    let corrections = match more {
        [] => 3 * usize::from(points),
        ["corrections", entries] => number(entries)?,
        _ => return Err("not 'corrections N' after the cells".to_string()),
    };
    Ok(Script {
        sides: position(&[x, y, z])?,
        points,
        cells: number(cells)?,
        corrections,
        lines: vec![],
    })
}

fn cell(words: &[&str]) -> Result<Line, String> {
    let &[place, a, b, c, d, e, f, g, h] = words else {
        return Err("not a number, four corners and four neighbours".to_string());
    };
    let cell = Cell {
        corners: [
            number_or_dash(a)?,
            number_or_dash(b)?,
            number_or_dash(c)?,
            number_or_dash(d)?,
        ],
        neighbours: [
            number_or_dash(e)?,
            number_or_dash(f)?,
            number_or_dash(g)?,
            number_or_dash(h)?,
        ],
    };
    Ok(Line::Cell(number(place)?, cell))
}

fn record(words: &[&str]) -> Result<Line, String> {
    match words {
        ["cells", cells, "chain", chain, "used", used] => Ok(Line::Record(Record {
            cells: number(cells)?,
            chain: number_or_dash(chain)?,
            used: number(used)?,
        })),
        _ => Err("not 'record cells C chain N used U'".to_string()),
    }
}

fn positions(words: &[&str]) -> Result<Vec<Position>, String> {
    words.chunks(3).map(position).collect()
}

fn merge(words: &[&str]) -> Result<Line, String> {
    let files: Vec<_> = words.split(|&word| word == "and").collect();
    match files[..] {
        [first, second] => Ok(Line::Merge([positions(first)?, positions(second)?])),
        _ => Err("not two files with 'and' between them".to_string()),
    }
}

fn drive(words: &[&str]) -> Result<Line, String> {
    let &[ax, ay, az, bx, by, bz, room] = words else {
        return Err("not two positions and a length".to_string());
    };
    let ends = [position(&[ax, ay, az])?, position(&[bx, by, bz])?];
    Ok(Line::Drive(ends, number(room)?))
}

fn line(text: &str, script: &Script) -> Result<Line, String> {
    let words: Vec<&str> = text.split_whitespace().collect();
    match words[..] {
        ["sphere", ref node @ ..] => Ok(Line::Sphere(position(node)?)),
        ["answers", bytes, ref node @ ..] => Ok(Line::Answers(digits(bytes, 1)?, position(node)?)),
        ["look", ref node @ ..] => Ok(Line::Look(position(node)?)),
        ["marked", marks, ref node @ ..] => Ok(Line::Marked(digits(marks, 9)?, position(node)?)),
        ["locate", ref position @ ..] => Ok(Line::Locate(self::position(position)?)),
        ["drive", ref numbers @ ..] => drive(numbers),
        ["correction", ref position @ ..] => Ok(Line::Correction(self::position(position)?)),
        ["set", point, ref numbers @ ..] => Ok(Line::Set(number(point)?, three(numbers)?)),
        ["start", ref sides @ ..] => Ok(Line::Start(position(sides)?)),
        ["check"] => Ok(Line::Check),
        ["merge", ref files @ ..] => merge(files),
        ["cell", ref entries @ ..] => match cell(entries)? {
            Line::Cell(place, _) if place >= script.cells => {
                Err(format!("no room for a cell {place}"))
            }
            cell => Ok(cell),
        },
        ["record", ref numbers @ ..] => record(numbers),
        ["stands", place, entry] => match number(place)? {
            place if place >= script.corrections => Err(format!("no entry {place}")),
            place => Ok(Line::Stands(place, number(entry)?)),
        },
        _ => Err(format!("not a line of {KINDS}")),
    }
}

fn said(report: Looked) -> String {
    let Looked {
        refusal,
        point,
        before,
        after,
        made,
        least,
    } = report;
    match refusal {
        0 => format!("point {point} before {before} after {after} made {made} least {least}\n"),
        number => format!("refused {number}\n"),
    }
}

/// How many marks are lent beyond the used entries, and what all are before a look.
const BEYOND: usize = 3;
const UNMARKED: u8 = 9;

/// The report and the marks, a digit each, or the refusal.
fn looked(build: &dyn Builder, mesh: Mesh, tables: &mut Owned, p: Position) -> String {
    let mut marks = vec![UNMARKED; mesh.used as usize + BEYOND];
    let report = build.look(mesh, &mut tables.lend(), &mut marks, p);
    let digits = |marks: &[u8]| marks.iter().map(u8::to_string).collect::<String>();
    let (marks, beyond) = marks.split_at(mesh.used as usize);
    match report.refusal {
        0 => format!(
            "look {}marks {} beyond {}\n",
            said(report),
            digits(marks),
            digits(beyond)
        ),
        _ => said(report),
    }
}

/// The located cell with its corners, sorted upward, or the refusal.
fn located(build: &dyn Builder, mesh: Mesh, tables: &mut Owned, p: Position) -> String {
    let answer = build.locate(mesh, &mut tables.lend(), p);
    if answer.refusal != 0 {
        return format!("refused {}\n", answer.refusal);
    }
    let mut corners = tables.corners.as_chunks().0[answer.cell as usize];
    corners.sort();
    let [a, b, c, d] = corners;
    format!("cell {} corners {a} {b} {c} {d}\n", answer.cell)
}

/// The numbers in the order of the list, with dashes for entries beyond that are as they were, or the refusal.
fn driven(
    build: &dyn Builder,
    mesh: Mesh,
    tables: &mut Owned,
    ends: [Position; 2],
    room: u16,
) -> String {
    let mut cells = vec![NONE; room.into()];
    let answer = build.drive_cells(mesh, &mut tables.lend(), ends, &mut cells);
    let number = |&c: &u16| match c {
        NONE => " -".to_string(),
        c => format!(" {c}"),
    };
    let cells: String = cells.iter().map(number).collect();
    done(answer.refusal, &format!("drive {}:{cells}", answer.count))
}

fn corrected(answer: Corrected) -> String {
    let Corrected { refusal, x, y, z } = answer;
    match refusal {
        0 => format!("correction {x} {y} {z}\n"),
        number => format!("refused {number}\n"),
    }
}

/// What was done, or the refusal.
fn done(refusal: u8, what: &str) -> String {
    match refusal {
        0 => format!("{what}\n"),
        number => format!("refused {number}\n"),
    }
}

/// The nodes of the merged file, or the refusal.
fn merged(build: &dyn Builder, sides: Position, files: &[Vec<Position>; 2]) -> String {
    let [first, second] = files.each_ref().map(|nodes| encode(sides, nodes));
    let mut file = vec![0; first.len() + second.len()];
    let answer = build.merge(&first, &second, &mut file);
    if answer.refusal != 0 {
        return format!("refused {}\n", answer.refusal);
    }
    let mut numbers = vec![0; file.len() / 4];
    let count = build
        .read_nodes(&file[..answer.bytes as usize], &mut numbers)
        .count;
    let nodes = &numbers[..3 * count as usize];
    format!(
        "merged{}\n",
        nodes.iter().map(|n| format!(" {n}")).collect::<String>()
    )
}

impl Script {
    pub fn parse(text: &str) -> Result<Script, String> {
        let mut lines = text.lines();
        let at = |number: usize, error: String| format!("line {number}: {error}");
        let mut script = start(lines.next().unwrap_or("")).map_err(|error| at(1, error))?;
        for (i, text) in lines.enumerate() {
            let next = line(text, &script).map_err(|error| at(i + 2, error))?;
            script.lines.push(next);
        }
        Ok(script)
    }

    /// What the build answers to each call, and a listing of what it leaves.
    pub fn play(&self, build: &dyn Builder) -> String {
        let mut tables = Owned::with_room(self.points.into(), self.cells.into());
        tables.corrections.resize(self.corrections, 0);
        let started = build.start(self.sides, &mut tables.lend());
        if started.refusal != 0 {
            return format!("refused {}\n", started.refusal);
        }
        let mut mesh = started.mesh;
        let mut text = String::new();
        for line in &self.lines {
            text += &line.play(build, &mut mesh, &mut tables);
        }
        text + &cells(mesh, &tables)
    }
}

impl Line {
    fn play(&self, build: &dyn Builder, mesh: &mut Mesh, tables: &mut Owned) -> String {
        if let Some(answer) = self.insert(build, *mesh, tables) {
            *mesh = answer.mesh;
            return said(answer.report());
        }
        match self {
            Line::Look(p) => looked(build, *mesh, tables, *p),
            Line::Locate(p) => located(build, *mesh, tables, *p),
            Line::Drive(ends, room) => driven(build, *mesh, tables, *ends, *room),
            Line::Correction(p) => corrected(build.correction(*mesh, &mut tables.lend(), *p)),
            Line::Set(point, numbers) => {
                let refusal = build.set_correction(*mesh, &mut tables.lend(), *point, *numbers);
                done(refusal, "set")
            }
            Line::Start(sides) => {
                let answer = build.start(*sides, &mut tables.lend());
                if answer.refusal == 0 {
                    *mesh = answer.mesh;
                }
                done(answer.refusal, "started")
            }
            Line::Check => {
                let is_mesh = build.check(*mesh, &mut tables.lend());
                format!("check {}\n", if is_mesh { "yes" } else { "no" })
            }
            Line::Merge(files) => merged(build, mesh.sides(), files),
            _ => {
                self.put(mesh, tables);
                String::new()
            }
        }
    }

    /// The answer of an insertion.
    fn insert(&self, build: &dyn Builder, mesh: Mesh, tables: &mut Owned) -> Option<Inserted> {
        let lent = &mut tables.lend();
        match self {
            Line::Sphere(p) => Some(build.insert(mesh, lent, Answers::SphereTest, *p)),
            Line::Answers(bytes, p) => Some(build.insert(mesh, lent, Answers::Given(bytes), *p)),
            Line::Marked(marks, p) => Some(build.insert_marked(mesh, lent, marks, *p)),
            _ => None,
        }
    }

    /// What is no call.
    fn put(&self, mesh: &mut Mesh, tables: &mut Owned) {
        match *self {
            Line::Cell(place, cell) => {
                let entries = 4 * place as usize..4 * place as usize + 4;
                tables.corners[entries.clone()].copy_from_slice(&cell.corners);
                tables.neighbours[entries].copy_from_slice(&cell.neighbours);
            }
            Line::Record(Record { cells, chain, used }) => {
                *mesh = Mesh {
                    cells,
                    chain,
                    used,
                    ..*mesh
                };
            }
            Line::Stands(place, number) => tables.corrections[place] = number,
            _ => {}
        }
    }
}
