//! Random histories of calls: a box, tables to lend, and calls that hand on what the last one left.

use plain::random::Random;
use plain::{Mesh, Owned, Position, CELL_LIMIT, NONE, POINT_LIMIT, SIDE_LIMIT};

use crate::call::{Call, Left};
use crate::corrections;
use crate::drives;
use crate::entries::{self, rearrange, Entries};
use crate::marks;
use crate::merges;
use crate::nodes::{self, Spread};
use crate::spheres::{sphere_test, NearTie, NEAR_TIES};
use crate::tally::ACCEPTED;

/// One call and what it is lent.
pub struct Step {
    pub call: Call,
    pub mesh: Mesh,
    pub tables: Owned,
    /// Is what the call leaves handed on?
    pub is_kept: bool,
}

pub struct History {
    sides: Position,
    spread: Spread,
    mesh: Mesh,
    tables: Owned,
    /// In few histories: its nodes go in first.
    near_tie: Option<&'static NearTie>,
    /// The position of the last locate call.
    parked: Option<Position>,
    /// The node of the last look that was accepted, and the marks that it left.
    looked: Option<(Position, Vec<u8>)>,
    calls_left: u64,
    is_begun: bool,
}

impl History {
    pub fn new(random: &mut Random) -> History {
        let tables = tables(random);
        let is_long = tables.points.len() >= 3 * POINT_LIMIT;
        let near_tie = &NEAR_TIES[random.index(NEAR_TIES.len())];
        let near_tie = Some(near_tie).filter(|_| !is_long && random.one_in(20));
        let sides = match near_tie {
            Some(tie) => tie.sides,
            None if is_long => [SIDE_LIMIT; 3],
            None => nodes::sides(random),
        };
        History {
            sides,
            spread: nodes::spread(random),
            mesh: Mesh::default(),
            tables,
            near_tie,
            parked: None,
            looked: None,
            calls_left: 5 + random.below(40),
            is_begun: false,
        }
    }

    pub fn is_over(&self) -> bool {
        self.calls_left == 0
    }

    pub fn next(&mut self, random: &mut Random) -> Step {
        self.calls_left = self.calls_left.saturating_sub(1);
        let has_mesh = self.mesh.cells != 0;
        if has_mesh && random.one_in(12) {
            rearrange(random, &mut self.mesh, &mut self.tables);
        }
        if has_mesh && random.one_in(8) {
            corrections::scatter(random, self.mesh, &mut self.tables);
        }
        let call = match self.is_begun {
            true => self.call(random),
            false => Call::Start(self.sides),
        };
        self.is_begun = true;
        let mut step = Step {
            call,
            mesh: self.mesh,
            tables: self.tables.clone(),
            is_kept: true,
        };
        fill_work(random, &mut step.tables.work);
        if has_mesh && random.one_in(6) {
            step.is_kept = false;
            for _ in 0..=random.pick(&[0, 0, 1, 2]) {
                damage(random, &mut step);
            }
        }
        if has_mesh && random.one_in(10) {
            step.is_kept = false;
            corrections::damage(random, step.mesh, &mut step.tables);
        }
        step
    }

    /// Hands on what a call left, with the work area as long as it was.
    pub fn take(&mut self, step: &Step, left: &Left) {
        if !step.is_kept || !step.call.is_on_tables() {
            return;
        }
        let work = std::mem::take(&mut self.tables.work);
        self.tables = Owned {
            work,
            ..left.tables.owned()
        };
        if let Some(mesh) = left.answer.mesh() {
            self.mesh = mesh;
            self.sides = mesh.sides();
        }
        match step.call {
            Call::Locate(p) => self.parked = Some(p),
            Call::Look(_, p) if left.answer.outcome() == ACCEPTED => {
                self.looked = Some((p, left.others.output.lent().to_vec()));
            }
            _ => {}
        }
    }

    fn call(&self, random: &mut Random) -> Call {
        if let Some(call) = self.of_near_tie(random) {
            return call;
        }
        let p = self.node(random);
        // Few meshes have numbers that take more than a byte.
        if self.mesh.points > 256 && random.one_in(2) {
            return match random.below(6) {
                0 => marks::look(random, self.mesh, p),
                1 => self.insert_marked(random, p),
                2 => self.drive(random),
                _ => Call::Locate(self.located(random)),
            };
        }
        match random.below(72) {
            0 => Call::Start(nodes::any_sides(random)),
            1 => Call::Volume6(twelve(random)),
            2..4 => sphere_test(random),
            4..6 => read(random),
            6..8 => self.write(random),
            8..10 => Call::Merge(merges::merge(random)),
            10..12 => Call::Check,
            12..16 => Call::Locate(self.located(random)),
            16..20 => self.list(random),
            20..28 => Call::Insert(p),
            28..33 => marks::look(random, self.mesh, p),
            33..40 => self.insert_marked(random, p),
            40..46 => Call::Correction(self.corrected(random)),
            46..52 => corrections::set_correction(random, self.mesh),
            52..58 => self.drive(random),
            _ => Call::InsertAnswers(nodes::answers(random, self.mesh), p),
        }
    }

    /// A look at the next node of the near tie, or its insertion, or that of all that are left, by the sphere test; now and then
    /// another call comes between.
    fn of_near_tie(&self, random: &mut Random) -> Option<Call> {
        let rest = self.near_tie?.rest(self.mesh)?;
        let &next = rest.first()?;
        match random.below(24) {
            0..4 => None,
            4..7 => Some(Call::InsertList(rest.as_flattened().to_vec())),
            7..14 => Some(marks::look(random, self.mesh, next)),
            14..16 => Some(self.insert_marked(random, next)),
            _ => Some(Call::Insert(next)),
        }
    }

    fn node(&self, random: &mut Random) -> Position {
        let used = 3 * self.mesh.points as usize;
        let points = &self.tables.points[..used.min(self.tables.points.len())];
        nodes::node(random, self.sides, self.spread, points)
    }

    /// Anywhere, at a place of some cell, or where the last one was, with insertions between.
    fn located(&self, random: &mut Random) -> Position {
        match (random.below(6), self.parked, self.cell(random)) {
            (0, _, _) | (_, _, None) => self.node(random),
            (1 | 2, Some(p), _) => p,
            (_, _, Some(corners)) => nodes::in_cell(random, corners),
        }
    }

    fn points(&self) -> Vec<Position> {
        let points = self.tables.points.as_chunks().0.iter();
        points.take(self.mesh.points as usize).copied().collect()
    }

    /// Between places of some cell, points and others.
    fn drive(&self, random: &mut Random) -> Call {
        let any = [self.node(random), self.node(random)];
        let Some(corners) = self.cell(random) else {
            return Call::DriveCells(any, random.index(9));
        };
        let start = drives::Start {
            sides: self.sides,
            any,
            points: &self.points(),
            corners,
        };
        let ends = drives::ends(random, &start);
        drives::drive(random, self.mesh, &self.tables, ends)
    }

    /// At a point, halfway between two points, where there is one, or as a position to locate.
    fn corrected(&self, random: &mut Random) -> Position {
        let points = self.points();
        if points.is_empty() || random.one_in(2) {
            return self.located(random);
        }
        let (one, other) = (random.pick(&points), random.pick(&points));
        [0, 1, 2].map(|axis| one[axis].midpoint(other[axis]))
    }

    /// Where the corners of some cell are, if there is one.
    fn cell(&self, random: &mut Random) -> Option<[Position; 4]> {
        let (points, _) = self.tables.points.as_chunks();
        let (corners, _) = self.tables.corners.as_chunks::<4>();
        let cells = Entries::of(self.mesh, &self.tables).cells;
        let &c = cells.get(random.index(cells.len()))?;
        Some(corners[c].map(|point| points[point as usize]))
    }

    /// With the marks of the last look, which may be out of date, or with others.
    fn insert_marked(&self, random: &mut Random, p: Position) -> Call {
        match &self.looked {
            Some((p, marks)) if random.one_in(4) => Call::InsertMarked(marks.clone(), *p),
            _ => {
                let nodes = [p, self.node(random)];
                marks::insert_marked(random, self.mesh, &self.tables, nodes)
            }
        }
    }

    /// Any length, with up to two surplus numbers; long where the tables are.
    fn list(&self, random: &mut Random) -> Call {
        let long = self.tables.points.len() / 3;
        let few = random.index(6);
        let count = random.pick(&[0, 1, few, few, few, 20, long / 4, long]);
        let mut numbers = match count > 100 {
            true => nodes::filling(random, self.sides, count),
            false => (0..count).flat_map(|_| self.node(random)).collect(),
        };
        for _ in 0..random.below(3) {
            numbers.push(random.bits() as u32);
        }
        Call::InsertList(numbers)
    }

    fn write(&self, random: &mut Random) -> Call {
        let exact = 12 * (self.mesh.points as usize).saturating_sub(8) + 20;
        let short = random.index(exact);
        Call::WriteNodes(random.pick(&[exact, exact + 7, exact - 1, short]))
    }
}

fn read(random: &mut Random) -> Call {
    let file = nodes::file(random);
    let exact = file.len() / 12 * 3;
    let short = random.index(exact + 1);
    Call::ReadNodes(file, random.pick(&[4_000, exact, exact + 1, short]))
}

/// Twelve coordinates, one of them now and then out of range.
fn twelve(random: &mut Random) -> [i32; 12] {
    let limit = random.pick(&[2, 5, 131_073]);
    let mut numbers = [0; 12].map(|_| random.below(limit) as i32);
    if random.one_in(3) {
        numbers[random.index(12)] = random.pick(&[-1, 131_072, 131_073, i32::MIN, i32::MAX]);
    }
    numbers
}

/// Tight, roomy, whole or over-long tables, with entries to spare and any content.
fn tables(random: &mut Random) -> Owned {
    let (points, cells) = match random.below(60) {
        0 => (POINT_LIMIT, CELL_LIMIT),
        1 => (POINT_LIMIT + 60, CELL_LIMIT + 90),
        2..6 => (random.index(10), random.index(8)),
        6..20 => (8 + random.index(8), 6 + random.index(60)),
        _ => (16 + random.index(60), 60 + random.index(300)),
    };
    let corrections = corrections::table(random, points);
    let mut spare = |n: usize| random.index(n + 1);
    let mut tables = Owned {
        corrections,
        points: vec![0; 3 * points + spare(2)],
        corners: vec![0; 4 * cells + spare(9)],
        neighbours: vec![0; 4 * cells + spare(9)],
        work: vec![0; 3 * cells + spare(9)],
    };
    let mark = random.bits() as u16;
    tables.points.fill(mark as u32);
    tables.corners.fill(mark);
    tables.neighbours.fill(mark);
    tables
}

/// Any content; now and then cut short or made long.
fn fill_work(random: &mut Random, work: &mut Vec<u16>) {
    match random.below(30) {
        0 => work.truncate(random.index(work.len() + 1)),
        1 => work.truncate(work.len().saturating_sub(1 + random.index(40))),
        2 => work.resize(work.len() + random.index(100), 0),
        _ => {}
    }
    let mark = random.bits() as u16;
    work.fill(mark);
    for _ in 0..random.below(20) {
        let place = random.index(work.len());
        if let Some(entry) = work.get_mut(place) {
            *entry = random.bits() as u16;
        }
    }
}

/// A number that a table or record might wrongly hold instead of `number`.
pub fn wrong(random: &mut Random, number: u32, limit: u32) -> u32 {
    let any = random.bits() as u32;
    let near = random.below(limit as u64 + 1) as u32;
    let (up, down) = (number.wrapping_add(1), number.wrapping_sub(1));
    random.pick(&[0, up, down, up, down, near, near, limit, 65_535, any])
}

fn damage(random: &mut Random, step: &mut Step) {
    match random.below(13) {
        0..2 => damage_record(random, &mut step.mesh),
        2 => cut(random, &mut step.tables),
        3 => fold(&mut step.mesh, &mut step.tables),
        4..8 => entries::damage(random, &mut step.mesh, &mut step.tables),
        _ => damage_tables(random, step.mesh, &mut step.tables),
    }
}

fn damage_record(random: &mut Random, mesh: &mut Mesh) {
    let limit = random.pick(&[10, 1_025, 4_097, 131_073]);
    let field = match random.below(7) {
        0 => &mut mesh.x,
        1 => &mut mesh.y,
        2 => &mut mesh.z,
        3 => &mut mesh.points,
        4 => &mut mesh.cells,
        5 => &mut mesh.chain,
        _ => &mut mesh.used,
    };
    *field = wrong(random, *field, limit);
}

fn cut(random: &mut Random, tables: &mut Owned) {
    match random.below(4) {
        0 => tables
            .points
            .truncate(random.index(tables.points.len() + 1)),
        1 => tables
            .corners
            .truncate(random.index(tables.corners.len() + 1)),
        2 => tables
            .neighbours
            .truncate(random.index(tables.neighbours.len() + 1)),
        _ => tables.work.truncate(random.index(tables.work.len() + 1)),
    }
}

fn damage_tables(random: &mut Random, mesh: Mesh, tables: &mut Owned) {
    let (points, used) = (mesh.points as usize, mesh.used as usize);
    let in_points = random.index(points.saturating_mul(3).min(tables.points.len()));
    let in_cells = random.index(used.saturating_mul(4).min(tables.corners.len()));
    match random.below(4) {
        0 => {
            if let Some(entry) = tables.points.get_mut(in_points) {
                *entry = wrong(random, *entry, mesh.x);
            }
        }
        1 => {
            if let Some(entry) = tables.corners.get_mut(in_cells) {
                *entry = wrong(random, *entry as u32, mesh.points) as u16;
            }
        }
        2 => {
            if let Some(entry) = tables.neighbours.get_mut(in_cells) {
                *entry = wrong(random, *entry as u32, mesh.used) as u16;
            }
        }
        _ => {
            // Two places of one table swapped: often of one cell.
            let other = random.pick(&[in_cells / 4 * 4, in_cells ^ 1, in_cells ^ 2, in_points]);
            let table = match random.one_in(2) {
                true => &mut tables.corners,
                false => &mut tables.neighbours,
            };
            if in_cells.max(other) < table.len() {
                table.swap(in_cells, other);
            }
        }
    }
}

/// Three of the started cells, each twice and mated with its double: all of a mesh but the far-side test.
fn fold(mesh: &mut Mesh, tables: &mut Owned) {
    if tables.points.len() < 24 || tables.corners.len() < 24 || tables.neighbours.len() < 24 {
        return;
    }
    *mesh = Mesh {
        points: 8,
        cells: 6,
        chain: NONE.into(),
        used: 6,
        ..*mesh
    };
    for (k, cell) in [[0, 1, 3, 7], [0, 2, 6, 7], [0, 4, 5, 7]]
        .iter()
        .enumerate()
    {
        for (c, double) in [(2 * k, 2 * k + 1), (2 * k + 1, 2 * k)] {
            tables.corners[4 * c..4 * c + 4].copy_from_slice(cell);
            tables.neighbours[4 * c..4 * c + 4].fill(double as u16);
        }
    }
}
