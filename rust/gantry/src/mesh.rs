//! A mesh with the tables that the calls are lent.

use std::fmt;

use crate::refusal::accepted;
use crate::{raw, Correction, Position, Refusal, Stopped, CELL_LIMIT, POINT_LIMIT};

/// How many points and cells a mesh has room for; more than 1,024 and 4,096 count as these.
///
/// An insertion needs room for the old cells and the new ones together, before the old ones that it replaces are dropped.
#[derive(Clone, Copy, Debug, PartialEq, Eq)]
pub struct Room {
    /// Points, the eight box corners among them.
    pub points: usize,
    /// Cells.
    pub cells: usize,
}

impl Room {
    /// 1,024 points and 4,096 cells.
    pub const FULL: Room = Room {
        points: POINT_LIMIT,
        cells: CELL_LIMIT,
    };
}

impl Default for Room {
    fn default() -> Room {
        Room::FULL
    }
}

/// A cell of a mesh.
#[derive(Clone, Copy, Debug, PartialEq, Eq)]
pub struct Cell {
    /// Its number, for as long as it [stands](Mesh::stands).
    pub number: usize,
    /// The four points.
    pub corners: [usize; 4],
    /// Across face i, which is opposite corner i; nothing at a wall of the box.
    pub neighbours: [Option<usize>; 4],
}

/// What an accepted insertion reports. The *cavity* is the cells that the new ones replace.
#[derive(Clone, Copy, Debug, PartialEq)]
pub struct Report {
    /// The new point's number.
    pub point: usize,
    /// The cavity's size before its correction.
    pub before: usize,
    /// The cavity's size after it.
    pub after: usize,
    /// How many cells were made.
    pub made: usize,
    /// The least float sum T of the sphere test over the cavity before correction; 0 for answers handed in. The test goes by
    /// the exact sum: T may be 0 or below.
    pub least: f64,
}

/// What a [look](Mesh::look) at a node gives: the report of its insertion, and the cells that it would replace.
#[derive(Clone, Debug, PartialEq)]
pub struct Look {
    position: Position,
    report: Report,
    marks: Vec<u8>,
}

impl Look {
    /// The node that was looked at.
    pub fn position(&self) -> Position {
        self.position
    }

    /// What its insertion would report.
    pub fn report(&self) -> Report {
        self.report
    }

    /// The cells that it would replace, by rising number.
    ///
    /// ```
    /// use gantry::Mesh;
    ///
    /// let mut mesh = Mesh::start(4, 4, 4)?;
    /// mesh.insert([1, 2, 3])?;
    /// let look = mesh.look([3, 1, 1])?;
    /// assert!(look.cells().eq([6, 7, 9, 15, 16, 17]));
    /// # Ok::<(), gantry::Refusal>(())
    /// ```
    pub fn cells(&self) -> impl Iterator<Item = usize> + '_ {
        (0..self.marks.len()).filter(|&number| self.replaces(number))
    }

    /// Would it replace the cell of this number? All other cells keep their numbers.
    pub fn replaces(&self, number: usize) -> bool {
        self.marks.get(number) == Some(&1)
    }

    /// A byte for each number below the [used length](Mesh::used): 1 for a cell that the node would replace, else 0.
    pub fn marks(&self) -> &[u8] {
        &self.marks
    }
}

/// Cells over the nodes of a box, with their tables.
///
/// All calls take `&mut self`, [`look`](Mesh::look), [`locate`](Mesh::locate), [`drive_cells`](Mesh::drive_cells),
/// [`correction`](Mesh::correction) and [`check`](Mesh::check) too: each is lent the work area.
///
/// Two are equal where box, room and all table entries are: then every call answers alike on both.
///
/// ```
/// use gantry::Mesh;
///
/// let (mut one, mut other) = (Mesh::start(4, 4, 4)?, Mesh::start(4, 4, 4)?);
/// one.insert([1, 2, 3])?;
/// assert_ne!(one, other);
/// other.insert([1, 2, 3])?;
/// assert_eq!(one, other);
/// # Ok::<(), gantry::Refusal>(())
/// ```
///
/// # Cell numbers
///
/// An insertion replaces the cells of its cavity, which a [look](Mesh::look) names before. Every other cell keeps its number
/// and its corners; where a replaced cell was across a face, it has a new neighbour. The numbers of replaced cells are freed,
/// and cells that later insertions make take them, the last freed first, before further numbers. So the numbers of the
/// cells may have gaps.
///
/// ```
/// use gantry::Mesh;
///
/// let mut mesh = Mesh::start(4, 4, 4)?;
/// // This node replaces all six cells of the box, so numbers 0 to 5 are freed.
/// mesh.insert([2, 2, 2])?;
/// assert!(mesh.cells().map(|cell| cell.number).eq(6..18));
///
/// let stored: Vec<_> = mesh.cells().collect();
/// let look = mesh.look([4, 2, 2])?;
/// assert!(look.cells().eq([6, 16]));
/// mesh.insert_looked(&look)?;
/// for cell in &stored {
///     assert_eq!(mesh.stands(cell), !look.replaces(cell.number));
/// }
/// // Numbers 5 down to 2 are taken again.
/// let numbers = mesh.cells().map(|cell| cell.number);
/// assert!(numbers.eq([2, 3, 4, 5, 7, 8, 9, 10, 11, 12, 13, 14, 15, 17]));
/// # Ok::<(), gantry::Refusal>(())
/// ```
///
/// # Corrections
///
/// Each point has a correction, three signed numbers of steps. Box corners start at 0, and a node starts with the
/// [correction](Mesh::correction) that its position had before it went in: an insertion moves no position's correction at the
/// node itself. [`set_correction`](Mesh::set_correction) gives a point another one.
///
/// ```
/// use gantry::Mesh;
///
/// let mut mesh = Mesh::start(4, 4, 4)?;
/// mesh.set_correction(7, [1_000, -1_000, 3])?;
/// let before = mesh.correction([2, 2, 2])?;
/// let node = mesh.insert([2, 2, 2])?.point;
/// assert_eq!(mesh.corrections()[node], before);
/// # Ok::<(), gantry::Refusal>(())
/// ```
#[derive(Clone, PartialEq, Eq)]
pub struct Mesh {
    record: raw::Record,
    points: Vec<u32>,
    corners: Vec<u16>,
    neighbours: Vec<u16>,
    work: Vec<u16>,
    corrections: Vec<i32>,
}

impl Mesh {
    /// Six cells in a box of these sides, with full room. Refused with [`Refusal::Box`] for a side that is 0 or above
    /// 131,072.
    ///
    /// ```
    /// use gantry::{Mesh, Room};
    ///
    /// let mesh = Mesh::start(4, 4, 4)?;
    /// assert_eq!((mesh.points().len(), mesh.cells().len()), (8, 6));
    /// assert_eq!(mesh.room(), Room::FULL);
    /// # Ok::<(), gantry::Refusal>(())
    /// ```
    pub fn start(x: u32, y: u32, z: u32) -> Result<Mesh, Refusal> {
        Mesh::start_with_room(x, y, z, Room::FULL)
    }

    /// The same with other room; refused with [`Refusal::Short`] where it is below 8 points or 6 cells.
    ///
    /// ```
    /// use gantry::{Mesh, Refusal, Room};
    ///
    /// let mut mesh = Mesh::start_with_room(4, 4, 4, Room { points: 20, cells: 17 })?;
    /// assert_eq!(mesh.insert([1, 2, 3]), Err(Refusal::CellsFull));
    /// let mut mesh = Mesh::start_with_room(4, 4, 4, Room { points: 20, cells: 18 })?;
    /// assert!(mesh.insert([1, 2, 3]).is_ok());
    /// # Ok::<(), Refusal>(())
    /// ```
    pub fn start_with_room(x: u32, y: u32, z: u32, room: Room) -> Result<Mesh, Refusal> {
        let points = room.points.min(POINT_LIMIT);
        let cells = room.cells.min(CELL_LIMIT);
        let mut mesh = Mesh {
            record: raw::Record::default(),
            points: vec![0; 3 * points],
            corners: vec![0; 4 * cells],
            neighbours: vec![0; 4 * cells],
            work: vec![0; 3 * cells],
            corrections: vec![0; 3 * points],
        };
        let (_, mut tables, corrections) = mesh.lend();
        let started = raw::start([x, y, z], &mut tables, corrections);
        accepted(started.refusal)?;
        mesh.record = started.mesh;
        Ok(mesh)
    }

    fn lend(&mut self) -> (raw::Record, raw::Tables<'_>, &mut [i32]) {
        let tables = raw::Tables {
            points: &mut self.points,
            corners: &mut self.corners,
            neighbours: &mut self.neighbours,
            work: &mut self.work,
        };
        (self.record, tables, &mut self.corrections)
    }

    fn take(&mut self, inserted: raw::Inserted) -> Result<Report, Refusal> {
        self.record = inserted.mesh;
        accepted(inserted.refusal)?;
        let raw::Inserted {
            point,
            before,
            after,
            made,
            least,
            ..
        } = inserted;
        Ok(report([point, before, after, made], least))
    }

    /// Inserts one node by the sphere test; it starts with the [correction](Mesh::correction) that its position had. Refused
    /// with [`Refusal::Outside`], [`Refusal::Taken`], [`Refusal::PointsFull`] or [`Refusal::CellsFull`].
    ///
    /// While all nodes since the start have gone in by the sphere test, here or in a [list](Mesh::insert_list), no point of
    /// the mesh lies strictly inside the sphere of any cell, and the correction removes nothing.
    ///
    /// ```
    /// use gantry::Mesh;
    ///
    /// let mut mesh = Mesh::start(4, 4, 4)?;
    /// let report = mesh.insert([1, 2, 3])?;
    /// assert_eq!((report.before, report.after, report.made), (6, 6, 12));
    /// # Ok::<(), gantry::Refusal>(())
    /// ```
    pub fn insert(&mut self, p: Position) -> Result<Report, Refusal> {
        let (record, mut tables, corrections) = self.lend();
        let inserted = raw::insert(record, &mut tables, corrections, p);
        self.take(inserted)
    }

    /// Inserts one node by answers handed in: a byte for each number below the [used length](Mesh::used), nonzero where the
    /// node counts as inside the cell's sphere; a freed number's is ignored. Any answers leave a mesh; but of points and
    /// spheres nothing is promised then. Refused as [`insert`](Mesh::insert) is, and with [`Refusal::Short`] for fewer bytes
    /// than the used length.
    ///
    /// ```
    /// use gantry::Mesh;
    ///
    /// let mut mesh = Mesh::start(4, 4, 4)?;
    /// mesh.insert([1, 2, 3])?;
    /// let report = mesh.insert_answers(&vec![1; mesh.used()], [2, 2, 2])?;
    /// assert_eq!((report.made, mesh.cells().len()), (6, 16));
    /// # Ok::<(), gantry::Refusal>(())
    /// ```
    pub fn insert_answers(&mut self, answers: &[u8], p: Position) -> Result<Report, Refusal> {
        let (record, mut tables, corrections) = self.lend();
        let inserted = raw::insert_answers(record, &mut tables, corrections, answers, p);
        self.take(inserted)
    }

    /// Looks at the insertion of a node by the sphere test, without making it. Refused where [`insert`](Mesh::insert) would
    /// be.
    ///
    /// ```
    /// use gantry::{Mesh, Refusal};
    ///
    /// let mut mesh = Mesh::start(4, 4, 4)?;
    /// let before = mesh.clone();
    /// let look = mesh.look([2, 2, 0])?;
    /// assert_eq!((look.report().after, look.report().made), (6, 10));
    /// assert_eq!(mesh, before);
    /// assert_eq!(mesh.look([4, 4, 4]), Err(Refusal::Taken));
    /// # Ok::<(), Refusal>(())
    /// ```
    pub fn look(&mut self, p: Position) -> Result<Look, Refusal> {
        let mut marks = vec![0; self.used()];
        let (record, mut tables, corrections) = self.lend();
        let looked = raw::look(record, &mut tables, corrections, &mut marks, p);
        accepted(looked.refusal)?;
        let raw::Looked {
            point,
            before,
            after,
            made,
            least,
            ..
        } = looked;
        Ok(Look {
            position: p,
            report: report([point, before, after, made], least),
            marks,
        })
    }

    /// Inserts the node that was looked at, as [`insert`](Mesh::insert) does, if it would still replace the cells that the
    /// look marked. Refused as `insert` is, and with [`Refusal::OtherMarks`] where the look is out of date.
    ///
    /// ```
    /// use gantry::{Mesh, Refusal};
    ///
    /// let mut mesh = Mesh::start(4, 4, 4)?;
    /// let (first, second) = (mesh.look([1, 2, 3])?, mesh.look([3, 1, 1])?);
    /// assert_eq!(mesh.insert_looked(&first)?, first.report());
    /// // The cells that the second look marked are gone.
    /// assert_eq!(mesh.insert_looked(&second), Err(Refusal::OtherMarks));
    /// let again = mesh.look(second.position())?;
    /// assert_eq!(mesh.insert_looked(&again)?, again.report());
    /// # Ok::<(), Refusal>(())
    /// ```
    pub fn insert_looked(&mut self, look: &Look) -> Result<Report, Refusal> {
        let (record, mut tables, corrections) = self.lend();
        let inserted =
            raw::insert_marked(record, &mut tables, corrections, &look.marks, look.position);
        self.take(inserted)
    }

    /// Inserts nodes one by one, and says how many went in; stops at the first that is refused, as
    /// [`insert`](Mesh::insert) would refuse it, and keeps the nodes before it.
    ///
    /// ```
    /// use gantry::{Mesh, Refusal, Stopped};
    ///
    /// let mut mesh = Mesh::start(4, 4, 4)?;
    /// assert_eq!(mesh.insert_list(&[[1, 2, 3], [2, 2, 0]]), Ok(2));
    /// let stopped = mesh.insert_list(&[[2, 2, 2], [1, 2, 3], [3, 3, 3]]).unwrap_err();
    /// assert_eq!(stopped, Stopped { place: 1, refusal: Refusal::Taken });
    /// assert_eq!(stopped.to_string(), "stopped at place 1: refused 5 (taken): a point is already there");
    /// assert_eq!(mesh.points().len(), 11);
    /// # Ok::<(), Refusal>(())
    /// ```
    pub fn insert_list(&mut self, nodes: &[Position]) -> Result<usize, Stopped> {
        let (record, mut tables, corrections) = self.lend();
        let listed = raw::insert_list(record, &mut tables, corrections, nodes.as_flattened());
        self.record = listed.mesh;
        let place = listed.place as usize;
        match accepted(listed.refusal) {
            Ok(()) => Ok(place),
            Err(refusal) => Err(Stopped { place, refusal }),
        }
    }

    /// Of the cells that hold the position, their faces, edges and corners included, the one whose four corner numbers,
    /// sorted upward, come first in order. Every position of the box is held by one. Refused with [`Refusal::Outside`].
    ///
    /// ```
    /// use gantry::{Mesh, Refusal};
    ///
    /// let mut mesh = Mesh::start(4, 4, 4)?;
    /// assert_eq!(mesh.locate([1, 2, 3]), Ok(3));
    /// assert_eq!(mesh.locate([1, 2, 5]), Err(Refusal::Outside));
    /// # Ok::<(), Refusal>(())
    /// ```
    ///
    /// If an insertion does not replace the located cell, the position is located in that cell again, though new cells may
    /// hold it too:
    ///
    /// ```
    /// use gantry::Mesh;
    ///
    /// let mut mesh = Mesh::start(4, 4, 4)?;
    /// mesh.insert([2, 2, 2])?;
    /// // On a face that cells 16 and 17 share.
    /// let parked = [3, 1, 2];
    /// assert_eq!(mesh.locate(parked), Ok(17));
    /// let look = mesh.look([4, 2, 2])?;
    /// assert!(look.replaces(16) && !look.replaces(17));
    /// mesh.insert_looked(&look)?;
    /// assert_eq!(mesh.locate(parked), Ok(17));
    /// # Ok::<(), gantry::Refusal>(())
    /// ```
    pub fn locate(&mut self, p: Position) -> Result<usize, Refusal> {
        let (record, mut tables, _) = self.lend();
        let located = raw::locate(record, &mut tables, p);
        accepted(located.refusal)?;
        Ok(located.cell as usize)
    }

    /// The cells on a straight drive from `a` to `b`, by rising number: every cell that shares at least one place with the
    /// segment, ends and fractions of a step included, and no other. A cell that is touched in a single point is among them.
    /// Refused with [`Refusal::Outside`] where an end is outside the box.
    ///
    /// ```
    /// use gantry::{Mesh, Refusal};
    ///
    /// let mut mesh = Mesh::start(4, 4, 4)?;
    /// assert_eq!(mesh.drive_cells([3, 0, 1], [3, 4, 1])?, [0, 1, 5]);
    /// assert_eq!(mesh.drive_cells([3, 4, 1], [3, 0, 1])?, [0, 1, 5]);
    /// assert_eq!(mesh.drive_cells([3, 0, 1], [3, 5, 1]), Err(Refusal::Outside));
    /// # Ok::<(), Refusal>(())
    /// ```
    ///
    /// Where both ends are the same, it is the cells that hold the position:
    ///
    /// ```
    /// use gantry::Mesh;
    ///
    /// let mut mesh = Mesh::start(4, 4, 4)?;
    /// assert_eq!(mesh.drive_cells([2, 2, 1], [2, 2, 1])?, [0, 1]);
    /// assert_eq!(mesh.locate([2, 2, 1]), Ok(0));
    /// # Ok::<(), gantry::Refusal>(())
    /// ```
    pub fn drive_cells(&mut self, a: Position, b: Position) -> Result<Vec<usize>, Refusal> {
        let mut cells = vec![0; self.record.cells as usize];
        let (record, mut tables, _) = self.lend();
        let counted = raw::drive_cells(record, &mut tables, [a, b], &mut cells);
        accepted(counted.refusal)?;
        cells.truncate(counted.count as usize);
        Ok(cells.into_iter().map(usize::from).collect())
    }

    /// The correction of a position: on each axis the mean of those of the four corners of its cell, weighed with their
    /// shares in it, and rounded to the nearest whole number, halves away from zero. It is the same from every cell that holds
    /// the position, and lies between the least and the greatest of the four. Refused with [`Refusal::Outside`].
    ///
    /// ```
    /// use gantry::{Mesh, Refusal};
    ///
    /// let mut mesh = Mesh::start(4, 4, 4)?;
    /// mesh.set_correction(1, [1, -1, 3])?;
    /// assert_eq!(mesh.correction([4, 0, 0]), Ok([1, -1, 3]));
    /// assert_eq!(mesh.correction([2, 0, 0]), Ok([1, -1, 2]));
    /// assert_eq!(mesh.correction([1, 0, 0]), Ok([0, 0, 1]));
    /// assert_eq!(mesh.correction([5, 0, 0]), Err(Refusal::Outside));
    /// # Ok::<(), Refusal>(())
    /// ```
    pub fn correction(&mut self, p: Position) -> Result<Correction, Refusal> {
        let (record, mut tables, corrections) = self.lend();
        let raw::Corrected { refusal, x, y, z } =
            raw::correction(record, &mut tables, corrections, p);
        accepted(refusal)?;
        Ok([x, y, z])
    }

    /// Gives a point, a box corner or a node, another correction. Refused with [`Refusal::NoPoint`], or else with
    /// [`Refusal::OutOfRange`] for a number outside -1,000 to 1,000.
    ///
    /// ```
    /// use gantry::{Mesh, Refusal};
    ///
    /// let mut mesh = Mesh::start(4, 4, 4)?;
    /// mesh.set_correction(7, [1_000, -1_000, 0])?;
    /// assert_eq!(mesh.corrections()[7], [1_000, -1_000, 0]);
    /// assert_eq!(mesh.set_correction(7, [0, 0, 1_001]), Err(Refusal::OutOfRange));
    /// assert_eq!(mesh.set_correction(8, [0, 0, 1_001]), Err(Refusal::NoPoint));
    /// # Ok::<(), Refusal>(())
    /// ```
    pub fn set_correction(&mut self, point: usize, numbers: Correction) -> Result<(), Refusal> {
        let (record, mut tables, corrections) = self.lend();
        // What no u32 holds is no point's number either.
        let point = u32::try_from(point).unwrap_or(u32::MAX);
        accepted(raw::set_correction(
            record,
            &mut tables,
            corrections,
            point,
            numbers,
        ))
    }

    /// The mesh check: yes after any calls.
    ///
    /// ```
    /// let mut mesh = gantry::Mesh::start(4, 4, 4)?;
    /// mesh.insert([2, 0, 0])?;
    /// assert!(mesh.check());
    /// # Ok::<(), gantry::Refusal>(())
    /// ```
    pub fn check(&mut self) -> bool {
        let (record, mut tables, _) = self.lend();
        raw::check(record, &mut tables)
    }

    /// The nodes, box corners left out, as a node file without a note; corrections have no place in one.
    ///
    /// ```
    /// let mut mesh = gantry::Mesh::start(4, 4, 4)?;
    /// mesh.insert([1, 2, 3])?;
    /// let file = mesh.write_nodes()?;
    /// assert_eq!(file.len(), 12 + 20);
    /// assert_eq!(file[..12], [1, 0, 0, 0, 2, 0, 0, 0, 3, 0, 0, 0]);
    /// # Ok::<(), gantry::Refusal>(())
    /// ```
    pub fn write_nodes(&mut self) -> Result<Vec<u8>, Refusal> {
        let mut file = vec![0; 12 * self.points().len() - 96 + 20];
        let (record, mut tables, _) = self.lend();
        let written = raw::write_nodes(record, &mut tables, &mut file);
        accepted(written.refusal)?;
        file.truncate(written.bytes as usize);
        Ok(file)
    }

    /// The sides of the box.
    pub fn sides(&self) -> Position {
        [self.record.x, self.record.y, self.record.z]
    }

    /// How many points and cells there is room for.
    pub fn room(&self) -> Room {
        Room {
            points: self.points.len() / 3,
            cells: self.corners.len() / 4,
        }
    }

    /// The points: the eight box corners, then the nodes as they went in.
    ///
    /// ```
    /// let mut mesh = gantry::Mesh::start(4, 4, 4)?;
    /// mesh.insert([1, 2, 3])?;
    /// assert_eq!(mesh.points()[7..], [[4, 4, 4], [1, 2, 3]]);
    /// # Ok::<(), gantry::Refusal>(())
    /// ```
    pub fn points(&self) -> &[Position] {
        &self.points.as_chunks().0[..self.record.points as usize]
    }

    /// The corrections of the points, in the same order.
    ///
    /// ```
    /// let mut mesh = gantry::Mesh::start(4, 4, 4)?;
    /// mesh.set_correction(7, [3, 0, -3])?;
    /// mesh.insert([2, 2, 2])?;
    /// assert_eq!(mesh.corrections()[6..], [[0, 0, 0], [3, 0, -3], [2, 0, -2]]);
    /// # Ok::<(), gantry::Refusal>(())
    /// ```
    pub fn corrections(&self) -> &[Correction] {
        &self.corrections.as_chunks().0[..self.record.points as usize]
    }

    /// The cells, by rising number; there may be gaps between the numbers.
    ///
    /// ```
    /// let mesh = gantry::Mesh::start(4, 4, 4)?;
    /// assert!(mesh.cells().map(|cell| cell.number).eq(0..6));
    /// let walls = mesh.cells().flat_map(|cell| cell.neighbours).filter(Option::is_none);
    /// assert_eq!(walls.count(), 12);
    /// # Ok::<(), gantry::Refusal>(())
    /// ```
    pub fn cells(&self) -> impl ExactSizeIterator<Item = Cell> + '_ {
        let numbers = 0..self.used();
        Cells {
            cells: numbers.filter_map(|number| self.cell(number)),
            left: self.record.cells as usize,
        }
    }

    /// The used length: the number of every cell is below it. Marks, and answers handed in, have a byte for each number below
    /// it.
    ///
    /// ```
    /// let mut mesh = gantry::Mesh::start(4, 4, 4)?;
    /// assert_eq!((mesh.cells().len(), mesh.used()), (6, 6));
    /// mesh.insert([2, 2, 2])?;
    /// assert_eq!((mesh.cells().len(), mesh.used()), (12, 18));
    /// # Ok::<(), gantry::Refusal>(())
    /// ```
    pub fn used(&self) -> usize {
        self.record.used as usize
    }

    /// The cell of this number, if there is one.
    ///
    /// ```
    /// let mut mesh = gantry::Mesh::start(4, 4, 4)?;
    /// let cell = mesh.cell(3).unwrap();
    /// assert_eq!((cell.number, cell.corners), (3, [0, 6, 4, 7]));
    /// assert_eq!(cell.neighbours, [None, Some(4), Some(2), None]);
    /// assert_eq!(mesh.cell(6), None);
    /// mesh.insert([2, 2, 2])?;
    /// assert_eq!(mesh.cell(3), None);
    /// # Ok::<(), gantry::Refusal>(())
    /// ```
    pub fn cell(&self, number: usize) -> Option<Cell> {
        let (corners, _) = self.corners.as_chunks::<4>();
        let corners = corners[..self.used()].get(number)?;
        if *corners == raw::FREED {
            return None;
        }
        let (neighbours, _) = self.neighbours.as_chunks::<4>();
        let across = |u: u16| (u != raw::NO_NEIGHBOUR).then_some(usize::from(u));
        Some(Cell {
            number,
            corners: corners.map(usize::from),
            neighbours: neighbours[number].map(across),
        })
    }

    /// Is a cell that this mesh had still there, under its number? Its neighbours may be others. No two cells of a mesh have
    /// the same corners, nor has a later one those of a cell that was replaced.
    ///
    /// ```
    /// let mut mesh = gantry::Mesh::start(4, 4, 4)?;
    /// mesh.insert([2, 2, 2])?;
    /// let [replaced, other] = [6, 7].map(|number| mesh.cell(number).unwrap());
    /// mesh.insert([4, 2, 2])?;
    /// assert!(!mesh.stands(&replaced));
    /// assert!(mesh.stands(&other));
    /// # Ok::<(), gantry::Refusal>(())
    /// ```
    pub fn stands(&self, cell: &Cell) -> bool {
        let found = self.cell(cell.number);
        found.is_some_and(|found| found.corners == cell.corners)
    }

    /// Where the corners of the cell of this number are, if there is one.
    ///
    /// ```
    /// let mesh = gantry::Mesh::start(4, 4, 4)?;
    /// let corners = mesh.corner_positions(3).unwrap();
    /// assert_eq!(corners, [[0, 0, 0], [0, 4, 4], [0, 0, 4], [4, 4, 4]]);
    /// # Ok::<(), gantry::Refusal>(())
    /// ```
    pub fn corner_positions(&self, number: usize) -> Option<[Position; 4]> {
        let cell = self.cell(number)?;
        Some(cell.corners.map(|point| self.points()[point]))
    }
}

/// Cells that are counted beforehand.
struct Cells<I> {
    cells: I,
    left: usize,
}

impl<I: Iterator<Item = Cell>> Iterator for Cells<I> {
    type Item = Cell;

    fn next(&mut self) -> Option<Cell> {
        let cell = self.cells.next()?;
        self.left -= 1;
        Some(cell)
    }

    fn size_hint(&self) -> (usize, Option<usize>) {
        (self.left, Some(self.left))
    }
}

impl<I: Iterator<Item = Cell>> ExactSizeIterator for Cells<I> {}

fn report(numbers: [u32; 4], least: f64) -> Report {
    let [point, before, after, made] = numbers.map(|number| number as usize);
    Report {
        point,
        before,
        after,
        made,
        least,
    }
}

impl fmt::Debug for Mesh {
    fn fmt(&self, f: &mut fmt::Formatter) -> fmt::Result {
        f.debug_struct("Mesh")
            .field("sides", &self.sides())
            .field("points", &self.record.points)
            .field("cells", &self.record.cells)
            .field("room", &self.room())
            .finish_non_exhaustive()
    }
}
