//! One call with all that it is lent, and what it leaves.

use std::ops::Range;

use plain::corrections::Correction;
use plain::{
    Answers, Corrected, Counted, Inserted, Listed, Located, Looked, Mesh, Position, Read, Sphere,
    Started, Written, OUT_OF_RANGE,
};

use crate::builders::Builder;
use crate::guarded::{Guarded, GuardedTables};
use crate::tally::{ACCEPTED, NO};

#[derive(Clone, Debug)]
pub enum Call {
    Volume6([i32; 12]),
    SphereTest([Position; 4], Position),
    Start(Position),
    Insert(Position),
    InsertAnswers(Vec<u8>, Position),
    /// What the lent marks are before the call, and the node.
    Look(Vec<u8>, Position),
    InsertMarked(Vec<u8>, Position),
    InsertList(Vec<u32>),
    Locate(Position),
    /// The ends, and how many entries the lent output has.
    DriveCells([Position; 2], usize),
    Correction(Position),
    /// A point's number, and what is to be its correction.
    SetCorrection(u32, Correction),
    Check,
    /// A file, and how many numbers the lent output has.
    ReadNodes(Vec<u8>, usize),
    /// How many bytes the lent output has.
    WriteNodes(usize),
    Merge(Merge),
}

/// Two node files as parts of one area, so that they may overlap, and how many bytes the lent output has.
#[derive(Clone, Debug)]
pub struct Merge {
    pub area: Vec<u8>,
    pub first: Range<usize>,
    pub second: Range<usize>,
    pub room: usize,
}

impl Merge {
    /// The two files in the area, or in a copy of it.
    pub fn files<'a>(&self, area: &'a [u8]) -> [&'a [u8]; 2] {
        [&area[self.first.clone()], &area[self.second.clone()]]
    }
}

#[derive(Clone, Copy, Debug, PartialEq)]
pub enum Answer {
    Volume(i64),
    Sphere(Sphere),
    Started(Started),
    Inserted(Inserted),
    Looked(Looked),
    Listed(Listed),
    Located(Located),
    Counted(Counted),
    Corrected(Corrected),
    /// The refusal of a setting, or 0.
    Set(u8),
    Checked(bool),
    Read(Read),
    Written(Written),
}

impl Answer {
    /// The bits of T, or 0.
    fn float_bits(self) -> u64 {
        match self {
            Answer::Sphere(sphere) => sphere.t.to_bits(),
            Answer::Inserted(inserted) => inserted.least.to_bits(),
            Answer::Looked(looked) => looked.least.to_bits(),
            _ => 0,
        }
    }

    pub fn is_same(self, other: Answer) -> bool {
        self == other && self.float_bits() == other.float_bits()
    }

    /// 0 for accepted, or a refusal's number; `NO` for the mesh check's no and the volume's none.
    pub fn outcome(self) -> u8 {
        match self {
            Answer::Volume(OUT_OF_RANGE) | Answer::Checked(false) => NO,
            Answer::Volume(_) | Answer::Checked(true) => ACCEPTED,
            Answer::Sphere(sphere) => sphere.refusal,
            Answer::Started(started) => started.refusal,
            Answer::Inserted(inserted) => inserted.refusal,
            Answer::Looked(looked) => looked.refusal,
            Answer::Listed(listed) => listed.refusal,
            Answer::Located(located) => located.refusal,
            Answer::Counted(counted) => counted.refusal,
            Answer::Corrected(corrected) => corrected.refusal,
            Answer::Set(refusal) => refusal,
            Answer::Read(read) => read.refusal,
            Answer::Written(written) => written.refusal,
        }
    }

    /// The record that the call leaves, of those that leave one.
    pub fn mesh(self) -> Option<Mesh> {
        match self {
            Answer::Started(started) if started.refusal == 0 => Some(started.mesh),
            Answer::Inserted(inserted) => Some(inserted.mesh),
            Answer::Listed(listed) => Some(listed.mesh),
            _ => None,
        }
    }
}

/// What a call leaves: the answer, the tables, and what else it was lent.
pub struct Left {
    pub answer: Answer,
    pub tables: GuardedTables,
    pub others: Others,
}

/// What is lent beside the tables.
pub struct Others {
    /// A list of nodes, or an output.
    pub numbers: Guarded<u32>,
    /// Only read: answers, marks or files.
    pub input: Guarded<u8>,
    /// Written: a file, or a look's marks.
    pub output: Guarded<u8>,
    /// Written: the cells on a drive.
    pub cells: Guarded<u16>,
}

/// What an output holds before the call; a look's marks may be any.
const FILLED: u8 = 0x3C;
/// The same of a drive's, which is no cell's number.
pub const NO_CELL: u16 = 0x3C3C;

impl Call {
    /// As in the C interface, without its prefix.
    pub fn name(&self) -> &'static str {
        match self {
            Call::Volume6(_) => "volume6",
            Call::SphereTest(..) => "sphere_test",
            Call::Start(_) => "start",
            Call::Insert(_) => "insert",
            Call::InsertAnswers(..) => "insert_answers",
            Call::Look(..) => "look",
            Call::InsertMarked(..) => "insert_marked",
            Call::InsertList(_) => "insert_list",
            Call::Locate(_) => "locate",
            Call::DriveCells(..) => "drive_cells",
            Call::Correction(_) => "correction",
            Call::SetCorrection(..) => "set_correction",
            Call::Check => "check",
            Call::ReadNodes(..) => "read_nodes",
            Call::WriteNodes(_) => "write_nodes",
            Call::Merge(_) => "merge",
        }
    }

    pub fn make(&self, builder: &dyn Builder, mesh: Mesh, tables: &GuardedTables) -> Left {
        let mut tables = tables.clone();
        let mut others = self.others();
        let answer = self.answer(builder, mesh, &mut tables, &mut others);
        Left {
            answer,
            tables,
            others,
        }
    }

    fn answer(
        &self,
        builder: &dyn Builder,
        mesh: Mesh,
        tables: &mut GuardedTables,
        others: &mut Others,
    ) -> Answer {
        let lent = &mut tables.lend();
        let Others {
            numbers,
            input,
            output,
            cells,
        } = others;
        match *self {
            Call::Volume6(twelve) => Answer::Volume(builder.volume6(twelve)),
            Call::SphereTest(corners, p) => Answer::Sphere(builder.sphere_test(corners, p)),
            Call::Start(sides) => Answer::Started(builder.start(sides, lent)),
            Call::Insert(p) => Answer::Inserted(builder.insert(mesh, lent, Answers::SphereTest, p)),
            Call::InsertAnswers(_, p) => {
                let answers = Answers::Given(input.lent());
                Answer::Inserted(builder.insert(mesh, lent, answers, p))
            }
            Call::Look(_, p) => Answer::Looked(builder.look(mesh, lent, output.lend(), p)),
            Call::InsertMarked(_, p) => {
                Answer::Inserted(builder.insert_marked(mesh, lent, input.lent(), p))
            }
            Call::InsertList(_) => Answer::Listed(builder.insert_list(mesh, lent, numbers.lent())),
            Call::Locate(p) => Answer::Located(builder.locate(mesh, lent, p)),
            Call::DriveCells(ends, _) => {
                Answer::Counted(builder.drive_cells(mesh, lent, ends, cells.lend()))
            }
            Call::Correction(p) => Answer::Corrected(builder.correction(mesh, lent, p)),
            Call::SetCorrection(point, numbers) => {
                Answer::Set(builder.set_correction(mesh, lent, point, numbers))
            }
            Call::Check => Answer::Checked(builder.check(mesh, lent)),
            Call::ReadNodes(..) => Answer::Read(builder.read_nodes(input.lent(), numbers.lend())),
            Call::WriteNodes(_) => Answer::Written(builder.write_nodes(mesh, lent, output.lend())),
            Call::Merge(ref merge) => {
                let [first, second] = merge.files(input.lent());
                Answer::Written(builder.merge(first, second, output.lend()))
            }
        }
    }

    fn others(&self) -> Others {
        let (numbers, output) = match self {
            Call::InsertList(nodes) => (nodes.clone(), vec![]),
            Call::ReadNodes(_, room) => (vec![FILLED as u32; *room], vec![]),
            Call::WriteNodes(room) | Call::Merge(Merge { room, .. }) => {
                (vec![], vec![FILLED; *room])
            }
            Call::Look(marks, _) => (vec![], marks.clone()),
            _ => (vec![], vec![]),
        };
        let cells = match self {
            Call::DriveCells(_, room) => vec![NO_CELL; *room],
            _ => vec![],
        };
        Others {
            numbers: Guarded::new(&numbers, 0x5A5A_5A5A),
            input: Guarded::new(self.input(), 0x5A),
            output: Guarded::new(&output, 0x5A),
            cells: Guarded::new(&cells, 0x5A5A),
        }
    }

    /// Bytes that are only read.
    pub fn input(&self) -> &[u8] {
        match self {
            Call::InsertAnswers(bytes, _) | Call::InsertMarked(bytes, _) => bytes,
            Call::ReadNodes(file, _) => file,
            Call::Merge(merge) => &merge.area,
            _ => &[],
        }
    }

    /// May this call write the corrections?
    pub fn writes_corrections(&self) -> bool {
        matches!(
            self,
            Call::Start(_)
                | Call::Insert(_)
                | Call::InsertAnswers(..)
                | Call::InsertMarked(..)
                | Call::InsertList(_)
                | Call::SetCorrection(..)
        )
    }

    /// Is the work area lent to this call?
    pub fn is_on_tables(&self) -> bool {
        !matches!(
            self,
            Call::Volume6(_) | Call::SphereTest(..) | Call::ReadNodes(..) | Call::Merge(_)
        )
    }
}
