//! Refusals, by document 01's table.

use std::error::Error;
use std::fmt;

/// One table of the refusals: case, number, name, when a call answers it, in the manual's and the header's words, and what
/// Rust programs should know beyond that.
macro_rules! refusals {
    ($($case:ident = $number:literal, $name:literal, $when:literal $(, $more:literal)?;)*) => {
        /// Why a call was refused. A refusal changes nothing but the work area; a list that stops at a refused node keeps the
        /// nodes before it. `docs/MANUAL.md` says of each one what to do.
        ///
        /// ```
        /// use gantry::{Mesh, Refusal};
        ///
        /// let refusal = Mesh::start(0, 4, 4).unwrap_err();
        /// assert_eq!(refusal, Refusal::Box);
        /// assert_eq!((refusal.number(), refusal.name()), (2, "box"));
        /// assert_eq!(refusal.to_string(), "refused 2 (box): a side is 0 or above 131,072");
        /// ```
        #[repr(u8)]
        #[derive(Clone, Copy, Debug, PartialEq, Eq, Hash)]
        pub enum Refusal {
            $(#[doc = concat!($when, $("\n\n", $more)?)] $case = $number,)*
        }

        impl Refusal {
            /// All of them, by number.
            pub const ALL: [Refusal; [$($number),*].len()] = [$(Refusal::$case),*];

            /// The table's name.
            pub fn name(self) -> &'static str {
                match self {
                    $(Refusal::$case => $name,)*
                }
            }

            /// When a call answers it.
            pub fn when(self) -> &'static str {
                match self {
                    $(Refusal::$case => $when,)*
                }
            }
        }
    };
}

refusals! {
    Short = 1, "short", "room for fewer than 8 points or 6 cells; fewer answers than the used length, or corrections than 3 a point of room";
    Box = 2, "box", "a side is 0 or above 131,072";
    NoMesh = 3, "no mesh", "record and tables fail the mesh check",
        "The tables of a [`Mesh`](crate::Mesh) never do.";
    Outside = 4, "outside", "a position outside the box; in the sphere test, a coordinate above 131,072";
    Taken = 5, "taken", "a point is already there";
    PointsFull = 6, "points full", "there is no room for a further point; in a merge, more than 1,016 nodes are left";
    Unheld = 7, "unheld", "no cell holds the position",
        "Never answered: proved as `never_seven` in `crates/covering`. The number stays in the table.";
    CellsFull = 8, "cells full", "the old cells and the new ones together exceed the room for cells";
    Trailer = 9, "trailer", "a file under 20 bytes, or a wrong count or distance in its trailer";
    NoPlace = 10, "no place", "the output is shorter than what is to be written";
    FlatCell = 11, "flat cell", "a sphere test on a cell of volume 0 or less";
    OutOfRange = 12, "out of range",
        "a correction outside -1,000 to 1,000, handed in or standing in the table for a point of the mesh",
        "Those of a [`Mesh`](crate::Mesh) are in range: only one that is handed in can be refused.";
    NoPoint = 13, "no point", "a point number that is not in the mesh";
    OtherMarks = 14, "other marks", "the marks handed in are too few, or not those that a look would now give",
        "Of a [`Look`](crate::Look) that is out of date.";
    UnequalSides = 19, "unequal sides", "the boxes of two files to be merged differ in a side";
}

impl Refusal {
    /// The table's number.
    pub fn number(self) -> u8 {
        self as u8
    }

    /// The refusal of this number, if there is one.
    pub fn from_number(number: u8) -> Option<Refusal> {
        Refusal::ALL.into_iter().find(|r| r.number() == number)
    }
}

impl fmt::Display for Refusal {
    fn fmt(&self, f: &mut fmt::Formatter) -> fmt::Result {
        let (number, name, when) = (self.number(), self.name(), self.when());
        write!(f, "refused {number} ({name}): {when}")
    }
}

impl Error for Refusal {}

/// Where and why a list stopped. The nodes before the place went in.
#[derive(Clone, Copy, Debug, PartialEq, Eq)]
pub struct Stopped {
    /// The refused node's place in the list, from 0.
    pub place: usize,
    /// Why it was refused.
    pub refusal: Refusal,
}

impl fmt::Display for Stopped {
    fn fmt(&self, f: &mut fmt::Formatter) -> fmt::Result {
        write!(f, "stopped at place {}: {}", self.place, self.refusal)
    }
}

impl Error for Stopped {
    fn source(&self) -> Option<&(dyn Error + 'static)> {
        Some(&self.refusal)
    }
}

/// The number that a call answered, 0 for accepted.
pub(crate) fn accepted(number: u8) -> Result<(), Refusal> {
    match number {
        0 => Ok(()),
        // The archive's calls are proved to answer no number but the table's.
        number => Err(Refusal::from_number(number).expect("a number of the table")),
    }
}
