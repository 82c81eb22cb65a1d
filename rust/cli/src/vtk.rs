//! A grid as a legacy ASCII VTK unstructured grid.

use std::fmt::{Display, Write};

use gantry::Look;

use crate::grid::Grid;
use crate::spaced;

/// VTK's number for a tetrahedron; its fourth point lies on the side that makes the six-fold volume positive.
const TETRAHEDRON: u32 = 10;

/// The second line is a title of at most 255 characters.
const TITLE_LIMIT: usize = 255;

impl Grid {
    /// With a look, the cells that its node would replace have a scalar of their own.
    pub fn to_vtk(&self, title: &str, look: Option<&Look>) -> String {
        let (points, cells) = (self.points.len(), self.cells.len());
        let title: String = title
            .chars()
            .filter(|c| !c.is_control())
            .take(TITLE_LIMIT)
            .collect();
        let mut text =
            format!("# vtk DataFile Version 3.0\n{title}\nASCII\nDATASET UNSTRUCTURED_GRID\n");
        let positions = self.points.iter().map(|&p| spaced(p));
        section(&mut text, &format!("POINTS {points} double"), positions);
        let corners = self.cells.iter().map(|cell| {
            let [a, b, c, d] = cell.corners;
            format!("4 {a} {b} {c} {d}")
        });
        section(&mut text, &format!("CELLS {cells} {}", 5 * cells), corners);
        section(
            &mut text,
            &format!("CELL_TYPES {cells}"),
            self.cells.iter().map(|_| TETRAHEDRON),
        );
        let _ = writeln!(text, "CELL_DATA {cells}");
        let numbers = self.cells.iter().map(|cell| cell.number);
        scalars(&mut text, "cell int", numbers.clone());
        // As doubles, which hold six-fold volumes exactly; VTK's long is not the same everywhere.
        let volumes = || self.cells.iter().map(|cell| self.volume6(cell, None));
        scalars(&mut text, "volume6 double", volumes());
        scalars(
            &mut text,
            "volume double",
            volumes().map(|volume| volume as f64 / 6.0),
        );
        if let Some(look) = look {
            let replaced = numbers.map(|number| u8::from(look.replaces(number)));
            scalars(&mut text, "replaced int", replaced);
        }
        let _ = writeln!(text, "POINT_DATA {points}");
        scalars(&mut text, "point int", 0..points);
        text
    }
}

fn section<L: Display>(text: &mut String, head: &str, lines: impl Iterator<Item = L>) {
    let _ = writeln!(text, "{head}");
    for line in lines {
        let _ = writeln!(text, "{line}");
    }
}

fn scalars<L: Display>(text: &mut String, name: &str, lines: impl Iterator<Item = L>) {
    section(
        text,
        &format!("SCALARS {name} 1\nLOOKUP_TABLE default"),
        lines,
    );
}
