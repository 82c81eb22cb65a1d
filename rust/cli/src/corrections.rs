//! Corrections from text: a line `point dx dy dz` for each point that has one, by the numbers of a listing or picture. Numbers
//! stand as in a text of nodes; headings above the first line of numbers, blank lines and comments are passed over.

use std::collections::HashMap;

use gantry::{Correction, Mesh, Refusal, CORRECTION_LIMIT};

use crate::fields::{is_of_heading, split, without_comment};
use crate::input::Source;
use crate::text::lines;
use crate::{because, grouped, shown, Failure};

/// Gives the points of the mesh their corrections; the first fault ends it.
pub fn set(mesh: &mut Mesh, source: &Source) -> Result<(), Failure> {
    let mut line_of = HashMap::new();
    for (line, text) in (1..).zip(lines(&source.bytes)) {
        let fields = split(without_comment(&text));
        if line_of.is_empty() && fields.iter().all(|field| is_of_heading(field)) {
            continue;
        }
        let at = |fault: String| source.failure(&format!("line {line}: {fault}"));
        let Some((point, numbers)) = row(&fields).map_err(at)? else {
            continue;
        };
        if let Some(earlier) = line_of.insert(point, line) {
            return Err(at(format!("point {point} stands in line {earlier} too")));
        }
        mesh.set_correction(point, numbers)
            .map_err(|refusal| at(refused(mesh, point, refusal)))?;
    }
    match line_of.is_empty() {
        true => Err(source.failure("no line of numbers: a correction is point dx dy dz")),
        false => Ok(()),
    }
}

/// Nothing for a line without fields.
fn row(fields: &[String]) -> Result<Option<(usize, Correction)>, String> {
    match fields {
        [] => Ok(None),
        [point, x, y, z] => Ok(Some((number(point)?, [number(x)?, number(y)?, number(z)?]))),
        _ => {
            let count = fields.len();
            Err(format!(
                "{count} columns, and a correction has four, point dx dy dz"
            ))
        }
    }
}

fn number<T: std::str::FromStr>(field: &str) -> Result<T, String> {
    // Spreadsheets may write a minus sign.
    let number = field.replace('−', "-").parse();
    number.map_err(|_| format!("{} is not a whole number that can stand here", shown(field)))
}

fn refused(mesh: &Mesh, point: usize, refusal: Refusal) -> String {
    let why = match refusal {
        Refusal::NoPoint => format!("the points are 0 to {}", mesh.points().len() - 1),
        _ => {
            let limit = grouped(CORRECTION_LIMIT as usize);
            format!("corrections are from -{limit} to {limit}")
        }
    };
    format!("point {point}: {}", because(refusal, &why))
}
