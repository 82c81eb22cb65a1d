//! The look, and its marks.

use plain::{Answers, Looked, Mesh, Position, Tables};

use crate::cavity::Scratch;
use crate::corrections::{are_in_range, lent_refusal};
use crate::insertion::find;

/// "A look answers the report and marks each cell of the corrected spot with byte 1, all other cells with 0."
pub fn look(mesh: Mesh, tables: &mut Tables, marks: &mut [u8], p: Position) -> Looked {
    tables.work.fill(0);
    let refusal = lent_refusal(mesh, tables, usize::MAX);
    if refusal != 0 {
        return Looked::refused(refusal);
    }
    let answer = look_in_mesh(mesh, tables, marks, p);
    tables.work.fill(0);
    answer.unwrap_or_else(Looked::refused)
}

fn look_in_mesh(
    mesh: Mesh,
    tables: &mut Tables,
    marks: &mut [u8],
    p: Position,
) -> Result<Looked, u8> {
    let mut scratch = Scratch::new(are_in_range(mesh, tables));
    let corrected = find(mesh, tables, &mut scratch, Answers::SphereTest, p)?;
    let marks = marks.get_mut(..mesh.used as usize).ok_or(10)?;
    marks.fill(0);
    for &c in corrected.cells(tables) {
        marks[c as usize] = 1;
    }
    Ok(corrected.report(mesh))
}

/// Would a look at this cavity, with so many entries used, write these marks? The cavity's are 1, and no more are nonzero.
pub fn are_those_of(marks: &[u8], used: usize, cavity: &[u16]) -> bool {
    marks.get(..used).is_some_and(|marks| {
        cavity.iter().all(|&c| marks[c as usize] == 1)
            && marks.iter().filter(|&&mark| mark != 0).count() == cavity.len()
    })
}
