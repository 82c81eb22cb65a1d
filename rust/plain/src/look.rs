//! "Look first, then insert": the look. The insertion with its marks is among the insertions.

use crate::calls::{Looked, Mesh, Position, Tables};
use crate::cavity::Answers;
use crate::corrections::lent_refusal;
use crate::found::find;
use crate::loaded::Loaded;
use crate::rules::{RightRules, Rules};

/// "A look answers the report and marks each cell of the corrected spot with byte 1, all other cells with 0."
pub fn look(mesh: Mesh, tables: &mut Tables, marks: &mut [u8], p: Position) -> Looked {
    look_with(&RightRules, mesh, tables, marks, p)
}

pub fn look_with(
    rules: &dyn Rules,
    mesh: Mesh,
    tables: &mut Tables,
    marks: &mut [u8],
    p: Position,
) -> Looked {
    let answer = match lent_refusal(rules, mesh, tables, usize::MAX) {
        0 => look_in_mesh(rules, mesh, tables, marks, p),
        refusal => Err(refusal),
    };
    tables.work.fill(0);
    answer.unwrap_or_else(Looked::refused)
}

/// "Refused where the insertion would be", and with 10 if the marks have fewer bytes than the used length.
fn look_in_mesh(
    rules: &dyn Rules,
    mesh: Mesh,
    tables: &Tables,
    marks: &mut [u8],
    p: Position,
) -> Result<Looked, u8> {
    let loaded = Loaded::load(rules, mesh, tables);
    let found = find(&loaded, tables, Answers::SphereTest, p)?;
    if found.is_too_large(tables) {
        return Err(8);
    }
    let replaced = found.replaced();
    if marks.len() < replaced.len() {
        return Err(10);
    }
    rules.write_marks(&loaded, &replaced, marks);
    Ok(found.report())
}
