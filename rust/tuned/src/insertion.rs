//! The four insertion calls. A list checks the mesh once: an accepted insertion leaves a mesh.

use plain::{in_box, Answers, Inserted, Listed, Mesh, Position, Tables};

use crate::cavity::{Cavity, Corrected, Scratch};
use crate::check::used;
use crate::corrections::{are_in_range, in_cell, lent_refusal};
use crate::look::are_those_of;
use crate::star::write_star;

pub fn insert(mesh: Mesh, tables: &mut Tables, p: Position) -> Inserted {
    insert_one(mesh, tables, Answers::SphereTest, None, p)
}

pub fn insert_answers(mesh: Mesh, tables: &mut Tables, answers: &[u8], p: Position) -> Inserted {
    insert_one(mesh, tables, Answers::Given(answers), None, p)
}

/// "Goes through only if a look now would mark the same."
pub fn insert_marked(mesh: Mesh, tables: &mut Tables, marks: &[u8], p: Position) -> Inserted {
    insert_one(mesh, tables, Answers::SphereTest, Some(marks), p)
}

fn insert_one(
    mesh: Mesh,
    tables: &mut Tables,
    answers: Answers,
    marks: Option<&[u8]>,
    p: Position,
) -> Inserted {
    tables.work.fill(0);
    let answer_bytes = match answers {
        Answers::SphereTest => usize::MAX,
        Answers::Given(bytes) => bytes.len(),
    };
    let refusal = lent_refusal(mesh, tables, answer_bytes);
    if refusal != 0 {
        return Inserted::refused(refusal, mesh);
    }
    let mut scratch = Scratch::new(are_in_range(mesh, tables));
    let answer = insert_in_mesh(mesh, tables, &mut scratch, answers, marks, p);
    tables.work.fill(0);
    answer.unwrap_or_else(|refusal| Inserted::refused(refusal, mesh))
}

pub fn insert_list(mesh: Mesh, tables: &mut Tables, nodes: &[u32]) -> Listed {
    tables.work.fill(0);
    let refusal = lent_refusal(mesh, tables, usize::MAX);
    if refusal != 0 {
        return Listed {
            refusal,
            mesh,
            place: 0,
        };
    }
    let answer = insert_nodes(mesh, tables, nodes);
    tables.work.fill(0);
    answer
}

fn insert_nodes(mut mesh: Mesh, tables: &mut Tables, nodes: &[u32]) -> Listed {
    let mut scratch = Scratch::new(are_in_range(mesh, tables));
    let (nodes, _) = nodes.as_chunks();
    for (place, &p) in nodes.iter().enumerate() {
        match insert_in_mesh(mesh, tables, &mut scratch, Answers::SphereTest, None, p) {
            Ok(inserted) => mesh = inserted.mesh,
            Err(refusal) => {
                return Listed {
                    refusal,
                    mesh,
                    place: place as u32,
                }
            }
        }
    }
    Listed {
        refusal: 0,
        mesh,
        place: nodes.len() as u32,
    }
}

/// In tables that pass the mesh check. The states are 0 before, and after an accepted insertion again.
fn insert_in_mesh(
    mesh: Mesh,
    tables: &mut Tables,
    scratch: &mut Scratch,
    answers: Answers,
    marks: Option<&[u8]>,
    p: Position,
) -> Result<Inserted, u8> {
    let corrected = find(mesh, tables, scratch, answers, p)?;
    let entries = mesh.used as usize;
    if marks.is_some_and(|marks| !are_those_of(marks, entries, corrected.cells(tables))) {
        return Err(14);
    }
    let report = corrected.report(mesh);
    let (points, corners, _) = used(mesh, tables);
    let correction = in_cell(points, &corners[corrected.base], tables.corrections, p);
    tables.corrections.as_chunks_mut().0[mesh.points as usize] = correction;
    tables.points.as_chunks_mut().0[mesh.points as usize] = p;
    let mesh = write_star(mesh, tables, &mut scratch.first_new, &corrected);
    forget(tables, &corrected);
    Ok(report.with(mesh))
}

/// Tests 4, 5, 12, 6, 7 and 8, and the corrected cavity; nothing but the work area is written.
pub fn find(
    mesh: Mesh,
    tables: &mut Tables,
    scratch: &mut Scratch,
    answers: Answers,
    p: Position,
) -> Result<Corrected, u8> {
    if !in_box(mesh.sides(), p) {
        return Err(4);
    }
    let points = mesh.points as usize;
    scratch.codes.set(used(mesh, tables).0, p);
    if scratch.codes.is_taken(points) {
        return Err(5);
    }
    if !scratch.in_range {
        return Err(12);
    }
    if points == tables.point_capacity() {
        return Err(6);
    }
    let corrected = corrected_cavity(mesh, tables, scratch, answers, p);
    if corrected.before == 0 {
        return Err(7);
    }
    if mesh.cells as usize + corrected.made > tables.cell_capacity() {
        return Err(8);
    }
    Ok(corrected)
}

/// Base, growth and correction.
fn corrected_cavity(
    mesh: Mesh,
    tables: &mut Tables,
    scratch: &mut Scratch,
    answers: Answers,
    p: Position,
) -> Corrected {
    let capacity = tables.cell_capacity();
    let (states, rest) = tables.work.split_at_mut(capacity);
    let mut cavity = Cavity {
        points: &tables.points.as_chunks().0[..mesh.points as usize],
        corners: &tables.corners.as_chunks().0[..mesh.used as usize],
        neighbours: &tables.neighbours.as_chunks().0[..mesh.used as usize],
        states,
        list: &mut rest[..capacity],
        len: 0,
        back: capacity,
        least: f64::INFINITY,
    };
    cavity.add_base(&scratch.codes, answers, p);
    let base = cavity.list[0].into();
    cavity.grow(answers, p);
    let before = cavity.len;
    let made = cavity.correct(scratch);
    cavity.sort();
    Corrected {
        base,
        before,
        after: cavity.len,
        made,
        back: cavity.back,
        least: match answers {
            Answers::SphereTest => cavity.least,
            Answers::Given(_) => 0.0,
        },
    }
}

/// Clears the states, so that the next node of a list finds none.
fn forget(tables: &mut Tables, corrected: &Corrected) {
    let capacity = tables.cell_capacity();
    let (states, rest) = tables.work.split_at_mut(capacity);
    let list = &rest[..capacity];
    let no = &list[corrected.back..];
    for &c in list[..corrected.before].iter().chain(no) {
        states[c as usize] = 0;
    }
}
