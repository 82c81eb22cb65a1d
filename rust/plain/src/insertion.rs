//! The four insertion calls.

use crate::calls::{Inserted, Listed, Mesh, Position, Tables};
pub use crate::cavity::Answers;
use crate::corrections::{self, lent_refusal};
use crate::found::{find, Found};
use crate::loaded::Loaded;
use crate::rules::{RightRules, Rules};

pub fn insert(mesh: Mesh, tables: &mut Tables, p: Position) -> Inserted {
    insert_with(&RightRules, mesh, tables, Answers::SphereTest, p)
}

pub fn insert_answers(mesh: Mesh, tables: &mut Tables, answers: &[u8], p: Position) -> Inserted {
    insert_with(&RightRules, mesh, tables, Answers::Given(answers), p)
}

/// "The insertion proper takes the node and those marks, and goes through only if a look now would mark the same."
pub fn insert_marked(mesh: Mesh, tables: &mut Tables, marks: &[u8], p: Position) -> Inserted {
    insert_marked_with(&RightRules, mesh, tables, marks, p)
}

pub fn insert_list(mesh: Mesh, tables: &mut Tables, nodes: &[u32]) -> Listed {
    insert_list_with(&RightRules, mesh, tables, nodes)
}

/// One insertion, by the right rules or wrong ones.
pub fn insert_with(
    rules: &dyn Rules,
    mesh: Mesh,
    tables: &mut Tables,
    answers: Answers,
    p: Position,
) -> Inserted {
    insert_one(rules, mesh, tables, answers, None, p)
}

pub fn insert_marked_with(
    rules: &dyn Rules,
    mesh: Mesh,
    tables: &mut Tables,
    marks: &[u8],
    p: Position,
) -> Inserted {
    insert_one(rules, mesh, tables, Answers::SphereTest, Some(marks), p)
}

fn insert_one(
    rules: &dyn Rules,
    mesh: Mesh,
    tables: &mut Tables,
    answers: Answers,
    marks: Option<&[u8]>,
    p: Position,
) -> Inserted {
    let answer_bytes = match answers {
        Answers::SphereTest => usize::MAX,
        Answers::Given(bytes) => bytes.len(),
    };
    let answer = match lent_refusal(rules, mesh, tables, answer_bytes) {
        0 => insert_in_mesh(rules, mesh, tables, answers, marks, p),
        refusal => Err(refusal),
    };
    tables.work.fill(0);
    answer.unwrap_or_else(|refusal| Inserted::refused(refusal, mesh))
}

pub fn insert_list_with(
    rules: &dyn Rules,
    mesh: Mesh,
    tables: &mut Tables,
    nodes: &[u32],
) -> Listed {
    let answer = match lent_refusal(rules, mesh, tables, usize::MAX) {
        0 => insert_nodes(rules, mesh, tables, nodes),
        refusal => Listed {
            refusal,
            mesh,
            place: 0,
        },
    };
    tables.work.fill(0);
    answer
}

/// "One or two numbers after the last whole node are not read."
fn insert_nodes(rules: &dyn Rules, mut mesh: Mesh, tables: &mut Tables, nodes: &[u32]) -> Listed {
    let mut place = 0;
    for node in nodes.chunks_exact(3) {
        let p = [node[0], node[1], node[2]];
        match insert_in_mesh(rules, mesh, tables, Answers::SphereTest, None, p) {
            Ok(inserted) => mesh = inserted.mesh,
            Err(refusal) => {
                return Listed {
                    refusal,
                    mesh,
                    place,
                }
            }
        }
        place += 1;
    }
    Listed {
        refusal: 0,
        mesh,
        place,
    }
}

/// In tables that pass the mesh check.
fn insert_in_mesh(
    rules: &dyn Rules,
    mesh: Mesh,
    tables: &mut Tables,
    answers: Answers,
    marks: Option<&[u8]>,
    p: Position,
) -> Result<Inserted, u8> {
    let loaded = Loaded::load(rules, mesh, tables);
    let found = find(&loaded, tables, answers, p)?;
    let are_other = marks.is_some_and(|marks| are_other(&found, marks));
    match rules.last_refusal(found.is_too_large(tables), are_other) {
        0 => {
            start_correction(tables, &found);
            Ok(put_in(mesh, tables, &found))
        }
        refusal => Err(refusal),
    }
}

/// The correction of the new node, by the cells before it goes in.
fn start_correction(tables: &mut Tables, found: &Found) {
    let (mesh, point) = (found.cavity.mesh, found.point().into());
    let before = corrections::of_position(mesh, tables, found.cavity.p).unwrap_or_default();
    let standing = corrections::of_point(tables, point);
    corrections::put(tables, point, mesh.rules.node_starts(before, standing));
}

/// "If the marks differ or are too few."
fn are_other(found: &Found, marks: &[u8]) -> bool {
    let replaced = found.replaced();
    let mesh = found.cavity.mesh;
    let is_same = |c: usize| {
        mesh.rules
            .is_same_mark(marks[c], replaced[c], mesh.is_freed(c))
    };
    marks.len() < replaced.len() || !(0..replaced.len()).all(is_same)
}

/// The node and its star in the tables, and the answer.
fn put_in(mesh: Mesh, tables: &mut Tables, found: &Found) -> Inserted {
    let place = 3 * mesh.points as usize;
    tables.points[place..place + 3].copy_from_slice(&found.cavity.p);
    let mesh = Mesh {
        points: mesh.points + 1,
        ..mesh
    };
    let rules = found.cavity.mesh.rules;
    found.report().with(rules.put_in(mesh, tables, found))
}
