//! Node files from text, and back.

use std::fmt::Write;

use super::{not_for_a_terminal, survey};
use crate::words::Words;
use crate::{spaced, Done, Failure};

pub fn nodes(words: &Words) -> Result<Done, Failure> {
    not_for_a_terminal(words)?;
    let survey = survey(words)?;
    let mut built = survey.build()?;
    if let Some(complaint) = survey.complaint(&built) {
        return Err(Failure::input(complaint));
    }
    let file = built.mesh.write_nodes();
    let output = file.map_err(|refusal| Failure::input(format!("{}: {refusal}", survey.name)))?;
    let summary = survey.summary();
    Ok(Done {
        output,
        notes: survey.notes.into_iter().chain([summary]).collect(),
        complaints: Vec::new(),
    })
}

pub fn text(words: &Words) -> Result<Done, Failure> {
    let survey = survey(words)?;
    let mut text = format!("{}\n", spaced(survey.sides));
    for &node in &survey.nodes {
        let _ = writeln!(text, "{}", spaced(node));
    }
    Ok(Done {
        notes: survey.notes,
        ..Done::of(text)
    })
}
