//! Two surveys of one box in one node file.

use std::collections::HashSet;

use gantry::{Position, Refusal, NODE_LIMIT};

use super::{not_for_a_terminal, one_standard_input};
use crate::survey::Survey;
use crate::text::Reading;
use crate::words::Words;
use crate::{because, counted, grouped, is_corner, is_outside, spaced, Done, Failure};

pub fn merge(words: &Words) -> Result<Done, Failure> {
    let [first, second] = &words.plain[..] else {
        let files = counted(words.plain.len(), "FILE");
        return Err(Failure::Usage(format!("{files}, and two are wanted")));
    };
    not_for_a_terminal(words)?;
    one_standard_input([Some(first), Some(second)])?;
    // What repeats a node of its own text, or is a box corner, is left out in any case; so its line is told.
    let reading = Reading {
        sides: words.sides,
        leave_out: true,
    };
    let surveys = [
        Survey::read(first, reading)?,
        Survey::read(second, reading)?,
    ];
    let [first, second] = surveys.each_ref().map(Survey::node_file);
    let merged = gantry::merge(&first, &second);
    let output = merged.map_err(|refusal| refused(refusal, &surveys))?;
    let counts = Counts::of(&surveys);
    let of_survey = |survey: &Survey| [survey.notes.clone(), vec![survey.summary()]].concat();
    let mut notes = surveys.each_ref().map(of_survey).concat();
    notes.push(counts.summary());
    Ok(Done {
        output,
        notes,
        complaints: Vec::new(),
    })
}

/// What becomes of the nodes of two files.
struct Counts {
    left: usize,
    /// Each after the first at its position.
    repeated: usize,
    corners: usize,
    /// Lines of text, told before.
    left_out: usize,
}

impl Counts {
    fn of([first, second]: &[Survey; 2]) -> Counts {
        let sides = first.sides;
        let nodes = first.nodes.iter().chain(&second.nodes);
        let (corners, others): (Vec<Position>, Vec<Position>) =
            nodes.partition(|&&node| is_corner(sides, node));
        let left = others.iter().collect::<HashSet<_>>().len();
        Counts {
            left,
            repeated: others.len() - left,
            corners: corners.len(),
            left_out: first.left_out + second.left_out,
        }
    }

    fn summary(&self) -> String {
        let Counts {
            left,
            repeated,
            corners,
            left_out,
        } = self;
        let all = counted(left + repeated + corners, "node");
        let beside = match left_out {
            0 => String::new(),
            &lines => format!("; {} left out before", counted(lines, "line")),
        };
        format!(
            "{all} in two files: {left} left, {repeated} a second time, {corners} on box corners{beside}"
        )
    }
}

/// Which file or node it was, and why.
fn refused(refusal: Refusal, surveys: &[Survey; 2]) -> Failure {
    let [first, second] = surveys;
    let both = format!("{} and {}", first.name, second.name);
    let (who, why) = match refusal {
        Refusal::UnequalSides => {
            let boxes =
                [first, second].map(|survey| format!("{} in {}", survey.box_read(), survey.name));
            (both, boxes.join(", "))
        }
        Refusal::Outside => {
            let outside = surveys.iter().find_map(node_outside).unwrap_or(both);
            (outside, format!("the box is {}", spaced(first.sides)))
        }
        Refusal::PointsFull => {
            let [left, limit] = [Counts::of(surveys).left, NODE_LIMIT].map(grouped);
            let why = format!("{left} nodes are left, and {limit} is the most");
            (both, format!("{why}: use fewer, or divide the box"))
        }
        _ => (both, refusal.when().to_string()),
    };
    Failure::input(format!("{who}: {}", because(refusal, &why)))
}

fn node_outside(survey: &Survey) -> Option<String> {
    let mut nodes = survey.nodes.iter();
    let place = nodes.position(|&node| is_outside(survey.sides, node))?;
    Some(survey.node_at(place))
}
