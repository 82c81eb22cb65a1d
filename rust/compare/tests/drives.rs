//! The random histories come to every situation in which builds of a drive are likely to part.

mod common;

use common::{each_step, listed_by, of_drive, Counts, OF_DRIVE};
use compare::call::{Call, Left};
use compare::generate::Step;
use plain::loaded::Loaded;
use plain::{in_box, Position, RightRules, CORRECTION_LIMIT};
use wrong::{HighWordsCompared, OneHalfSpaceDropped};

type Situations = Vec<(&'static str, bool)>;

/// Of ends in the box of a mesh, with so much room.
#[rustfmt::skip]
fn of_list(step: &Step, ends: [Position; 2], room: usize, outcome: u8) -> Situations {
    let mesh = Loaded::load(&RightRules, step.mesh, &step.tables.clone().lend());
    let [listed, dropped, high] = [
        listed_by(&RightRules, &mesh, ends),
        listed_by(&OneHalfSpaceDropped, &mesh, ends),
        listed_by(&HighWordsCompared, &mesh, ends),
    ];
    let count = listed.len();
    let large = listed.iter().any(|&c| mesh.volume(c) > 1 << 50);
    let is_wrong = |&number: &i32| !(-CORRECTION_LIMIT..=CORRECTION_LIMIT).contains(&number);
    vec![
        ("as many entries as cells", outcome == 0 && room == count),
        ("entries beyond", outcome == 0 && room > count),
        ("no entries", outcome == 10 && room == 0),
        ("one entry too few", outcome == 10 && room + 1 == count),
        ("fewer entries", outcome == 10 && room > 0 && room + 1 < count),
        ("more than 30 cells", outcome == 0 && count > 30),
        ("in more than 256 cells", outcome == 0 && mesh.cells().len() > 256),
        ("a number that takes more than a byte", outcome == 0 && listed[count - 1] > 256),
        ("a volume above 2^50", outcome == 0 && large),
        ("three half-spaces list more", dropped.len() > count),
        ("high words list others", high != listed),
        ("wrong corrections stand", outcome == 0 && step.tables.corrections.iter().take(24).any(is_wrong)),
    ]
}

#[rustfmt::skip]
fn of_refused(step: &Step, [a, b]: [Position; 2], room: usize, outcome: u8) -> Situations {
    let [is_a_in, is_b_in] = [a, b].map(|end| in_box(step.mesh.sides(), end));
    let is_outside = !is_a_in || !is_b_in;
    vec![
        ("the first end alone is outside", outcome == 4 && !is_a_in && is_b_in),
        ("the second end alone is outside", outcome == 4 && is_a_in && !is_b_in),
        ("outside, and no entries", outcome == 4 && room == 0),
        ("outside, in no mesh", outcome == 3 && is_outside),
        ("outside, refused 1", outcome == 1 && is_outside),
        ("no entries, refused 1", outcome == 1 && room == 0),
        ("no entries, refused 2", outcome == 2 && room == 0),
        ("no entries, refused 3", outcome == 3 && room == 0),
    ]
}

fn situations(step: &Step, left: &Left) -> Situations {
    let Call::DriveCells(ends, room) = step.call else {
        return vec![];
    };
    let outcome = left.answer.outcome();
    match outcome {
        0 | 10 => {
            let mesh = Loaded::load(&RightRules, step.mesh, &step.tables.clone().lend());
            let list = of_list(step, ends, room, outcome);
            [of_drive(&mesh, ends), list].concat()
        }
        _ => of_refused(step, ends, room, outcome),
    }
}

#[test]
fn every_situation_occurs() {
    let mut counts = Counts::default();
    each_step(1, 60_000, |step, left, _| {
        counts.add(situations(step, left))
    });
    counts.all_occur(OF_DRIVE + 12 + 8);
}
