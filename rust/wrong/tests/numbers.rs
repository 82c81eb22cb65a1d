//! What each wrong build of "cell numbers that stay" does to numbers, the chain, answers and marks, and which tables pass its
//! mesh check.

mod common;

use common::Kit;
use plain::packed::Packed;
use plain::{Answers, Inserted, Position, RightRules, Rules, NONE};
use wrong::{
    AnswersByTheCount, ChainFromItsEnd, CirclePasses, CountAny, FreedAnswerCounted,
    FreedEntriesHold, FreedFalling, FreedFirst, FreedMarkIgnored, FreedNeighboursAny,
    FreedUnmarked, MarksByTheCount, MissedFreedPasses, NeighboursByTheCount, OneCornerFrees,
    OneLeftOff, UsedNotRaised, UsedRaisedToTheCount,
};

/// The box 4, 4, 4 with a node put in by a build's sphere test: by the right one cells 6 to 17, and the chain 5, 4, 3, 2, 1, 0.
fn one_node(rules: &dyn Rules) -> Kit {
    Kit::grown(rules, [4; 3], &[[1, 2, 3]])
}

/// What was kept of a cell by its number is another cell's.
#[test]
fn packed_changes_the_numbers_of_cells_that_stay() {
    let numbers = |rules: &dyn Rules| {
        let mut kit = Kit::started([4; 3]);
        let corners = kit.tables.corners[20..24].to_vec();
        kit.insert(rules, Answers::Given(&[0; 6]), [4, 1, 0]);
        assert!(kit.is_mesh());
        let entries = kit.tables.corners.chunks_exact(4);
        entries.take(8).position(|cell| cell == corners)
    };
    assert_eq!(numbers(&RightRules), Some(5));
    assert_eq!(numbers(&Packed), Some(4));
}

/// The second node splits the two cells that hold it.
fn two_nodes(rules: &dyn Rules) -> Kit {
    let mut kit = one_node(rules);
    kit.insert(rules, Answers::Given(&[0; 18]), [2, 2, 2]);
    assert!(kit.is_mesh());
    kit
}

/// The number of the first of the new cells, and where the chain then begins.
#[test]
fn new_cells_have_other_numbers() {
    for (rules, number, chain) in [
        (&RightRules as &dyn Rules, 5, 7),
        (&ChainFromItsEnd, 0, 7),
        (&FreedFalling, 0, 6),
    ] {
        let kit = two_nodes(rules);
        assert_eq!(kit.tables.corners[4 * number..4 * number + 4], [9, 1, 3, 7]);
        assert_eq!((kit.mesh.chain, kit.mesh.used), (chain, 18));
    }
}

/// What was kept of a cell that went is at once a new one's.
#[test]
fn freed_first_gives_the_numbers_of_cells_that_go() {
    let kit = two_nodes(&FreedFirst);
    assert_eq!((kit.mesh.chain, kit.mesh.used), (NONE.into(), 16));
    assert_eq!(one_node(&FreedFirst).tables.corners[..4], [0, 2, 6, 8]);
    assert_eq!(one_node(&RightRules).tables.corners[..4], [NONE; 4]);
}

/// The next call is refused, though the last one was accepted.
#[test]
fn what_is_left_is_no_mesh() {
    assert!(one_node(&RightRules).is_mesh());
    let builds: [&dyn Rules; 3] = [&OneLeftOff, &UsedNotRaised, &UsedRaisedToTheCount];
    for rules in builds {
        assert!(!one_node(rules).is_mesh());
    }
    // Entries 0 to 5 are freed, and go in a second time.
    let mut kit = one_node(&RightRules);
    let answer = kit.insert(&FreedEntriesHold, Answers::Given(&[0; 18]), [2, 2, 2]);
    assert_eq!((answer.before, answer.after), (8, 8));
    assert!(!kit.is_mesh());
}

/// (2, 2, 2) by these answers, after one node.
fn answered(rules: &dyn Rules, answers: &[u8]) -> Inserted {
    let mut kit = one_node(&RightRules);
    let (mut tables, given) = (kit.tables.lend(), Answers::Given(answers));
    plain::insert_with(rules, kit.mesh, &mut tables, given, [2, 2, 2])
}

#[test]
fn freed_answer_counted_reports_another_cavity() {
    let mut answers = [0; 18];
    answers[2] = 1;
    assert_eq!(answered(&RightRules, &answers).before, 2);
    let wrong = answered(&FreedAnswerCounted, &answers);
    assert_eq!((wrong.before, wrong.after), (3, 2));
}

/// The last cells have no answers, and are taken for no.
#[test]
fn answers_by_the_count_takes_too_few() {
    let answers = [1; 17];
    assert_eq!(answered(&RightRules, &answers[..12]).refusal, 1);
    let wrong = answered(&AnswersByTheCount, &answers[..12]);
    assert_eq!((wrong.refusal, wrong.before), (0, 6));
    assert_eq!(answered(&AnswersByTheCount, &answers[..11]).refusal, 1);
}

const NODE: Position = [2, 2, 2];

/// A look at a node after one, with so many marks, all 9 before.
fn looked(rules: &dyn Rules, count: usize) -> (u8, Vec<u8>) {
    let (mut kit, mut marks) = (one_node(&RightRules), vec![9; count]);
    let mut tables = kit.tables.lend();
    let looked = plain::look_with(rules, kit.mesh, &mut tables, &mut marks, NODE);
    (looked.refusal, marks)
}

/// The insertion with marks.
fn marked(rules: &dyn Rules, marks: &[u8]) -> u8 {
    let mut kit = one_node(&RightRules);
    plain::insert_marked_with(rules, kit.mesh, &mut kit.tables.lend(), marks, NODE).refusal
}

/// Cells 15, 16 and 17 go, and have no marks.
#[test]
fn marks_by_the_count_leaves_out_cells_that_go() {
    let (_, right) = looked(&RightRules, 18);
    assert_eq!(
        right,
        [0, 0, 0, 0, 0, 0, 1, 1, 1, 1, 1, 0, 0, 0, 0, 1, 1, 1]
    );
    assert_eq!(looked(&RightRules, 12).0, 10);
    assert_eq!(looked(&MarksByTheCount, 12), (0, right[..12].to_vec()));
    assert_eq!(marked(&RightRules, &right[..12]), 14);
    assert_eq!(marked(&MarksByTheCount, &right[..12]), 0);
}

/// Marks that the look itself left do not go through.
#[test]
fn freed_unmarked_leaves_marks_that_no_look_gives() {
    let (_, marks) = looked(&FreedUnmarked, 18);
    assert_eq!(marks[..6], [9; 6]);
    assert_eq!(marked(&FreedUnmarked, &marks), 14);
}

#[test]
fn freed_mark_ignored_takes_marks_that_no_look_gives() {
    let (_, mut marks) = looked(&RightRules, 18);
    marks[3] = 1;
    assert_eq!(marked(&RightRules, &marks), 14);
    assert_eq!(marked(&FreedMarkIgnored, &marks), 0);
}

type Change = fn(&mut Kit);

/// Whether the right mesh check and a wrong one pass what is done to a mesh of one node.
fn pass(rules: &dyn Rules, change: Change) -> [bool; 2] {
    let mut kit = one_node(&RightRules);
    change(&mut kit);
    [&RightRules, rules].map(|rules| plain::check_with(rules, kit.mesh, &mut kit.tables.lend()))
}

#[test]
fn neighbours_by_the_count_refuses_a_mesh() {
    assert_eq!(pass(&NeighboursByTheCount, |_| {}), [true, false]);
}

/// Each passes tables that are no mesh.
#[test]
fn mesh_checks_that_leave_something_out() {
    let cases: [(&dyn Rules, Change); 7] = [
        (&CirclePasses, |kit| kit.tables.neighbours[0] = 5),
        (&CirclePasses, |kit| kit.tables.neighbours[0] = 6),
        (&MissedFreedPasses, |kit| kit.mesh.chain = 4),
        (&MissedFreedPasses, |kit| kit.mesh.chain = NONE.into()),
        (&OneCornerFrees, |kit| kit.tables.corners[4 * 3 + 1] = 0),
        (&FreedNeighboursAny, |kit| {
            kit.tables.neighbours[4 * 3 + 2] = 6
        }),
        (&CountAny, |kit| kit.mesh.cells = 18),
    ];
    for (rules, change) in cases {
        assert_eq!(pass(rules, |_| {}), [true, true]);
        assert_eq!(pass(rules, change), [false, true]);
    }
}
