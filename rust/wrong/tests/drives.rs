//! What each wrong build of "cells on a straight drive" lists.

mod common;

use common::Kit;
use plain::drive::on_drive;
use plain::loaded::Loaded;
use plain::{Position, RightRules, Rules};
use wrong::{
    EndsLeftOut, EnteringTakenForLeaving, FallingOrder, FreedEntriesListed, HighWordsCompared,
    OneHalfSpaceDropped, TouchingLeftOut,
};

type Ends = [Position; 2];

fn listed(kit: &mut Kit, rules: &dyn Rules, ends: Ends) -> Vec<usize> {
    let mesh = Loaded {
        rules,
        ..kit.loaded()
    };
    on_drive(&mesh, ends)
}

/// The right list, and that of a build.
fn both(kit: &mut Kit, rules: &dyn Rules, ends: Ends) -> [Vec<usize>; 2] {
    [listed(kit, &RightRules, ends), listed(kit, rules, ends)]
}

/// Through three cells of the started box.
const ACROSS: Ends = [[3, 0, 1], [3, 4, 1]];
/// Along an edge of the started box.
const ALONG: Ends = [[4, 0, 0], [4, 4, 0]];

#[test]
fn touching_left_out_loses_what_a_node_has() {
    let mut kit = Kit::measured(&[[2, 2, 2]]);
    let through = [[0, 2, 2], [4, 2, 2]];
    let [right, wrong] = both(&mut kit, &TouchingLeftOut, through);
    assert_eq!((right.len(), &wrong[..]), (12, &[6, 11, 13, 16][..]));
    // Where nothing is touched in one point it is right, and for a drive of length 0.
    let mut kit = Kit::started([4; 3]);
    for ends in [ACROSS, [[2; 3]; 2]] {
        let [right, wrong] = both(&mut kit, &TouchingLeftOut, ends);
        assert_eq!(right, wrong);
    }
}

#[test]
fn ends_left_out_loses_what_an_end_has() {
    let mut kit = Kit::started([4; 3]);
    let [right, wrong] = both(&mut kit, &EndsLeftOut, ALONG);
    assert_eq!((right, wrong), (vec![0, 1, 5], vec![0]));
    // A node on the way is no end.
    let mut kit = Kit::measured(&[[2, 2, 2]]);
    let [right, wrong] = both(&mut kit, &EndsLeftOut, [[0, 2, 2], [4, 2, 2]]);
    assert_eq!(right, wrong);
    let [right, wrong] = both(&mut kit, &EndsLeftOut, [[2, 2, 2], [4, 2, 2]]);
    assert!(wrong.len() < right.len());
}

/// A face of a cell of the started box that it does not look at is in a wall.
#[test]
fn one_half_space_dropped_lists_more() {
    let ends = [[1, 1, 2], [3, 3, 1]];
    let mut kit = Kit::started([4; 3]);
    let [right, wrong] = both(&mut kit, &OneHalfSpaceDropped, ends);
    assert_eq!(right, wrong);
    let mut kit = Kit::measured(&[[1, 2, 3], [3, 1, 1]]);
    let [right, wrong] = both(&mut kit, &OneHalfSpaceDropped, ends);
    assert_eq!((right, wrong), (vec![1, 2, 4, 19], vec![1, 2, 4, 19, 22]));
}

#[test]
fn entering_taken_for_leaving_lists_other_cells() {
    let mut kit = Kit::started([4; 3]);
    let [right, wrong] = both(&mut kit, &EnteringTakenForLeaving, ACROSS);
    assert_eq!((right, wrong), (vec![0, 1, 5], vec![3]));
    // A drive of length 0 enters and leaves nothing.
    let [right, wrong] = both(&mut kit, &EnteringTakenForLeaving, [[2; 3]; 2]);
    assert_eq!(right, wrong);
}

/// In a small box all high words are 0, and in a large one those of near parameters are equal.
#[test]
fn high_words_compared_lists_what_is_near() {
    let mut kit = Kit::started([4; 3]);
    let [right, wrong] = both(&mut kit, &HighWordsCompared, ACROSS);
    assert_eq!((right, wrong), (vec![0, 1, 5], vec![0, 1, 3, 5]));
    let node = [83_000, 111_000, 78_000];
    let mut kit = Kit::grown(&RightRules, [120_000; 3], &[node]);
    let ends = [[113_000, 96_000, 115_000], [16_000, 3_000, 98_000]];
    let [right, wrong] = both(&mut kit, &HighWordsCompared, ends);
    assert_eq!((right, wrong), (vec![14, 15], vec![13, 14, 15]));
}

#[test]
fn falling_order_has_the_same_cells() {
    let mut kit = Kit::started([4; 3]);
    let [right, mut wrong] = both(&mut kit, &FallingOrder, ACROSS);
    assert_eq!(wrong, [5, 1, 0]);
    wrong.reverse();
    assert_eq!(right, wrong);
}

#[test]
fn freed_entries_listed_has_them_on_every_drive() {
    let mut kit = Kit::measured(&[[1, 2, 3]]);
    let freed: Vec<usize> = (0..6).collect();
    for ends in [ACROSS, ALONG, [[2; 3]; 2]] {
        let [right, wrong] = both(&mut kit, &FreedEntriesListed, ends);
        assert_eq!(wrong, [freed.clone(), right].concat());
    }
}
