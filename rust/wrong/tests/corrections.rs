//! What each wrong build of "corrections at the nodes" reads, sets, keeps or refuses.

mod common;

use common::Kit;
use plain::{Answers, Position, RightRules, Rules};
use wrong::{
    BoxCornersNotCleared, HalvesToEven, HalvesTowardZero, HalvesUp, NodeStartsAsItStands,
    NodeStartsAt0, OneEntryShort, RangeBeforeTaken, RangeBeforeThePoint, RangePastThePoints,
    SettingMends, VolumeOfAnotherCell,
};

/// Between point 0, which has 0, and point 1.
const MIDDLE: Position = [2, 0, 0];

/// What a build reads in the middle where point 1 has 1, 3, -1 and -3.
fn halves(rules: &dyn Rules) -> [i32; 4] {
    [1, 3, -1, -3].map(|number| {
        Kit::corrected(1, number)
            .correction(rules, MIDDLE)
            .expect("a correction")
    })
}

#[test]
fn halves_go_elsewhere() {
    assert_eq!(halves(&RightRules), [1, 2, -1, -2]);
    assert_eq!(halves(&HalvesTowardZero), [0, 1, 0, -1]);
    assert_eq!(halves(&HalvesUp), [1, 2, 0, -1]);
    assert_eq!(halves(&HalvesToEven), [0, 2, 0, -2]);
    // And only halves do.
    let mut kit = Kit::corrected(1, -5);
    let builds: [&dyn Rules; 4] = [&RightRules, &HalvesTowardZero, &HalvesUp, &HalvesToEven];
    for rules in builds {
        assert_eq!(kit.correction(rules, [1, 0, 0]), Ok(-1));
        assert_eq!(kit.correction(rules, [3, 0, 0]), Ok(-4));
    }
}

/// At a point its own correction is not read any more, and it may lie beyond all four.
#[test]
fn volume_of_another_cell_leaves_the_range_of_the_four() {
    let mut kit = Kit::measured(&[[1, 2, 3]]);
    for point in 0..9 {
        kit.set(&RightRules, point, [100; 3]);
    }
    let read = |kit: &mut Kit, rules: &dyn Rules| {
        let points = kit.loaded().points;
        points
            .iter()
            .map(|&p| kit.correction(rules, p).expect("a correction"))
            .collect::<Vec<_>>()
    };
    assert!(read(&mut kit, &RightRules).iter().all(|&n| n == 100));
    let wrong = read(&mut kit, &VolumeOfAnotherCell);
    assert!(wrong.iter().any(|&n| n != 100), "{wrong:?}");
}

/// The position of a node has another correction after it went in than before.
#[test]
fn a_new_node_moves_its_position() {
    for (rules, after) in [
        (&RightRules as &dyn Rules, Ok(500)),
        (&NodeStartsAt0, Ok(0)),
        (&NodeStartsAsItStands, Ok(77)),
    ] {
        let mut kit = Kit::corrected(1, 1_000);
        kit.tables.corrections[24..27].fill(77);
        assert_eq!(kit.correction(rules, MIDDLE), Ok(500));
        kit.insert(rules, Answers::SphereTest, MIDDLE);
        assert_eq!(kit.correction(rules, MIDDLE), after);
    }
    // What stands there may be any number: then every later call is refused.
    let mut kit = Kit::started([4; 3]);
    kit.tables.corrections[24..27].fill(i32::MIN);
    kit.insert(&NodeStartsAsItStands, Answers::SphereTest, MIDDLE);
    assert_eq!(kit.correction(&RightRules, MIDDLE), Err(12));
}

/// The started box with a number out of range at an entry.
fn out_of_range(place: usize) -> Kit {
    let mut kit = Kit::started([4; 3]);
    kit.tables.corrections[place] = 1_001;
    kit
}

#[test]
fn refusals_in_another_order() {
    let insert = |rules: &dyn Rules, p: Position| {
        let mut kit = out_of_range(0);
        let mut tables = kit.tables.lend();
        plain::insert_with(rules, kit.mesh, &mut tables, Answers::SphereTest, p).refusal
    };
    assert_eq!(insert(&RightRules, [4; 3]), 5);
    assert_eq!(insert(&RangeBeforeTaken, [4; 3]), 12);
    assert_eq!(insert(&RangeBeforeTaken, [1, 2, 3]), 12);
    assert_eq!(insert(&RangeBeforeTaken, [5; 3]), 4);
    let set = |rules: &dyn Rules, number| Kit::started([4; 3]).set(rules, 8, [number; 3]);
    assert_eq!(set(&RightRules, 1_001), 13);
    assert_eq!(set(&RangeBeforeThePoint, 1_001), 12);
    assert_eq!(set(&RangeBeforeThePoint, 1_000), 13);
    assert_eq!(out_of_range(0).set(&RightRules, 8, [0; 3]), 13);
    assert_eq!(out_of_range(0).set(&RangeBeforeThePoint, 8, [0; 3]), 12);
}

/// A table that was lent before is of no use for another mesh.
#[test]
fn range_past_the_points_refuses_what_no_point_has() {
    for place in [24, 119] {
        let mut kit = out_of_range(place);
        assert_eq!(kit.correction(&RightRules, MIDDLE), Ok(0));
        assert_eq!(kit.correction(&RangePastThePoints, MIDDLE), Err(12));
    }
    assert_eq!(out_of_range(23).correction(&RightRules, MIDDLE), Err(12));
}

#[test]
fn setting_mends_a_wrong_table() {
    let mut kit = out_of_range(0);
    assert_eq!(kit.set(&RightRules, 0, [0; 3]), 12);
    assert_eq!(kit.set(&SettingMends, 1, [1_001; 3]), 12);
    assert_eq!(kit.set(&SettingMends, 0, [0; 3]), 0);
    assert_eq!(kit.correction(&RightRules, MIDDLE), Ok(0));
}

/// The box begins with what an earlier mesh had.
#[test]
fn box_corners_not_cleared_keeps_an_earlier_mesh_s() {
    let start = |rules: &dyn Rules| {
        let mut kit = Kit::corrected(1, 1_000);
        plain::start_with(rules, [8; 3], &mut kit.tables.lend());
        kit.tables.corrections[3]
    };
    assert_eq!(start(&RightRules), 0);
    assert_eq!(start(&BoxCornersNotCleared), 1_000);
}

/// The last point's last number has no entry.
#[test]
fn one_entry_short_loses_a_number() {
    let start = |rules: &dyn Rules, short: usize| {
        let mut tables = Kit::started([4; 3]).tables;
        tables.corrections.truncate(120 - short);
        plain::start_with(rules, [4; 3], &mut tables.lend()).refusal
    };
    assert_eq!([0, 1].map(|short| start(&RightRules, short)), [0, 1]);
    assert_eq!([1, 2].map(|short| start(&OneEntryShort, short)), [0, 1]);
}
