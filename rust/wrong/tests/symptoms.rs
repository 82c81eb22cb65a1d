//! What each wrong build does to a mesh, a located position, a merged file or the marks of a look: for the five known ones,
//! the symptom that document 01 names. Those of the numbers of cells are in `numbers.rs`.

mod common;

use common::Kit;
use plain::geometry::float_sum;
use plain::nodefile::encode;
use plain::random::Random;
use plain::{Answers, Position, RightRules, Rules};
use wrong::{
    AcrossFilesOnly, AnyNonzeroMark, BaseRemoved, CloseOutside, CoplanarKeeps, CoplanarStarred,
    CornersUnsorted, FarSideLeftOut, FloatSign, GreatestFirst, LastInOrder, LostCornersOnly,
    LowestNumbered, MarksBeforeCorrection, MarksClearedPastTheUsed, MarksFirst, MarksOfTheBase,
    OneAtATime, OneRound, SecondFirst, TieInside, VisibilityOnly, ZeroVisible,
};

/// What a wrong build leaves; the right one leaves a mesh.
fn wrongly(rules: &dyn Rules, nodes: &[Position]) -> Kit {
    assert!(Kit::with(&RightRules, nodes).is_mesh());
    Kit::with(rules, nodes)
}

const HIDDEN_BEHIND: &[Position] = &[[1, 0, 0], [4, 1, 0], [2, 0, 0]];

#[test]
fn zero_visible_makes_flat_cells() {
    let mut kit = wrongly(&ZeroVisible, &[[1, 0, 0], [2, 4, 0], [2, 0, 0]]);
    assert!(kit.volumes().contains(&0));
    assert!(!kit.is_mesh());
}

#[test]
fn coplanar_starred_makes_cells_of_volume_0() {
    let mut kit = wrongly(&CoplanarStarred, &[[2, 2, 0]]);
    // Two wall faces pass through P.
    let flat = kit.volumes().into_iter().filter(|&v| v == 0);
    assert_eq!(flat.count(), 2);
    assert!(!kit.is_mesh());
}

#[test]
fn base_removed_leaves_the_node_in_no_cell() {
    let mut kit = wrongly(&BaseRemoved, &[[1, 2, 3], [2, 2, 2]]);
    assert_eq!(kit.mesh.points, 10);
    assert!(!kit.has_corner(9));
    assert!(!kit.is_mesh());
}

#[test]
fn visibility_only_loses_an_old_node() {
    let mut kit = wrongly(&VisibilityOnly, &[[4, 1, 0], [4, 2, 0]]);
    assert!(!kit.has_corner(8));
    assert!(kit.volumes().iter().all(|&v| v > 0));
    assert_eq!(kit.volumes().iter().sum::<i128>(), 384);
    assert!(!kit.is_mesh());
}

/// Three of the started cells, each twice, each mated with its double.
fn folded_pairs() -> Kit {
    let mut kit = Kit::started([4; 3]);
    let cells: [[u16; 4]; 3] = [[0, 1, 3, 7], [0, 2, 6, 7], [0, 4, 5, 7]];
    for (k, cell) in cells.iter().enumerate() {
        for (c, double) in [(2 * k, 2 * k + 1), (2 * k + 1, 2 * k)] {
            kit.tables.corners[4 * c..4 * c + 4].copy_from_slice(cell);
            kit.tables.neighbours[4 * c..4 * c + 4].fill(double as u16);
        }
    }
    kit
}

#[test]
fn far_side_left_out_passes_folded_pairs() {
    let mut kit = folded_pairs();
    assert_eq!(kit.volumes(), [64; 6]);
    assert!(!kit.is_mesh());
    assert!(plain::check_with(
        &FarSideLeftOut,
        kit.mesh,
        &mut kit.tables.lend()
    ));
    // Nor is every position held any more.
    let p = [2, 3, 1];
    let located = |rules| plain::locate_with(rules, kit.mesh, &mut kit.tables.clone().lend(), p);
    assert_eq!(located(&FarSideLeftOut).refusal, 7);
    assert_eq!(located(&RightRules).refusal, 3);
}

#[test]
fn lost_corners_only_lets_cells_overlap() {
    let mut kit = wrongly(&LostCornersOnly, HIDDEN_BEHIND);
    assert!(kit.volumes().iter().all(|&v| v > 0));
    assert_eq!(kit.volumes().iter().sum::<i128>(), 408);
}

#[test]
fn coplanar_keeps_loses_an_old_node() {
    let mut kit = wrongly(&CoplanarKeeps, &[[4, 1, 0], [4, 3, 0]]);
    assert!(!kit.has_corner(8));
    assert!(!kit.is_mesh());
}

#[test]
fn one_round_lets_cells_overlap() {
    let mut kit = wrongly(&OneRound, HIDDEN_BEHIND);
    assert!(kit.volumes().iter().all(|&v| v > 0));
    assert_eq!(kit.volumes().iter().sum::<i128>(), 408);
}

#[test]
fn one_at_a_time_makes_another_mesh() {
    let nodes = [[4, 2, 0], [4, 1, 0]];
    let mut kit = wrongly(&OneAtATime, &nodes);
    assert!(kit.is_mesh());
    assert_ne!(kit, Kit::with(&RightRules, &nodes));
}

/// Where a build locates a head that is parked in the face of points 1, 5 and 8, the middle of the box, before and after a
/// node goes in at the middle of a wall.
fn parked(rules: &dyn Rules, wall: Position) -> [(u32, [u16; 4]); 2] {
    let before = Kit::measured(&[[2, 2, 2]]);
    let after = Kit::measured(&[[2, 2, 2], wall]);
    [before, after].map(|mut kit| kit.located(rules, [3, 1, 2]))
}

/// README's example. The node takes the place of the cell with the corners 1, 5, 7 and 8.
#[test]
fn readmes_head_by_either_rule() {
    let [right, wrong] =
        [&RightRules as &dyn Rules, &LowestNumbered].map(|rules| parked(rules, [4, 2, 2]));
    assert_eq!(right, [(17, [0, 1, 5, 8]), (17, [0, 1, 5, 8])]);
    assert_eq!(wrong, [(16, [1, 5, 7, 8]), (2, [1, 5, 8, 9])]);
    let readme = include_str!("../../../README.md");
    for (rule, located) in [("the corners", right), ("the lowest number", wrong)] {
        let [before, after] =
            located.map(|(cell, [a, b, c, d])| format!("cell {cell}, corners {a} {b} {c} {d}"));
        let row = format!("\n| {rule} | {before} | {after} |\n");
        assert!(readme.contains(&row), "{row}");
    }
}

/// The node takes the place of the other cell; a new one has the face then, and comes last.
#[test]
fn last_in_order_moves_a_head_whose_cell_stays() {
    let [before, after] = parked(&LastInOrder, [2, 0, 2]);
    assert_eq!((before.1, after.1), ([1, 5, 7, 8], [1, 5, 8, 9]));
    // The cell is still there: by the right rule it is even located now.
    let [_, right] = parked(&RightRules, [2, 0, 2]);
    assert_eq!(right.1, before.1);
}

#[test]
fn lowest_numbered_and_corners_unsorted_go_by_the_tables() {
    let kit = Kit::started([4; 3]);
    let (swapped, turned) = (kit.swapped(4, 5), kit.turned(5));
    // In the face that cells 4 and 5 share.
    let corners = |rules: &dyn Rules, kit: &Kit| kit.clone().located(rules, [2, 1, 2]).1;
    for kit in [&kit, &swapped, &turned] {
        assert!(kit.clone().is_mesh());
        assert_eq!(corners(&RightRules, kit), [0, 1, 5, 7]);
    }
    let builds: [(&dyn Rules, &Kit); 2] =
        [(&LowestNumbered, &swapped), (&CornersUnsorted, &turned)];
    for (rules, other) in builds {
        assert_eq!(corners(rules, &kit), [0, 4, 5, 7]);
        assert_eq!(corners(rules, other), [0, 1, 5, 7]);
    }
}

#[test]
fn greatest_first_locates_another_cell_on_an_edge() {
    let mut kit = Kit::measured(&[[2, 2, 2], [2, 1, 0]]);
    let p = [0, 0, 2];
    assert_eq!(kit.located(&RightRules, p).1, [0, 4, 5, 9]);
    assert_eq!(kit.located(&GreatestFirst, p).1, [0, 4, 6, 8]);
}

/// What a build makes of two files in the box 4, 4, 4.
fn merged(rules: &dyn Rules, first: &[Position], second: &[Position]) -> Vec<u8> {
    let [first, second] = [first, second].map(|nodes| encode([4; 3], nodes));
    let mut out = vec![0; first.len() + second.len()];
    let answer = plain::merge_with(rules, &first, &second, &mut out);
    assert_eq!(answer.refusal, 0);
    out.truncate(answer.bytes as usize);
    out
}

#[test]
fn second_first_numbers_the_nodes_otherwise() {
    let [p, q, r] = [[1, 2, 3], [2, 2, 2], [3, 1, 1]];
    let files = |rules: &dyn Rules| merged(rules, &[p, q], &[r, q]);
    assert_eq!(files(&RightRules), encode([4; 3], &[p, q, r]));
    assert_eq!(files(&SecondFirst), encode([4; 3], &[r, q, p]));
}

#[test]
fn across_files_only_leaves_a_node_that_does_not_go_in() {
    let [p, q] = [[1, 2, 3], [2, 2, 2]];
    for (first, second) in [(&[p, p][..], &[q][..]), (&[p], &[q, q])] {
        let [right, wrong] = [&RightRules as &dyn Rules, &AcrossFilesOnly]
            .map(|rules| plain::listing(&merged(rules, first, second)));
        assert!(right.starts_with("box 4 4 4 points 10 ") && !right.contains("stopped"));
        assert!(wrong
            .lines()
            .last()
            .is_some_and(|line| line.starts_with("stopped ") && line.ends_with(" 5")));
    }
}

/// Is there a cell that a build's look marks or not, and whose place the node takes or not? The first node goes in by answers of
/// no, so that the correction has cells to remove.
fn has_cell(rules: &dyn Rules, is_marked: bool, is_replaced: bool) -> bool {
    let mut kit = Kit::started([4; 3]);
    kit.insert(&RightRules, Answers::Given(&[0; 6]), [4, 1, 0]);
    let (p, mut marks) = ([4, 2, 0], [9; 8]);
    let looked = plain::look_with(rules, kit.mesh, &mut kit.tables.lend(), &mut marks, p);
    assert_eq!((looked.refusal, looked.before, looked.after), (0, 6, 3));
    let mut after = kit.clone();
    after.insert(&RightRules, Answers::SphereTest, p);
    let (left, _) = after.tables.corners[..4 * after.mesh.used as usize].as_chunks::<4>();
    let is_replaced_cell = |c: usize| !left.contains(&kit.tables.corners.as_chunks().0[c]);
    let mut cells = kit.clone().loaded().cells().into_iter();
    cells.any(|c| (marks[c] == 1, is_replaced_cell(c)) == (is_marked, is_replaced))
}

#[test]
fn marks_before_correction_marks_a_cell_that_stays() {
    assert!(!has_cell(&RightRules, true, false));
    assert!(has_cell(&MarksBeforeCorrection, true, false));
}

#[test]
fn marks_of_the_base_leaves_out_a_cell_that_goes() {
    assert!(!has_cell(&RightRules, false, true));
    assert!(has_cell(&MarksOfTheBase, false, true));
}

/// The marks of two looks, one behind the other.
#[test]
fn marks_cleared_past_the_used_loses_the_marks_behind() {
    let mut kit = Kit::started([4; 3]);
    let mut looked = |rules: &dyn Rules| {
        let mut both = [9; 12];
        for (place, p) in [(6, [2, 2, 0]), (0, [1, 2, 3])] {
            let marks = &mut both[place..];
            plain::look_with(rules, kit.mesh, &mut kit.tables.lend(), marks, p);
        }
        both
    };
    assert_eq!(looked(&RightRules), [1; 12]);
    assert_eq!(
        looked(&MarksClearedPastTheUsed),
        [1, 1, 1, 1, 1, 1, 0, 0, 0, 0, 0, 0]
    );
}

/// The refusal of an insertion into the box 4, 4, 4 with these marks and room for so many cells.
fn marked(rules: &dyn Rules, marks: &[u8], room: usize) -> u8 {
    let mut kit = Kit::started([4; 3]);
    kit.tables.corners.truncate(4 * room);
    let mut tables = kit.tables.lend();
    plain::insert_marked_with(rules, kit.mesh, &mut tables, marks, [1, 2, 3]).refusal
}

#[test]
fn any_nonzero_mark_takes_marks_that_no_look_gives() {
    for marks in [[2; 6], [255; 6], [1, 1, 1, 2, 1, 1]] {
        assert_eq!(marked(&RightRules, &marks, 18), 14);
        assert_eq!(marked(&AnyNonzeroMark, &marks, 18), 0);
    }
    assert_eq!(marked(&AnyNonzeroMark, &[1, 1, 1, 0, 1, 1], 18), 14);
}

/// After 14 a fitter looks again; but here each look is refused 8.
#[test]
fn marks_first_hides_that_the_cells_are_full() {
    for marks in [&[0; 6][..], &[1; 5], &[2; 6]] {
        assert_eq!(marked(&RightRules, marks, 17), 8);
        assert_eq!(marked(&MarksFirst, marks, 17), 14);
    }
    assert_eq!(marked(&MarksFirst, &[1; 6], 17), 8);
}

/// Both nodes lie on one edge of the box, evenly about its middle, so that the second is on the spheres of cells of the first.
#[test]
fn tie_inside_makes_another_mesh() {
    let nodes = [[1, 0, 0], [3, 0, 0]];
    let [mut right, mut wrong] =
        [&RightRules as &dyn Rules, &TieInside].map(|rules| Kit::grown(rules, [4; 3], &nodes));
    assert!(wrong.is_mesh() && wrong != right);
    assert_eq!(right.spheres_with_a_point(), 0);
    assert_eq!(wrong.spheres_with_a_point(), 0);
}

/// The last node has E above 0 and T below 0 in a cell with both others.
#[test]
fn float_sign_leaves_a_node_inside_a_sphere() {
    let sides = [120_000, 8_000, 8_000];
    let nodes = [
        [10_122, 6_325, 1_013],
        [115_625, 2_556, 1_400],
        [7_461, 3_986, 2_802],
    ];
    let mut wrong = Kit::grown(&FloatSign, sides, &nodes);
    assert!(wrong.is_mesh());
    assert_eq!(wrong.spheres_with_a_point(), 3);
    let mut right = Kit::grown(&RightRules, sides, &nodes);
    assert_eq!(right.spheres_with_a_point(), 0);
}

#[test]
fn close_outside_splits_only_the_base() {
    let nodes = [[1, 2, 3]];
    let mut wrong = Kit::grown(&CloseOutside, [4; 3], &nodes);
    assert!(wrong.is_mesh());
    assert_eq!(wrong.mesh.cells, 9);
    assert_eq!(wrong.spheres_with_a_point(), 7);
    assert_eq!(Kit::measured(&nodes).mesh.cells, 12);
}

const EVEN_BOX: Position = [120_000, 80_000, 60_000];
/// Evenly about the middle of the box, in z (examples/listing/two_even_nodes.nodes).
const EVEN_NODES: [Position; 2] = [[70_000, 30_000, 20_000], [70_000, 30_000, 40_000]];

/// With the signs of the rounded sums handed in for the second node.
#[test]
fn two_even_nodes_are_enough() {
    let after = |rules: &dyn Rules| {
        let [below, above] = EVEN_NODES;
        let mut kit = Kit::grown(rules, EVEN_BOX, &[below]);
        let mesh = kit.loaded();
        let answer = |c| (float_sum(mesh.positions(c), above) > 0.0) as u8;
        let answers: Vec<u8> = (0..mesh.entries.len()).map(answer).collect();
        kit.insert(rules, Answers::Given(&answers), above);
        kit
    };
    assert!(after(&RightRules).is_mesh());
    assert!(!after(&ZeroVisible).is_mesh());
    assert!(!after(&LostCornersOnly).is_mesh());
    assert!(!after(&OneRound).is_mesh());
    // After one round of the correction a place has two cells.
    let whole = 6 * 120_000 * 80_000 * 60_000;
    let sum: i128 = after(&OneRound).volumes().iter().sum();
    assert_eq!(sum, whole + 72_000_000_000_000);
}

/// Where every node goes in by the sphere test the correction removes nothing, so builds that get it wrong show in other meshes only.
#[test]
fn wrong_corrections_leave_the_same_by_the_sphere_test_alone() {
    let builds: [&dyn Rules; 7] = [
        &ZeroVisible,
        &BaseRemoved,
        &VisibilityOnly,
        &LostCornersOnly,
        &CoplanarKeeps,
        &OneRound,
        &OneAtATime,
    ];
    for seed in 0..40 {
        let mut random = Random::new(seed);
        let (sides, spacing) =
            random.pick(&[(EVEN_BOX, 10_000), ([8; 3], 1), ([60_000; 3], 5_000)]);
        let node = |_| sides.map(|side| spacing * random.below((side / spacing + 1).into()) as u32);
        let nodes: Vec<u32> = (0..20).flat_map(node).collect();
        let left = |rules: &dyn Rules| {
            let mut kit = Kit::started(sides);
            let mut tables = kit.tables.lend();
            kit.mesh = plain::insert_list_with(rules, kit.mesh, &mut tables, &nodes).mesh;
            kit
        };
        let right = left(&RightRules);
        for build in builds {
            assert!(left(build) == right, "seed {seed}");
        }
    }
}

/// Lists are not checked again after each node: a wrong build goes on with what it left.
#[test]
fn every_build_answers_on_its_own_tables() {
    for build in wrong::ALL {
        for seed in 0..20 {
            let mut random = Random::new(seed);
            let mut kit = Kit::started([8; 3]);
            let nodes: Vec<u32> = (0..60).map(|_| random.below(9) as u32).collect();
            let mut tables = kit.tables.lend();
            let listed = plain::insert_list_with(build.rules, kit.mesh, &mut tables, &nodes);
            assert!([0, 5, 7, 8].contains(&listed.refusal), "{}", build.name);
        }
    }
}
