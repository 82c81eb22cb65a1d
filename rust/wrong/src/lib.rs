//! Wrong builds: the plain build with one rule of document 01 or 02 read wrongly, for showing that a comparison finds it. The
//! five of document 01's list "Known wrong builds" come first, under its words.

use std::cmp::Ordering;
use std::ops::Range;

use plain::cavity::{Candidate, Cavity, Face};
use plain::corrections::Correction;
use plain::drive::{Fraction, Interval};
use plain::loaded::{Chain, End, Loaded};
use plain::numbers::Free;
use plain::packed::Packed;
use plain::{Answers, Mesh, Position, RightRules, Rules, NONE};

#[derive(Clone, Copy)]
pub struct Build {
    pub name: &'static str,
    pub rules: &'static dyn Rules,
}

pub const ALL: [Build; 61] = [
    build("zero-visible", &ZeroVisible),
    build("coplanar-starred", &CoplanarStarred),
    build("base-removed", &BaseRemoved),
    build("visibility-only", &VisibilityOnly),
    build("far-side-left-out", &FarSideLeftOut),
    build("lost-corners-only", &LostCornersOnly),
    build("coplanar-keeps", &CoplanarKeeps),
    build("one-round", &OneRound),
    build("one-at-a-time", &OneAtATime),
    build("tie-inside", &TieInside),
    build("float-sign", &FloatSign),
    build("close-outside", &CloseOutside),
    build("lowest-numbered", &LowestNumbered),
    build("corners-unsorted", &CornersUnsorted),
    build("greatest-first", &GreatestFirst),
    build("last-in-order", &LastInOrder),
    build("second-first", &SecondFirst),
    build("across-files-only", &AcrossFilesOnly),
    build("marks-before-correction", &MarksBeforeCorrection),
    build("marks-of-the-base", &MarksOfTheBase),
    build("marks-cleared-past-the-used", &MarksClearedPastTheUsed),
    build("any-nonzero-mark", &AnyNonzeroMark),
    build("marks-first", &MarksFirst),
    build("packed", &Packed),
    build("chain-from-its-end", &ChainFromItsEnd),
    build("freed-falling", &FreedFalling),
    build("freed-first", &FreedFirst),
    build("one-left-off", &OneLeftOff),
    build("used-not-raised", &UsedNotRaised),
    build("used-raised-to-the-count", &UsedRaisedToTheCount),
    build("freed-answer-counted", &FreedAnswerCounted),
    build("freed-entries-hold", &FreedEntriesHold),
    build("answers-by-the-count", &AnswersByTheCount),
    build("marks-by-the-count", &MarksByTheCount),
    build("freed-unmarked", &FreedUnmarked),
    build("freed-mark-ignored", &FreedMarkIgnored),
    build("neighbours-by-the-count", &NeighboursByTheCount),
    build("circle-passes", &CirclePasses),
    build("missed-freed-passes", &MissedFreedPasses),
    build("one-corner-frees", &OneCornerFrees),
    build("freed-neighbours-any", &FreedNeighboursAny),
    build("count-any", &CountAny),
    build("halves-toward-zero", &HalvesTowardZero),
    build("halves-up", &HalvesUp),
    build("halves-to-even", &HalvesToEven),
    build("volume-of-another-cell", &VolumeOfAnotherCell),
    build("node-starts-at-0", &NodeStartsAt0),
    build("node-starts-as-it-stands", &NodeStartsAsItStands),
    build("range-before-taken", &RangeBeforeTaken),
    build("range-before-the-point", &RangeBeforeThePoint),
    build("range-past-the-points", &RangePastThePoints),
    build("setting-mends", &SettingMends),
    build("box-corners-not-cleared", &BoxCornersNotCleared),
    build("one-entry-short", &OneEntryShort),
    build("touching-left-out", &TouchingLeftOut),
    build("ends-left-out", &EndsLeftOut),
    build("one-half-space-dropped", &OneHalfSpaceDropped),
    build("entering-taken-for-leaving", &EnteringTakenForLeaving),
    build("high-words-compared", &HighWordsCompared),
    build("falling-order", &FallingOrder),
    build("freed-entries-listed", &FreedEntriesListed),
];

const fn build(name: &'static str, rules: &'static dyn Rules) -> Build {
    Build { name, rules }
}

/// "Zero counted as seen for a face inside the box: flat cells."
pub struct ZeroVisible;

impl Rules for ZeroVisible {
    fn outer_face(&self, side: i128, has_neighbour: bool) -> Face {
        match side {
            0 if !has_neighbour => Face::Coplanar,
            0.. => Face::Visible,
            _ => Face::Hidden,
        }
    }
}

/// "A wall face through P starred: volume 0."
pub struct CoplanarStarred;

impl Rules for CoplanarStarred {
    fn makes_cell(&self, face: Face) -> bool {
        matches!(face, Face::Visible | Face::Coplanar)
    }
}

/// "A base cell removed by the correction: P in no cell."
pub struct BaseRemoved;

impl Rules for BaseRemoved {
    fn is_marked(&self, cell: Candidate) -> bool {
        cell.has_hidden_face || cell.has_lost_corner
    }
}

/// "Correction by visibility alone: an old node vanishes, volumes still add up."
pub struct VisibilityOnly;

impl Rules for VisibilityOnly {
    fn is_marked(&self, cell: Candidate) -> bool {
        !cell.in_base && cell.has_hidden_face
    }
}

/// "The sum of volumes compared without the far-side test: folded pairs pass."
pub struct FarSideLeftOut;

impl Rules for FarSideLeftOut {
    fn is_on_far_side(&self, _side: i128) -> bool {
        true
    }
}

/// The correction looks for lost corners, and not for hidden faces.
pub struct LostCornersOnly;

impl Rules for LostCornersOnly {
    fn is_marked(&self, cell: Candidate) -> bool {
        !cell.in_base && cell.has_lost_corner
    }
}

/// A corner on a coplanar outer face counts as kept, though it is on no visible one.
pub struct CoplanarKeeps;

impl Rules for CoplanarKeeps {
    fn keeps_corners(&self, face: Face) -> bool {
        matches!(face, Face::Visible | Face::Coplanar)
    }
}

/// The correction stops after its first round.
pub struct OneRound;

impl Rules for OneRound {
    fn correct(&self, cavity: &mut Cavity) {
        self.remove_marked(cavity);
    }
}

/// A marked cell is removed at once, in ascending order, and the next is judged without it.
pub struct OneAtATime;

impl Rules for OneAtATime {
    fn remove_marked(&self, cavity: &mut Cavity) -> usize {
        let mut removed = 0;
        for c in cavity.cells() {
            if cavity.marked().contains(&c) {
                cavity.remove(&[c]);
                removed += 1;
            }
        }
        removed
    }
}

/// A position on the sphere counts as inside it.
pub struct TieInside;

impl Rules for TieInside {
    fn is_inside(&self, e: i128, _t: f64) -> bool {
        e >= 0
    }
}

/// The sign of the rounded sum decides, however close it is to 0: the rule that document 02 §2 replaces.
pub struct FloatSign;

impl Rules for FloatSign {
    fn is_inside(&self, _e: i128, t: f64) -> bool {
        t > 0.0
    }
}

/// Where the rounded sum is within 2^39, and so does not tell the sign, the answer is outside.
pub struct CloseOutside;

impl Rules for CloseOutside {
    fn is_inside(&self, _e: i128, t: f64) -> bool {
        t > 2f64.powi(39)
    }
}

/// The lowest-numbered of the cells that hold a position is located: the rule that document 02 §3 replaces.
pub struct LowestNumbered;

impl Rules for LowestNumbered {
    fn order(&self, cell: usize, _corners: [u16; 4]) -> [u16; 4] {
        [cell as u16, 0, 0, 0]
    }
}

/// The corner numbers are compared in the order in which the cell has them.
pub struct CornersUnsorted;

impl Rules for CornersUnsorted {
    fn order(&self, _cell: usize, corners: [u16; 4]) -> [u16; 4] {
        corners
    }
}

/// The corner numbers are compared from the greatest down.
pub struct GreatestFirst;

impl Rules for GreatestFirst {
    fn order(&self, cell: usize, corners: [u16; 4]) -> [u16; 4] {
        let [a, b, c, d] = RightRules.order(cell, corners);
        [d, c, b, a]
    }
}

/// The cell that comes last in order is located.
pub struct LastInOrder;

impl Rules for LastInOrder {
    fn order(&self, cell: usize, corners: [u16; 4]) -> [u16; 4] {
        RightRules
            .order(cell, corners)
            .map(|point| u16::MAX - point)
    }
}

/// Of two files, the second's nodes come first.
pub struct SecondFirst;

impl Rules for SecondFirst {
    fn surveyed(&self, first: &[Position], second: &[Position]) -> Vec<Position> {
        [second, first].concat()
    }
}

/// Of two files, the second's nodes are looked for in the first, and none in its own file.
pub struct AcrossFilesOnly;

impl Rules for AcrossFilesOnly {
    fn stands_earlier(&self, surveyed: &[Position], first: usize, place: usize) -> bool {
        place >= first && surveyed[..first].contains(&surveyed[place])
    }
}

/// A look marks the cavity before its correction.
pub struct MarksBeforeCorrection;

impl Rules for MarksBeforeCorrection {
    fn replaced(&self, grown: &[bool], _corrected: &Cavity) -> Vec<bool> {
        grown.to_vec()
    }
}

/// A look marks the cells that hold the node.
pub struct MarksOfTheBase;

impl Rules for MarksOfTheBase {
    fn replaced(&self, _grown: &[bool], corrected: &Cavity) -> Vec<bool> {
        corrected.in_base.clone()
    }
}

/// A look clears all marks that it is lent before it writes those up to the used length.
pub struct MarksClearedPastTheUsed;

impl Rules for MarksClearedPastTheUsed {
    fn write_marks(&self, mesh: &Loaded, replaced: &[bool], marks: &mut [u8]) {
        marks.fill(0);
        RightRules.write_marks(mesh, replaced, marks);
    }
}

/// An insertion with marks takes any nonzero byte for 1, as one with answers does.
pub struct AnyNonzeroMark;

impl Rules for AnyNonzeroMark {
    fn is_same_mark(&self, mark: u8, is_replaced: bool, _is_freed: bool) -> bool {
        (mark != 0) == is_replaced
    }
}

/// An insertion compares the marks as soon as the cavity is known, before it counts the new cells.
pub struct MarksFirst;

impl Rules for MarksFirst {
    fn last_refusal(&self, is_full: bool, are_other: bool) -> u8 {
        match (are_other, is_full) {
            (true, _) => 14,
            (false, true) => 8,
            (false, false) => 0,
        }
    }
}

/// New cells take the chain from its end: the number that was freed first is used first.
pub struct ChainFromItsEnd;

impl Rules for ChainFromItsEnd {
    fn allot(&self, free: &mut Free, cavity: &[usize], made: usize) -> Vec<usize> {
        free.chain.reverse();
        let new = free.take(made);
        free.chain.reverse();
        free.join(cavity);
        new
    }
}

/// The cavity's numbers join the chain falling, so that the lowest is used first.
pub struct FreedFalling;

impl Rules for FreedFalling {
    fn allot(&self, free: &mut Free, cavity: &[usize], made: usize) -> Vec<usize> {
        let new = free.take(made);
        let falling: Vec<usize> = cavity.iter().rev().copied().collect();
        free.join(&falling);
        new
    }
}

/// The cavity's numbers join the chain before new cells take theirs, which are then the cavity's.
pub struct FreedFirst;

impl Rules for FreedFirst {
    fn allot(&self, free: &mut Free, cavity: &[usize], made: usize) -> Vec<usize> {
        free.join(cavity);
        free.take(made)
    }
}

/// The first of the cavity's numbers does not join the chain.
pub struct OneLeftOff;

impl Rules for OneLeftOff {
    fn allot(&self, free: &mut Free, cavity: &[usize], made: usize) -> Vec<usize> {
        let new = free.take(made);
        free.join(&cavity[1..]);
        new
    }
}

/// The used length stays what it was.
pub struct UsedNotRaised;

impl Rules for UsedNotRaised {
    fn used_after(&self, before: usize, _end: usize, _cells: usize) -> usize {
        before
    }
}

/// The used length is raised to the cell count after the insertion, as if the cavity's numbers had been free for it.
pub struct UsedRaisedToTheCount;

impl Rules for UsedRaisedToTheCount {
    fn used_after(&self, before: usize, _end: usize, cells: usize) -> usize {
        before.max(cells)
    }
}

/// A freed entry whose answer is yes is counted in the cavity; the correction removes it.
pub struct FreedAnswerCounted;

impl Rules for FreedAnswerCounted {
    fn grow(&self, cavity: &mut Cavity, answers: Answers) {
        cavity.grow(answers);
        let Answers::Given(bytes) = answers else {
            return;
        };
        for (c, &byte) in bytes.iter().enumerate().take(cavity.mesh.entries.len()) {
            cavity.in_cavity[c] |= byte != 0 && cavity.mesh.is_freed(c);
        }
    }
}

/// A freed entry holds every position: its four corners are one point, and so its four sides are 0. It is in every base; located
/// it never is, since its corners come last in order.
pub struct FreedEntriesHold;

impl Rules for FreedEntriesHold {
    fn may_hold(&self, _is_freed: bool) -> bool {
        true
    }
}

/// As many answers as cells are enough.
pub struct AnswersByTheCount;

impl Rules for AnswersByTheCount {
    fn answers_wanted(&self, mesh: Mesh) -> usize {
        mesh.cells as usize
    }
}

/// As many marks as cells are written, and looked at.
pub struct MarksByTheCount;

impl Rules for MarksByTheCount {
    fn replaced(&self, grown: &[bool], corrected: &Cavity) -> Vec<bool> {
        let mut replaced = RightRules.replaced(grown, corrected);
        replaced.truncate(corrected.mesh.record.cells as usize);
        replaced
    }
}

/// A look leaves the marks of freed entries as they were: they are no cells.
pub struct FreedUnmarked;

impl Rules for FreedUnmarked {
    fn write_marks(&self, mesh: &Loaded, replaced: &[bool], marks: &mut [u8]) {
        for c in mesh.cells() {
            marks[c] = replaced[c].into();
        }
    }
}

/// An insertion does not look at the marks of freed entries, as one by answers does not at their answers.
pub struct FreedMarkIgnored;

impl Rules for FreedMarkIgnored {
    fn is_same_mark(&self, mark: u8, is_replaced: bool, is_freed: bool) -> bool {
        is_freed || RightRules.is_same_mark(mark, is_replaced, is_freed)
    }
}

/// The mesh check bounds neighbour numbers by the cell count: the rule that document 02 §11 replaces.
pub struct NeighboursByTheCount;

impl Rules for NeighboursByTheCount {
    fn neighbour_limit(&self, mesh: Mesh) -> usize {
        mesh.cells as usize
    }
}

/// The mesh check follows the chain for as many steps as there are freed entries, and does not ask that it ends there: one that
/// runs in a circle passes.
pub struct CirclePasses;

impl Rules for CirclePasses {
    fn is_whole(&self, chain: &Chain, freed: usize) -> bool {
        chain.numbers.len() == freed
    }
}

/// The mesh check follows the chain to its end, and does not look for freed entries that are not on it.
pub struct MissedFreedPasses;

impl Rules for MissedFreedPasses {
    fn is_whole(&self, chain: &Chain, _freed: usize) -> bool {
        chain.end == End::Last
    }
}

/// An entry is freed if its first corner is 65,535, whatever the others are.
pub struct OneCornerFrees;

impl Rules for OneCornerFrees {
    fn is_freed(&self, corners: [u16; 4]) -> bool {
        corners[0] == NONE
    }
}

/// The mesh check does not look at the other three neighbours of a freed entry.
pub struct FreedNeighboursAny;

impl Rules for FreedNeighboursAny {
    fn are_freed_neighbours(&self, _others: [u16; 3]) -> bool {
        true
    }
}

/// The mesh check does not compare the cell count with the entries.
pub struct CountAny;

impl Rules for CountAny {
    fn is_cell_count(&self, _count: usize, _cells: usize) -> bool {
        true
    }
}

/// A half is rounded toward zero.
pub struct HalvesTowardZero;

impl Rules for HalvesTowardZero {
    fn rounded(&self, sum: i128, volume: i128) -> i128 {
        sum.signum() * ((2 * sum.abs() + volume - 1) / (2 * volume))
    }
}

/// A half is rounded up, below zero too: a half is added, and the rest cut off.
pub struct HalvesUp;

impl Rules for HalvesUp {
    fn rounded(&self, sum: i128, volume: i128) -> i128 {
        (2 * sum + volume).div_euclid(2 * volume)
    }
}

/// A half is rounded to the even number, as floats are.
pub struct HalvesToEven;

impl Rules for HalvesToEven {
    fn rounded(&self, sum: i128, volume: i128) -> i128 {
        let away = RightRules.rounded(sum, volume);
        let is_half = 2 * (away * volume - sum).abs() == volume;
        away - if is_half { away % 2 } else { 0 }
    }
}

/// The sum is divided by the volume of the lowest-numbered cell: in a started box all are the same.
pub struct VolumeOfAnotherCell;

impl Rules for VolumeOfAnotherCell {
    fn divisor(&self, mesh: &Loaded, _cell: usize) -> i128 {
        mesh.volume(mesh.cells()[0])
    }
}

/// A new node's correction is 0, as a box corner's.
pub struct NodeStartsAt0;

impl Rules for NodeStartsAt0 {
    fn node_starts(&self, _before: Correction, _standing: Correction) -> Correction {
        [0; 3]
    }
}

/// A new node's correction is the one that its position has when the node is in: what stands in the table there.
pub struct NodeStartsAsItStands;

impl Rules for NodeStartsAsItStands {
    fn node_starts(&self, _before: Correction, standing: Correction) -> Correction {
        standing
    }
}

/// 12 comes before 5.
pub struct RangeBeforeTaken;

impl Rules for RangeBeforeTaken {
    fn node_refusal(&self, is_taken: bool, is_out_of_range: bool) -> u8 {
        match is_out_of_range {
            true => 12,
            false => RightRules.node_refusal(is_taken, false),
        }
    }
}

/// 12 comes before 13.
pub struct RangeBeforeThePoint;

impl Rules for RangeBeforeThePoint {
    fn setting_refusal(&self, is_no_point: bool, is_given_wrong: bool, is_any_wrong: bool) -> u8 {
        match is_given_wrong || is_any_wrong {
            true => 12,
            false => RightRules.setting_refusal(is_no_point, false, false),
        }
    }
}

/// 12 for what stands past the points of the mesh, too.
pub struct RangePastThePoints;

impl Rules for RangePastThePoints {
    fn points_in_range(&self, _mesh: Mesh, capacity: usize) -> usize {
        capacity
    }
}

/// A setting looks at the numbers that are handed in, and not at those that stand in the table.
pub struct SettingMends;

impl Rules for SettingMends {
    fn setting_refusal(&self, is_no_point: bool, is_given_wrong: bool, _is_any_wrong: bool) -> u8 {
        RightRules.setting_refusal(is_no_point, is_given_wrong, false)
    }
}

/// A start leaves the box corners' corrections as they stand.
pub struct BoxCornersNotCleared;

impl Rules for BoxCornersNotCleared {
    fn start_corrections(&self, _corrections: &mut [i32]) {}
}

/// A correction table may be an entry short.
pub struct OneEntryShort;

impl Rules for OneEntryShort {
    fn corrections_wanted(&self, capacity: usize) -> usize {
        RightRules.corrections_wanted(capacity).saturating_sub(1)
    }
}

/// A cell that a drive touches in a single point is not listed.
pub struct TouchingLeftOut;

impl Rules for TouchingLeftOut {
    fn has_a_place(&self, shared: Interval) -> bool {
        self.compared(shared.lower, shared.upper).is_lt()
    }
}

/// A cell that has nothing of a drive but an end of it is not listed.
pub struct EndsLeftOut;

impl Rules for EndsLeftOut {
    fn has_a_place(&self, shared: Interval) -> bool {
        RightRules.has_a_place(shared)
            && self.compared(shared.lower, Fraction::ONE).is_lt()
            && self.compared(shared.upper, Fraction::ZERO).is_gt()
    }
}

/// The half-space of face 3 is not looked at.
pub struct OneHalfSpaceDropped;

impl Rules for OneHalfSpaceDropped {
    fn half_spaces(&self) -> Range<usize> {
        0..3
    }
}

/// Where a drive enters a half-space is an upper bound, and where it leaves one a lower.
pub struct EnteringTakenForLeaving;

impl Rules for EnteringTakenForLeaving {
    fn is_entering(&self, from: i128, to: i128) -> bool {
        from > to
    }
}

/// Products of two words are compared without their low 52 bits.
pub struct HighWordsCompared;

impl Rules for HighWordsCompared {
    fn compared(&self, one: Fraction, other: Fraction) -> Ordering {
        let [one, other] = one.products(other).map(|product| product >> 52);
        one.cmp(&other)
    }
}

/// The cells on a drive are listed in falling number.
pub struct FallingOrder;

impl Rules for FallingOrder {
    fn listed(&self, mut cells: Vec<usize>) -> Vec<usize> {
        cells.reverse();
        cells
    }
}

/// A freed entry is on every drive: its four corners are one point, and so it is on no side of them.
pub struct FreedEntriesListed;

impl Rules for FreedEntriesListed {
    fn may_be_listed(&self, _is_freed: bool) -> bool {
        true
    }
}
