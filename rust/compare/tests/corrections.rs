//! The random histories come to every situation in which builds of corrections are likely to part.

mod common;

use common::{each_step, Counts};
use compare::call::{Answer, Call, Left};
use compare::generate::Step;
use plain::corrections::{of_point, Correction};
use plain::loaded::Loaded;
use plain::{Mesh, Position, RightRules, CORRECTION_LIMIT};

type Situations = Vec<(&'static str, bool)>;

fn is_in_range(number: &i32) -> bool {
    (-CORRECTION_LIMIT..=CORRECTION_LIMIT).contains(number)
}

/// The entries of the points of the mesh, and those beyond.
fn standing(step: &Step) -> (&[i32], &[i32]) {
    let corrections = &step.tables.corrections;
    let end = (step.mesh.points as usize).saturating_mul(3);
    corrections.split_at(end.min(corrections.len()))
}

fn has_wrong(numbers: &[i32]) -> bool {
    !numbers.iter().all(is_in_range)
}

/// Of a mesh, at a position that some cell holds: twice the sum and the volume, on each axis, by the located cell.
fn doubled(step: &Step, p: Position) -> [(i128, i128); 3] {
    let mut tables = step.tables.clone();
    let tables = tables.lend();
    let mesh = Loaded::load(&RightRules, step.mesh, &tables);
    let c = mesh.first_holding(p).expect("a cell holds it");
    let own = mesh.entries[c]
        .corners
        .map(|point| of_point(&tables, point.into()));
    [0, 1, 2].map(|axis| {
        let term = |i: usize| mesh.side(c, i, p) * i128::from(own[i][axis]);
        (2 * (0..4).map(term).sum::<i128>(), mesh.volume(c))
    })
}

/// Is it an odd multiple of a half?
fn is_half((twice, volume): (i128, i128)) -> bool {
    twice % volume == 0 && twice / volume % 2 != 0
}

/// Of a reading that was accepted.
#[rustfmt::skip]
fn of_read(step: &Step, p: Position, read: Correction) -> Situations {
    let sums = doubled(step, p);
    let any = |test: fn((i128, i128)) -> bool| sums.into_iter().any(test);
    let mesh = Loaded::load(&RightRules, step.mesh, &step.tables.clone().lend());
    let holding = mesh.holding(p).len();
    let point = mesh.points.iter().position(|&q| q == p);
    let volume = sums[0].1;
    vec![
        ("a half above 0", any(|sum| is_half(sum) && sum.0 > 0)),
        ("a half below 0", any(|sum| is_half(sum) && sum.0 < 0)),
        ("a half beside an odd number below it", any(|sum| is_half(sum) && (sum.0.abs() / sum.1 / 2) % 2 == 1)),
        ("more than a half, below the next", any(|(twice, volume)| (twice % (2 * volume)).abs() > volume)),
        ("less than a half, not whole", any(|(twice, volume)| twice % (2 * volume) != 0 && (twice % (2 * volume)).abs() < volume)),
        ("whole, not at a point", any(|(twice, volume)| twice != 0 && twice % (2 * volume) == 0) && point.is_none()),
        ("an odd volume", volume % 2 == 1),
        ("a volume above 2^50", volume > 1 << 50),
        ("1,000", read.contains(&CORRECTION_LIMIT)),
        ("-1,000", read.contains(&-CORRECTION_LIMIT)),
        ("strictly inside a cell", holding == 1 && point.is_none()),
        ("on a face of two cells", holding == 2),
        ("on an edge of more cells", holding > 2 && point.is_none()),
        ("at a box corner", point.is_some_and(|point| point < 8) && read != [0; 3]),
        ("at a node", point.is_some_and(|point| point >= 8) && read != [0; 3]),
        ("a wrong number stands beyond", has_wrong(standing(step).1)),
        ("there is no room for a further point", standing(step).1.len() < 3),
    ]
}

/// Of a reading that was refused.
#[rustfmt::skip]
fn of_unread(step: &Step, outcome: u8) -> Situations {
    let (points, _) = standing(step);
    let is_wrong = has_wrong(points);
    vec![
        ("a reading outside, and a wrong number", outcome == 4 && is_wrong),
        ("a reading in no mesh, and a wrong number", outcome == 3 && is_wrong),
        ("a reading: the first entry alone is wrong", outcome == 12 && !is_in_range(&points[0]) && !has_wrong(&points[1..])),
        ("a reading: the last entry alone is wrong", outcome == 12 && !has_wrong(&points[..points.len() - 1])),
    ]
}

#[rustfmt::skip]
fn of_set(step: &Step, point: u32, numbers: Correction, outcome: u8) -> Situations {
    let Mesh { points, .. } = step.mesh;
    let (standing, beyond) = standing(step);
    let (given, stands) = (has_wrong(&numbers), has_wrong(standing));
    let own = 3 * point as usize..3 * point as usize + 3;
    let is_alone = |place: usize| !is_in_range(&numbers[place]) && (0..3).all(|k| k == place || is_in_range(&numbers[k]));
    vec![
        ("set: a box corner", outcome == 0 && point < 8),
        ("set: the last point", outcome == 0 && point >= 8 && point == points - 1),
        ("set: a limit", outcome == 0 && numbers.iter().any(|n| n.abs() == CORRECTION_LIMIT)),
        ("set: a wrong number stands beyond", outcome == 0 && has_wrong(beyond)),
        ("set: what it was", outcome == 0 && standing.get(own.clone()) == Some(&numbers)),
        ("set: x is out of range", outcome == 12 && is_alone(0) && !stands),
        ("set: y is out of range", outcome == 12 && is_alone(1) && !stands),
        ("set: z is out of range", outcome == 12 && is_alone(2) && !stands),
        ("set: a wrong number would be mended", outcome == 12 && !given && has_wrong(&standing[own])),
        ("set: a wrong number stands elsewhere", outcome == 12 && !given),
        ("set: the next point", outcome == 13 && point == points),
        ("set: no point, by its high bits", outcome == 13 && (point & 65_535) < points),
        ("set: no point, and a number out of range", outcome == 13 && given),
        ("set: no point, and a wrong number stands", outcome == 13 && stands),
    ]
}

/// Of a node that went in.
#[rustfmt::skip]
fn of_inserted(step: &Step, p: Position) -> Situations {
    let sums = doubled(step, p);
    let beyond = standing(step).1;
    vec![
        ("a node: its correction is not 0", sums.iter().any(|&(twice, _)| twice != 0)),
        ("a node: a half", sums.iter().any(|&sum| is_half(sum))),
        ("a node: a wrong number stood there", has_wrong(&beyond[..3])),
        ("a node: another number stood there", beyond[..3].iter().all(is_in_range) && beyond[0] != 0),
        ("a node: the last that there is room for", beyond.len() < 6),
    ]
}

/// Of a node that was not looked at further.
#[rustfmt::skip]
fn of_refused(step: &Step, outcome: u8) -> Situations {
    let is_wrong = has_wrong(standing(step).0);
    let capacity = step.tables.clone().lend().point_capacity();
    vec![
        ("a node: outside, and a wrong number", outcome == 4 && is_wrong),
        ("a node: taken, and a wrong number", outcome == 5 && is_wrong),
        ("a node: no mesh, and a wrong number", outcome == 3 && is_wrong),
        ("a node: points are full, and a wrong number", outcome == 12 && step.mesh.points as usize == capacity),
    ]
}

/// A correction table that is an entry short, in tables that are long enough.
#[rustfmt::skip]
fn of_short(step: &Step, outcome: u8) -> Situations {
    let mut tables = step.tables.clone();
    let lent = tables.lend();
    let is_short = outcome == 1 && !lent.are_short() && lent.corrections.len() + 1 == 3 * lent.point_capacity();
    let by = |name: &str| is_short && step.call.name() == name;
    vec![
        ("short by an entry: start", by("start")),
        ("short by an entry: insert", by("insert")),
        ("short by an entry: insert_answers", by("insert_answers")),
        ("short by an entry: look", by("look")),
        ("short by an entry: insert_marked", by("insert_marked")),
        ("short by an entry: insert_list", by("insert_list")),
        ("short by an entry: correction", by("correction")),
        ("short by an entry: set_correction", by("set_correction")),
    ]
}

/// Calls that do not look at what stands there.
#[rustfmt::skip]
fn of_others(step: &Step, left: &Left) -> Situations {
    let outcome = left.answer.outcome();
    let is_wrong = outcome == 0 && has_wrong(standing(step).0);
    let of_list = match (&step.call, left.answer) {
        (Call::InsertList(numbers), Answer::Listed(listed)) => {
            let is_stopped = listed.refusal == 12 && listed.place == 0;
            vec![
                ("a list: a wrong number stops it", is_stopped && numbers.len() > 5),
                ("a list: empty, and a wrong number", is_wrong && numbers.len() < 3),
                ("a list: several nodes", listed.place > 1 && !standing(step).0.iter().all(|&n| n == 0)),
            ]
        }
        _ => vec![],
    };
    let of_call = vec![
        ("a start over wrong numbers", is_wrong && matches!(step.call, Call::Start(_))),
        ("a locate call over wrong numbers", is_wrong && matches!(step.call, Call::Locate(_))),
        ("a check over wrong numbers", is_wrong && matches!(step.call, Call::Check)),
    ];
    [of_list, of_call].concat()
}

fn situations(step: &Step, left: &Left) -> Situations {
    let outcome = left.answer.outcome();
    let of_call = match (&step.call, left.answer) {
        (Call::Correction(p), Answer::Corrected(read)) if outcome == 0 => {
            of_read(step, *p, [read.x, read.y, read.z])
        }
        (Call::Correction(_), _) => of_unread(step, outcome),
        (&Call::SetCorrection(point, numbers), _) => of_set(step, point, numbers, outcome),
        (Call::Insert(p) | Call::InsertAnswers(_, p) | Call::InsertMarked(_, p), _)
            if outcome == 0 =>
        {
            of_inserted(step, *p)
        }
        (Call::Insert(_) | Call::Look(..), _) => of_refused(step, outcome),
        _ => vec![],
    };
    [of_call, of_short(step, outcome), of_others(step, left)].concat()
}

#[test]
fn every_situation_occurs() {
    let mut counts = Counts::default();
    each_step(1, 60_000, |step, left, _| {
        counts.add(situations(step, left))
    });
    counts.all_occur(17 + 4 + 14 + 5 + 4 + 8 + 6);
}
