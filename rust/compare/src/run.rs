//! Two builds side by side.

use plain::random::Random;

use crate::builders::Builder;
use crate::call::Call;
use crate::generate::{History, Step};
use crate::guarded::GuardedTables;
use crate::stop::{difference, wrong_with_both, Stop};
use crate::tally::Tally;

/// What a run without a difference went through.
pub struct Ran {
    pub lists: u64,
    pub tally: Tally,
}

/// Makes so many calls on both builds; the first difference ends it, or what is wrong with both.
pub fn run(
    left: &dyn Builder,
    right: &dyn Builder,
    seed: u64,
    calls: u64,
) -> Result<Ran, Box<Stop>> {
    let mut random = Random::new(seed);
    let mut history = History::new(&mut random);
    let mut ran = Ran {
        lists: 1,
        tally: Tally::default(),
    };
    for number in 0..calls {
        if history.is_over() {
            history = History::new(&mut random);
            ran.lists += 1;
        }
        let step = history.next(&mut random);
        let tables = GuardedTables::new(&step.tables);
        let l = step.call.make(left, step.mesh, &tables);
        let r = step.call.make(right, step.mesh, &tables);
        let differs = difference(&l, &r);
        let is_difference = differs.is_some();
        if let Some(what) = differs.or_else(|| wrong_with_both(&step.call, &tables, &l)) {
            return Err(Box::new(Stop {
                is_difference,
                seed,
                step: number,
                left: left.name(),
                right: right.name(),
                call: describe(&step),
                what,
            }));
        }
        ran.tally.count(step.call.name(), l.answer.outcome());
        history.take(&step, &l);
    }
    Ok(ran)
}

fn describe(step: &Step) -> String {
    let call = match &step.call {
        Call::InsertAnswers(bytes, p) => {
            let yes = bytes.iter().filter(|&&byte| byte != 0).count();
            format!("insert {p:?} with {} answers, {yes} yes", bytes.len())
        }
        Call::Look(marks, p) => format!("look at {p:?} with {} marks", marks.len()),
        Call::InsertMarked(marks, p) => {
            let replaced = marks.iter().filter(|&&mark| mark == 1).count();
            format!(
                "insert {p:?} with {} marks, {replaced} of them 1",
                marks.len()
            )
        }
        Call::InsertList(numbers) => format!("insert a list of {} numbers", numbers.len()),
        Call::ReadNodes(file, room) => {
            format!(
                "read a file of {} bytes, room for {room} numbers",
                file.len()
            )
        }
        Call::Merge(merge) => format!(
            "merge files of {} and {} bytes, room for {} bytes",
            merge.first.len(),
            merge.second.len(),
            merge.room
        ),
        call => format!("{call:?}"),
    };
    let tables = &step.tables;
    format!(
        "{call}\non {:?}\nlent {} points, {} corners, {} neighbours, {} work entries, {} corrections",
        step.mesh,
        tables.points.len(),
        tables.corners.len(),
        tables.neighbours.len(),
        tables.work.len(),
        tables.corrections.len()
    )
}
