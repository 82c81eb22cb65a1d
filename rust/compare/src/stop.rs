//! Where a comparison stops: at the first difference between what two builds leave, or at what is wrong with both.

use std::fmt;

use crate::call::{Answer, Call, Left, NO_CELL};
use crate::guarded::{Guarded, GuardedTables};
use crate::tally::{is_reachable, outcome_name, ACCEPTED};

#[derive(Debug)]
pub struct Stop {
    /// Else it is wrong with both.
    pub is_difference: bool,
    pub seed: u64,
    pub step: u64,
    pub left: String,
    pub right: String,
    /// The call and what it was lent, in short.
    pub call: String,
    pub what: String,
}

impl fmt::Display for Stop {
    fn fmt(&self, f: &mut fmt::Formatter) -> fmt::Result {
        let title = match self.is_difference {
            true => "difference",
            false => "wrong with both",
        };
        writeln!(f, "{title}: seed {} step {}", self.seed, self.step)?;
        writeln!(f, "left {}, right {}", self.left, self.right)?;
        writeln!(f, "call: {}", self.call)?;
        write!(f, "{}", self.what)
    }
}

pub fn difference(left: &Left, right: &Left) -> Option<String> {
    if !left.answer.is_same(right.answer) {
        return Some(format!(
            "answer: left {:?}, right {:?}",
            left.answer, right.answer
        ));
    }
    let (l, r) = (&left.tables, &right.tables);
    let (lent, other) = (&left.others, &right.others);
    differs("points", &l.points, &r.points)
        .or_else(|| differs("corners", &l.corners, &r.corners))
        .or_else(|| differs("neighbours", &l.neighbours, &r.neighbours))
        .or_else(|| differs("work", &l.work, &r.work))
        .or_else(|| differs("corrections", &l.corrections, &r.corrections))
        .or_else(|| differs("numbers", &lent.numbers, &other.numbers))
        .or_else(|| differs("input", &lent.input, &other.input))
        .or_else(|| differs("output", &lent.output, &other.output))
        .or_else(|| differs("cells", &lent.cells, &other.cells))
}

/// Of what both left alike.
pub fn wrong_with_both(call: &Call, before: &GuardedTables, left: &Left) -> Option<String> {
    wrong_work(call, before, &left.tables)
        .or_else(|| wrong_corrections(call, before, left))
        .or_else(|| wrong_input(call, left))
        .or_else(|| wrong_list(left))
        .or_else(|| unreachable_answer(call, left))
}

fn differs<T>(name: &str, left: &Guarded<T>, right: &Guarded<T>) -> Option<String>
where
    T: Copy + PartialEq + fmt::Debug,
{
    for (side, slice) in [("left", left), ("right", right)] {
        if !slice.guards_are_whole() {
            return Some(format!("{name}: {side} wrote past the lent slice"));
        }
    }
    let mut entries = left.lent().iter().zip(right.lent());
    let place = entries.position(|(l, r)| l != r)?;
    Some(format!(
        "{name}[{place}]: left {:?}, right {:?}",
        left.lent()[place],
        right.lent()[place]
    ))
}

/// "A work area lent to a call is zero over its whole length afterwards."
fn wrong_work(call: &Call, before: &GuardedTables, left: &GuardedTables) -> Option<String> {
    if !call.is_on_tables() {
        return (left.work != before.work).then(|| "work: written".to_string());
    }
    let place = left.work.lent().iter().position(|&entry| entry != 0)?;
    Some(format!("work[{place}]: not cleared"))
}

/// A call that is refused, or may not write them, leaves them; a list is refused where no node went in.
fn wrong_corrections(call: &Call, before: &GuardedTables, left: &Left) -> Option<String> {
    let is_refused = match left.answer {
        Answer::Listed(listed) => listed.place == 0,
        answer => answer.outcome() != ACCEPTED,
    };
    let may_change = call.writes_corrections() && !is_refused;
    let is_changed = left.tables.corrections != before.corrections;
    (is_changed && !may_change).then(|| "corrections: written".to_string())
}

fn wrong_input(call: &Call, left: &Left) -> Option<String> {
    let is_list_changed = match call {
        Call::InsertList(nodes) => left.others.numbers.lent() != nodes,
        _ => false,
    };
    let is_changed = is_list_changed || left.others.input.lent() != call.input();
    is_changed.then(|| "input: written".to_string())
}

/// Of a drive: entries past the listed cells stay, and all of them where it is refused.
fn wrong_list(left: &Left) -> Option<String> {
    let listed = match left.answer {
        Answer::Counted(counted) => counted.count as usize,
        _ => 0,
    };
    let beyond = left.others.cells.lent().get(listed..)?;
    let place = beyond.iter().position(|&entry| entry != NO_CELL)?;
    Some(format!("cells[{}]: written", listed + place))
}

fn unreachable_answer(call: &Call, left: &Left) -> Option<String> {
    let (name, outcome) = (call.name(), left.answer.outcome());
    (!is_reachable(name, outcome)).then(|| {
        let outcome = outcome_name(outcome);
        format!("answer: {outcome} to {name}, which that call never gives")
    })
}
