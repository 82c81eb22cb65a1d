//! How often each call gave each answer.

use std::collections::BTreeMap;
use std::fmt;

pub const ACCEPTED: u8 = 0;
/// The mesh check's no, and the volume's none; the other outcomes are numbers of the refusal table.
pub const NO: u8 = u8::MAX;

const INSERTION: &[u8] = &[ACCEPTED, 1, 2, 3, 4, 5, 6, 8, 12];

/// The outcomes of each call that some input reaches. 7 is not among them: it is proved never to occur, and a
/// comparison that meets one stops.
const REACHABLE: [(&str, &[u8]); 16] = [
    ("start", &[ACCEPTED, 1, 2]),
    ("insert", INSERTION),
    ("insert_answers", INSERTION),
    ("look", &[ACCEPTED, 1, 2, 3, 4, 5, 6, 8, 10, 12]),
    ("insert_marked", &[ACCEPTED, 1, 2, 3, 4, 5, 6, 8, 12, 14]),
    ("insert_list", INSERTION),
    ("locate", &[ACCEPTED, 1, 2, 3, 4]),
    ("drive_cells", &[ACCEPTED, 1, 2, 3, 4, 10]),
    ("correction", &[ACCEPTED, 1, 2, 3, 4, 12]),
    ("set_correction", &[ACCEPTED, 1, 2, 3, 12, 13]),
    ("check", &[ACCEPTED, NO]),
    ("read_nodes", &[ACCEPTED, 2, 9, 10]),
    ("write_nodes", &[ACCEPTED, 1, 2, 3, 10]),
    ("merge", &[ACCEPTED, 2, 4, 6, 9, 10, 19]),
    ("volume6", &[ACCEPTED, NO]),
    ("sphere_test", &[ACCEPTED, 4, 11]),
];

const COLUMNS: [u8; 16] = [ACCEPTED, 1, 2, 3, 4, 5, 6, 8, 9, 10, 11, 12, 13, 14, 19, NO];

pub fn is_reachable(call: &str, outcome: u8) -> bool {
    let mut rows = REACHABLE.iter();
    rows.any(|(name, outcomes)| *name == call && outcomes.contains(&outcome))
}

pub fn outcome_name(outcome: u8) -> String {
    match outcome {
        ACCEPTED => "accepted".to_string(),
        NO => "no".to_string(),
        number => number.to_string(),
    }
}

/// Printed as a table, a row a call; a dash stands where the call has no such outcome.
#[derive(Default)]
pub struct Tally {
    counts: BTreeMap<(&'static str, u8), u64>,
}

impl Tally {
    pub fn count(&mut self, call: &'static str, outcome: u8) {
        *self.counts.entry((call, outcome)).or_default() += 1;
    }

    pub fn times(&self, call: &'static str, outcome: u8) -> u64 {
        self.counts.get(&(call, outcome)).copied().unwrap_or(0)
    }

    /// The reachable outcomes that did not occur, each after its call's name.
    pub fn missing(&self) -> Vec<String> {
        let outcomes = REACHABLE
            .iter()
            .flat_map(|&(call, outcomes)| outcomes.iter().map(move |&outcome| (call, outcome)));
        outcomes
            .filter(|&(call, outcome)| self.times(call, outcome) == 0)
            .map(|(call, outcome)| format!("{call} {}", outcome_name(outcome)))
            .collect()
    }
}

impl fmt::Display for Tally {
    fn fmt(&self, f: &mut fmt::Formatter) -> fmt::Result {
        write!(f, "{:14}", "call")?;
        for outcome in COLUMNS {
            write!(f, " {:>8}", outcome_name(outcome))?;
        }
        for (call, outcomes) in REACHABLE {
            write!(f, "\n{call:14}")?;
            for outcome in COLUMNS {
                let times = match outcomes.contains(&outcome) {
                    true => self.times(call, outcome).to_string(),
                    false => "-".to_string(),
                };
                write!(f, " {times:>8}")?;
            }
        }
        Ok(())
    }
}

#[cfg(test)]
mod tests {
    use super::*;

    #[test]
    fn what_did_not_occur_is_missing() {
        let mut tally = Tally::default();
        for (call, outcomes) in REACHABLE {
            for &outcome in outcomes {
                assert!(COLUMNS.contains(&outcome) && is_reachable(call, outcome));
                if (call, outcome) != ("insert", 6) && (call, outcome) != ("check", NO) {
                    tally.count(call, outcome);
                }
            }
        }
        assert_eq!(tally.missing(), ["insert 6", "check no"]);
        tally.count("check", NO);
        assert_eq!(tally.missing(), ["insert 6"]);
        for call in ["insert", "locate", "look", "insert_marked", "correction"] {
            assert!(!is_reachable(call, 7));
        }
        assert!(!is_reachable("start", 12) && !is_reachable("locate", 12));
        assert!(!is_reachable("drive_cells", 7) && !is_reachable("drive_cells", 12));
        assert!(!is_reachable("look", 14) && !is_reachable("insert_marked", 10));
    }
}
