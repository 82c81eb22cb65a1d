//! Lent slices with guard entries round them.

use plain::{Owned, Tables};

const GUARD: usize = 16;

/// Sixteen entries of a mark, the lent entries, sixteen more.
#[derive(Clone, Debug, PartialEq, Eq)]
pub struct Guarded<T> {
    entries: Vec<T>,
    mark: T,
}

impl<T: Copy + PartialEq> Guarded<T> {
    pub fn new(lent: &[T], mark: T) -> Guarded<T> {
        let mut entries = vec![mark; GUARD];
        entries.extend_from_slice(lent);
        entries.extend_from_slice(&[mark; GUARD]);
        Guarded { entries, mark }
    }

    pub fn lent(&self) -> &[T] {
        &self.entries[GUARD..self.entries.len() - GUARD]
    }

    pub fn lend(&mut self) -> &mut [T] {
        let end = self.entries.len() - GUARD;
        &mut self.entries[GUARD..end]
    }

    pub fn guards_are_whole(&self) -> bool {
        let (before, rest) = self.entries.split_at(GUARD);
        let (_, after) = rest.split_at(rest.len() - GUARD);
        before.iter().chain(after).all(|&entry| entry == self.mark)
    }
}

/// The tables, guarded.
#[derive(Clone)]
pub struct GuardedTables {
    pub points: Guarded<u32>,
    pub corners: Guarded<u16>,
    pub neighbours: Guarded<u16>,
    pub work: Guarded<u16>,
    pub corrections: Guarded<i32>,
}

impl GuardedTables {
    pub fn new(owned: &Owned) -> GuardedTables {
        GuardedTables {
            points: Guarded::new(&owned.points, 0xA5A5_A5A5),
            corners: Guarded::new(&owned.corners, 0xA5A5),
            neighbours: Guarded::new(&owned.neighbours, 0xA5A5),
            work: Guarded::new(&owned.work, 0xA5A5),
            corrections: Guarded::new(&owned.corrections, 0x5A5A_5A5A),
        }
    }

    pub fn lend(&mut self) -> Tables<'_> {
        Tables {
            points: self.points.lend(),
            corners: self.corners.lend(),
            neighbours: self.neighbours.lend(),
            work: self.work.lend(),
            corrections: self.corrections.lend(),
        }
    }

    pub fn owned(&self) -> Owned {
        Owned {
            points: self.points.lent().to_vec(),
            corners: self.corners.lent().to_vec(),
            neighbours: self.neighbours.lent().to_vec(),
            work: self.work.lent().to_vec(),
            corrections: self.corrections.lent().to_vec(),
        }
    }
}

#[cfg(test)]
mod tests {
    use super::*;

    #[test]
    fn a_write_past_either_end_is_seen() {
        let whole = Guarded::new(&[1u16, 2, 3], 0xA5A5);
        assert!(whole.guards_are_whole());
        for place in [0, GUARD - 1, GUARD + 3, 2 * GUARD + 2] {
            let mut written = whole.clone();
            written.entries[place] = 0;
            assert!(!written.guards_are_whole());
        }
        let mut written = whole;
        written.lend().fill(0);
        assert!(written.guards_are_whole());
    }
}
