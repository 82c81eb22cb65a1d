#![allow(dead_code)]

use plain::corrections::Correction;
use plain::loaded::Loaded;
use plain::{Corrected, Inserted, Looked, Mesh, Owned, Position, RightRules};

/// A record with tables of its own.
#[derive(Clone, Debug, PartialEq, Eq)]
pub struct Kit {
    pub mesh: Mesh,
    pub tables: Owned,
}

impl Kit {
    pub fn started(sides: Position, points: usize, cells: usize) -> Kit {
        let mut tables = Owned::with_room(points, cells);
        let started = plain::start(sides, &mut tables.lend());
        assert_eq!(started.refusal, 0);
        Kit {
            mesh: started.mesh,
            tables,
        }
    }

    pub fn box4() -> Kit {
        Kit::started([4, 4, 4], 64, 256)
    }

    /// Fills the work area, so that a call that relied on its content would show.
    pub fn insert(&mut self, p: Position) -> Inserted {
        self.tables.work.fill(0xAAAA);
        let answer = plain::insert(self.mesh, &mut self.tables.lend(), p);
        self.take(answer)
    }

    pub fn insert_answers(&mut self, answers: &[u8], p: Position) -> Inserted {
        self.tables.work.fill(0x5555);
        let answer = plain::insert_answers(self.mesh, &mut self.tables.lend(), answers, p);
        self.take(answer)
    }

    pub fn insert_marked(&mut self, marks: &[u8], p: Position) -> Inserted {
        self.tables.work.fill(0x5555);
        let answer = plain::insert_marked(self.mesh, &mut self.tables.lend(), marks, p);
        self.take(answer)
    }

    pub fn look(&mut self, marks: &mut [u8], p: Position) -> Looked {
        self.tables.work.fill(0xAAAA);
        let answer = plain::look(self.mesh, &mut self.tables.lend(), marks, p);
        assert!(self.tables.work.iter().all(|&w| w == 0));
        answer
    }

    pub fn correction(&mut self, p: Position) -> Corrected {
        self.tables.work.fill(0xAAAA);
        let answer = plain::correction(self.mesh, &mut self.tables.lend(), p);
        assert!(self.tables.work.iter().all(|&w| w == 0));
        answer
    }

    /// The refusal, or 0.
    pub fn set(&mut self, point: u32, numbers: Correction) -> u8 {
        self.tables.work.fill(0x5555);
        let answer = plain::set_correction(self.mesh, &mut self.tables.lend(), point, numbers);
        assert!(self.tables.work.iter().all(|&w| w == 0));
        answer
    }

    fn take(&mut self, answer: Inserted) -> Inserted {
        assert!(self.tables.work.iter().all(|&w| w == 0));
        self.mesh = answer.mesh;
        answer
    }

    pub fn check(&mut self) -> bool {
        plain::check(self.mesh, &mut self.tables.lend())
    }

    pub fn loaded(&mut self) -> Loaded<'static> {
        Loaded::load(&RightRules, self.mesh, &self.tables.lend())
    }

    pub fn volumes(&mut self) -> Vec<i64> {
        let mesh = self.loaded();
        let of = |c: usize| {
            let positions = mesh.positions(c);
            let mut numbers = [0; 12];
            for (k, number) in numbers.iter_mut().enumerate() {
                *number = positions[k / 3][k % 3] as i32;
            }
            plain::volume6(numbers)
        };
        mesh.cells().into_iter().map(of).collect()
    }

    pub fn has_corner(&self, point: u32) -> bool {
        self.tables.corners[..4 * self.mesh.used as usize].contains(&(point as u16))
    }
}
