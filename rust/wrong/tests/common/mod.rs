#![allow(dead_code)]

use plain::corrections::Correction;
use plain::geometry::exact_sum;
use plain::loaded::Loaded;
use plain::{Answers, Inserted, Mesh, Owned, Position, RightRules, Rules};

/// A record with tables of its own.
#[derive(Clone, Debug, PartialEq, Eq)]
pub struct Kit {
    pub mesh: Mesh,
    pub tables: Owned,
}

impl Kit {
    pub fn started(sides: Position) -> Kit {
        let mut tables = Owned::with_room(40, 400);
        let started = plain::start(sides, &mut tables.lend());
        assert_eq!(started.refusal, 0);
        Kit {
            mesh: started.mesh,
            tables,
        }
    }

    pub fn insert(&mut self, rules: &dyn Rules, answers: Answers, p: Position) -> Inserted {
        let answer = plain::insert_with(rules, self.mesh, &mut self.tables.lend(), answers, p);
        assert_eq!(answer.refusal, 0);
        self.mesh = answer.mesh;
        answer
    }

    /// The box 4, 4, 4 with these nodes put in by a build, every answer yes.
    pub fn with(rules: &dyn Rules, nodes: &[Position]) -> Kit {
        let mut kit = Kit::started([4; 3]);
        for &p in nodes {
            kit.insert(rules, Answers::Given(&[1; 64]), p);
        }
        kit
    }

    /// A box with these nodes put in by a build's sphere test.
    pub fn grown(rules: &dyn Rules, sides: Position, nodes: &[Position]) -> Kit {
        let mut kit = Kit::started(sides);
        for &p in nodes {
            kit.insert(rules, Answers::SphereTest, p);
        }
        kit
    }

    /// The box 4, 4, 4 with these nodes put in by the sphere test.
    pub fn measured(nodes: &[Position]) -> Kit {
        Kit::grown(&RightRules, [4; 3], nodes)
    }

    /// The box 4, 4, 4 in which one point has this correction on each axis, and the others have 0.
    pub fn corrected(point: u32, number: i32) -> Kit {
        let mut kit = Kit::started([4; 3]);
        assert_eq!(kit.set(&RightRules, point, [number; 3]), 0);
        kit
    }

    /// The refusal of a setting, or 0.
    pub fn set(&mut self, rules: &dyn Rules, point: u32, numbers: Correction) -> u8 {
        plain::set_correction_with(rules, self.mesh, &mut self.tables.lend(), point, numbers)
    }

    /// What a build reads on the first axis, or a refusal.
    pub fn correction(&mut self, rules: &dyn Rules, p: Position) -> Result<i32, u8> {
        let answer = plain::correction_with(rules, self.mesh, &mut self.tables.lend(), p);
        match answer.refusal {
            0 => Ok(answer.x),
            refusal => Err(refusal),
        }
    }

    pub fn loaded(&mut self) -> Loaded<'static> {
        Loaded::load(&RightRules, self.mesh, &self.tables.lend())
    }

    /// Of how many cells does the sphere have a point strictly inside?
    pub fn spheres_with_a_point(&mut self) -> usize {
        let mesh = self.loaded();
        let has_a_point = |&c: &usize| {
            let corners = mesh.positions(c);
            mesh.points.iter().any(|&p| exact_sum(corners, p) > 0)
        };
        mesh.cells().into_iter().filter(has_a_point).count()
    }

    pub fn is_mesh(&mut self) -> bool {
        plain::check(self.mesh, &mut self.tables.lend())
    }

    pub fn volumes(&mut self) -> Vec<i128> {
        let mesh = self.loaded();
        mesh.cells().into_iter().map(|c| mesh.volume(c)).collect()
    }

    pub fn has_corner(&self, point: u16) -> bool {
        self.tables.corners[..4 * self.mesh.used as usize].contains(&point)
    }

    /// The cell in which a build locates a position, and its corners, sorted upward.
    pub fn located(&mut self, rules: &dyn Rules, p: Position) -> (u32, [u16; 4]) {
        let answer = plain::locate_with(rules, self.mesh, &mut self.tables.lend(), p);
        assert_eq!(answer.refusal, 0);
        let mut corners = self.tables.corners.as_chunks().0[answer.cell as usize];
        corners.sort();
        (answer.cell, corners)
    }

    /// The same cells, two of them with each other's number.
    pub fn swapped(&self, a: u16, b: u16) -> Kit {
        let mut kit = self.clone();
        for table in [&mut kit.tables.corners, &mut kit.tables.neighbours] {
            table.as_chunks_mut::<4>().0.swap(a.into(), b.into());
        }
        for entry in &mut kit.tables.neighbours[..4 * self.mesh.used as usize] {
            *entry = match *entry {
                c if c == a => b,
                c if c == b => a,
                c => c,
            };
        }
        kit
    }

    /// The same cells, the last three places of one of them turned.
    pub fn turned(&self, c: usize) -> Kit {
        let mut kit = self.clone();
        for table in [&mut kit.tables.corners, &mut kit.tables.neighbours] {
            table[4 * c + 1..4 * c + 4].rotate_left(1);
        }
        kit
    }
}
