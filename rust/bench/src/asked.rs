//! How often an insertion by the sphere test has to work out the exact sum.

use plain::cavity::Cavity;
use plain::geometry::float_sum;
use plain::loaded::Loaded;
use plain::{Answers, Owned, Position, RightRules};

use crate::nodes::Set;

/// Over all nodes of a list: of how many cells the archive works out the sphere test, and at how many of these the float sum is
/// within 2^39, so that it does not tell and the exact sum is worked out too.
#[derive(Default)]
pub struct Asked {
    pub cells: usize,
    pub close: usize,
}

pub fn asked(set: &Set) -> Asked {
    let mut tables = Owned::largest();
    let mut mesh = tuned::start(set.sides, &mut tables.lend()).mesh;
    let mut asked = Asked::default();
    for &p in &set.nodes {
        asked.count(&Loaded::load(&RightRules, mesh, &tables.lend()), p);
        mesh = tuned::insert(mesh, &mut tables.lend(), p).mesh;
    }
    asked
}

impl Asked {
    /// The grown cavity and its neighbours, each cell once. Base cells too: they are in whatever they answer, but the least T is
    /// over them as well, and the archive takes T from the same test.
    fn count(&mut self, mesh: &Loaded, p: Position) {
        let mut cavity = Cavity::base(mesh, p);
        cavity.grow(Answers::SphereTest);
        let is_asked = |c: usize| {
            let mut across = (0..4).filter_map(|i| mesh.across(c, i));
            cavity.in_cavity[c] || across.any(|u| cavity.in_cavity[u])
        };
        for c in mesh.cells() {
            if is_asked(c) {
                self.cells += 1;
                let t = float_sum(mesh.positions(c), p);
                self.close += usize::from(t.abs() <= 2f64.powi(39));
            }
        }
    }
}
