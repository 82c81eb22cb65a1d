//! Random correction tables, settings, and tables that are wrong.

use plain::corrections::Correction;
use plain::random::Random;
use plain::{Mesh, Owned, CORRECTION_LIMIT, POINT_LIMIT};

use crate::call::Call;

const WRONG: [i32; 6] = [1_001, -1_001, 1_002, -65_536, i32::MIN, i32::MAX];

/// For so many points, with entries to spare; any content.
pub fn table(random: &mut Random, points: usize) -> Vec<i32> {
    let any = random.bits() as i32;
    let content = random.pick(&[0, 7, 1_000, -1_001, any]);
    let spare = random.pick(&[0, 0, 1, 5]);
    vec![content; 3 * points.min(POINT_LIMIT) + spare]
}

/// Small ones, so that sums are often a half; or any.
fn in_range(random: &mut Random) -> i32 {
    let limit = random.pick(&[1, 3, 3, 10, CORRECTION_LIMIT]);
    let any = random.below(2 * limit as u64 + 1) as i32 - limit;
    random.pick(&[any, any, any, limit, -limit])
}

fn three(random: &mut Random) -> Correction {
    [0; 3].map(|_| in_range(random))
}

/// All points of a mesh get others.
pub fn scatter(random: &mut Random, mesh: Mesh, tables: &mut Owned) {
    let points = tables.corrections.as_chunks_mut().0.iter_mut();
    for point in points.take(mesh.points as usize) {
        *point = three(random);
    }
}

/// Of a point of the mesh, the next one, or a number that is none; and now and then a number out of range.
pub fn set_correction(random: &mut Random, mesh: Mesh) -> Call {
    let (points, any) = (mesh.points, random.bits() as u32);
    let point = random.below(u64::from(points)) as u32;
    let last = points.saturating_sub(1);
    let wild = random.pick(&[points, points, points + 1, point | 1 << 16, u32::MAX, any]);
    let mut numbers = three(random);
    if random.one_in(5) {
        numbers[random.index(3)] = random.pick(&WRONG);
    }
    Call::SetCorrection(random.pick(&[point, point, point, last, wild]), numbers)
}

/// A number out of range at a point of the mesh, mostly its first or last entry, or just beyond; or a table that is short, by an
/// entry or more.
pub fn damage(random: &mut Random, mesh: Mesh, tables: &mut Owned) {
    let wanted = 3 * tables.lend().point_capacity();
    if random.one_in(4) {
        let (short, any) = (wanted.saturating_sub(1), random.index(wanted));
        return tables
            .corrections
            .truncate(random.pick(&[short, short, any]));
    }
    let standing = (mesh.points as usize).saturating_mul(3);
    let any = random.index(standing.min(wanted));
    let place = random.pick(&[0, any, any, standing.wrapping_sub(1), standing]);
    if let Some(entry) = tables.corrections.get_mut(place) {
        *entry = random.pick(&WRONG);
    }
}
