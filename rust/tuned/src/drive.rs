//! The cells on a drive: one pass over the cells, by codes of their corners, and volumes for the few that these leave.

use plain::{in_box, Counted, Mesh, Position, Tables, NONE, POINT_LIMIT};

use crate::check::{mesh_refusal, used};
use crate::geometry::{offset, sides};

pub fn drive_cells(
    mesh: Mesh,
    tables: &mut Tables,
    ends: [Position; 2],
    cells: &mut [u16],
) -> Counted {
    tables.work.fill(0);
    let refusal = mesh_refusal(mesh, tables, usize::MAX);
    if refusal != 0 {
        return Counted::refused(refusal);
    }
    if !ends.iter().all(|&end| in_box(mesh.sides(), end)) {
        return Counted::refused(4);
    }
    let (points, corners, _) = used(mesh, tables);
    let codes = Codes::new(points, ends);
    let on_drive =
        |&(_, cell): &(u16, &[u16; 4])| codes.may_share(cell) && shares(points, cell, ends);
    let listed = (0..).zip(corners).filter(on_drive).map(|(c, _)| c);
    let listed: Vec<u16> = listed.collect();
    let Some(output) = cells.get_mut(..listed.len()) else {
        return Counted::refused(10);
    };
    output.copy_from_slice(&listed);
    Counted {
        refusal: 0,
        count: listed.len() as u32,
    }
}

/// For each point twelve bits: beyond the segment's least and greatest coordinate on each axis, and on either side of the three
/// planes through its line that are parallel to an axis. Where the four corners of a cell share a bit, a plane is between it and
/// the segment.
struct Codes([u16; POINT_LIMIT]);

impl Codes {
    fn new(points: &[Position], [a, b]: [Position; 2]) -> Codes {
        let mut codes = [0; POINT_LIMIT];
        let along = offset(b, a);
        for (code, &q) in codes.iter_mut().zip(points) {
            let off = offset(q, a);
            let mut bits = 0;
            for axis in 0..3 {
                let (least, greatest) = (a[axis].min(b[axis]), a[axis].max(b[axis]));
                let (u, v) = ((axis + 1) % 3, (axis + 2) % 3);
                let turn = along[u] * off[v] - along[v] * off[u];
                bits = bits << 4
                    | (q[axis] < least) as u16
                    | ((q[axis] > greatest) as u16) << 1
                    | ((turn < 0) as u16) << 2
                    | ((turn > 0) as u16) << 3;
            }
            *code = bits;
        }
        Codes(codes)
    }

    /// Of an entry of a mesh, where the first corner tells whether it is freed.
    #[inline]
    fn may_share(&self, cell: &[u16; 4]) -> bool {
        let code = |i: usize| self.0[cell[i] as usize % POINT_LIMIT];
        code(0) & code(1) & code(2) & code(3) == 0 && cell[0] != NONE
    }
}

/// Where A is outside of face i and B outside of face j, the segment enters at −a_i / (b_i − a_i) and leaves at a_j / (a_j − b_j),
/// which compare as a_i × b_j and a_j × b_i do. It shares a place with the cell where it enters no half-space after it leaves
/// another. Not inlined: few cells get here.
#[inline(never)]
fn shares(points: &[Position], cell: &[u16; 4], ends: [Position; 2]) -> bool {
    let [a, b] = ends.map(|end| sides(cell.map(|point| offset(points[point as usize], end))));
    if (0..4).any(|i| a[i] < 0 && b[i] < 0) {
        return false;
    }
    let product = |x: i64, y: i64| i128::from(x) * i128::from(y);
    let is_after = |i: usize, j: usize| product(a[i], b[j]) > product(a[j], b[i]);
    let outside_of = |v: [i64; 4]| (0..4).filter(move |&i| v[i] < 0);
    !outside_of(a).any(|i| outside_of(b).any(|j| is_after(i, j)))
}
