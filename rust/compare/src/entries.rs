//! Cells and freed entries in another order, and freed entries that are wrong.

use plain::loaded::Loaded;
use plain::random::Random;
use plain::{Mesh, Owned, RightRules, NONE};

use crate::generate::wrong;

/// The numbers of the entries below the used length, whatever tables these are.
pub struct Entries {
    pub cells: Vec<usize>,
    pub freed: Vec<usize>,
    /// From the record's first number on, as far as it goes.
    pub chain: Vec<usize>,
}

impl Entries {
    pub fn of(mesh: Mesh, tables: &Owned) -> Entries {
        // The point count may be any.
        let record = Mesh { points: 0, ..mesh };
        let loaded = Loaded::load(&RightRules, record, &tables.clone().lend());
        let freed = (0..loaded.entries.len()).filter(|&c| loaded.is_freed(c));
        Entries {
            cells: loaded.cells(),
            freed: freed.collect(),
            chain: loaded.chain().numbers,
        }
    }
}

/// Leaves a mesh a mesh that no history of insertions gives: a cell's places turned, two entries' numbers swapped, freed ones
/// among them, or a freed entry more or fewer.
pub fn rearrange(random: &mut Random, mesh: &mut Mesh, tables: &mut Owned) {
    let Entries { cells, freed, .. } = Entries::of(*mesh, tables);
    // A wrong build may have left no mesh.
    if cells.is_empty() || mesh.used as usize > tables.lend().cell_capacity() {
        return;
    }
    let (any, cell) = (random.index(mesh.used as usize), random.pick(&cells));
    match (random.below(6), freed.is_empty()) {
        (0..2, _) => turn(random, tables, cell),
        (2, false) => swap(mesh, tables, cell, random.pick(&freed)),
        (3, false) => drop_freed(mesh, tables, random.pick(&freed)),
        (4, _) => add_freed(random, mesh, tables),
        _ => swap(mesh, tables, any, random.index(mesh.used as usize)),
    }
}

/// Three places turned: an even permutation.
fn turn(random: &mut Random, tables: &mut Owned, cell: usize) {
    let kept = random.index(2);
    for table in [&mut tables.corners, &mut tables.neighbours] {
        table[4 * cell + kept..4 * cell + kept + 3].rotate_left(1);
    }
}

fn swap(mesh: &mut Mesh, tables: &mut Owned, a: usize, b: usize) {
    for table in [&mut tables.corners, &mut tables.neighbours] {
        table.as_chunks_mut::<4>().0.swap(a, b);
    }
    let renamed = |c: usize| match c {
        c if c == a => b,
        c if c == b => a,
        c => c,
    };
    for entry in &mut tables.neighbours[..4 * mesh.used as usize] {
        *entry = renamed(*entry as usize) as u16;
    }
    mesh.chain = renamed(mesh.chain as usize) as u32;
}

/// At the end of the table, and anywhere on the chain.
fn add_freed(random: &mut Random, mesh: &mut Mesh, tables: &mut Owned) {
    let c = mesh.used as usize;
    if c >= tables.lend().cell_capacity() {
        return;
    }
    let chain = Entries::of(*mesh, tables).chain;
    tables.corners[4 * c..4 * c + 4].fill(NONE);
    tables.neighbours[4 * c..4 * c + 4].fill(NONE);
    match random.index(chain.len() + 1).checked_sub(1) {
        None => {
            tables.neighbours[4 * c] = mesh.chain as u16;
            mesh.chain = c as u32;
        }
        Some(place) => {
            let before = chain[place];
            tables.neighbours[4 * c] = tables.neighbours[4 * before];
            tables.neighbours[4 * before] = c as u16;
        }
    }
    mesh.used += 1;
}

/// The last entry goes, with the number of a freed one.
fn drop_freed(mesh: &mut Mesh, tables: &mut Owned, freed: usize) {
    let last = mesh.used as usize - 1;
    swap(mesh, tables, freed, last);
    unlink(mesh, tables, last);
    mesh.used -= 1;
}

/// Takes an entry off the chain, if it is there.
fn unlink(mesh: &mut Mesh, tables: &mut Owned, c: usize) {
    let next = tables.neighbours[4 * c];
    if mesh.chain == c as u32 {
        mesh.chain = next.into();
    }
    for before in Entries::of(*mesh, tables).freed {
        let link = &mut tables.neighbours[4 * before];
        if *link == c as u16 {
            *link = next;
        }
    }
}

/// Changes a mesh so that it is one no more, in most cases only by its freed entries: the chain, a freed entry or one that is
/// nearly freed, or a count.
pub fn damage(random: &mut Random, mesh: &mut Mesh, tables: &mut Owned) {
    let Entries {
        cells,
        freed,
        chain,
    } = Entries::of(*mesh, tables);
    let (Some(&cell), Some(&one)) = (
        cells.get(random.index(cells.len())),
        freed.get(random.index(freed.len())),
    ) else {
        return damage_counts(random, mesh, tables);
    };
    let other = random.pick(&freed);
    let last = chain.last().copied().unwrap_or(one);
    let numbers = [other, one, cell, mesh.used as usize, NONE as usize, 65_534];
    let number = random.pick(&numbers) as u16;
    match random.below(12) {
        0 => mesh.chain = wrong_first(random, number, mesh.chain),
        // A circle, a chain that goes astray, or one that ends early.
        1..3 => tables.neighbours[4 * last] = number,
        3 => tables.neighbours[4 * one] = number,
        4..6 => unlink(mesh, tables, one),
        6 => tables.neighbours[4 * one + 1 + random.index(3)] = number,
        7 => unfree(random, mesh, tables, one),
        8 => free(random, mesh, tables, cell),
        9 => tables.neighbours[4 * cell + random.index(4)] = one as u16,
        _ => damage_counts(random, mesh, tables),
    }
}

/// Another number than the chain's first, or one that is the same in its low 16 bits.
fn wrong_first(random: &mut Random, number: u16, first: u32) -> u32 {
    let high = random.pick(&[1, 2, 65_535]) << 16;
    random.pick(&[number.into(), first | high, u32::from(number) | high])
}

/// Some or all corners of a freed entry are points, and now and then it is off the chain.
fn unfree(random: &mut Random, mesh: &mut Mesh, tables: &mut Owned, freed: usize) {
    let places = 1 + random.below(15);
    for i in (0..4).filter(|i| places >> i & 1 == 1) {
        tables.corners[4 * freed + i] = random.index(mesh.points as usize) as u16;
    }
    if random.one_in(3) {
        unlink(mesh, tables, freed);
    }
    mesh.cells = mesh.cells.wrapping_add(random.below(2) as u32);
}

/// Some or all corners of a cell are 65,535, and now and then it is on the chain.
fn free(random: &mut Random, mesh: &mut Mesh, tables: &mut Owned, cell: usize) {
    let places = random.pick(&[1, 3, 7, 14, 15, 15]);
    for i in (0..4).filter(|i| places >> i & 1 == 1) {
        tables.corners[4 * cell + i] = NONE;
    }
    if random.one_in(2) {
        let links = [mesh.chain as u16, NONE, NONE, NONE];
        tables.neighbours[4 * cell..4 * cell + 4].copy_from_slice(&links);
        mesh.chain = cell as u32;
    }
    mesh.cells = mesh.cells.wrapping_sub(random.below(2) as u32);
}

/// The cell count or the used length is another; the entry behind may look freed.
fn damage_counts(random: &mut Random, mesh: &mut Mesh, tables: &mut Owned) {
    let used = mesh.used as usize;
    if random.one_in(3) && 4 * used + 4 <= tables.corners.len().min(tables.neighbours.len()) {
        tables.corners[4 * used..4 * used + 4].fill(NONE);
        tables.neighbours[4 * used..4 * used + 4].fill(NONE);
    }
    let field = match random.one_in(2) {
        true => &mut mesh.cells,
        false => &mut mesh.used,
    };
    *field = wrong(random, *field, used as u32);
}
