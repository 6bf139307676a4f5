//! Random cells, legal and illegal, and the cells at their edges: for supplies, frames, records and made-up links.

use crate::limits::{Row, CELLS, GREATEST_CELL, TORN_CELL};
use crate::random::Random;

/// The least and the greatest illegal cell.
pub const ILLEGAL_EDGES: [u16; 2] = [GREATEST_CELL + 1, TORN_CELL - 1];

/// The cells on both sides of both edges, legal and illegal.
pub const EDGES: [u16; 4] = [GREATEST_CELL, ILLEGAL_EDGES[0], ILLEGAL_EDGES[1], TORN_CELL];

/// How many numbers a cell that is not torn can read.
const WHOLE: usize = GREATEST_CELL as usize + 1;

/// How many of the numbers drawn for a cell stand for a torn one. About one row in five then has a torn cell.
const TORN: usize = 64;

/// A legal cell, now and then a torn one.
pub fn random_cell(random: &mut Random) -> u16 {
    let drawn = random.below(WHOLE + TORN);
    if drawn < WHOLE {
        drawn as u16
    } else {
        TORN_CELL
    }
}

/// So many legal cells.
pub fn random_cells(random: &mut Random, count: usize) -> Vec<u16> {
    (0..count).map(|_| random_cell(random)).collect()
}

/// A row of legal cells.
pub fn random_row(random: &mut Random) -> Row {
    [0; CELLS].map(|_: u16| random_cell(random))
}

/// Any illegal cell.
pub fn random_illegal(random: &mut Random) -> u16 {
    let [least, greatest] = ILLEGAL_EDGES;
    least + random.below(usize::from(greatest - least) + 1) as u16
}
