//! Cells as bytes, low byte first: in frames, in files and in the trial's input.

use crate::limits::{Row, CELLS};

/// The cells that these bytes are. A byte behind the last whole cell is left out.
pub fn cells(bytes: &[u8]) -> impl Iterator<Item = u16> + '_ {
    bytes.as_chunks().0.iter().map(|pair| u16::from_le_bytes(*pair))
}

/// The row that these bytes are.
pub fn row(bytes: &[u8]) -> Row {
    let mut row = [0; CELLS];
    row.iter_mut().zip(cells(bytes)).for_each(|(cell, read)| *cell = read);
    row
}

/// Puts these cells in place of as many bytes as they are.
pub fn put(bytes: &mut [u8], cells: &[u16]) {
    bytes.as_chunks_mut().0.iter_mut().zip(cells).for_each(|(pair, cell)| *pair = cell.to_le_bytes());
}
