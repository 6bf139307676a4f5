//! A page: recorded rows as lines of text, for print.

use crate::limits::{ask, legal, Refusal, Row, TORN_CELL};

/// Rows of a page. The record's last page may have fewer.
pub const PAGE_ROWS: usize = 60;

/// Bytes of a line: 5 columns for the row's number, a space, a digit or a hyphen for each cell, the line end.
pub const LINE_LENGTH: usize = 23;

/// The most rows of a record that has pages: 5 columns hold no more numbers.
pub const MOST_ROWS: usize = 100_000;

/// The first cells of shades 1 to 9, so that a shade takes no division.
pub const FIRST_CELLS: [u16; 9] = [410, 820, 1229, 1639, 2048, 2458, 2868, 3277, 3687];

/// The shade of a cell, 0 to 9: how many of the first cells are at most the cell. A torn cell has none.
pub fn shade(cell: u16) -> Option<u8> {
    (cell != TORN_CELL).then(|| FIRST_CELLS.iter().map(|first| u8::from(*first <= cell)).sum())
}

/// What is printed for a legal cell.
fn printed(cell: u16) -> char {
    shade(cell).map_or('-', |shade| char::from(b'0' + shade))
}

/// The line of a row. Its cells are legal, so that each is one character.
fn line(number: usize, row: &Row) -> String {
    let shades: String = row.iter().map(|cell| printed(*cell)).collect();
    format!("{number:>5} {shades}\n")
}

/// Writes page p of the record at the front of the buffer and gives its length. The bytes behind it keep their contents.
pub fn page(record: &[u16], p: u64, buffer: &mut [u8]) -> Result<usize, Refusal> {
    let (rows, rest) = record.as_chunks();
    ask(rest.is_empty() && rows.len() <= MOST_ROWS, Refusal::PageRecord)?;
    // 60 times p may not fit, so it is formed behind the question whether there is such a page
    let p = usize::try_from(p).map_err(|_| Refusal::NoPage)?;
    let shown = rows.chunks(PAGE_ROWS).nth(p).ok_or(Refusal::NoPage)?;
    ask(shown.iter().all(legal), Refusal::IllegalCell)?;
    let length = shown.len() * LINE_LENGTH;
    let place = buffer.get_mut(..length).ok_or(Refusal::PageBufferShort)?;
    for ((number, row), bytes) in (p * PAGE_ROWS..).zip(shown).zip(place.chunks_exact_mut(LINE_LENGTH)) {
        bytes.copy_from_slice(line(number, row).as_bytes());
    }
    Ok(length)
}
