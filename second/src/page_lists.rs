//! Calls for pages: at every edge of the record, the page's number, the page's cells and the buffer.

use crate::draw_cells::{random_illegal, ILLEGAL_EDGES};
use crate::limits::{CELLS, GREATEST_CELL, TORN_CELL};
use crate::page::{LINE_LENGTH, MOST_ROWS, PAGE_ROWS};
use crate::random::Random;
use std::ops::Range;

/// A call for a page of a record, which is the front of longer cells, all legal.
#[derive(Clone, Copy, Debug)]
pub struct PageCall {
    /// Cells of the record.
    pub cells: usize,
    /// The page.
    pub page: u64,
    /// A cell to be put in before the call, with its place, which may be the one behind the record.
    pub bad: Option<(usize, u16)>,
    /// Bytes of the buffer.
    pub length: usize,
}

/// The places of the page's cells in a record of so many; none where there is no such page.
pub fn places(cells: usize, page: u64) -> Range<usize> {
    let most = PAGE_ROWS * CELLS;
    let start = page.saturating_mul(most as u64).min(cells as u64) as usize;
    start..(start + most).min(cells)
}

/// Bytes of the page.
fn bytes(cells: usize, page: u64) -> usize {
    places(cells, page).len() / CELLS * LINE_LENGTH
}

/// Whether 60 times the page does not fit, and what is left of the product is a row of the record.
pub fn wraps_onto_row(call: &PageCall) -> bool {
    let (first, wraps) = call.page.overflowing_mul(PAGE_ROWS as u64);
    wraps && first < (call.cells / CELLS) as u64
}

/// Pages that no record has, though what 16, 32 or 64 bits hold of them, or of 60 times them, may be a page or a row.
pub fn far_pages() -> Vec<u64> {
    let mut starts = vec![1 << 16, 1 << 31, 1 << 32, u64::MAX - 2];
    for bits in [32, 64] {
        // the least numbers with a product of at least `times` times 2 to the power of `bits`
        starts.extend((1..60u128).map(|times| (times << bits).div_ceil(60) as u64));
    }
    starts.iter().flat_map(|start| (0..3).map(move |more| start + more)).collect()
}

/// Cells of a record at the edges of question 30.
const LONG: [usize; 9] = [
    MOST_ROWS * CELLS - CELLS - 1,
    MOST_ROWS * CELLS - CELLS,
    MOST_ROWS * CELLS - CELLS + 1,
    MOST_ROWS * CELLS - 1,
    MOST_ROWS * CELLS,
    MOST_ROWS * CELLS + 1,
    MOST_ROWS * CELLS + CELLS - 1,
    MOST_ROWS * CELLS + CELLS,
    MOST_ROWS * CELLS + CELLS + 1,
];

/// Cells for all of these records, and one behind the longest.
pub const LONG_CELLS: usize = MOST_ROWS * CELLS + CELLS + 2;

/// Calls on records of about 100,000 rows: every page of the longest that has pages; of each record far pages, and pages at
/// both ends and in the middle with bad cells and buffers at their edges.
pub fn long() -> Vec<PageCall> {
    let mut all = vec![];
    for cells in LONG {
        let whole = cells == MOST_ROWS * CELLS;
        let length = PAGE_ROWS * LINE_LENGTH;
        let pages = far_pages().into_iter().chain(if whole { 0..1668 } else { 0..0 });
        all.extend(pages.map(|page| PageCall { cells, page, bad: None, length }));
        for page in [0, 1, 832, 1665, 1666, 1667, 1668] {
            for bad in bad_cells(cells, page) {
                let lengths = lengths(cells, page).into_iter();
                all.extend(lengths.map(|length| PageCall { cells, page, bad, length }));
            }
        }
    }
    all
}

/// No bad cell, and bad ones first and last on the page, just before and just behind it.
fn bad_cells(cells: usize, page: u64) -> Vec<Option<(usize, u16)>> {
    let Range { start, end } = places(cells, page);
    let beside = [Some(start), end.checked_sub(1), start.checked_sub(1), Some(end)];
    let bad = |at| ILLEGAL_EDGES.map(|cell| Some((at, cell)));
    let bad = beside.into_iter().flatten().flat_map(bad);
    [None].into_iter().chain(bad).collect()
}

/// Lengths of a buffer: none, a byte too few, just enough, a byte or a line more, and enough for every page.
fn lengths(cells: usize, page: u64) -> [usize; 6] {
    let bytes = bytes(cells, page);
    [0, bytes.saturating_sub(1), bytes, bytes + 1, bytes + LINE_LENGTH, PAGE_ROWS * LINE_LENGTH]
}

/// Steps from a whole cell of a record to the next one: cells that rise, that fall, and that are over three shades apart. Above
/// 4095 they begin again at 0.
pub const STEPS: [u16; 3] = [1, GREATEST_CELL, 1367];

/// A line of torn cells, then every whole cell once, in these steps. A step is odd, as an even one leaves cells out.
pub fn every_cell(step: u16) -> Vec<u16> {
    let whole = |at: u16| at.wrapping_mul(step) % (GREATEST_CELL + 1);
    [TORN_CELL; CELLS].into_iter().chain((0..=GREATEST_CELL).map(whole)).collect()
}

/// Cells of a random record: 0 to 200 rows, now and then 1 to 15 cells more.
pub fn random_length(random: &mut Random) -> usize {
    let rows = if random.once_in(4) { random.one_of(&[0, 1, 59, 60, 61, 119, 120, 121]) } else { random.below(201) };
    let more = if random.once_in(8) { 1 + random.below(CELLS - 1) } else { 0 };
    rows * CELLS + more
}

/// A call on a record of so many cells.
pub fn random_call(random: &mut Random, cells: usize) -> PageCall {
    let pages = cells.div_ceil(PAGE_ROWS * CELLS) as u64;
    let page = match random.below(8) {
        0 => random.one_of(&far_pages()),
        1 => pages + random.below(2) as u64,
        2 => pages.saturating_sub(1),
        _ => random.below(pages.max(1) as usize) as u64,
    };
    let bad = if random.once_in(2) { None } else { random_bad(random, cells, page) };
    let most = bytes(cells, page);
    let length = if random.once_in(4) { random.below(most + 100) } else { random.one_of(&lengths(cells, page)) };
    PageCall { cells, page, bad, length }
}

/// A bad cell at an edge of the page, anywhere on it, or anywhere in the record.
fn random_bad(random: &mut Random, cells: usize, page: u64) -> Option<(usize, u16)> {
    let places = places(cells, page);
    let cell = random_illegal(random);
    match random.below(4) {
        0 if !places.is_empty() => Some((places.start + random.below(places.len()), cell)),
        1 if cells > 0 => Some((random.below(cells), cell)),
        _ => random.one_of(&bad_cells(cells, page)),
    }
}
