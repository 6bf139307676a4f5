//! The proved page, as the library has it, compared with the one here.

use crate::answers::Answers;
use crate::differ::Difference;
use crate::draw_cells::random_cells;
use crate::library::PageLibrary;
use crate::limits::{number, CELLS, GREATEST_CELL, TORN_CELL};
use crate::met::Accepted;
use crate::page::{page, LINE_LENGTH, PAGE_ROWS};
use crate::page_lists::{every_cell, long, places, random_call, random_length, wraps_onto_row, PageCall, LONG_CELLS, STEPS};
use crate::random::Random;
use crate::report::{Outcome, Replay};
use crate::threads::Amount;
use crate::written::{written, Written};
use std::fmt;
use std::mem::replace;

/// Bytes of a full page.
const FULL: usize = PAGE_ROWS * LINE_LENGTH;

/// Calls on each random record.
const CALLS: u64 = 10;

/// From so many random calls on, every answer must have come.
const ENOUGH: u64 = 1_000;

/// The answers that came, how many calls were for a page of which 60 times the number wraps onto a row, and the pages that
/// were written.
#[derive(Clone, Copy)]
pub struct Answered {
    answers: Answers<5>,
    wrapped: u64,
    written: Accepted,
}

impl Default for Answered {
    fn default() -> Answered {
        Answered { answers: Answers::of([0, 12, 30, 31, 32]), wrapped: 0, written: Accepted::default() }
    }
}

impl Answered {
    /// A call and its answer, which is one of those that a page can have, with the page's cells.
    pub fn call(&mut self, call: &PageCall, answer: u8, cells: &[u16]) {
        self.answers.add(answer);
        self.wrapped += u64::from(wraps_onto_row(call));
        if answer == 0 {
            self.written.add(cells);
        }
    }

    /// Whether every answer came, in calls enough, a page that wraps, and a torn cell on a page.
    pub fn all_there(&self) -> Result<(), String> {
        if self.answers.calls() < ENOUGH {
            return Ok(());
        }
        self.answers.all_there("pages")?;
        if self.wrapped == 0 {
            return Err("pages: none wraps onto a row".into());
        }
        self.written.all_there("pages", true)
    }
}

impl fmt::Display for Answered {
    fn fmt(&self, out: &mut fmt::Formatter) -> fmt::Result {
        let Answered { answers, wrapped, written } = self;
        let calls = answers.calls();
        write!(out, "{calls} calls, {wrapped} for a page that wraps onto a row; answers  {answers}; written {written}")
    }
}

/// The library to be compared, and what was answered so far.
struct Compared<'a> {
    library: &'a dyn PageLibrary,
    answered: Answered,
}

impl Compared<'_> {
    /// One call on the front of these cells. A difference comes with the call.
    fn call(&mut self, cells: &mut [u16], call: &PageCall) -> Result<(), String> {
        let kept = call.bad.map(|(at, cell)| (at, replace(&mut cells[at], cell)));
        let (answer, found) = difference(self.library, &cells[..call.cells], call.page, call.length);
        self.answered.call(call, answer, &cells[places(call.cells, call.page)]);
        if let Some((at, cell)) = kept {
            cells[at] = cell;
        }
        found.map_or(Ok(()), |text| Err(format!("{call:?}: {text}")))
    }

    /// Random records of 0 to 200 rows, with random calls.
    fn random_pages(&mut self, random: &mut Random, records: u64) -> Result<(), String> {
        for _ in 0..records {
            let length = random_length(random);
            let mut cells = random_cells(random, length + 1);
            for _ in 0..CALLS {
                self.call(&mut cells, &random_call(random, length))?;
            }
        }
        Ok(())
    }

    /// Records of about 100,000 rows.
    fn long_pages(&mut self, random: &mut Random) -> Result<(), String> {
        let mut cells = random_cells(random, LONG_CELLS);
        long().iter().try_for_each(|call| self.call(&mut cells, call))
    }

    /// Every legal cell at every place of a line, in orders that show a shade which depends on the cell before.
    fn legal_cells(&mut self) -> Result<(), String> {
        for step in STEPS {
            let mut all = every_cell(step);
            let cells = all.len();
            for _ in 0..CELLS {
                for page in 0..cells.div_ceil(PAGE_ROWS * CELLS) as u64 {
                    self.call(&mut all, &PageCall { cells, page, bad: None, length: FULL })?;
                }
                all.rotate_right(1);
            }
        }
        Ok(())
    }

    /// Every other number once on a page of legal cells, the first line of which is torn.
    fn illegal_cells(&mut self) -> Result<(), String> {
        let mut all = every_cell(1);
        let cells = all.len();
        for cell in GREATEST_CELL + 1..TORN_CELL {
            let at = usize::from(cell) % (PAGE_ROWS * CELLS);
            self.call(&mut all, &PageCall { cells, page: 0, bad: Some((at, cell)), length: FULL })?;
        }
        Ok(())
    }
}

/// Writing a page: its number, and what differs.
fn difference(library: &dyn PageLibrary, record: &[u16], p: u64, length: usize) -> (u8, Difference) {
    let here = |buffer: &mut [u8]| page(record, p, buffer);
    let there = |buffer: &mut [u8], count: &mut u64| library.write_page(record, p, buffer, count);
    let name = |at| format!("buffer[{at}] (line {}, byte {})", at / LINE_LENGTH, at % LINE_LENGTH);
    let Written { done, found, .. } = written("page", length, here, there, name);
    (number(&done), found)
}

/// Pages of so many random records, of records of about 100,000 rows, and with every cell. A report leaves out the record's
/// cells, as the seed gives them again.
pub fn pages(library: &dyn PageLibrary, replay: &Replay, amount: Amount, records: u64) -> Outcome {
    let mut random = amount.random();
    let failed = |text: String| replay.failed("pages", amount.seed, &text);
    let fresh = || Compared { library, answered: Answered::default() };
    let (mut drawn, mut long, mut cells) = (fresh(), fresh(), fresh());
    // first, so that the report on a wrong shade is the same for every seed
    cells.legal_cells().map_err(failed)?;
    drawn.random_pages(&mut random, records).map_err(failed)?;
    drawn.answered.all_there()?;
    long.long_pages(&mut random).map_err(failed)?;
    cells.illegal_cells().map_err(failed)?;
    let (drawn, long, cells) = (drawn.answered, long.answered, cells.answered);
    Ok(format!("{records} random records: {drawn}\n  99,999 to 100,001 rows: {long}\n  every number as a cell: {cells}"))
}
