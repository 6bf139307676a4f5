//! The comparison of pages finds what is wrong in a library: here the library is the page of this crate.
//!
//! A variant is the right call with one thing done wrong before or after it, so that the code that is tested has no switch.

use second::library::PageLibrary;
use second::limits::{legal, legal_cell, number, Refusal, CELLS, TORN_CELL};
use second::met::torn;
use second::page::{page, FIRST_CELLS, LINE_LENGTH, MOST_ROWS, PAGE_ROWS};
use second::page_checks::{pages, Answered};
use second::page_lists::{every_cell, places, PageCall, STEPS};
use second::report::Replay;
use second::threads::Amount;

/// What is wrong.
#[derive(Clone, Copy, Debug, PartialEq)]
enum Wrong {
    Nothing,
    /// A page has 61 rows.
    Rows,
    /// Rows are numbered from 1.
    FromOne,
    /// The number stands at the left.
    Left,
    /// Zeros stand before the number.
    Zeros,
    /// The shade is rounded to the nearest.
    Rounded,
    /// The first cell of this shade is one too low.
    Low(usize),
    /// It is one too high.
    High(usize),
    /// The first cell of shade 5 is one too high at this place of a line alone. Every order has 2048 at the same place, so only the
    /// rotation brings it to this one.
    HighAt(usize),
    /// The table leaves the first cell of this shade out.
    LeftOut(usize),
    /// It stands behind the next one, and the count ends at the first that is above the cell.
    Swapped(usize),
    /// Only first cells below the cell count.
    Below,
    /// The table starts with 0, the first cell of shade 0.
    WithZero,
    /// The table ends with 4095, the greatest whole cell.
    WithGreatest,
    /// First cells are rounded down.
    Down,
    /// They are rounded to the nearest.
    Nearest,
    /// They are tenths of 4095.
    Of4095,
    /// Every shade has 410 cells.
    Equal,
    /// Within a line a shade is at most so much below the one before.
    Falls(u8),
    /// A torn cell is shown as the darkest shade.
    Shaded,
    /// Question 12 refuses a torn cell.
    Torn,
    /// Question 12 lets this number pass.
    Passes(u16),
    /// The last line has no line end.
    LastEnd,
    /// Question 12 is asked of the whole record.
    WholeRecord,
    /// Question 12 is asked of the row before the page, too.
    RowBefore,
    /// Question 12 is asked of the row behind the page, too.
    RowBehind,
    /// Question 12 is asked of the first cells of the rows alone.
    FirstCell,
    /// Question 32 is asked for 60 rows.
    FullPage,
    /// Question 32 lets a page pass that is one byte short.
    ByteShort,
    /// A page just past the end has no lines.
    EmptyPage,
    /// Question 31 is asked of a product that wraps.
    Wraps,
    /// The same in 32 bits.
    Wraps32,
    /// The page is cut to 32 bits.
    Cut,
    /// A record of 100,000 rows is refused.
    FewerRows,
    /// A record of 100,001 rows is not.
    MoreRows,
    /// Cells behind the last whole row are passed over.
    PartOfRow,
    /// Question 31 comes before 30.
    PageFirst,
    /// Question 32 comes before 12.
    BufferFirst,
    /// A refused page has a count of 60 lines.
    Count,
    /// The count of a refused page is left as it was.
    CountLeft,
    /// The count is one of lines.
    Lines,
    /// A refused page writes a byte.
    Refused,
    /// A page for which the buffer is too short writes the lines that it holds.
    Partly,
    /// A byte behind the page is written.
    Behind,
}

const ALL: [Wrong; 32] = [
    Wrong::Rows,
    Wrong::FromOne,
    Wrong::Left,
    Wrong::Zeros,
    Wrong::Rounded,
    Wrong::Shaded,
    Wrong::Torn,
    Wrong::Passes(TORN_CELL - 1),
    Wrong::Passes(4096),
    Wrong::Passes(30_000),
    Wrong::LastEnd,
    Wrong::WholeRecord,
    Wrong::RowBefore,
    Wrong::RowBehind,
    Wrong::FirstCell,
    Wrong::FullPage,
    Wrong::ByteShort,
    Wrong::EmptyPage,
    Wrong::Wraps,
    Wrong::Wraps32,
    Wrong::Cut,
    Wrong::FewerRows,
    Wrong::MoreRows,
    Wrong::PartOfRow,
    Wrong::PageFirst,
    Wrong::BufferFirst,
    Wrong::Count,
    Wrong::CountLeft,
    Wrong::Lines,
    Wrong::Refused,
    Wrong::Partly,
    Wrong::Behind,
];

/// What can be wrong with the table, and with the count in it.
fn shades() -> Vec<Wrong> {
    let each = (1..=9).flat_map(|shade| [Wrong::Low(shade), Wrong::High(shade), Wrong::LeftOut(shade)]);
    let tables = [Wrong::WithZero, Wrong::WithGreatest, Wrong::Down, Wrong::Nearest, Wrong::Of4095, Wrong::Equal];
    let counts = [Wrong::Below, Wrong::Falls(0), Wrong::Falls(1)];
    let others = (1..9).map(Wrong::Swapped).chain((0..CELLS).map(Wrong::HighAt));
    each.chain(others).chain(tables).chain(counts).collect()
}

/// Bytes of a full page.
const FULL: usize = PAGE_ROWS * LINE_LENGTH;

struct StandIn(Wrong);

impl StandIn {
    /// The right page of what the mistake makes of the call.
    fn of_another_call(&self, record: &[u16], p: u64, buffer: &mut [u8]) -> Result<usize, Refusal> {
        let sixty = PAGE_ROWS as u64;
        match self.0 {
            Wrong::Wraps => page(record, p.wrapping_mul(sixty) / sixty, buffer),
            Wrong::Wraps32 => page(record, u64::from(p.wrapping_mul(sixty) as u32) / sixty, buffer),
            Wrong::Cut => page(record, u64::from(p as u32), buffer),
            Wrong::MoreRows if record.len() == (MOST_ROWS + 1) * CELLS => page(&record[..MOST_ROWS * CELLS], p, buffer),
            Wrong::PartOfRow => page(record.as_chunks::<CELLS>().0.as_flattened(), p, buffer),
            _ => page(record, p, buffer),
        }
    }

    /// The number that the mistake gives for this one.
    fn answer(&self, record: &[u16], p: u64, length: usize, right: u8) -> u8 {
        let rows = record.as_chunks().0;
        let start = p.saturating_mul(PAGE_ROWS as u64).min(rows.len() as u64) as usize;
        let shown = (rows.len() - start).min(PAGE_ROWS);
        let cells = &record[places(record.len(), p)];
        let legal_but = |other: u16| cells.iter().all(|cell| legal_cell(*cell) || *cell == other);
        match (self.0, right) {
            (Wrong::Torn, 0 | 32) if torn(cells) => 12,
            (Wrong::Passes(other), 12) if legal_but(other) => 0,
            (Wrong::WholeRecord, 0 | 32) if !rows.iter().all(legal) => 12,
            (Wrong::RowBefore, 0 | 32) if start > 0 && !legal(&rows[start - 1]) => 12,
            (Wrong::RowBehind, 0 | 32) if rows.get(start + shown).is_some_and(|row| !legal(row)) => 12,
            (Wrong::EmptyPage, 31) if p.checked_mul(PAGE_ROWS as u64) == Some(rows.len() as u64) => 0,
            (Wrong::FullPage, 0) if length < FULL => 32,
            (Wrong::FewerRows, _) if rows.len() == MOST_ROWS => 30,
            (Wrong::PageFirst, 30) if shown == 0 => 31,
            (Wrong::BufferFirst, 12) if length < shown * LINE_LENGTH => 32,
            (Wrong::FirstCell, 12) if rows[start..start + shown].iter().all(|row| legal_cell(row[0])) => 0,
            (Wrong::ByteShort, 32) if length + 1 == shown * LINE_LENGTH => 0,
            _ => right,
        }
    }

    /// The table to count in: for a mistake in it or in the count, and for none, so that the count here is compared, too.
    fn table(&self) -> Option<Vec<u16>> {
        let mut table = FIRST_CELLS.to_vec();
        let firsts = |first: fn(u16) -> u16| (1..=9).map(first).collect();
        match self.0 {
            Wrong::Nothing | Wrong::Below => {}
            Wrong::Low(shade) => table[shade - 1] -= 1,
            Wrong::High(shade) => table[shade - 1] += 1,
            Wrong::HighAt(_) => table[4] += 1,
            Wrong::LeftOut(shade) => table = [&table[..shade - 1], &table[shade..]].concat(),
            Wrong::Swapped(shade) => table.swap(shade - 1, shade),
            Wrong::WithZero => table.insert(0, 0),
            Wrong::WithGreatest => table.push(4095),
            Wrong::Down => table = firsts(|shade| shade * 4096 / 10),
            Wrong::Nearest => table = firsts(|shade| (shade * 4096 + 5) / 10),
            Wrong::Of4095 => table = firsts(|shade| (shade * 4095).div_ceil(10)),
            Wrong::Equal => table = firsts(|shade| shade * 410),
            _ => return None,
        }
        Some(table)
    }

    /// Shades by this table for the marks of a line.
    fn count(&self, table: &[u16], cells: &[u16], marks: &mut [u8]) {
        for (at, (mark, cell)) in marks.iter_mut().zip(cells).enumerate() {
            let elsewhere = matches!(self.0, Wrong::HighAt(place) if place != at);
            if *cell != TORN_CELL && !elsewhere {
                let counts = |first: &&u16| **first < *cell || **first == *cell && !matches!(self.0, Wrong::Below);
                *mark = b'0' + table.iter().take_while(counts).count() as u8;
            }
        }
    }

    /// Each shade of a line's marks is raised where it would be more than so much below the one before.
    fn falls(marks: &mut [u8], most: u8) {
        let mut before = b'0';
        for mark in marks.iter_mut().filter(|mark| **mark != b'-') {
            *mark = (before - most).max(*mark);
            before = *mark;
        }
    }

    /// Changes the lines of a done page.
    fn lines(&self, record: &[u16], p: u64, lines: &mut [u8]) {
        let (first, table) = ((p as usize).wrapping_mul(PAGE_ROWS), self.table());
        let cells = |row: usize| &record[row * CELLS..][..CELLS];
        for (row, line) in (first..).zip(lines.chunks_exact_mut(LINE_LENGTH)) {
            let (number, marks) = line[..LINE_LENGTH - 1].split_at_mut(6);
            match self.0 {
                Wrong::FromOne => number[..5].copy_from_slice(&format!("{:>5}", row + 1).as_bytes()[..5]),
                Wrong::Left => number[..5].copy_from_slice(format!("{row:<5}").as_bytes()),
                Wrong::Zeros => number[..5].copy_from_slice(format!("{row:05}").as_bytes()),
                Wrong::Rounded => {
                    for (digit, cell) in marks.iter_mut().zip(cells(row)) {
                        *digit = b'0' + ((u32::from(*cell) * 10 + 2048) / 4096) as u8;
                    }
                }
                Wrong::Shaded => marks.iter_mut().filter(|mark| **mark == b'-').for_each(|mark| *mark = b'9'),
                Wrong::Falls(most) => StandIn::falls(marks, most),
                _ => table.iter().for_each(|table| self.count(table, cells(row), marks)),
            }
        }
    }

    /// Changes what a done page wrote, and gives the count.
    fn done(&self, record: &[u16], p: u64, buffer: &mut [u8], length: usize) -> usize {
        self.lines(record, p, &mut buffer[..length]);
        match self.0 {
            Wrong::Rows => {
                let mut next = [0; FULL];
                let more = page(record, p + 1, &mut next).is_ok() && buffer.len() >= length + LINE_LENGTH;
                let more = if more { LINE_LENGTH } else { 0 };
                buffer[length..length + more].copy_from_slice(&next[..more]);
                length + more
            }
            Wrong::LastEnd => length - 1,
            Wrong::Lines => length / LINE_LENGTH,
            Wrong::Behind => {
                buffer.iter_mut().skip(length).take(1).for_each(|byte| *byte = 0);
                length
            }
            _ => length,
        }
    }

    /// Changes what a refused page leaves, and gives the count, if it is given.
    fn refused(&self, record: &[u16], p: u64, buffer: &mut [u8], answer: u8) -> Option<usize> {
        match (self.0, answer) {
            (Wrong::Count, _) => Some(FULL),
            (Wrong::CountLeft, _) => None,
            (Wrong::Refused, _) => {
                buffer.iter_mut().take(1).for_each(|byte| *byte = b' ');
                Some(0)
            }
            (Wrong::Partly, 32) => {
                let (mut whole, lines) = ([0; FULL], buffer.len() / LINE_LENGTH * LINE_LENGTH);
                page(record, p, &mut whole).expect("only the buffer was too short");
                buffer[..lines].copy_from_slice(&whole[..lines]);
                Some(0)
            }
            _ => Some(0),
        }
    }
}

impl PageLibrary for StandIn {
    fn write_page(&self, record: &[u16], p: u64, buffer: &mut [u8], count: &mut u64) -> u8 {
        let mut written = buffer.to_vec();
        let right = self.of_another_call(record, p, &mut written);
        let answer = self.answer(record, p, buffer.len(), number(&right));
        let given = match right {
            Ok(length) if answer == 0 => {
                buffer.copy_from_slice(&written);
                Some(self.done(record, p, buffer, length))
            }
            _ => self.refused(record, p, buffer, answer),
        };
        if let Some(given) = given {
            *count = given as u64;
        }
        answer
    }
}

/// What the comparison with this library gives.
fn compared(wrong: Wrong) -> Result<String, String> {
    pages(&StandIn(wrong), &Replay { command: "differential trial".into() }, Amount { seed: 0, events: 1 }, 1000)
}

#[test]
fn nothing_differs_from_the_right_page() {
    let text = compared(Wrong::Nothing).expect("nothing differs");
    assert_eq!(text.lines().count(), 3, "{text}");
    assert!(text.starts_with("1000 random records: 10000 calls, "), "{text}");
}

/// The report on a mistake, which is short and can be replayed.
fn report(wrong: Wrong) -> String {
    let Err(report) = compared(wrong) else { panic!("{wrong:?} is not found") };
    assert!(report.starts_with("# pages, seed 0: PageCall {"), "{wrong:?}: {report}");
    assert!(report.contains("differential trial --part pages --seed 0 --events 1"), "{wrong:?}: {report}");
    assert!(report.lines().count() < 20 && report.len() < 2000, "{wrong:?}: {report}");
    report
}

#[test]
fn wrong_pages_are_found() {
    for wrong in ALL {
        report(wrong);
    }
}

/// By the records with every legal cell, and so not by chance.
#[test]
fn wrong_shades_are_found() {
    for wrong in shades() {
        let report = report(wrong);
        assert!(report.contains("PageCall { cells: 4112, "), "{wrong:?}: {report}");
    }
}

/// A first cell that is one too low or too high makes one mark differ, by one.
#[test]
fn a_first_cell_that_is_one_off() {
    for shade in 1..=9 {
        let [before, own] = [shade - 1, shade].map(|shade| usize::from(b'0') + shade);
        for (wrong, library, expected) in [(Wrong::Low(shade), own, before), (Wrong::High(shade), before, own)] {
            let report = report(wrong);
            assert!(report.contains(&format!(": library {library}, expected {expected}\n")), "{wrong:?}: {report}");
            assert_eq!(report.lines().count(), 2, "{wrong:?}: {report}");
        }
    }
}

/// Every legal cell once, but for the torn ones, which fill a line.
#[test]
fn records_with_every_cell() {
    for step in STEPS {
        let mut cells = every_cell(step);
        assert_eq!((cells.len(), &cells[..CELLS]), (4096 + CELLS, &[TORN_CELL; CELLS][..]));
        cells.sort_unstable();
        cells.dedup();
        assert!(cells.into_iter().eq((0..=u16::MAX).filter(|cell| legal_cell(*cell))), "step {step}");
    }
}

/// Random calls that leave out an answer, pages that wrap, or torn cells on a page that is written.
#[test]
fn answers_left_out_are_found_out() {
    let call = PageCall { cells: 16, page: 0, bad: None, length: 23 };
    let mut answered = Answered::default();
    answered.call(&call, 0, &[0; CELLS]);
    assert_eq!(answered.all_there(), Ok(()), "too few calls");
    (0..2000).for_each(|_| answered.call(&call, 0, &[0; CELLS]));
    for missing in [12, 30, 31, 32] {
        assert_eq!(answered.all_there(), Err(format!("pages: never answered {missing}")));
        answered.call(&call, missing, &[TORN_CELL; CELLS]);
    }
    assert_eq!(answered.all_there(), Err("pages: none wraps onto a row".into()));
    answered.call(&PageCall { page: 1 << 62, ..call }, 31, &[]);
    assert_eq!(answered.all_there(), Err("pages: none accepted with a torn cell".into()));
    answered.call(&call, 0, &[TORN_CELL; CELLS]);
    assert_eq!(answered.all_there(), Ok(()));
}
