//! The proved lookup in a horse's file and the proved writer, as the library has them, compared with the ones here.

use crate::compare::different;
use crate::differ::Difference;
use crate::draw_file::{random_entries, random_made, random_numbers, random_writing};
use crate::file::{current_of_numbers, file_length, write_from_bytes, Entry, MOST_ENTRIES};
use crate::file_lists::{entry, few, made, many, near, numbers, writings, Damage, Fault, Made, Numbers, Saved, Writing};
use crate::file_met::{Looked, Met, Wrote};
use crate::library::FileLibrary;
use crate::limits::{number, Refusal, CELLS, GREATEST_CELL};
use crate::random::Random;
use crate::report::{Outcome, Replay};
use crate::threads::Amount;
use crate::written::{written, Written, NO_COUNT};
use std::fmt::Debug;
use std::ops::Range;

/// Calls of either kind on each random file.
const CALLS: usize = 10;

/// Numbers that no listed file has.
const NOWHERE: Numbers = (9, 1);

/// With the most entries one fault in so many is put, as lookups take longer among them.
const STEP: usize = 7;

/// How many bytes of a file a report shows, and how many entries.
const SHOWN: (usize, usize) = (64, 6);

/// Rows of a body behind which the next one starts just below 2 to the power of 16 and just above it, of one with so many bytes,
/// and of the longest.
const LONG_ROWS: [u16; 4] = [2046, 2047, 2048, u16::MAX];

/// The front of a list for a report.
fn front<T>(list: &[T], most: usize) -> &[T] {
    &list[..list.len().min(most)]
}

/// The numbers of each entry, and of none.
fn all_numbers(entries: &[Entry]) -> Vec<Numbers> {
    entries.iter().map(numbers).chain([NOWHERE]).collect()
}

/// A lookup: the place here, and what differs.
fn lookup(library: &dyn FileLibrary, file: &[u8], (horse, leg): Numbers) -> (Result<Range<usize>, Refusal>, Difference) {
    let done = current_of_numbers(file, horse, leg);
    let expected = done.clone().map_or([0, 0], |place| [place.start, place.len()].map(|number| number as u64));
    let (mut start, mut length) = (NO_COUNT, NO_COUNT);
    let answer = library.look_up(file, horse, leg, &mut start, &mut length);
    let found = different(answer, number(&done), || "number of the lookup".into())
        .or_else(|| different([start, length], expected, || "start and length of the body".into()));
    (done, found)
}

/// The library to be compared, and what was met so far.
struct Compared<'a> {
    library: &'a dyn FileLibrary,
    met: Met,
}

impl Compared<'_> {
    /// Lookups in a file of these entries. A difference comes with the numbers, and with what the file was made by.
    fn look_up(&mut self, entries: &[Entry], file: &[u8], by: &dyn Debug, numbers: &[Numbers]) -> Result<(), String> {
        for &(horse, leg) in numbers {
            let (done, found) = lookup(self.library, file, (horse, leg));
            let answer = number(&done);
            let body = done.map_or(&[][..], |place| &file[place]);
            self.met.looked(&Looked { entries, horse, leg, answer, body });
            if let Some(text) = found {
                let (length, front) = (file.len(), front(file, SHOWN.0));
                return Err(format!("horse {horse}, leg {leg} in {length} bytes {front:?} by {by:?}: {text}"));
            }
        }
        Ok(())
    }

    /// Lookups in the file that is made so.
    fn look_up_made(&mut self, saved: &Saved, made: &Made, numbers: &[Numbers]) -> Result<(), String> {
        let (entries, file, length) = made.file(saved);
        self.look_up(&entries, &file[..length], made, numbers)
    }

    /// A writing, and then these lookups in the file that was written.
    fn write(&mut self, saved: &Saved, call: &Writing, numbers: &[Numbers]) -> Result<(), String> {
        let saved = saved.with(&call.faults);
        let (entries, cells) = (&saved.entries, &saved.cells);
        let bytes = saved.entry_bytes(call.more);
        let here = |buffer: &mut [u8]| write_from_bytes(&bytes, cells, buffer);
        let there = |buffer: &mut [u8], count: &mut u64| self.library.write_file(&bytes, cells, buffer, count);
        let Written { done, buffer, found } = written("writing", call.length, here, there, |at| format!("buffer[{at}]"));
        self.met.wrote(&Wrote { entries, cells, answer: number(&done) });
        if let Some(text) = found {
            let (count, front) = (entries.len(), front(entries, SHOWN.1));
            return Err(format!("{count} entries {front:?} by {call:?}: {text}"));
        }
        done.map_or(Ok(()), |length| self.look_up(entries, &buffer[..length], call, numbers))
    }

    /// Few entries: each is looked up with every fault alone, and with none what is near it.
    fn few_entries(&mut self, random: &mut Random) -> Result<(), String> {
        for entries in few() {
            let (numbers, near): (_, Vec<Numbers>) = (all_numbers(&entries), entries.iter().flat_map(near).collect());
            let saved = Saved::of(random, entries);
            self.look_up_made(&saved, &Made::default(), &near)?;
            made(&saved).iter().try_for_each(|made| self.look_up_made(&saved, made, &numbers))?;
            writings(&saved).iter().try_for_each(|call| self.write(&saved, call, &numbers))?;
        }
        Ok(())
    }

    /// About as many entries as there can be, each of which is looked up; with the most, some faults, each with one lookup.
    fn many_entries(&mut self, random: &mut Random) -> Result<(), String> {
        for count in [MOST_ENTRIES - 1, MOST_ENTRIES + 1, 128, 255, MOST_ENTRIES] {
            let entries = many(count as u16);
            let (length, numbers) = (file_length(&entries), all_numbers(&entries));
            let saved = Saved::of(random, entries);
            self.look_up_made(&saved, &Made::default(), &numbers)?;
            self.write(&saved, &Writing { length, ..Writing::default() }, &numbers)?;
            if count == MOST_ENTRIES {
                let mut made = made(&saved).into_iter().step_by(STEP).zip(numbers.iter().cycle());
                made.try_for_each(|(made, numbers)| self.look_up_made(&saved, &made, &[*numbers]))?;
                let mut calls = writings(&saved).into_iter().step_by(STEP).zip(numbers.iter().cycle());
                calls.try_for_each(|(call, numbers)| self.write(&saved, &call, &[*numbers]))?;
            }
        }
        Ok(())
    }

    /// Random entries, with up to three faults.
    fn random_files(&mut self, random: &mut Random, files: u64) -> Result<(), String> {
        for _ in 0..files {
            let entries = random_entries(random);
            let saved = Saved::of(random, entries);
            for _ in 0..CALLS {
                let made = random_made(random, &saved);
                let (entries, file, length) = made.file(&saved);
                let numbers = [(); 2].map(|()| random_numbers(random, &entries));
                self.look_up(&entries, &file[..length], &made, &numbers)?;
                let call = random_writing(random, &saved);
                let numbers = [(); 2].map(|()| random_numbers(random, &saved.entries));
                self.write(&saved, &call, &numbers)?;
            }
        }
        Ok(())
    }

    /// Every number as a cell, in turn at each place of a row.
    fn every_cell(&mut self, random: &mut Random) -> Result<(), String> {
        let saved = Saved::of(random, vec![entry([1, 1, 1, 1])]);
        let length = file_length(&saved.entries);
        for cell in 0..=u16::MAX {
            let faults = vec![Fault::Cell(usize::from(cell) % CELLS, cell)];
            self.write(&saved, &Writing { faults: faults.clone(), more: 0, length }, &[])?;
            self.look_up_made(&saved, &Made { faults, damages: vec![] }, &[(1, 1)])?;
        }
        Ok(())
    }

    /// Long bodies, the last cell of which is illegal, or behind which a byte is missing or too many.
    fn long_bodies(&mut self, random: &mut Random) -> Result<(), String> {
        for rows in LONG_ROWS {
            let entries = vec![entry([1, 1, 1, rows]), entry([1, 2, 1, 1]), entry([1, 1, 2, 0]), entry([1, 3, 1, rows])];
            let (length, numbers) = (file_length(&entries), all_numbers(&entries));
            let saved = Saved::of(random, entries);
            self.write(&saved, &Writing { length, ..Writing::default() }, &numbers)?;
            let last = Fault::Cell(saved.cells.len() - 1, GREATEST_CELL + 1);
            self.write(&saved, &Writing { faults: vec![last], more: 0, length }, &[])?;
            self.look_up_made(&saved, &Made { faults: vec![last], damages: vec![] }, &numbers)?;
            for damage in [Damage::Cut(length - 1), Damage::Trailing(1), Damage::Start(3, 1 << 16)] {
                self.look_up_made(&saved, &Made { faults: vec![], damages: vec![damage] }, &numbers[..1])?;
            }
        }
        Ok(())
    }

    /// A file of the longest bodies, the last of which is looked up.
    fn longest_bodies(&mut self, random: &mut Random, count: u16) -> Result<(), String> {
        let entries: Vec<Entry> = (0..count).map(|at| entry([at, 2, 1, u16::MAX])).collect();
        let length = file_length(&entries);
        let saved = Saved::of(random, entries);
        self.write(&saved, &Writing { length, ..Writing::default() }, &[(u32::from(count) - 1, 2), NOWHERE])
    }
}

/// Listed files and so many random ones, looked up and written; then long files, and every number as a cell. A report leaves
/// out most of a file, as the seed gives it again.
pub fn files(library: &dyn FileLibrary, replay: &Replay, amount: Amount, count: u64) -> Outcome {
    let failed = |text: String| replay.failed("files", amount.seed, &text);
    let fresh = || Compared { library, met: Met::default() };
    let (mut listed, mut drawn, mut cells, mut long) = (fresh(), fresh(), fresh(), fresh());
    // not by the seed, so that the report on a wrong rule is the same for every seed
    let fixed = &mut Random::new(0);
    listed.few_entries(fixed).map_err(failed)?;
    listed.many_entries(fixed).map_err(failed)?;
    drawn.random_files(&mut amount.random(), count).map_err(failed)?;
    drawn.met.all_there()?;
    long.long_bodies(fixed).map_err(failed)?;
    // the last start is above 2 to the power of 24
    long.longest_bodies(fixed, 10).map_err(failed)?;
    cells.every_cell(fixed).map_err(failed)?;
    // the greatest file
    long.longest_bodies(fixed, MOST_ENTRIES as u16).map_err(failed)?;
    let (drawn, listed, cells, long) = (drawn.met, listed.met, cells.met, long.met);
    Ok(format!("{count} random files: {drawn}\n  listed: {listed}\n  every number as a cell: {cells}\n  long: {long}"))
}
