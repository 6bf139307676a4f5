//! The horse's file: a count, the contents, and the bodies, which are recorded rows. Looked up and written.

use crate::cell_bytes;
use crate::limits::{ask, legal, Refusal, CELLS};
use std::collections::HashSet;
use std::ops::Range;

/// The most entries of a file.
pub const MOST_ENTRIES: usize = 64;

/// The most legs of a horse. They count from 1.
pub const MOST_LEGS: u8 = 6;

/// Bytes of an entry without the start of its body, as a writer takes it.
pub const ENTRY_LENGTH: usize = 6;

/// Bytes of the start of a body.
pub const START_LENGTH: usize = 4;

/// Bytes of an entry in the contents.
pub const CONTENTS_LENGTH: usize = ENTRY_LENGTH + START_LENGTH;

/// Bytes of a row in a body.
pub const ROW_LENGTH: usize = 2 * CELLS;

/// A leg as it was saved once.
#[derive(Clone, Copy, Debug, PartialEq, Eq)]
pub struct Entry {
    /// The horse.
    pub horse: u16,
    /// Its leg, from 1 to 6.
    pub leg: u8,
    /// How often the leg has been saved, from 1: the highest is current.
    pub save: u8,
    /// Rows of the body.
    pub rows: u16,
}

impl Entry {
    /// The entry that these bytes are.
    pub fn from_bytes(bytes: &[u8; ENTRY_LENGTH]) -> Entry {
        let [horse, horse_high, leg, save, rows, rows_high] = *bytes;
        Entry { horse: u16::from_le_bytes([horse, horse_high]), leg, save, rows: u16::from_le_bytes([rows, rows_high]) }
    }

    /// Its bytes.
    pub fn to_bytes(self) -> [u8; ENTRY_LENGTH] {
        let ([horse, horse_high], [rows, rows_high]) = (self.horse.to_le_bytes(), self.rows.to_le_bytes());
        [horse, horse_high, self.leg, self.save, rows, rows_high]
    }

    /// Bytes of its body.
    pub fn length(&self) -> usize {
        usize::from(self.rows) * ROW_LENGTH
    }

    /// Horse, leg and save, which no two entries of a file have in common.
    pub fn key(&self) -> (u16, u8, u8) {
        (self.horse, self.leg, self.save)
    }

    fn sound(&self) -> bool {
        (1..=MOST_LEGS).contains(&self.leg) && self.save > 0
    }
}

/// Where the bodies of a file with so many entries begin.
pub const fn first_body(entries: usize) -> usize {
    1 + entries * CONTENTS_LENGTH
}

/// The places of the bodies of these entries, without gaps.
pub fn places(entries: &[Entry]) -> Vec<Range<usize>> {
    let mut end = first_body(entries.len());
    let next = |entry: &Entry| {
        let start = end;
        end += entry.length();
        start..end
    };
    entries.iter().map(next).collect()
}

/// Bytes of the file of these entries.
pub fn file_length(entries: &[Entry]) -> usize {
    first_body(entries.len()) + entries.iter().map(Entry::length).sum::<usize>()
}

/// The part of question 33 that is about entries alone, and the same for a file and for a writer.
fn sound(entries: &[Entry]) -> bool {
    entries.len() <= MOST_ENTRIES && entries.iter().all(Entry::sound)
}

/// Question 34: no horse, leg and save occur twice.
pub fn saved_once(entries: &[Entry]) -> bool {
    let mut met = HashSet::new();
    entries.iter().all(|entry| met.insert(entry.key()))
}

/// Question 33 of a file, all of which is looked at, and its entries.
fn contents(file: &[u8]) -> Option<Vec<Entry>> {
    let count = usize::from(*file.first()?);
    let (contents, bodies) = (file.get(1..first_body(count))?, &file[first_body(count)..]);
    let said = contents.as_chunks().0.iter().map(|bytes: &[u8; CONTENTS_LENGTH]| {
        let [entry @ .., a, b, c, d] = bytes;
        (Entry::from_bytes(entry), u32::from_le_bytes([*a, *b, *c, *d]))
    });
    let (entries, starts): (Vec<Entry>, Vec<u32>) = said.unzip();
    let fit = |(place, start): (Range<usize>, u32)| u32::try_from(place.start) == Ok(start);
    let all = sound(&entries)
        && places(&entries).into_iter().zip(starts).all(fit)
        && file.len() == file_length(&entries)
        && bodies.as_chunks::<ROW_LENGTH>().0.iter().all(|row| legal(&cell_bytes::row(row)));
    all.then_some(entries)
}

/// The place of the current body of a horse's leg in a file.
pub fn current(file: &[u8], horse: u16, leg: u8) -> Result<Range<usize>, Refusal> {
    let entries = contents(file).ok_or(Refusal::FileUnsound)?;
    ask(saved_once(&entries), Refusal::SavedTwice)?;
    let of_leg = entries.iter().zip(places(&entries)).filter(|(entry, _)| (entry.horse, entry.leg) == (horse, leg));
    of_leg.max_by_key(|(entry, _)| entry.save).map(|(_, place)| place).ok_or(Refusal::NoLeg)
}

/// The current body of a horse's leg, as a part of the file.
pub fn lookup(file: &[u8], horse: u16, leg: u8) -> Result<&[u8], Refusal> {
    current(file, horse, leg).map(|place| &file[place])
}

/// The place of the current body for numbers that need not be those of a horse and a leg. Such ones have no body, and 35 is put
/// in its turn.
pub fn current_of_numbers(file: &[u8], horse: u32, leg: u32) -> Result<Range<usize>, Refusal> {
    // no file has a leg 0
    let (horse, leg) = u16::try_from(horse).ok().zip(u8::try_from(leg).ok()).unwrap_or((0, 0));
    current(file, horse, leg)
}

/// Puts entries and bodies into a file that is long enough for both. No question is put here, and above 255 entries the count
/// is cut.
pub fn lay_out(entries: &[Entry], rows: &[u16], file: &mut [u8]) {
    let (contents, bodies) = file.split_at_mut(first_body(entries.len()));
    contents[0] = entries.len() as u8;
    let said = contents[1..].as_chunks_mut::<CONTENTS_LENGTH>().0;
    for ((said, entry), place) in said.iter_mut().zip(entries).zip(places(entries)) {
        said[..ENTRY_LENGTH].copy_from_slice(&entry.to_bytes());
        said[ENTRY_LENGTH..].copy_from_slice(&(place.start as u32).to_le_bytes());
    }
    cell_bytes::put(bodies, rows);
}

/// Writes the file of these entries, the rows of which are handed as their cells, at the front of the buffer and gives its
/// length. The bytes behind it keep their contents.
pub fn write(entries: &[Entry], rows: &[u16], buffer: &mut [u8]) -> Result<usize, Refusal> {
    let length = file_length(entries);
    let fits =
        sound(entries) && first_body(entries.len()) + 2 * rows.len() == length && rows.as_chunks().0.iter().all(legal);
    ask(fits, Refusal::FileUnsound)?;
    let place = buffer.get_mut(..length).ok_or(Refusal::FileUnsound)?;
    ask(saved_once(entries), Refusal::SavedTwice)?;
    lay_out(entries, rows, place);
    Ok(length)
}

/// The same with the entries as bytes, of which some may be left behind the last whole entry.
pub fn write_from_bytes(entries: &[u8], rows: &[u16], buffer: &mut [u8]) -> Result<usize, Refusal> {
    let (entries, rest) = entries.as_chunks();
    ask(rest.is_empty(), Refusal::FileUnsound)?;
    write(&entries.iter().map(Entry::from_bytes).collect::<Vec<_>>(), rows, buffer)
}
