//! A library for files that puts each question by a rule of its own, so that a test can put a wrong one in its place.
//!
//! With none replaced it is right: the comparison finds no difference. The code that is tested has no part in it.

use second::file::{Entry, MOST_ENTRIES};
use second::library::FileLibrary;
use second::limits::TORN_CELL;
use std::ops::Range;

/// A horse and a leg.
pub type Leg = (u16, u8);

/// The rules for entries and cells, which a file and a writer share.
#[derive(Clone, Copy)]
pub struct Rules {
    /// The most entries.
    pub most: usize,
    /// Whether leg, save and rows of an entry are good.
    pub sound: fn(&Entry) -> bool,
    /// Whether a cell is.
    pub legal: fn(u16) -> bool,
    /// The answer where one is not.
    pub illegal: u8,
    /// Whether something is saved twice, where this leg is looked up.
    pub twice: fn(&[Entry], Option<Leg>) -> bool,
}

fn legs(entry: &Entry) -> bool {
    (1..=6).contains(&entry.leg)
}

/// The same horse, leg and save.
pub fn same(one: &Entry, other: &Entry) -> bool {
    (one.horse, one.leg, one.save) == (other.horse, other.leg, other.save)
}

/// Whether two of the entries are so.
pub fn two(entries: &[Entry], are: impl Fn(&Entry, &Entry) -> bool) -> bool {
    entries.iter().enumerate().any(|(at, one)| entries[..at].iter().any(|other| are(one, other)))
}

pub const RULES: Rules = Rules {
    most: MOST_ENTRIES,
    sound: |entry| legs(entry) && entry.save != 0,
    legal: |cell| cell < 4096 || cell == TORN_CELL,
    illegal: 33,
    twice: |entries, _| two(entries, same),
};

/// The steps of a lookup.
#[derive(Clone, Copy)]
pub struct Lookup {
    pub rules: Rules,
    /// The leg that the numbers mean.
    pub leg: fn(u32, u32) -> Option<Leg>,
    /// The answer for a file without a byte.
    pub empty: u8,
    /// The answer where there is no such leg.
    pub none: fn(horse: u32, leg: u32) -> u8,
    /// What is done to the bytes of an entry before they are read.
    pub entry: fn(&mut [u8; 10]),
    /// Whether the start of a body is good, where the one before ended, and the first begins.
    pub start: fn(start: usize, end: usize, first: usize) -> bool,
    /// Where the body is in the file, by the same numbers.
    pub place: fn(start: usize, end: usize, first: usize) -> usize,
    /// Whether the last body may end here in a file of this length.
    pub end: fn(end: usize, length: usize) -> bool,
    /// The bytes of which the cells are looked at, in all bodies, where this one is found.
    pub looked: fn(all: Range<usize>, found: Option<Range<usize>>) -> Range<usize>,
    /// The entry that is current.
    pub current: fn(&[Entry], Leg) -> Option<usize>,
    /// The order of the questions.
    pub order: [u8; 3],
    /// Start and length of the body, in a file with this first body.
    pub given: fn(place: Range<usize>, first: usize) -> [usize; 2],
    /// What a refused lookup makes of them, where this would be the body.
    pub refused: fn(given: &mut [u64; 2], place: Option<Range<usize>>),
}

/// The entry with the highest of these.
pub fn highest<T: Ord>(entries: &[Entry], (horse, leg): Leg, of: impl Fn(&Entry) -> T) -> Option<usize> {
    (0..entries.len()).filter(|at| (entries[*at].horse, entries[*at].leg) == (horse, leg)).max_by_key(|at| of(&entries[*at]))
}

/// What an entry of the contents says.
fn said(b: &[u8; 10]) -> (Entry, usize) {
    let [horse, rows] = [0, 4].map(|at| u16::from(b[at]) + 256 * u16::from(b[at + 1]));
    let start = (6..10).rev().fold(0, |start, at| 256 * start + usize::from(b[at]));
    (Entry { horse, leg: b[2], save: b[3], rows }, start)
}

pub const LOOKUP: Lookup = Lookup {
    rules: RULES,
    leg: |horse, leg| (horse <= 65_535 && leg <= 255).then_some((horse as u16, leg as u8)),
    empty: 33,
    none: |_, _| 35,
    entry: |_| {},
    start: |start, end, _| start == end,
    place: |start, _, _| start,
    end: |end, length| end == length,
    looked: |all, _| all,
    current: |entries, leg| highest(entries, leg, |entry| entry.save),
    order: [33, 34, 35],
    given: |place, _| [place.start, place.len()],
    refused: |given, _| *given = [0, 0],
};

impl Lookup {
    /// The entries, the places of their bodies, and whether the contents are good.
    fn read(&self, file: &[u8], count: usize) -> (Vec<Entry>, Vec<Range<usize>>, bool) {
        let read = |bytes: &[u8; 10]| {
            let mut bytes = *bytes;
            (self.entry)(&mut bytes);
            said(&bytes)
        };
        let (entries, starts): (Vec<Entry>, Vec<usize>) = file[1..].as_chunks().0.iter().take(count).map(read).unzip();
        let mut good = entries.len() == count && count <= self.rules.most && entries.iter().all(self.rules.sound);
        let first = 1 + 10 * count;
        let (mut end, mut places) = (first, vec![]);
        for (entry, start) in entries.iter().zip(starts) {
            good &= (self.start)(start, end, first);
            let place = (self.place)(start, end, first);
            end = place + 32 * usize::from(entry.rows);
            places.push(place..end);
        }
        (entries, places, good)
    }

    /// Whether the cells here are legal, as far as the file goes.
    fn legal(&self, file: &[u8], place: Range<usize>) -> bool {
        let bytes = &file[place.start.min(file.len())..place.end.min(file.len())];
        bytes.as_chunks().0.iter().all(|pair| (self.rules.legal)(u16::from_le_bytes(*pair)))
    }

    /// The number, and the place of the body, if there is one, with the first body's start.
    fn look_up(&self, file: &[u8], horse: u32, leg: u32) -> (u8, Option<Range<usize>>, usize) {
        let Some(count) = file.first().map(|count| usize::from(*count)) else { return (self.empty, None, 0) };
        let (entries, places, good) = self.read(file, count);
        let first = 1 + 10 * count;
        let end = places.last().map_or(first, |place| place.end);
        let meant = (self.leg)(horse, leg);
        let found = meant.and_then(|leg| (self.current)(&entries, leg)).map(|at| places[at].clone());
        let answer = |question: u8| match question {
            33 if !good || !(self.end)(end, file.len()) => 33,
            33 if !self.legal(file, (self.looked)(first.min(end)..end, found.clone())) => self.rules.illegal,
            34 if (self.rules.twice)(&entries, meant) => 34,
            35 if found.is_none() => (self.none)(horse, leg),
            _ => 0,
        };
        (self.order.into_iter().map(answer).find(|answer| *answer != 0).unwrap_or(0), found, first)
    }
}

/// The steps of a writer.
#[derive(Clone, Copy)]
pub struct Writer {
    pub rules: Rules,
    /// Whether so many bytes are entries.
    pub whole: fn(usize) -> bool,
    /// What is done to the entries before all.
    pub arrange: fn(&mut Vec<Entry>),
    /// Whether so many cells are those of so many rows.
    pub fits: fn(cells: usize, rows: usize) -> bool,
    /// Whether a buffer is long enough for a file of this length.
    pub space: fn(buffer: usize, length: usize) -> bool,
    /// The answer where it is not.
    pub short: u8,
    /// The order of 33 for entries and cells, here 1, of 33 for the buffer, here 2, and of 34.
    pub order: [u8; 3],
    /// The start that is written for this one, where the first body starts here.
    pub start: fn(start: usize, first: usize) -> usize,
    /// What is done to the bytes of an entry before they are written.
    pub entry: fn(&mut [u8; 10]),
    /// The bytes of a cell.
    pub cell: fn(u16) -> [u8; 2],
    /// The count of bytes for a file of this length, with this first body and in a buffer of this length.
    pub count: fn(length: usize, first: usize, buffer: usize) -> usize,
    /// What is done to the bytes behind the file.
    pub behind: fn(&mut [u8]),
    /// What a refused writing does to buffer and count, with the file.
    pub refused: fn(buffer: &mut [u8], count: &mut u64, file: &[u8]),
}

/// An entry of the contents.
fn entry_bytes(entry: &Entry, start: usize) -> [u8; 10] {
    let [a, b, c, d] = [0, 8, 16, 24].map(|bits| (start >> bits) as u8);
    let low_high = |number: u16| [number as u8, (number >> 8) as u8];
    let ([horse, horse_high], [rows, rows_high]) = (low_high(entry.horse), low_high(entry.rows));
    [horse, horse_high, entry.leg, entry.save, rows, rows_high, a, b, c, d]
}

pub const WRITER: Writer = Writer {
    rules: RULES,
    whole: |bytes| bytes.is_multiple_of(6),
    arrange: |_| {},
    fits: |cells, rows| cells == 16 * rows,
    space: |buffer, length| buffer >= length,
    short: 33,
    order: [1, 2, 34],
    start: |start, _| start,
    entry: |_| {},
    cell: |cell| [cell as u8, (cell >> 8) as u8],
    count: |length, _, _| length,
    behind: |_| {},
    refused: |_, count, _| *count = 0,
};

impl Writer {
    /// The file of these entries.
    fn file(&self, entries: &[Entry], rows: &[u16]) -> Vec<u8> {
        let first = 1 + 10 * entries.len();
        let (mut file, mut start) = (vec![entries.len() as u8], first);
        for entry in entries {
            let mut bytes = entry_bytes(entry, (self.start)(start, first));
            (self.entry)(&mut bytes);
            file.extend(bytes);
            start += 32 * usize::from(entry.rows);
        }
        let bodies = file.len();
        file.resize(bodies + 2 * rows.len(), 0);
        file[bodies..].as_chunks_mut().0.iter_mut().zip(rows).for_each(|(pair, cell)| *pair = (self.cell)(*cell));
        file
    }

    fn write(&self, bytes: &[u8], rows: &[u16], buffer: &mut [u8], count: &mut u64) -> u8 {
        let entry = |b: &[u8; 6]| said(&[b[0], b[1], b[2], b[3], b[4], b[5], 0, 0, 0, 0]).0;
        let mut entries: Vec<Entry> = bytes.as_chunks().0.iter().map(entry).collect();
        let counted = entries.iter().map(|entry| usize::from(entry.rows)).sum();
        let fit = (self.whole)(bytes.len()) && entries.len() <= self.rules.most && entries.iter().all(self.rules.sound);
        let twice = (self.rules.twice)(&entries, None);
        (self.arrange)(&mut entries);
        let (file, first) = (self.file(&entries, rows), 1 + 10 * entries.len());
        let answer = |question: u8| match question {
            1 if !fit || !(self.fits)(rows.len(), counted) => 33,
            1 if !rows.iter().all(|cell| (self.rules.legal)(*cell)) => self.rules.illegal,
            2 if !(self.space)(buffer.len(), file.len()) => self.short,
            34 if twice => 34,
            _ => 0,
        };
        if let Some(answer) = self.order.into_iter().map(answer).find(|answer| *answer != 0) {
            (self.refused)(buffer, count, &file);
            return answer;
        }
        let length = file.len().min(buffer.len());
        buffer[..length].copy_from_slice(&file[..length]);
        (self.behind)(&mut buffer[length..]);
        *count = (self.count)(file.len(), first, buffer.len()) as u64;
        0
    }
}

/// Both together.
#[derive(Clone, Copy)]
pub struct StandIn {
    pub lookup: Lookup,
    pub writer: Writer,
}

pub const RIGHT: StandIn = StandIn { lookup: LOOKUP, writer: WRITER };

impl FileLibrary for StandIn {
    fn look_up(&self, file: &[u8], horse: u32, leg: u32, start: &mut u64, length: &mut u64) -> u8 {
        let (answer, place, first) = self.lookup.look_up(file, horse, leg);
        let mut given = [*start, *length];
        match place {
            Some(place) if answer == 0 => given = (self.lookup.given)(place, first).map(|number| number as u64),
            place => (self.lookup.refused)(&mut given, place),
        }
        [*start, *length] = given;
        answer
    }

    fn write_file(&self, entries: &[u8], rows: &[u16], buffer: &mut [u8], count: &mut u64) -> u8 {
        self.writer.write(entries, rows, buffer, count)
    }
}
