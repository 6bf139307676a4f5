//! Files to be looked up and to be written: what is saved, and the faults that it is given.

use crate::draw_cells::{random_cells, EDGES};
use crate::file::{
    file_length, first_body, lay_out, places, Entry, CONTENTS_LENGTH, ENTRY_LENGTH, ROW_LENGTH, START_LENGTH,
};
use crate::limits::CELLS;
use crate::random::Random;
use std::borrow::Cow;
use std::ops::Range;

/// So many cells of long bodies differ. It divides no body, so that no two bodies are alike.
const BLOCK: usize = 10_007;

/// Entries, and the cells of the rows that they count.
#[derive(Clone, Debug, PartialEq)]
pub struct Saved {
    /// The entries.
    pub entries: Vec<Entry>,
    /// The cells of all bodies.
    pub cells: Vec<u16>,
}

impl Saved {
    /// Entries with random cells. Of many cells the first ones come again and again, which takes less time.
    pub fn of(random: &mut Random, entries: Vec<Entry>) -> Saved {
        let count: usize = entries.iter().map(|entry| usize::from(entry.rows) * CELLS).sum();
        let mut cells = random_cells(random, count.min(BLOCK));
        while cells.len() < count {
            cells.extend_from_within(..BLOCK.min(count - cells.len()));
        }
        Saved { entries, cells }
    }

    /// The same with faults.
    pub fn with(&self, faults: &[Fault]) -> Cow<'_, Saved> {
        let mut saved = Cow::Borrowed(self);
        faults.iter().for_each(|fault| fault.put(saved.to_mut()));
        saved
    }

    /// The file, which is one only where no rule is broken.
    fn file(&self) -> Vec<u8> {
        let mut file = vec![0; first_body(self.entries.len()) + 2 * self.cells.len()];
        lay_out(&self.entries, &self.cells, &mut file);
        file
    }

    /// The entries as a writer takes them, and so many bytes behind them.
    pub fn entry_bytes(&self, more: usize) -> Vec<u8> {
        self.entries.iter().flat_map(|entry| entry.to_bytes()).chain(vec![1; more]).collect()
    }
}

/// A fault of what is saved. Where there is no such entry or cell it changes nothing.
#[derive(Clone, Copy, Debug, PartialEq)]
pub enum Fault {
    /// This entry stands here.
    Entry(usize, Entry),
    /// This cell stands here.
    Cell(usize, u16),
    /// There are so many cells.
    Cells(usize),
}

impl Fault {
    fn put(&self, saved: &mut Saved) {
        match *self {
            Fault::Entry(at, entry) => {
                if let Some(place) = saved.entries.get_mut(at) {
                    *place = entry;
                }
            }
            Fault::Cell(at, cell) => {
                if let Some(place) = saved.cells.get_mut(at) {
                    *place = cell;
                }
            }
            Fault::Cells(count) => saved.cells.resize(count, 0),
        }
    }
}

/// A fault of a file's bytes. Where there is no such byte it changes nothing; a body that there is not counts as one at the end.
#[derive(Clone, Copy, Debug, PartialEq)]
pub enum Damage {
    /// These bits of this byte are changed.
    Byte(usize, u8),
    /// The file has only so many bytes.
    Cut(usize),
    /// So many bytes of 0 follow.
    Trailing(usize),
    /// The start of this entry is so much higher, modulo 2 to the power of 32.
    Start(usize, u32),
    /// All starts are.
    Starts(u32),
    /// All starts count rows.
    InRows,
    /// The bytes from here to there of each entry stand in the other order.
    HighFirst(usize, usize),
    /// Before the body of this entry are so many bytes of 0, and its start and the later ones say so.
    Gap(usize, usize),
    /// The body of this entry lacks so many bytes at its end, and the later starts say so: it overlaps with the next.
    Overlap(usize, usize),
    /// This entry and the next one are exchanged, and their bodies are not.
    Exchanged(usize),
}

impl Damage {
    /// Damages the file of these entries.
    fn put(&self, entries: &[Entry], file: &mut Vec<u8>) {
        let (count, length) = (entries.len(), file.len());
        let place = |at: usize| places(entries).get(at).cloned().unwrap_or(length..length);
        match *self {
            Damage::Byte(at, bits) => {
                if let Some(byte) = file.get_mut(at) {
                    *byte ^= bits;
                }
            }
            Damage::Cut(length) => file.truncate(length),
            Damage::Trailing(more) => file.resize(length + more, 0),
            Damage::Start(at, by) => change_starts(file, at..at + 1, |start| start.wrapping_add(by)),
            Damage::Starts(by) => change_starts(file, 0..count, |start| start.wrapping_add(by)),
            Damage::InRows => change_starts(file, 0..count, |start| start / ROW_LENGTH as u32),
            Damage::HighFirst(from, to) => {
                let contents = file.get_mut(1..first_body(count)).unwrap_or_default();
                contents.chunks_exact_mut(CONTENTS_LENGTH).for_each(|entry| entry[from..to].reverse());
            }
            Damage::Gap(at, more) => {
                let start = place(at).start.min(length);
                file.splice(start..start, vec![0; more]);
                change_starts(file, at..count, |start| start.wrapping_add(more as u32));
            }
            Damage::Overlap(at, fewer) => {
                let end = place(at).end.min(length);
                file.drain(end.saturating_sub(fewer)..end);
                change_starts(file, at + 1..count, |start| start.wrapping_sub(fewer as u32));
            }
            Damage::Exchanged(at) => {
                let contents = file.get_mut(..first_body(count)).unwrap_or_default();
                let both = contents.get_mut(first_body(at)..first_body(at + 2)).unwrap_or_default();
                both.rotate_left(both.len() / 2);
            }
        }
    }
}

/// Changes the starts of these entries of a file.
fn change_starts(file: &mut [u8], entries: Range<usize>, change: impl Fn(u32) -> u32) {
    for end in entries.map(|at| first_body(at + 1)) {
        if let Some(start) = file.get_mut(end - START_LENGTH..).and_then(|bytes| bytes.first_chunk_mut()) {
            *start = change(u32::from_le_bytes(*start)).to_le_bytes();
        }
    }
}

/// How a file is made of what is saved.
#[derive(Clone, Debug, Default, PartialEq)]
pub struct Made {
    /// First these faults are put into it.
    pub faults: Vec<Fault>,
    /// Then these damages into its file.
    pub damages: Vec<Damage>,
}

impl Made {
    /// The entries with the faults, the file, and how many of these bytes it has. Behind it stands the rest of the undamaged one,
    /// and a row.
    pub fn file(&self, saved: &Saved) -> (Vec<Entry>, Vec<u8>, usize) {
        let saved = saved.with(&self.faults);
        let whole = saved.file();
        let mut file = whole.clone();
        self.damages.iter().for_each(|damage| damage.put(&saved.entries, &mut file));
        let length = file.len();
        file.extend(whole.iter().skip(length));
        file.extend([0; ROW_LENGTH]);
        (saved.into_owned().entries, file, length)
    }
}

/// A call for a writer.
#[derive(Clone, Debug, Default, PartialEq)]
pub struct Writing {
    /// The faults of what is saved.
    pub faults: Vec<Fault>,
    /// Bytes behind the last whole entry.
    pub more: usize,
    /// Bytes of the buffer.
    pub length: usize,
}

/// Legs that there are not.
const BAD_LEGS: [u8; 6] = [0, 7, 8, 128, 129, 255];

/// By how many rows an entry can count too many, modulo 2 to the power of 16.
const OTHER_ROWS: [u16; 6] = [1, 2, 256, 2048, u16::MAX, u16::MAX - 1];

/// By how many cells there can be too many or too few.
const OTHER_CELLS: [usize; 7] = [1, 2, 8, 15, CELLS, 17, 2 * CELLS];

/// The same for bytes.
pub const OTHER_BYTES: [usize; 7] = [1, 2, CONTENTS_LENGTH, 31, ROW_LENGTH, 33, 2 * ROW_LENGTH];

/// By how much starts can be wrong.
const OFF: [u32; 8] = [1, 2, CONTENTS_LENGTH as u32, ROW_LENGTH as u32, 256, 1 << 16, 1 << 24, 1 << 31];

/// By how much starts can be too high, modulo 2 to the power of 32.
pub fn off() -> Vec<u32> {
    OFF.into_iter().flat_map(|by| [by, by.wrapping_neg()]).collect()
}

/// Other orders of bytes, and other units.
pub const OTHER_WAYS: [Damage; 4] =
    [Damage::InRows, Damage::HighFirst(0, 2), Damage::HighFirst(4, 6), Damage::HighFirst(6, 10)];

/// What can stand in place of this entry: no such leg, save 0, other rows, and horse, leg and save of another entry.
pub fn other_entries(entries: &[Entry], at: usize) -> Vec<Entry> {
    let entry = entries[at];
    let mut all: Vec<Entry> = BAD_LEGS.map(|leg| Entry { leg, ..entry }).into();
    all.push(Entry { save: 0, ..entry });
    all.extend(OTHER_ROWS.map(|more| Entry { rows: entry.rows.wrapping_add(more), ..entry }));
    let others = entries.iter().enumerate().filter(|(other, _)| *other != at);
    all.extend(others.map(|(_, other)| Entry { rows: entry.rows, ..*other }));
    all
}

/// Other counts of cells than this one.
pub fn other_cells(count: usize) -> Vec<usize> {
    OTHER_CELLS.into_iter().flat_map(|cells| [count + cells, count.saturating_sub(cells)]).collect()
}

/// Every fault of what is saved, alone.
pub fn faults(saved: &Saved) -> Vec<Fault> {
    let Saved { entries, cells } = saved;
    let others = |at| other_entries(entries, at).into_iter().map(move |entry| Fault::Entry(at, entry));
    let bad = |at| EDGES.map(|cell| Fault::Cell(at, cell));
    let all = (0..entries.len()).flat_map(others).chain((0..cells.len()).flat_map(bad));
    all.chain(other_cells(cells.len()).into_iter().map(Fault::Cells)).collect()
}

/// Every damage of the file, alone. In more than two entries a byte has one bit changed, as all its values take long.
pub fn damages(saved: &Saved) -> Vec<Damage> {
    let count = saved.entries.len();
    let bits: Vec<u8> = (1..=u8::MAX).filter(|bits| count <= 2 || bits.is_power_of_two()).collect();
    let byte = |at| bits.iter().map(move |bits| Damage::Byte(at, *bits));
    let of_entry = |at| {
        let off = off().into_iter().map(move |by| Damage::Start(at, by));
        let places = OTHER_BYTES.into_iter().flat_map(move |bytes| [Damage::Gap(at, bytes), Damage::Overlap(at, bytes)]);
        off.chain(places).chain([Damage::Exchanged(at)])
    };
    let mut all: Vec<Damage> = (0..first_body(count)).flat_map(byte).chain((0..count).flat_map(of_entry)).collect();
    all.extend((0..first_body(count) + 2 * saved.cells.len()).map(Damage::Cut));
    all.extend(OTHER_BYTES.map(Damage::Trailing));
    all.extend(off().into_iter().chain([(first_body(count) as u32).wrapping_neg()]).map(Damage::Starts));
    all.extend(OTHER_WAYS);
    all
}

/// All of these, each alone, and nothing at all.
pub fn made(saved: &Saved) -> Vec<Made> {
    let faults = faults(saved).into_iter().map(|fault| Made { faults: vec![fault], damages: vec![] });
    let damages = damages(saved).into_iter().map(|damage| Made { faults: vec![], damages: vec![damage] });
    [Made::default()].into_iter().chain(faults).chain(damages).collect()
}

/// Every fault alone and none, each with buffers at the edge of the file without it; and bytes behind the last entry.
pub fn writings(saved: &Saved) -> Vec<Writing> {
    let length = file_length(&saved.entries);
    let faults = faults(saved).into_iter().map(|fault| vec![fault]).chain([vec![]]);
    let lengths = |faults: Vec<Fault>| {
        let lengths = [0, length - 1, length, length + 1, length + 100];
        lengths.map(|length| Writing { faults: faults.clone(), more: 0, length })
    };
    let more = (1..ENTRY_LENGTH).map(|more| Writing { more, length: length + 100, ..Writing::default() });
    faults.flat_map(lengths).chain(more).collect()
}

/// An entry by its numbers: horse, leg, save and rows.
pub const fn entry([horse, leg, save, rows]: [u16; 4]) -> Entry {
    Entry { horse, leg: leg as u8, save: save as u8, rows }
}

/// Few entries: none; at the edges of the numbers; of the same leg, of two legs and of two horses, some of which have the same
/// low byte or the same two bytes; with the highest save at the front, in the middle and at the end, and without rows.
pub fn few() -> Vec<Vec<Entry>> {
    let all: [&[[u16; 4]]; 10] = [
        &[],
        &[[0, 1, 1, 0]],
        &[[65_535, 6, 255, 1]],
        &[[5, 2, 1, 1], [5, 2, 3, 2]],
        &[[5, 2, 4, 0], [5, 3, 4, 1]],
        &[[258, 3, 1, 1], [2, 3, 1, 0]],
        &[[5, 2, 2, 1], [5, 2, 9, 1], [5, 2, 8, 1]],
        &[[5, 2, 128, 0], [5, 2, 127, 1], [5, 2, 1, 0]],
        &[[5, 2, 3, 1], [7, 3, 1, 0], [5, 2, 5, 0], [7, 3, 2, 1]],
        &[[258, 3, 4, 1], [513, 3, 4, 1], [258, 4, 3, 0], [513, 4, 5, 2], [258, 3, 5, 1]],
    ];
    all.iter().map(|entries| entries.iter().map(|numbers| entry(*numbers)).collect()).collect()
}

/// Numbers of a horse and a leg that are looked up, which may be wider than these.
pub type Numbers = (u32, u32);

/// The numbers of an entry.
pub fn numbers(entry: &Entry) -> Numbers {
    (u32::from(entry.horse), u32::from(entry.leg))
}

/// What is added to a number above its bits.
const WIDER: [u32; 6] = [1, 2, 255, 256, 32_768, 65_535];

/// Numbers that have something in common with those of an entry: wider ones with the same low bits, and one of the two.
pub fn near(entry: &Entry) -> Vec<Numbers> {
    let (horse, leg) = numbers(entry);
    let wider = WIDER.into_iter().flat_map(|more| [(horse + (more << 16), leg), (horse, leg + (more << 8))]);
    let legs = (0..=8).chain([leg + 128, 255, u32::MAX]).map(|leg| (horse, leg));
    let horses = [horse ^ 1, horse ^ 0x8000, u32::from(entry.horse.swap_bytes()), u32::MAX].map(|horse| (horse, leg));
    wider.chain(legs).chain(horses).collect()
}

/// Up to 255 entries of five horses, no two of them alike.
pub fn many(count: u16) -> Vec<Entry> {
    (0..count).map(|at| entry([at % 5, 1 + at % 6, 1 + at, at % 2])).collect()
}
