//! Random files: entries, faults, the numbers that are looked up, and calls for a writer.

use crate::draw_cells::random_illegal;
use crate::file::{first_body, Entry, ENTRY_LENGTH, MOST_ENTRIES, MOST_LEGS, ROW_LENGTH};
use crate::file_lists::{
    near, numbers, off, other_cells, other_entries, Damage, Fault, Made, Numbers, Saved, Writing, OTHER_BYTES, OTHER_WAYS,
};
use crate::random::Random;

/// How many entries there are: few more often than many, and one too many.
const COUNTS: [usize; 16] = [0, 1, 2, 2, 3, 3, 3, 4, 4, 5, 6, 8, 16, MOST_ENTRIES - 1, MOST_ENTRIES, MOST_ENTRIES + 1];

/// Horses with both bytes at their edges, among them two whose numbers have the same bytes.
const HORSES: [u16; 7] = [0, 1, 255, 256, 258, 513, u16::MAX];

/// Saves at the edges, of 8 bits and of 7.
const SAVES: [u8; 7] = [1, 2, 3, 127, 128, 254, 255];

/// Entries of at most three horses, none of them twice, so that many supersede others.
pub fn random_entries(random: &mut Random) -> Vec<Entry> {
    let count = random.one_of(&COUNTS);
    let horses = [random.one_of(&HORSES), random.one_of(&HORSES), random.next() as u16];
    let legs = 1 + random.below(usize::from(MOST_LEGS));
    let mut all: Vec<Entry> = vec![];
    while all.len() < count {
        let any = 1 + random.below(255) as u8;
        let entry = Entry {
            horse: random.one_of(&horses),
            leg: 1 + random.below(legs) as u8,
            save: if random.once_in(4) { any } else { random.one_of(&SAVES) },
            rows: random.one_of(&[0, 0, 1, 1, 2, 3]),
        };
        if all.iter().all(|other| other.key() != entry.key()) {
            all.push(entry);
        }
    }
    all
}

fn random_fault(random: &mut Random, saved: &Saved) -> Fault {
    let Saved { entries, cells } = saved;
    let at = random.below(entries.len().max(1));
    match random.below(5) {
        0 if !cells.is_empty() => Fault::Cell(random.below(cells.len()), random_illegal(random)),
        1 if !entries.is_empty() => Fault::Entry(at, random.one_of(&other_entries(entries, at))),
        2 | 3 if !entries.is_empty() => Fault::Entry(at, Entry { rows: entries[at].rows, ..random.one_of(entries) }),
        _ => Fault::Cells(random.one_of(&other_cells(cells.len()))),
    }
}

fn random_damage(random: &mut Random, saved: &Saved) -> Damage {
    let count = saved.entries.len();
    let at = random.below(count.max(1));
    let (bytes, off) = (random.one_of(&OTHER_BYTES), random.one_of(&off()));
    match random.below(10) {
        0 | 1 => Damage::Byte(random.below(first_body(count)), 1 + random.below(255) as u8),
        2 => Damage::Cut(random.below(first_body(count) + 2 * saved.cells.len())),
        3 => Damage::Trailing(bytes),
        4 => Damage::Start(at, off),
        5 => Damage::Starts(off),
        6 => Damage::Gap(at, bytes),
        7 => Damage::Overlap(at, bytes),
        8 => Damage::Exchanged(at),
        _ => random.one_of(&OTHER_WAYS),
    }
}

/// So many faults.
fn random_faults(random: &mut Random, saved: &Saved, count: usize) -> Vec<Fault> {
    (0..count).map(|_| random_fault(random, saved)).collect()
}

/// No fault or up to three.
pub fn random_made(random: &mut Random, saved: &Saved) -> Made {
    let [faults, damages] = random.one_of(&[[0, 0], [0, 0], [0, 0], [1, 0], [1, 0], [0, 1], [1, 1], [2, 0], [2, 1]]);
    let faults = random_faults(random, saved, faults);
    Made { faults, damages: (0..damages).map(|_| random_damage(random, saved)).collect() }
}

/// A horse and a leg, more often than not those of one of these entries.
pub fn random_numbers(random: &mut Random, entries: &[Entry]) -> Numbers {
    match random.below(8) {
        _ if entries.is_empty() => (random.below(2) as u32, random.below(3) as u32),
        0 => (random.next() as u32, random.next() as u32),
        1..=3 => {
            let near = near(&random.one_of(entries));
            random.one_of(&near)
        }
        _ => numbers(&random.one_of(entries)),
    }
}

/// A call for a writer, with a buffer about as long as the file, and now and then with another fault.
pub fn random_writing(random: &mut Random, saved: &Saved) -> Writing {
    let count = random.one_of(&[0, 0, 0, 1, 1, 2]);
    let faults = random_faults(random, saved, count);
    let more = if random.once_in(10) { 1 + random.below(ENTRY_LENGTH - 1) } else { 0 };
    Writing { length: random.one_of(&lengths(&saved.with(&faults))), faults, more }
}

/// Lengths of a buffer: none, a byte, the contents alone, a byte or a row too few, more than enough, and mostly just enough.
fn lengths(saved: &Saved) -> [usize; 12] {
    let first = first_body(saved.entries.len());
    let all = first + 2 * saved.cells.len();
    [0, 1, first, all - 1, all.saturating_sub(ROW_LENGTH), all, all, all, all, all + 1, all + ROW_LENGTH, all + 500]
}
