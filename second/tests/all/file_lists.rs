//! The lists of files: what each damage does to the bytes, what the lists have, and what a comparison must have met.

use second::draw_file::{random_entries, random_made, random_numbers};
use second::file::{current_of_numbers, saved_once, Entry, MOST_ENTRIES};
use second::file_lists::{damages, entry, faults, few, made, many, Damage, Fault, Made, Saved};
use second::file_met::{Looked, Met, Wrote};
use second::limits::{number, TORN_CELL};
use second::random::Random;
use std::collections::HashSet;

/// Two entries, with a row of cells 1 and a row of cells 2.
fn two() -> Saved {
    let cells = [[1; 16], [2; 16]].concat();
    Saved { entries: vec![entry([258, 3, 1, 1]), entry([7, 6, 255, 1])], cells }
}

/// The contents of their file.
const CONTENTS: [u8; 21] = [2, 2, 1, 3, 1, 1, 0, 21, 0, 0, 0, 7, 0, 6, 255, 1, 0, 53, 0, 0, 0];

/// Contents and bodies of the file with this damage.
fn damaged(damage: Damage) -> (Vec<u8>, Vec<u8>) {
    let made = Made { faults: vec![], damages: vec![damage] };
    let (_, file, length) = made.file(&two());
    let (contents, bodies) = file[..length].split_at(21.min(length));
    (contents.to_vec(), bodies.to_vec())
}

/// Bodies of so many cells of each of these numbers.
fn bodies(cells: &[(u8, usize)]) -> Vec<u8> {
    cells.iter().flat_map(|(cell, count)| [*cell, 0].repeat(*count)).collect()
}

/// The contents with other bytes at these places.
fn contents(other: &[(usize, u8)]) -> Vec<u8> {
    let mut contents = CONTENTS.to_vec();
    other.iter().for_each(|(at, byte)| contents[*at] = *byte);
    contents
}

#[test]
fn bytes_of_damaged_files() {
    let whole = bodies(&[(1, 16), (2, 16)]);
    for (damage, other) in [
        (Damage::Byte(14, 0x81), vec![(14, 0x7E)]),
        (Damage::Start(1, 256), vec![(18, 1)]),
        (Damage::Start(0, 1u32.wrapping_neg()), vec![(7, 20)]),
        (Damage::Starts(21u32.wrapping_neg()), vec![(7, 0), (17, 32)]),
        (Damage::InRows, vec![(7, 0), (17, 1)]),
        (Damage::HighFirst(0, 2), vec![(1, 1), (2, 2), (11, 0), (12, 7)]),
        (Damage::HighFirst(6, 10), vec![(7, 0), (10, 21), (17, 0), (20, 53)]),
        (Damage::Byte(117, 1), vec![]),
    ] {
        assert_eq!(damaged(damage), (contents(&other), whole.clone()), "{damage:?}");
    }
    assert_eq!(damaged(Damage::Byte(21, 4)), (contents(&[]), [&[5], &whole[1..]].concat()));
    assert_eq!(damaged(Damage::Cut(20)), (CONTENTS[..20].to_vec(), vec![]));
    assert_eq!(damaged(Damage::Cut(84)), (contents(&[]), whole[..63].to_vec()));
    assert_eq!(damaged(Damage::Trailing(2)), (contents(&[]), bodies(&[(1, 16), (2, 16), (0, 1)])));
    assert_eq!(damaged(Damage::Gap(0, 2)), (contents(&[(7, 23), (17, 55)]), bodies(&[(0, 1), (1, 16), (2, 16)])));
    assert_eq!(damaged(Damage::Gap(1, 4)), (contents(&[(17, 57)]), bodies(&[(1, 16), (0, 2), (2, 16)])));
    assert_eq!(damaged(Damage::Overlap(0, 2)), (contents(&[(17, 51)]), bodies(&[(1, 15), (2, 16)])));
    assert_eq!(damaged(Damage::Overlap(1, 4)), (contents(&[]), bodies(&[(1, 16), (2, 14)])));
    let exchanged = [&CONTENTS[..1], &CONTENTS[11..], &CONTENTS[1..11]].concat();
    assert_eq!(damaged(Damage::Exchanged(0)), (exchanged, whole.clone()));
    assert_eq!(damaged(Damage::Exchanged(1)), (contents(&[]), whole));
}

/// Behind the file stands what was cut, and a row. An entry that counts more rows moves the later starts.
#[test]
fn bytes_behind_a_file_and_faults() {
    let (_, whole, length) = Made::default().file(&two());
    assert_eq!((length, whole.len()), (85, 117));
    let cut = Made { faults: vec![], damages: vec![Damage::Cut(50)] };
    assert_eq!(cut.file(&two()), (two().entries, whole.clone(), 50));
    let other = Entry { rows: 2, ..two().entries[0] };
    let faults = vec![Fault::Entry(0, other), Fault::Cell(0, 9), Fault::Cells(31), Fault::Cell(31, 9)];
    let (entries, file, length) = Made { faults, damages: vec![] }.file(&two());
    assert_eq!((entries, length), (vec![other, two().entries[1]], 83));
    assert_eq!(file[..21], contents(&[(5, 2), (17, 85)]));
    assert_eq!(file[21..83], [&[9, 0], &whole[23..83]].concat());
}

/// No list has an entry twice, and the faults of few entries lead to each answer.
#[test]
fn listed_files() {
    let mut answers = HashSet::new();
    for entries in few() {
        assert!(saved_once(&entries) && entries.len() <= MOST_ENTRIES);
        let saved = Saved::of(&mut Random::new(0), entries);
        assert_eq!(made(&saved).len(), 1 + faults(&saved).len() + damages(&saved).len());
        for made in made(&saved) {
            let (_, file, length) = made.file(&saved);
            let answer = number(&current_of_numbers(&file[..length], 5, 2));
            assert!(made != Made::default() || [0, 35].contains(&answer));
            answers.insert(answer);
        }
    }
    assert_eq!(answers, HashSet::from([0, 33, 34, 35]));
    for count in [63, 64, 65, 255] {
        assert!(many(count).len() == usize::from(count) && saved_once(&many(count)));
    }
}

/// Random entries are good ones but for their count, and the same seed gives the same calls.
#[test]
fn random_files() {
    let draw = |seed| {
        let random = &mut Random::new(seed);
        let entries = random_entries(random);
        assert!(saved_once(&entries) && entries.iter().all(|entry| (1..=6).contains(&entry.leg) && entry.save > 0));
        let saved = Saved::of(random, entries);
        let made = random_made(random, &saved);
        (random_numbers(random, &saved.entries), saved, made)
    };
    let counts: HashSet<usize> = (0..200).map(|seed| draw(seed).1.entries.len()).collect();
    assert!([0, 1, 2, 63, 64, 65].iter().all(|count| counts.contains(count)), "{counts:?}");
    assert_eq!(draw(3), draw(3));
}

/// The same lookup so often that every answer must have come.
fn many_lookups(met: &mut Met, looked: &Looked) {
    met.looked(looked);
    assert_eq!(met.all_there(), Ok(()), "too few calls");
    (0..2000).for_each(|_| met.looked(looked));
}

/// Lookups that leave out an answer, or something else that must be met.
fn lookups_left_out(met: &mut Met) {
    let (one, twice, most) = ([entry([1, 1, 1, 1])], [entry([1, 1, 1, 1]); 2], many(64));
    let looked = Looked { entries: &one, horse: 1, leg: 1, answer: 0, body: &[1, 0] };
    many_lookups(met, &looked);
    for answer in [33, 34, 35] {
        assert_eq!(met.all_there(), Err(format!("lookups in files: never answered {answer}")));
        met.looked(&Looked { answer, ..looked });
    }
    for (call, name) in [
        (Looked { body: &[], ..looked }, "an empty body"),
        (Looked { entries: &twice, ..looked }, "a superseded save"),
        (Looked { entries: &most, ..looked }, "64 entries"),
        (Looked { horse: 65_537, answer: 35, ..looked }, "a horse that is there modulo 65,536"),
        (Looked { leg: 257, answer: 35, ..looked }, "a leg that is there modulo 256"),
        (Looked { leg: 2, answer: 34, ..looked }, "34 before 35"),
        (Looked { entries: &twice, answer: 33, ..looked }, "33 before 34"),
    ] {
        assert_eq!(met.all_there(), Err(format!("files: no lookup with {name}")));
        met.looked(&call);
    }
    assert_eq!(met.all_there(), Err("bodies: none accepted with a torn cell".into()));
    met.looked(&Looked { body: &[255, 255], ..looked });
}

/// The same of writings.
fn writings_left_out(met: &mut Met) {
    let (one, twice, most) = ([entry([1, 1, 1, 1])], [entry([1, 1, 1, 1]); 2], many(64));
    let wrote = Wrote { entries: &one, cells: &[1], answer: 0 };
    for answer in [0, 33, 34] {
        assert_eq!(met.all_there(), Err(format!("writings of files: never answered {answer}")));
        met.wrote(&Wrote { answer, ..wrote });
    }
    for (call, name) in [
        (Wrote { entries: &[], ..wrote }, "no entries"),
        (Wrote { entries: &most, ..wrote }, "64 entries"),
        (Wrote { entries: &twice, answer: 33, ..wrote }, "33 before 34"),
    ] {
        assert_eq!(met.all_there(), Err(format!("files: no writing with {name}")));
        met.wrote(&call);
    }
    assert_eq!(met.all_there(), Err("files: none accepted with a torn cell".into()));
    met.wrote(&Wrote { cells: &[TORN_CELL], ..wrote });
}

#[test]
fn calls_left_out_are_found_out() {
    let mut met = Met::default();
    lookups_left_out(&mut met);
    writings_left_out(&mut met);
    assert_eq!(met.all_there(), Ok(()));
}
