//! The horse's file: bytes by hand, each rule's edges, the order of the questions, and what stays.

use second::file::{
    current, current_of_numbers, file_length, lookup, write, write_from_bytes, Entry, CONTENTS_LENGTH, ENTRY_LENGTH,
    ROW_LENGTH,
};
use second::limits::{number, Refusal, TORN_CELL};
use second::random::Random;

/// What stands in a buffer before a call.
const BLANK: u8 = 0xEE;

/// An entry.
fn entry(horse: u16, leg: u8, save: u8, rows: u16) -> Entry {
    Entry { horse, leg, save, rows }
}

/// Cells for so many rows, all different.
fn cells(rows: usize) -> Vec<u16> {
    (0..16 * rows as u16).collect()
}

/// The answer with a buffer of this length, and the buffer.
fn wrote(entries: &[Entry], rows: &[u16], length: usize) -> (Result<usize, Refusal>, Vec<u8>) {
    let mut buffer = vec![BLANK; length];
    (write(entries, rows, &mut buffer), buffer)
}

/// The file of these entries with such cells, which a buffer holds exactly. In a longer one the bytes behind it stay.
fn file(entries: &[Entry]) -> Vec<u8> {
    let rows = cells(entries.iter().map(|entry| usize::from(entry.rows)).sum());
    let (answer, mut buffer) = wrote(entries, &rows, 20_000);
    let length = answer.expect("a file");
    assert!(buffer[length..].iter().all(|byte| *byte == BLANK));
    buffer.truncate(length);
    assert_eq!(wrote(entries, &rows, length), (Ok(length), buffer.clone()));
    buffer
}

/// Refused with this number, with nothing written, in a buffer of this length.
fn refused(entries: &[Entry], rows: &[u16], length: usize, expected: u8) {
    let (answer, buffer) = wrote(entries, rows, length);
    assert_eq!(number(&answer), expected, "{entries:?}, {} cells, {length} bytes", rows.len());
    assert!(buffer.iter().all(|byte| *byte == BLANK));
}

/// The number of a lookup.
fn answer(file: &[u8], horse: u16, leg: u8) -> u8 {
    number(&lookup(file, horse, leg))
}

/// The file with other bytes at this place.
fn with(file: &[u8], at: usize, bytes: &[u8]) -> Vec<u8> {
    let mut file = file.to_vec();
    file[at..at + bytes.len()].copy_from_slice(bytes);
    file
}

/// Two entries: leg 3 of horse 258 with a row, leg 6 of horse 7 with two.
fn by_hand() -> Vec<u8> {
    let mut file = vec![2];
    file.extend([0x02, 0x01, 3, 1, 1, 0, 21, 0, 0, 0]);
    file.extend([7, 0, 6, 255, 2, 0, 53, 0, 0, 0]);
    file.extend((0..48).flat_map(|cell| [cell, 0]));
    file
}

#[test]
fn bytes_of_a_file() {
    let bytes = by_hand();
    assert_eq!(bytes.len(), 1 + 10 + 10 + 32 + 64);
    assert_eq!(file(&[entry(258, 3, 1, 1), entry(7, 6, 255, 2)]), bytes);
    assert_eq!(lookup(&bytes, 258, 3), Ok(&bytes[21..53]));
    assert_eq!(lookup(&bytes, 7, 6), Ok(&bytes[53..117]));
    assert_eq!(current(&bytes, 7, 6), Ok(53..117));
    for (horse, leg) in [(258, 6), (7, 3), (513, 3), (2, 3), (7, 7), (7, 0), (0, 0), (258, 255), (65_535, 1)] {
        assert_eq!(answer(&bytes, horse, leg), 35, "horse {horse}, leg {leg}");
    }
}

/// Cells, rows and starts with two bytes and more.
#[test]
fn high_bytes() {
    let rows: Vec<u16> = (0..16 * 2050).map(|cell| if cell % 16 == 0 { TORN_CELL } else { 0x0F01 }).collect();
    let (answer, buffer) = wrote(&[entry(0xFFFE, 1, 128, 2049), entry(0, 2, 1, 1)], &rows, 65_621);
    assert_eq!(answer, Ok(21 + 65_568 + 32));
    assert_eq!(buffer[..11], [2, 0xFE, 0xFF, 1, 128, 0x01, 0x08, 21, 0, 0, 0]);
    // 65,589 is hex 10035
    assert_eq!(buffer[11..21], [0, 0, 2, 1, 1, 0, 0x35, 0x00, 0x01, 0x00]);
    assert_eq!(buffer[21..25], [0xFF, 0xFF, 0x01, 0x0F]);
    assert_eq!(current(&buffer, 0, 2), Ok(65_589..65_621));
    assert_eq!(current(&buffer, 0xFFFE, 1), Ok(21..65_589));
}

#[test]
fn files_without_entries() {
    assert_eq!(file(&[]), [0]);
    assert_eq!(answer(&[0], 0, 1), 35);
    assert_eq!(answer(&[], 0, 1), 33);
    assert_eq!(answer(&[0, 0], 0, 1), 33);
    refused(&[], &[], 0, 33);
    refused(&[], &[0], 100, 33);
}

/// The highest save of a horse and leg is current, wherever it stands.
#[test]
fn superseded_saves() {
    let saves = [[1, 2, 255], [1, 255, 2], [2, 1, 255], [2, 255, 1], [255, 1, 2], [255, 2, 1]];
    for saves in saves {
        let mut entries: Vec<Entry> = saves.iter().map(|save| entry(9, 4, *save, 1)).collect();
        entries.insert(1, entry(9, 5, 200, 1));
        entries.insert(3, entry(8, 4, 201, 1));
        let bytes = file(&entries);
        let at = entries.iter().position(|entry| entry.save == 255).expect("one of them");
        assert_eq!(current(&bytes, 9, 4), Ok(51 + 32 * at..83 + 32 * at), "{saves:?}");
        assert_eq!(current(&bytes, 9, 5), Ok(83..115));
        assert_eq!(current(&bytes, 8, 4), Ok(147..179));
    }
}

/// A body without rows supersedes others, and its place is where it would start.
#[test]
fn bodies_without_rows() {
    let bytes = file(&[entry(1, 1, 5, 0), entry(1, 1, 4, 2), entry(2, 1, 1, 0)]);
    assert_eq!(lookup(&bytes, 1, 1), Ok(&[][..]));
    assert_eq!(current(&bytes, 1, 1), Ok(31..31));
    assert_eq!(current(&bytes, 2, 1), Ok(95..95));
    assert_eq!(bytes.len(), 95);
    let bytes = file(&[entry(1, 1, 3, 0), entry(1, 1, 4, 2)]);
    assert_eq!(current(&bytes, 1, 1), Ok(21..85));
}

/// Legs 1 to 6 and saves 1 to 255, in contents and for a writer; every horse.
#[test]
fn numbers_of_an_entry() {
    let bytes = file(&[entry(5, 1, 1, 1)]);
    for number in 0..=255 {
        let leg = if (1..=6).contains(&number) { 0 } else { 33 };
        assert_eq!(answer(&with(&bytes, 3, &[number]), 5, if leg == 0 { number } else { 1 }), leg, "leg {number}");
        assert_eq!(answer(&with(&bytes, 4, &[number]), 5, 1), if number > 0 { 0 } else { 33 }, "save {number}");
        for (entry, answer) in [(entry(5, number, 1, 0), leg), (entry(5, 1, number, 0), if number > 0 { 0 } else { 33 })] {
            assert_eq!(number_of(&[entry]), answer, "{entry:?}");
        }
    }
    for horse in [0, 1, 255, 256, 65_534, 65_535] {
        assert_eq!(answer(&file(&[entry(horse, 1, 1, 1)]), horse, 1), 0);
        assert_eq!(answer(&file(&[entry(horse, 1, 1, 1)]), !horse, 1), 35);
    }
}

/// The number of writing these entries, which have no rows.
fn number_of(entries: &[Entry]) -> u8 {
    number(&wrote(entries, &[], 5000).0)
}

/// 64 entries are the most, whatever else the file says.
#[test]
fn counts_of_entries() {
    let entries: Vec<Entry> = (0..65).map(|at| entry(at, 1, 1, 0)).collect();
    let most = file(&entries[..64]);
    assert_eq!(most.len(), 641);
    assert_eq!(answer(&most, 63, 1), 0);
    assert_eq!(number_of(&entries), 33);
    let mut more = vec![65];
    for horse in 0..65 {
        more.extend([horse, 0, 1, 1, 0, 0, 0x8B, 0x02, 0, 0]);
    }
    assert_eq!(more.len(), 0x28B);
    assert_eq!(answer(&more, 0, 1), 33);
    for count in (0..64).chain(65..=255) {
        assert_eq!(answer(&with(&most, 0, &[count]), 0, 1), 33, "count {count}");
    }
}

/// Each start is where the body before ends, counted from the first byte, in all four bytes.
#[test]
fn starts_of_bodies() {
    let bytes = by_hand();
    for (at, right) in [(7, 21u32), (17, 53)] {
        let others =
            [0, 1, 10, right - 21, right - 1, right + 1, right + 10, right + 31, right + 32, right + 64, right / 32];
        let wide = (8..32).map(|bit| right + (1 << bit));
        for start in others.into_iter().chain(wide).chain([u32::MAX]).filter(|start| *start != right) {
            let damaged = with(&bytes, at, &start.to_le_bytes());
            assert_eq!((answer(&damaged, 258, 3), answer(&damaged, 7, 6)), (33, 33), "start {start} at {at}");
        }
    }
    // the bodies exchanged, and the starts as well
    let exchanged = with(&with(&bytes, 7, &[85]), 17, &[21]);
    assert_eq!(answer(&exchanged, 7, 6), 33);
}

/// No byte between the bodies or behind them, and none missing.
#[test]
fn ends_of_bodies() {
    let bytes = by_hand();
    for length in 0..bytes.len() {
        assert_eq!(answer(&bytes[..length], 258, 3), 33, "{length} bytes");
    }
    for more in 1..100 {
        assert_eq!(answer(&[bytes.clone(), vec![0; more]].concat(), 258, 3), 33, "{more} bytes more");
        let gap = [&with(&bytes, 17, &[53 + more as u8])[..53], &vec![0; more], &bytes[53..]].concat();
        assert_eq!(answer(&gap, 258, 3), 33, "a gap of {more} bytes");
        let gap = with(&with(&bytes, 7, &[21 + more as u8]), 17, &[53 + more as u8]);
        assert_eq!(answer(&[&gap[..21], &vec![0; more], &gap[21..]].concat(), 258, 3), 33, "{more} bytes before the bodies");
    }
    for rows in [0, 3, 258] {
        assert_eq!(answer(&with(&bytes, 15, &u16::to_le_bytes(rows)), 258, 3), 33, "{rows} rows");
    }
    assert_eq!(answer(&with(&with(&bytes, 5, &[2]), 17, &[85]), 258, 3), 33, "a row more, and later starts as well");
    assert_eq!(answer(&with(&with(&with(&bytes, 5, &[2]), 17, &[85]), 15, &[1]), 258, 3), 0, "a row of the other one");
}

/// Every cell of every body is legal, whichever is looked up.
#[test]
fn cells_of_bodies() {
    let bytes = by_hand();
    for at in (21..117).step_by(2) {
        for (cell, expected) in [(4095u16, 0), (4096, 33), (30_000, 33), (65_534, 33), (TORN_CELL, 0)] {
            let other = with(&bytes, at, &cell.to_le_bytes());
            assert_eq!((answer(&other, 258, 3), answer(&other, 7, 6)), (expected, expected), "cell {cell} at {at}");
            let (mut rows, entries) = (cells(3), [entry(258, 3, 1, 1), entry(7, 6, 255, 2)]);
            rows[(at - 21) / 2] = cell;
            if expected == 0 {
                assert_eq!(wrote(&entries, &rows, 117), (Ok(117), other));
            } else {
                refused(&entries, &rows, 117, 33);
            }
        }
    }
}

/// Just the rows that the entries count.
#[test]
fn cells_of_other_counts() {
    let entries = [entry(1, 1, 1, 2), entry(1, 2, 1, 0), entry(1, 3, 1, 1)];
    for count in (0..100).filter(|count| *count != 48) {
        refused(&entries, &vec![0; count], 500, 33);
    }
    assert_eq!(wrote(&entries, &[0; 48], 500).0, Ok(31 + 96));
}

/// A buffer as long as the file is enough.
#[test]
fn short_buffers() {
    for (entries, rows) in [(vec![], 0), (vec![entry(1, 1, 1, 0)], 0), (vec![entry(1, 1, 1, 2), entry(1, 1, 2, 1)], 3)] {
        let length = file_length(&entries);
        for short in 0..length {
            refused(&entries, &cells(rows), short, 33);
        }
        assert_eq!(file(&entries).len(), length);
    }
}

/// 34 for two equal ones anywhere, whatever their rows and whichever is looked up.
#[test]
fn saved_twice() {
    let entries: Vec<Entry> = (0..7).map(|at| entry(at, 1, 1, at % 2)).collect();
    let bytes = file(&entries);
    for (one, other) in (0..7).flat_map(|one| (0..one).map(move |other| (one, other))) {
        let twice = with(&bytes, 1 + 10 * one, &bytes[1 + 10 * other..5 + 10 * other]);
        for horse in 0..8 {
            assert_eq!(answer(&twice, horse, 1), 34, "{one} and {other}");
        }
        let mut entries = entries.clone();
        entries[one] = Entry { rows: entries[one].rows, ..entries[other] };
        refused(&entries, &cells(3), 1000, 34);
    }
    // two of the three are no reason
    for other in [entry(2, 1, 1, 0), entry(1, 2, 1, 0), entry(1, 1, 2, 0), entry(257, 1, 1, 0)] {
        assert_eq!(answer(&file(&[entry(1, 1, 1, 0), other]), 1, 1), 0);
    }
}

/// Wherever two questions or more are answered no, the first of 33, 34, 35 counts.
#[test]
fn order_of_the_questions() {
    let twice = [entry(1, 1, 1, 1), entry(1, 1, 1, 0)];
    let bytes = with(&file(&[entry(1, 1, 1, 1), entry(1, 1, 2, 0)]), 14, &[1]);
    assert_eq!((answer(&bytes, 1, 1), answer(&bytes, 1, 2), answer(&bytes, 1, 0)), (34, 34, 34));
    for damaged in [with(&bytes, 0, &[3]), with(&bytes, 3, &[7]), with(&bytes, 7, &[20]), with(&bytes, 52, &[0x10])] {
        assert_eq!((answer(&damaged, 1, 1), answer(&damaged, 1, 2)), (33, 33));
    }
    assert_eq!((answer(&bytes[..52], 1, 2), answer(&[bytes, vec![0]].concat(), 1, 2)), (33, 33));
    assert_eq!(answer(&by_hand()[..116], 1, 1), 33);
    refused(&twice, &cells(1), 53, 34);
    refused(&twice, &cells(1), 52, 33);
    refused(&twice, &cells(1)[..15], 53, 33);
    refused(&twice, &cells(2), 100, 33);
    refused(&twice, &[4096; 16], 53, 33);
    refused(&[twice[0], twice[1], entry(1, 7, 1, 0)], &cells(1), 100, 33);
    refused(&vec![entry(1, 1, 1, 0); 65], &[], 1000, 33);
}

/// Numbers that are no horse and no leg get 35 in its turn, also where their low bits are.
#[test]
fn wide_numbers() {
    let bytes = by_hand();
    let answer = |file: &[u8], horse, leg| number(&current_of_numbers(file, horse, leg));
    assert_eq!(current_of_numbers(&bytes, 258, 3), Ok(21..53));
    for (horse, leg) in
        [(65_536 + 258, 3), (0x8000_0102, 3), (258, 256 + 3), (258, 0x8000_0003), (u32::MAX, u32::MAX), (258, 0)]
    {
        assert_eq!(answer(&bytes, horse, leg), 35);
        assert_eq!(answer(&bytes[1..], horse, leg), 33);
        assert_eq!(answer(&with(&bytes, 11, &bytes[1..5]), horse, leg), 34);
    }
}

/// Entries as bytes are the same, and none may be cut.
#[test]
fn entries_as_bytes() {
    let bytes = [2, 1, 3, 1, 1, 0, 7, 0, 6, 255, 2, 0];
    let mut buffer = vec![BLANK; 120];
    assert_eq!(write_from_bytes(&bytes, &cells(3), &mut buffer), Ok(117));
    assert_eq!(buffer, [by_hand(), vec![BLANK; 3]].concat());
    for length in (0..12).filter(|length| length % 6 != 0) {
        let (mut buffer, rows) = (vec![BLANK; 120], cells(length / 6));
        assert_eq!(write_from_bytes(&bytes[..length], &rows, &mut buffer), Err(Refusal::FileUnsound));
        assert_eq!(buffer, [BLANK; 120]);
    }
    assert_eq!((ENTRY_LENGTH, CONTENTS_LENGTH, ROW_LENGTH), (6, 10, 32));
    assert_eq!(file_length(&[entry(0, 1, 1, u16::MAX); 64]), 134_216_321);
}

/// A lookup in a written file gives the rows entered under the highest save of the horse and leg, or 35.
#[test]
fn rows_that_were_entered() {
    let mut random = Random::new(7);
    for _ in 0..300 {
        let mut entries: Vec<Entry> = vec![];
        let mut rows: Vec<Vec<u16>> = vec![];
        for _ in 0..random.below(12) {
            let new =
                entry(random.below(2) as u16, 1 + random.below(3) as u8, 1 + random.below(9) as u8, random.below(3) as u16);
            if !entries.iter().any(|other| other.key() == new.key()) {
                entries.push(new);
                rows.push((0..16 * new.rows).map(|_| random.below(4096) as u16).collect());
            }
        }
        let (answer, buffer) = wrote(&entries, &rows.concat(), 5000);
        let bytes = &buffer[..answer.expect("a file")];
        for (horse, leg) in (0..3).flat_map(|horse| (0..5).map(move |leg| (horse, leg))) {
            let (mut highest, mut entered) = (0, None);
            for (entry, rows) in entries.iter().zip(&rows) {
                if (entry.horse, entry.leg) == (horse, leg) && entry.save > highest {
                    (highest, entered) =
                        (entry.save, Some(rows.iter().flat_map(|cell| cell.to_le_bytes()).collect::<Vec<u8>>()));
                }
            }
            assert_eq!(lookup(bytes, horse, leg).ok(), entered.as_deref(), "{entries:?}");
        }
    }
}
