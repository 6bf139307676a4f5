//! Torn cells: the rule for a legal cell at its edges wherever it is asked, and a ride with torn cells over a loss.

use super::{counts, limits, list, record, supply};
use second::built::{Counts, Link};
use second::compare::{compare, event_bytes, ones, rows, Call, Case, UNWRITTEN};
use second::frames::{read, write, Frame, DATA_LENGTH};
use second::limits::{legal, legal_cell, number, Row, CELLS, TORN_CELL};
use second::page::{page, LINE_LENGTH};
use second::unbounded::Ends;

/// Cells at the edges of the rule, with the number of question 12.
const EDGES: [(u16, u8); 4] = [(4095, 0), (4096, 12), (65_534, 12), (65_535, 0)];

/// Rows with each of these cells at each place, beside whole cells and beside torn ones.
fn edge_rows() -> Vec<(Row, u8)> {
    let mut all = vec![];
    for (cell, answer) in EDGES {
        for beside in [7, TORN_CELL] {
            for place in 0..CELLS {
                let mut row = [beside; CELLS];
                row[place] = cell;
                all.push((row, answer));
            }
        }
    }
    all
}

#[test]
fn every_number_as_a_cell() {
    for cell in 0..=u16::MAX {
        assert_eq!(legal_cell(cell), cell < 4096 || cell == 65_535, "cell {cell}");
    }
    for (row, answer) in edge_rows() {
        assert_eq!(legal(&row), answer == 0, "{row:?}");
    }
    assert!(!legal_cell(UNWRITTEN), "a row of a record that nothing wrote is none");
}

/// By a call for one event, in a run and at the unbounded ends.
#[test]
fn send() {
    for (row, answer) in edge_rows() {
        let (_, fresh) = Link::open(limits(2, 1, 1, 1, 0));
        let (mut link, mut again, mut ends) = (fresh.clone(), fresh.clone(), Ends::fresh(fresh.limits));
        let mut answers = [99];
        assert_eq!(number(&link.step(1, 0, &row, &mut [])), answer, "{row:?}");
        let ran = again.run(&[1, 0], &row, &mut [], &mut answers);
        assert_eq!(ran.map(Counts::rows), Ok(counts(usize::from(answer == 0), 0, 0)));
        assert_eq!((answers, number(&ends.event(1, 0, &[row], 0))), ([answer], answer), "{row:?}");
        let sent: &[Row] = if answer == 0 { &[row] } else { &[] };
        assert!(link.data.all().iter().map(|message| message.row).eq(sent.iter().copied()));
        assert!(ends.data.iter().map(|message| message.row).eq(sent.iter().copied()));
        assert_eq!(link, again);
        let calls = ones(&list("1 0, 3 0, 4 0, 5 0"));
        assert_eq!(compare(&Case { limits: fresh.limits, supply: row.to_vec(), record: record(1), calls }), None);
    }
}

/// Written and read back, or refused by both.
#[test]
fn frames() {
    for (row, answer) in edge_rows() {
        let frame = Frame::Data { life: 1, window: 2, number: 3, row };
        let mut bytes = vec![1, 1, 2, 3];
        bytes.extend(row.iter().flat_map(|cell| cell.to_le_bytes()));
        let mut buffer = [0xEE; DATA_LENGTH + 4];
        let (got, written) = (read(&bytes), write(&frame, &mut buffer));
        assert_eq!((number(&got), number(&written)), (answer, answer), "{row:?}");
        bytes.resize(DATA_LENGTH + 4, 0xEE);
        if answer == 0 {
            assert_eq!((got, written), (Ok(frame), Ok(DATA_LENGTH)));
            assert_eq!(buffer, bytes[..]);
            assert_eq!(read(&buffer[..DATA_LENGTH]), Ok(frame));
        } else {
            assert_eq!(buffer, [0xEE; DATA_LENGTH + 4]);
        }
    }
}

#[test]
fn pages() {
    for (row, answer) in edge_rows() {
        let mut buffer = [0xEE; LINE_LENGTH + 1];
        let written = page(&row, 0, &mut buffer);
        assert_eq!(number(&written), answer, "{row:?}");
        if answer == 0 {
            let mark = |cell: &u16| match *cell {
                7 => '0',
                4095 => '9',
                _ => '-',
            };
            let line: String = row.iter().map(mark).collect();
            assert_eq!(written, Ok(LINE_LENGTH));
            assert_eq!(buffer[..LINE_LENGTH], *format!("    0 {line}\n").as_bytes());
            assert_eq!(buffer[LINE_LENGTH], 0xEE);
        } else {
            assert_eq!(buffer, [0xEE; LINE_LENGTH + 1]);
        }
    }
}

#[test]
fn a_page_with_hyphens() {
    let record = [
        [65_535, 409, 410, 65_535, 820, 1228, 1229, 1638, 1639, 2047, 2048, 2457, 2458, 2867, 4095, 65_535],
        [65_535; CELLS],
        [4095, 65_535, 4095, 0, 65_535, 0, 1, 1, 1, 1, 1, 1, 1, 1, 1, 1],
    ];
    let mut buffer = [0; 3 * LINE_LENGTH];
    assert_eq!(page(record.as_flattened(), 0, &mut buffer), Ok(3 * LINE_LENGTH));
    let expected = "    0 -01-22334455669-\n    1 ----------------\n    2 9-90-00000000000\n";
    assert_eq!(std::str::from_utf8(&buffer), Ok(expected));
    assert_eq!((buffer[6], buffer[21]), (0x2D, 0x2D));
}

/// Where the supply of the ride is torn: both ends of row 0, all of row 1 but one cell, one cell of row 2.
const TORN: [usize; 18] = [0, 15, 16, 17, 18, 19, 20, 21, 22, 24, 25, 26, 27, 28, 29, 30, 31, 40];

fn torn_places(cells: &[u16]) -> Vec<usize> {
    (0..cells.len()).filter(|at| cells[*at] == 65_535).collect()
}

/// Row 0 is lost, row 1 waits for it, and both are sent again; row 2 is sent when both are acknowledged. The record has each torn
/// cell where the supply has it, at the built ends and at the unbounded ones, and so has the page.
#[test]
fn a_ride_over_a_loss() {
    let (limits, mut cells) = (limits(2, 1, 1, 1, 4), supply(3));
    TORN.iter().for_each(|at| cells[*at] = 65_535);
    let events = list("1 0, 6 0, 1 0, 3 0, 8 4, 2 0, 2 1, 3 0, 3 0, 4 0, 5 0, 1 0, 3 0, 4 0, 5 0");
    let bytes = event_bytes(&events);

    let (_, mut link) = Link::open(limits);
    let (mut buffer, mut answers) = (record(4), [99; 15]);
    let ran = link.run(&bytes, &cells, &mut buffer, &mut answers);
    assert_eq!(ran.map(Counts::rows), Ok(counts(3, 3, 3)));
    assert_eq!(answers, [0; 15]);
    assert_eq!(torn_places(&buffer), TORN);
    assert_eq!(buffer, [&cells[..], &[UNWRITTEN; CELLS]].concat());

    let mut ends = Ends::fresh(limits);
    for (kind, argument) in &events {
        assert_eq!(ends.event(*kind, *argument, &rows(&cells), 4 * CELLS), Ok(()));
    }
    assert_eq!(torn_places(ends.record.as_flattened()), TORN);
    assert_eq!(ends.record, rows(&cells));

    for calls in [vec![Call::Run { events: bytes, answers: 15 }], ones(&events)] {
        assert_eq!(compare(&Case { limits, supply: cells.clone(), record: record(4), calls }), None);
    }

    let mut lines = [0; 3 * LINE_LENGTH];
    assert_eq!(page(&buffer[..3 * CELLS], 0, &mut lines), Ok(3 * LINE_LENGTH));
    let marks: Vec<u8> = lines.chunks_exact(LINE_LENGTH).flat_map(|line| &line[6..22]).copied().collect();
    let hyphens: Vec<usize> = (0..3 * CELLS).filter(|at| marks[*at] == b'-').collect();
    assert_eq!(hyphens, TORN);
}
