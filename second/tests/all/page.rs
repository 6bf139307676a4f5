//! Pages: lines byte by byte, each question's edge, their order, and what stays.

use super::supply;
use second::limits::{number, Refusal, TORN_CELL};
use second::page::{page, shade, FIRST_CELLS, LINE_LENGTH, MOST_ROWS, PAGE_ROWS};

/// What stands in a buffer before a call: no page has such a byte.
const BLANK: u8 = 0xEE;

/// The rule for the shade of a cell that is not torn: times 10, divided by 4096, rounded down.
fn divided(cell: u16) -> u8 {
    (u32::from(cell) * 10 / 4096) as u8
}

/// The answer with a buffer of this length, and the buffer.
fn shown(record: &[u16], p: u64, length: usize) -> (Result<usize, Refusal>, Vec<u8>) {
    let mut buffer = vec![BLANK; length];
    (page(record, p, &mut buffer), buffer)
}

/// The text of a page, which a buffer holds exactly, and of which the bytes behind it stay in a longer one.
fn text(record: &[u16], p: u64) -> String {
    let (answer, mut buffer) = shown(record, p, 5000);
    let length = answer.expect("a page");
    assert!(buffer[length..].iter().all(|byte| *byte == BLANK));
    buffer.truncate(length);
    assert_eq!(shown(record, p, length), (Ok(length), buffer.clone()));
    String::from_utf8(buffer).expect("text")
}

/// Refused with this number, with nothing written.
fn refused(record: &[u16], p: u64, length: usize, expected: u8) {
    let (answer, buffer) = shown(record, p, length);
    assert_eq!(number(&answer), expected, "{} cells, page {p}, {length} bytes", record.len());
    assert!(buffer.iter().all(|byte| *byte == BLANK));
}

#[test]
fn shades() {
    for cell in 0..=4095 {
        assert_eq!(shade(cell), Some(divided(cell)), "cell {cell}");
    }
    assert_eq!(shade(TORN_CELL), None);
}

/// By the rule each has its shade, and the cell before it has the shade before.
#[test]
fn first_cells() {
    assert_eq!(FIRST_CELLS.map(divided), [1, 2, 3, 4, 5, 6, 7, 8, 9]);
    assert_eq!(FIRST_CELLS.map(|first| divided(first - 1)), [0, 1, 2, 3, 4, 5, 6, 7, 8]);
}

/// Both ends of every shade.
#[test]
fn a_page_of_three_lines() {
    let record = [
        [0, 409, 410, 819, 820, 1228, 1229, 1638, 1639, 2047, 2048, 2457, 2458, 2867, 2868, 3276],
        [3277, 3686, 3687, 4095, 4095, 3687, 3686, 3277, 3276, 2868, 2867, 2458, 2457, 2048, 2047, 1639],
        [1638, 1229, 1228, 820, 819, 410, 409, 0, 1, 2, 408, 411, 2049, 4094, 3688, 0],
    ];
    let expected = "    0 0011223344556677\n    1 8899998877665544\n    2 3322110000015990\n";
    assert_eq!(text(record.as_flattened(), 0), expected);
}

#[test]
fn bytes_of_a_line() {
    let row: [u16; 16] = [0, 500, 1000, 1500, 2000, 2200, 2500, 3000, 3500, 4000, 0, 0, 0, 0, 0, 4095];
    let (answer, buffer) = shown(&row, 0, 24);
    let mut expected = vec![0x20, 0x20, 0x20, 0x20, 0x30, 0x20];
    expected.extend([0x30, 0x31, 0x32, 0x33, 0x34, 0x35, 0x36, 0x37, 0x38, 0x39, 0x30, 0x30, 0x30, 0x30, 0x30, 0x39]);
    expected.extend([0x0A, BLANK]);
    assert_eq!((answer, buffer), (Ok(23), expected));

    // row 12,345 is the 46th of page 205
    let mut record = supply(12_346);
    record[12_345 * 16..].copy_from_slice(&row);
    assert_eq!(&text(&record, 205)[45 * 23..], "12345 0123456789000009\n");
}

/// A page starts at row 60 times its number, and shows 60 rows while there are so many.
#[test]
fn rows_of_a_page() {
    let record = supply(121);
    let [first, second, last] = [0, 1, 2].map(|p| text(&record, p));
    assert_eq!([&first, &second, &last].map(|page| page.lines().count()), [60, 60, 1]);
    assert_eq!([&first, &second, &last].map(|page| page.len()), [1380, 1380, 23]);
    let whole = first + &second + &last;
    for (at, line) in whole.lines().enumerate() {
        let shades: String = record[16 * at..][..16].iter().map(|cell| divided(*cell).to_string()).collect();
        assert_eq!(line, format!("{}{at} {shades}", " ".repeat(5 - at.to_string().len())));
    }
    assert_eq!(text(&supply(1), 0).len(), 23);
    assert_eq!(text(&supply(59), 0).len(), 59 * 23);
    assert_eq!(text(&supply(60), 0).len(), 1380);
    assert_eq!(text(&supply(61), 1).len(), 23);
}

/// The number stands at the right of 5 columns, also where it gets a digit more.
#[test]
fn numbers_of_all_lengths() {
    let record = vec![4095; MOST_ROWS * 16];
    let line = |row: usize| text(&record, row as u64 / 60)[row % 60 * 23..][..23].to_string();
    for (row, number) in [
        (0, "    0"),
        (9, "    9"),
        (10, "   10"),
        (99, "   99"),
        (100, "  100"),
        (999, "  999"),
        (1000, " 1000"),
        (9999, " 9999"),
        (10_000, "10000"),
        (99_999, "99999"),
    ] {
        assert_eq!(line(row), format!("{number} 9999999999999999\n"));
    }
    let last = text(&record, 1666);
    assert_eq!((last.lines().count(), last.len()), (40, 40 * 23));
    assert!(last.starts_with("99960 ") && last.ends_with("99999 9999999999999999\n"));
}

/// Question 30 at its two edges.
#[test]
fn records_that_have_no_pages() {
    for more in 1..16 {
        refused(&supply(3)[..2 * 16 + more], 0, 100, 30);
        refused(&supply(1)[..more], 0, 100, 30);
    }
    let record = supply(MOST_ROWS + 1);
    let rows = |rows: usize| &record[..rows * 16];
    for p in [0, 1666] {
        assert!(shown(rows(MOST_ROWS - 1), p, 1380).0.is_ok());
        assert!(shown(rows(MOST_ROWS), p, 1380).0.is_ok());
        refused(rows(MOST_ROWS + 1), p, 1380, 30);
        refused(&record[..MOST_ROWS * 16 + 1], p, 1380, 30);
        refused(&record[..MOST_ROWS * 16 - 1], p, 1380, 30);
    }
}

/// Question 31 at its edge.
#[test]
fn pages_past_the_end() {
    for p in [0, 1, u64::MAX] {
        refused(&[], p, 1380, 31);
    }
    refused(&supply(1), 1, 1380, 31);
    refused(&supply(60), 1, 1380, 31);
    refused(&supply(61), 2, 1380, 31);
    refused(&supply(MOST_ROWS), 1667, 1380, 31);
    refused(&supply(MOST_ROWS - 40), 1666, 1380, 31);
    assert_eq!(shown(&supply(MOST_ROWS - 39), 1666, 1380).0, Ok(23));
}

/// Numbers of which 60 times is no number of the machine. What is left of the product is a row here.
#[test]
fn pages_that_wrap() {
    let record = supply(200);
    for (p, left) in [
        (u64::MAX / 60 + 1, 44),
        (u64::MAX / 60 + 2, 104),
        (1 << 62, 0),
        ((1 << 62) + 1, 60),
        (1 << 63, 0),
        ((1 << 63) + 2, 120),
        ((3 << 62) + 3, 180),
    ] {
        assert_eq!(p.wrapping_mul(60), left);
        refused(&record, p, 1380, 31);
    }
    // the greatest that does not wrap, the greatest of all, and numbers that lead to a row in 32 bits
    for p in [u64::MAX / 60, u64::MAX - 1, u64::MAX, 1 << 30, 1 << 31, 1 << 32, (1 << 32) + 1, (1 << 32) / 60 + 1] {
        refused(&record, p, 1380, 31);
    }
}

/// Question 12 looks at the page's cells and at no others.
#[test]
fn cells_on_and_off_the_page() {
    let (first, last) = (60 * 16, 120 * 16 - 1);
    for cell in [4096, 4097, 32_768, 65_533, 65_534] {
        for at in [first, first + 1, first + 500, last - 1, last] {
            let mut record = supply(180);
            record[at] = cell;
            refused(&record, 1, 1380, 12);
            assert_eq!(text(&record, 0), text(&supply(180), 0));
            assert_eq!(text(&record, 2), text(&supply(180), 2));
        }
        for at in [0, first - 1, last + 1, 180 * 16 - 1] {
            let mut record = supply(180);
            record[at] = cell;
            assert_eq!(text(&record, 1), text(&supply(180), 1));
        }
    }
    assert_eq!(text(&[4095; 16], 0), "    0 9999999999999999\n");
}

/// Question 32 asks for the lines of this page, not for a full one.
#[test]
fn short_buffers() {
    for (rows, p, lines) in [(1, 0, 1), (59, 0, 59), (60, 0, 60), (61, 1, 1), (200, 3, 20), (MOST_ROWS, 1666, 40)] {
        let (record, length) = (supply(rows), lines * LINE_LENGTH);
        for short in [0, 1, 22, length - 23, length - 1] {
            refused(&record, p, short, 32);
        }
        for enough in [length, length + 1, length + 23, PAGE_ROWS * LINE_LENGTH] {
            let (answer, buffer) = shown(&record, p, enough);
            assert_eq!(answer, Ok(length));
            assert!(buffer[..length].iter().all(|byte| *byte != BLANK));
            assert!(buffer[length..].iter().all(|byte| *byte == BLANK));
        }
    }
}

/// Wherever two questions or more are answered no, the first of 30, 31, 12, 32 counts.
#[test]
fn order_of_the_questions() {
    let bad = vec![4096; (MOST_ROWS + 1) * 16];
    let good = supply(MOST_ROWS + 1);
    for cells in [1, 17, 60 * 16 + 1, (MOST_ROWS + 1) * 16] {
        // no such page; a bad cell; a short buffer; the last two
        refused(&good[..cells], 1667, 1380, 30);
        refused(&good[..cells], u64::MAX, 0, 30);
        refused(&bad[..cells], 0, 1380, 30);
        refused(&good[..cells], 0, 0, 30);
        refused(&bad[..cells], 0, 22, 30);
    }
    for (rows, p) in [(0, 0), (1, 1), (60, 1), (61, 2), (MOST_ROWS, 1667)] {
        // bad cells before the page; a short buffer, if there were lines; both
        refused(&bad[..rows * 16], p, 1380, 31);
        refused(&good[..rows * 16], p, 0, 31);
        refused(&bad[..rows * 16], p, 0, 31);
    }
    for length in [0, 22, 40 * 23 - 1] {
        refused(&bad[..60 * 16], 0, length, 12);
        refused(&bad[..MOST_ROWS * 16], 1666, length, 12);
    }
    // bad cells off the page do not come before 32
    let mut record = supply(61);
    record[0] = 4096;
    refused(&record, 1, 22, 32);
    refused(&record, 0, 22, 12);
}
