//! The names by which a report says where two links differ.

use second::matlink::{Matlink, NUMBERS};
use second::members::{members, name, not_zero};

/// A change of one number, and its name.
type Change = (fn(&mut Matlink), &'static str);

/// One changed number is named as the header names it.
#[test]
fn a_changed_number_has_its_name() {
    let changes: [Change; 9] = [
        (|link| link.window = 9, "window"),
        (|link| link.reply_count = 9, "reply_count"),
        (|link| link.mat_mark[31] = 9, "mat_mark[31]"),
        (|link| link.mat_cell[35] = 9, "mat_cell[35] (place 2, cell 3)"),
        (|link| link.pad_mark[0] = 9, "pad_mark[0]"),
        (|link| link.pad_timer[3] = 9, "pad_timer[3]"),
        (|link| link.data[37] = 9, "data[37] (message 2, number)"),
        (|link| link.data[575] = 9, "data[575] (message 31, cell 15)"),
        (|link| link.reply[95] = 9, "reply[95] (message 31, last)"),
    ];
    let zeros = Matlink::filled(0);
    for (change, name) in changes {
        let mut link = zeros.clone();
        change(&mut link);
        assert_eq!(members(&link, &zeros), Some(format!("{name}: library 9, expected 0")));
        assert_eq!(not_zero(&link), format!("{name} = 9"));
    }
}

/// Many differences are counted, and all numbers have names of their own.
#[test]
fn a_report_of_many_numbers_is_short() {
    let text = members(&Matlink::filled(1), &Matlink::filled(2)).expect("all differ");
    assert_eq!(text.lines().count(), 13);
    assert!(text.ends_with(&format!("and {} more", NUMBERS - 12)));
    let mut names: Vec<String> = (0..NUMBERS).map(name).collect();
    names.sort();
    names.dedup();
    assert_eq!(names.len(), NUMBERS);
}
