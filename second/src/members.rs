//! Differences between two links, two records or two answer buffers by name and place, so that a report is short.

use crate::limits::CELLS;
use crate::matlink::{Matlink, DATA_WORDS, REPLY_WORDS};

/// The single numbers of a link, in their order.
const HEAD: [&str; 10] = [
    "window",
    "data_life",
    "reply_life",
    "reply_wait",
    "resend_wait",
    "oldest",
    "next",
    "wanted",
    "data_count",
    "reply_count",
];

/// How many differences a report names.
const NAMED: usize = 12;

/// The arrays of a link with their lengths, in their order.
const ARRAYS: [(&str, usize); 8] = [
    ("mat_mark", 32),
    ("mat_timer", 32),
    ("mat_cell", 32 * CELLS),
    ("pad_mark", 32),
    ("pad_timer", 32),
    ("pad_cell", 32 * CELLS),
    ("data", 32 * DATA_WORDS),
    ("reply", 32 * REPLY_WORDS),
];

/// The name of the number at this place among all numbers of a link, as C has it, and what it is where that does not say.
pub fn name(at: usize) -> String {
    if let Some(name) = HEAD.get(at) {
        return (*name).into();
    }
    let mut index = at - HEAD.len();
    for (name, length) in ARRAYS {
        if index < length {
            let what = match name {
                "mat_cell" | "pad_cell" => format!(" (place {}, cell {})", index / CELLS, index % CELLS),
                "data" => format!(" (message {}, {})", index / DATA_WORDS, data_word(index % DATA_WORDS)),
                "reply" => format!(" (message {}, {})", index / REPLY_WORDS, ["life", "first", "last"][index % REPLY_WORDS]),
                _ => String::new(),
            };
            return format!("{name}[{index}]{what}");
        }
        index -= length;
    }
    format!("number {at}")
}

fn data_word(word: usize) -> String {
    match word {
        0 => "life".into(),
        1 => "number".into(),
        _ => format!("cell {}", word - 2),
    }
}

/// Where the library's numbers differ from those that are expected, at most the first dozen of them, each with its name.
pub fn named<T: Copy + PartialEq + std::fmt::Display>(
    library: &[T],
    expected: &[T],
    name: impl Fn(usize) -> String,
) -> Option<String> {
    // counted and not kept: a file has up to 134,216,321 bytes
    let differ = || (0..library.len().min(expected.len())).filter(|at| library[*at] != expected[*at]);
    let count = differ().count();
    if count == 0 {
        return None;
    }
    let line = |at| format!("{}: library {}, expected {}", name(at), library[at], expected[at]);
    let mut lines: Vec<String> = differ().take(NAMED).map(line).collect();
    if count > NAMED {
        lines.push(format!("and {} more", count - NAMED));
    }
    Some(lines.join("\n"))
}

/// The members in which two links differ.
pub fn members(library: &Matlink, expected: &Matlink) -> Option<String> {
    named(&library.numbers(), &expected.numbers(), name)
}

/// The members that are not 0, which are a whole link where it was cut.
pub fn not_zero(link: &Matlink) -> String {
    let numbers = link.numbers();
    let shown = |(at, number): (usize, &u16)| (*number != 0).then(|| format!("{} = {number}", name(at)));
    numbers.iter().enumerate().filter_map(shown).collect::<Vec<_>>().join("\n")
}
