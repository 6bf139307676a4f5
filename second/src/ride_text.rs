//! A case as a ride in words, which `rides/ride` reads: docs/RIDES.md has the words.

use crate::compare::{Call, Case};
use crate::limits::{Limits, CELLS};
use crate::shrink::flat;

/// An event in words. What they cannot say is said by its two bytes.
pub fn words(kind: u8, argument: u8) -> String {
    let a = argument;
    match kind {
        1 if a == 0 => "send".into(),
        2 => format!("resend {a}"),
        3 => format!("data {a} arrives"),
        4 if a == 0 => "reply".into(),
        5 => format!("reply {a} arrives"),
        6 => format!("lose data {a}"),
        7 => format!("lose reply {a}"),
        8 => format!("tick {a}"),
        _ => format!("event {kind} {a}"),
    }
}

/// The supply's rows: in one line where the row with number m has cells of m.
fn row_lines(supply: &[u16]) -> Vec<String> {
    let rows = supply.as_chunks::<CELLS>().0;
    if rows.is_empty() {
        return vec![];
    }
    if rows.iter().enumerate().all(|(m, row)| *row == [m as u16; CELLS]) {
        return vec![format!("rows {}", rows.len())];
    }
    let line = |row: &[u16; CELLS]| {
        let one = *row == [row[0]; CELLS];
        let cells: Vec<String> = row[..if one { 1 } else { CELLS }].iter().map(u16::to_string).collect();
        format!("row {}", cells.join(" "))
    };
    rows.iter().map(line).collect()
}

/// What the case has that no ride has, as comments: buffers of other lengths, and calls that are not one event each.
fn comments(case: &Case) -> Vec<String> {
    let mut lines = vec![];
    let Limits { window, data_life, reply_life, reply_wait, .. } = case.limits;
    if window > 255 || data_life.max(reply_life).max(reply_wait) > 255 {
        lines.push("# a limit above 255 is for the library alone: no ride has it".into());
    }
    let (supply, record) = (case.supply.len(), case.record.len());
    if record != supply {
        lines.push(format!("# the record has {record} cells, and not as many as the supply"));
    }
    if !supply.is_multiple_of(CELLS) {
        lines.push(format!("# the supply has {} cells behind its last row", supply % CELLS));
    }
    let runs = case.calls.iter().filter_map(|call| match call {
        Call::Run { events, answers } => Some(format!("{} bytes with {answers} answers", events.len())),
        Call::One { .. } => None,
    });
    let runs: Vec<String> = runs.collect();
    if !runs.is_empty() {
        lines.push(format!("# among the calls are runs of {}", runs.join(", ")));
    }
    lines
}

/// The text of a .ride file.
pub fn text(case: &Case) -> String {
    let Limits { window, data_life, reply_life, reply_wait, resend_wait } = case.limits;
    let mut lines = comments(case);
    lines.push(format!("window {window}"));
    lines.push(format!("data life {data_life}"));
    lines.push(format!("reply life {reply_life}"));
    lines.push(format!("reply wait {reply_wait}"));
    if resend_wait != 0 {
        lines.push(format!("resend wait {resend_wait}"));
    }
    lines.extend(row_lines(&case.supply));
    lines.extend(flat(&case.calls).into_iter().map(|(kind, argument)| words(kind, argument)));
    lines.join("\n")
}
