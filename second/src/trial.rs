//! The trial: what the trial program makes of its input, as functions on bytes.

use crate::built::Link;
use crate::cell_bytes::cells;
use crate::limits::{ask, Limits, Refusal, CELLS};
use std::fmt::Write;

/// The longest input that is taken.
pub const LONGEST_INPUT: usize = 40_960;

/// Bytes before the first row.
const HEADER: usize = 7;

/// An input taken apart; its limits are not asked about yet.
#[derive(Clone, Debug, PartialEq, Eq)]
pub struct Input<'a> {
    /// The limits as asked for.
    pub limits: Limits,
    /// The rows, 16 cells each.
    pub supply: Vec<u16>,
    /// The events, two bytes each; an odd count is left to the run to refuse.
    pub events: &'a [u8],
}

/// Question 29, and the input's parts.
pub fn read(bytes: &[u8]) -> Result<Input<'_>, Refusal> {
    ask((HEADER..=LONGEST_INPUT).contains(&bytes.len()), Refusal::InputLength)?;
    let rows = HEADER..HEADER + usize::from(bytes[6]) * 2 * CELLS;
    ask(bytes.len() >= rows.end, Refusal::InputLength)?;
    Ok(Input {
        limits: Limits {
            window: usize::from(bytes[0]),
            data_life: u16::from(bytes[1]),
            reply_life: u16::from(bytes[2]),
            reply_wait: u16::from(bytes[3]),
            resend_wait: u16::from_le_bytes([bytes[4], bytes[5]]),
        },
        events: &bytes[rows.end..],
        supply: cells(&bytes[rows]).collect(),
    })
}

/// One line for each event and one for the counts.
fn lines(bytes: &[u8]) -> Result<String, Refusal> {
    let Input { limits, supply, events } = read(bytes)?;
    let (opened, mut link) = Link::open(limits);
    opened?;
    let mut record = vec![0; supply.len()];
    let mut answers = vec![0; events.len() / 2];
    let counts = link.run(events, &supply, &mut record, &mut answers)?;
    let mut text = String::new();
    for (event, answer) in events.chunks_exact(2).zip(answers) {
        // writing to a String cannot fail
        let _ = writeln!(text, "{} {} {answer}", event[0], event[1]);
    }
    let _ = writeln!(text, "sent {} acknowledged {} recorded {}", counts.sent, counts.acknowledged, counts.recorded);
    Ok(text)
}

/// All that the trial program prints.
pub fn output(bytes: &[u8]) -> Vec<u8> {
    lines(bytes).unwrap_or_else(|refusal| format!("refused {}\n", refusal as u8)).into_bytes()
}
