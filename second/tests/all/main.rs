//! Tests. What they share stands here: supplies, lists on a fresh link, random numbers.

mod account;
mod account_checks;
mod account_mistakes;
mod cases;
mod device_checks;
mod device_questions;
mod device_stand_in;
mod device_stand_in_mat;
mod device_stand_in_pad;
mod devices;
mod differ;
mod figure;
mod file;
mod file_checks;
mod file_lists;
mod file_stand_in;
mod frame_checks;
mod frames;
mod kept_devices;
mod lists;
mod made_up;
mod members;
mod mistakes;
mod page;
mod page_checks;
mod program;
mod short_wait;
mod shrink;
mod torn;
mod torn_checks;
mod trial;
mod wait_checks;
mod wait_of_0;
mod waits;

use second::built::{Counts, Link};
use second::compare::{compare, event_bytes, ones, Call, Case, UNWRITTEN};
use second::limits::{Limits, CELLS};

fn limits(window: usize, data_life: u16, reply_life: u16, reply_wait: u16, resend_wait: u16) -> Limits {
    Limits { window, data_life, reply_life, reply_wait, resend_wait }
}

/// Rows that all differ, with legal cells, none of them torn.
fn supply(rows: usize) -> Vec<u16> {
    (0..rows * CELLS).map(|cell| (cell * 1021 % 4096) as u16).collect()
}

/// A record buffer whose cells are no legal cells, so that a written row shows.
fn record(rows: usize) -> Vec<u16> {
    vec![UNWRITTEN; rows * CELLS]
}

/// A list as the paper writes it.
fn list(text: &str) -> Vec<(u8, u8)> {
    let byte = |text: &str| text.parse().expect("a byte");
    text.split(", ")
        .map(|event| event.split_once(' ').map(|(kind, argument)| (byte(kind), byte(argument))))
        .map(|event| event.expect("two bytes"))
        .collect()
}

/// What a run of events on a fresh link gave.
struct Ran {
    answers: Vec<u8>,
    counts: Counts,
    link: Link,
}

/// Runs a list with a supply and a record of 8 rows, after comparing the ends on it: in one run and event by event.
fn ran(limits: Limits, events: &[(u8, u8)]) -> Ran {
    let bytes = event_bytes(events);
    let run = vec![Call::Run { events: bytes.clone(), answers: events.len() }];
    for calls in [run, ones(events)] {
        assert_eq!(compare(&Case { limits, supply: supply(8), record: record(8), calls }), None);
    }
    let (opened, mut link) = Link::open(limits);
    assert_eq!(opened, Ok(()));
    let mut answers = vec![0; events.len()];
    let mut buffer = record(8);
    let counts = link.run(&bytes, &supply(8), &mut buffer, &mut answers).expect("the run is taken");
    assert_eq!(buffer[..counts.recorded * CELLS], supply(8)[..counts.recorded * CELLS]);
    Ran { answers, counts, link }
}

/// Counts of rows, with empty accounts.
fn counts(sent: usize, acknowledged: usize, recorded: usize) -> Counts {
    Counts { sent, acknowledged, recorded, ..Counts::default() }
}
