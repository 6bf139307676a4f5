//! The proved trial program compared with the trial here, one process for each input.

use crate::compare::{event_bytes, ones, Case};
use crate::draw::random_case;
use crate::limits::{Limits, CELLS};
use crate::random::Random;
use crate::report::{Outcome, Replay};
use crate::shrink::{flat, shortest};
use crate::threads::{items, seeds, sums, Amount};
use crate::trial::{output, LONGEST_INPUT};
use std::io::{Result, Write};
use std::process::{Command, Stdio};

/// The input of a case: its limits fit their bytes, and it has at most 255 rows.
fn input_of(case: &Case) -> Vec<u8> {
    let Limits { window, data_life, reply_life, reply_wait, resend_wait } = case.limits;
    let rows = case.supply.len() / CELLS;
    let mut input = vec![window as u8, data_life as u8, reply_life as u8, reply_wait as u8];
    input.extend(resend_wait.to_le_bytes());
    input.push(rows as u8);
    input.extend(case.supply[..rows * CELLS].iter().flat_map(|cell| cell.to_le_bytes()));
    input.extend(event_bytes(&flat(&case.calls)));
    input
}

/// What the program prints for an input. It must end with status 0.
fn printed(program: &str, input: &[u8]) -> Result<Vec<u8>> {
    let mut child = Command::new(program).stdin(Stdio::piped()).stdout(Stdio::piped()).spawn()?;
    let mut pipe = child.stdin.take().expect("a pipe");
    // a pipe takes the longest input whole, and the program may end before it has read all
    let _ = pipe.write_all(input);
    drop(pipe);
    let out = child.wait_with_output()?;
    if out.status.success() {
        Ok(out.stdout)
    } else {
        Err(std::io::Error::other(format!("the trial ends with {}", out.status)))
    }
}

/// Whether both print the same.
fn same(program: &str, input: &[u8]) -> bool {
    printed(program, input).is_ok_and(|text| text == output(input))
}

/// The first line in which the outputs differ.
fn first_difference(program: &str, input: &[u8]) -> String {
    let proved = match printed(program, input) {
        Ok(text) => text,
        Err(error) => return error.to_string(),
    };
    let (proved, here) =
        (String::from_utf8_lossy(&proved).into_owned(), String::from_utf8_lossy(&output(input)).into_owned());
    let lines = proved.lines().map(Some).chain([None]).zip(here.lines().map(Some).chain([None]));
    let line = lines.enumerate().find(|(_, (p, h))| p != h);
    line.map_or("the outputs have different ends".into(), |(at, (p, h))| {
        format!("line {}: the trial prints {:?}, expected {:?}", at + 1, p.unwrap_or("nothing"), h.unwrap_or("nothing"))
    })
}

/// The report of a difference, with the shortest list it can be cut to.
fn report(program: &str, replay: &Replay, part: &str, seed: u64, case: Case) -> String {
    let fails = |case: &Case| case.limits.accept().is_ok() && !same(program, &input_of(case));
    let mut cut = if fails(&case) { shortest(case, &fails) } else { case };
    // the trial's record is as long as its supply, whatever the case says
    cut.record = vec![0; cut.supply.len()];
    replay.failed_ride(part, seed, &first_difference(program, &input_of(&cut)), &cut)
}

/// An input that is damaged: a byte of the limits, an odd count of bytes, an early end, the longest lengths.
fn damaged(random: &mut Random, mut input: Vec<u8>) -> Vec<u8> {
    match random.below(5) {
        0 => {
            for _ in 0..1 + random.below(2) {
                let at = random.below(7);
                input[at] =
                    if random.once_in(3) { random.byte() } else { random.one_of(&[0, 1, 2, 3, 32, 33, 250, 251, 255]) };
            }
        }
        1 => input.push(random.byte()),
        2 => input.truncate(random.below(input.len() + 1)),
        3 => {
            let length = LONGEST_INPUT + 3 - random.below(6);
            while input.len() < length {
                input.extend([random.below(10) as u8, random.below(4) as u8]);
            }
            input.truncate(length);
        }
        _ => {
            let at = 7 + random.below((input.len() - 7).max(1));
            if let Some(byte) = input.get_mut(at) {
                *byte = random.byte();
            }
        }
    }
    input
}

/// Seeded lists as inputs, one in four damaged.
pub fn random_trials(program: &str, replay: &Replay, amount: Amount) -> Outcome {
    let counted = seeds(amount, |seed, counted: &mut [u64; 3]| {
        let case = random_case(seed);
        let mut input = input_of(&case);
        let mut random = Random::new(!seed);
        let whole = !random.once_in(4);
        if !whole {
            input = damaged(&mut random, input);
        }
        let lines = output(&input);
        if !printed(program, &input).is_ok_and(|text| text == lines) {
            return Err(if whole {
                report(program, replay, "trials", seed, case)
            } else {
                replay.failed("trials", seed, &(first_difference(program, &input) + &shown_input(&input)))
            });
        }
        let events = lines.iter().filter(|byte| **byte == b'\n').count() as u64 - 1;
        *counted = [counted[0] + 1, counted[1] + events, counted[2] + u64::from(lines.starts_with(b"refused"))];
        Ok(events)
    })?;
    let [inputs, events, refused] = sums(counted);
    Ok(format!("{inputs} random inputs, {events} events, {refused} inputs refused"))
}

fn shown_input(input: &[u8]) -> String {
    format!("\ninput of {} bytes: {:?}", input.len(), &input[..input.len().min(200)])
}

/// The events of the short lists for the trial: a process for each list leaves room for few.
const EVENTS: [(u8, u8); 11] = [(1, 0), (2, 0), (3, 0), (3, 1), (4, 0), (5, 0), (6, 0), (7, 0), (8, 1), (8, 4), (8, 255)];

/// All lists of so many of these events, for windows 1 and 2, times 1 and 2 and a resend wait of 0, which stands for 1 and 4,
/// with two rows.
pub fn short_trials(program: &str, replay: &Replay, length: u32) -> Outcome {
    let mut cases = vec![];
    for (window, time) in [(1, 1), (1, 2), (2, 1), (2, 2)] {
        let limits = Limits { window, data_life: time, reply_life: time, reply_wait: time, resend_wait: 0 };
        for code in 0..EVENTS.len().pow(length) {
            let event = |at: u32| EVENTS[code / EVENTS.len().pow(at) % EVENTS.len()];
            let list: Vec<(u8, u8)> = (0..length).map(event).collect();
            cases.push(Case { limits, supply: (1..33).collect(), record: vec![], calls: ones(&list) });
        }
    }
    items(&cases, |case, _: &mut ()| {
        if same(program, &input_of(case)) {
            Ok(())
        } else {
            Err(report(program, replay, "short-trials", 0, case.clone()))
        }
    })?;
    Ok(format!("all {} lists of {length} of {} events, w and times 1 and 2, wait 0", cases.len(), EVENTS.len()))
}
