//! Random lists, the same for the same seed.

use crate::compare::{event_bytes, rows, Call, Case};
use crate::draw_cells::{random_cells, ILLEGAL_EDGES};
use crate::limits::{Limits, CELLS};
use crate::random::Random;
use crate::unbounded::Ends;

/// A resend wait other than 0 that question 3 lets pass. Mistakes show with the least one and with the three above it, so these
/// come more often.
pub fn random_wait(random: &mut Random, limits: &Limits) -> u16 {
    let least = limits.least_wait();
    match random.below(8) {
        0 | 1 => least,
        2..=4 => least + 1 + random.below(3) as u16,
        5 => 1000,
        _ => least + random.below(usize::from(1001 - least)) as u16,
    }
}

/// Small windows and short times reach the ring's end and the timers' ends sooner, so they come more often. One resend wait in
/// four is left at 0, as callers do.
pub fn random_limits(random: &mut Random) -> Limits {
    let window = 1 + random.one_of(&[1, 2, 4, 32]);
    let window = 1 + random.below(window - 1);
    let longest = random.one_of(&[1, 2, 4, 20, 250]);
    let mut time = || 1 + random.below(longest) as u16;
    let mut limits = Limits { window, data_life: time(), reply_life: time(), reply_wait: time(), resend_wait: 0 };
    if !random.once_in(4) {
        limits.resend_wait = random_wait(random, &limits);
    }
    limits
}

/// An event that fits the state of the ends more often than not: a message that is there, a tick that ends some timer.
fn random_event(random: &mut Random, ends: &Ends, weights: &[usize; 8]) -> (u8, u8) {
    if random.once_in(12) {
        return match random.below(3) {
            0 => (random.byte(), random.byte()),
            1 => (random.below(10) as u8, random.below(4) as u8),
            _ => (random.below(10) as u8, random.byte()),
        };
    }
    let mut drawn = random.below(weights.iter().sum());
    let mut kind = 0;
    while drawn >= weights[kind] {
        drawn -= weights[kind];
        kind += 1;
    }
    let l = &ends.limits;
    let argument = match kind + 1 {
        2 => random.below(ends.next - ends.oldest + 1),
        3 | 6 => random.below(ends.data.len().max(1)),
        5 | 7 => random.below(ends.replies.len().max(1)),
        8 => {
            let timer = ends.mat[ends.oldest.min(ends.mat.len())..].first().map_or(1, |row| row.timer);
            let times = [1, 1, 1, 2, l.data_life - 1, l.data_life, l.reply_life - 1, l.reply_wait - 1, l.reply_wait, timer];
            match random.below(12) {
                0 => 1 + random.below(255),
                1 => 1 + random.below(usize::from(l.resend_wait).min(255)),
                k => usize::from(times[k - 2]).clamp(1, 255),
            }
        }
        _ => 0,
    };
    (kind as u8 + 1, argument as u8)
}

/// Cuts a list into runs and calls for one event, with refused runs between them.
fn cut(random: &mut Random, events: &[(u8, u8)]) -> Vec<Call> {
    let longest = random.one_of(&[1, 8, 1000]);
    let mut calls = vec![];
    let mut rest = events;
    while !rest.is_empty() {
        if random.once_in(30) {
            let odd = random.once_in(2);
            calls.push(Call::Run { events: vec![1; if odd { 3 } else { 4 }], answers: if odd { 9 } else { 1 } });
        }
        let (now, later) = rest.split_at(1 + random.below(longest.min(rest.len())));
        rest = later;
        if now.len() == 1 && !random.once_in(4) {
            calls.push(Call::One { kind: now[0].0, argument: now[0].1 });
        } else {
            calls.push(Call::Run { events: event_bytes(now), answers: now.len() + random.below(3) });
        }
    }
    calls
}

/// Rows for a supply, now and then with a cell that is not legal or with cells behind the last whole row.
fn random_supply(random: &mut Random, rows: usize) -> Vec<u16> {
    let mut cells = random_cells(random, rows * CELLS);
    if rows > 0 && random.once_in(10) {
        cells[random.below(rows * CELLS)] = random.one_of(&ILLEGAL_EDGES);
    }
    if random.once_in(60) {
        cells.extend([1, 2, 3]);
    }
    cells
}

/// How often each kind of event comes in a list.
fn random_weights(random: &mut Random) -> [usize; 8] {
    let mut weights = [8, 3, 8, 6, 8, 1, 1, 1].map(|weight| 1 + random.below(3 * weight));
    if random.once_in(2) {
        (weights[5], weights[6]) = (0, 0);
    }
    if random.once_in(3) {
        // many rows in the air and at the pad before a reply
        (weights[0], weights[3]) = (30, 1);
    }
    weights
}

/// A list for this supply, with some refused events.
fn random_events(random: &mut Random, limits: Limits, cells: &[u16], space: usize) -> Vec<(u8, u8)> {
    let weights = random_weights(random);
    let refused_once_in = random.one_of(&[2, 10, 40]);
    let supply = rows(cells);
    let mut ends = Ends::fresh(limits.accept().unwrap_or(limits));
    let mut events = vec![];
    let length = 20 + random.below(40 + 12 * supply.len());
    for _ in 0..10 * length {
        if events.len() == length {
            break;
        }
        let (kind, argument) = random_event(random, &ends, &weights);
        let refused = ends.event(kind, argument, &supply, space).is_err();
        if !refused || random.once_in(refused_once_in) {
            events.push((kind, argument));
        }
    }
    events
}

/// The case of a seed.
pub fn random_case(seed: u64) -> Case {
    let mut random = Random::new(seed);
    let limits = random_limits(&mut random);
    random_case_of(&mut random, limits)
}

/// A case with these limits, whose resend wait need not be one that question 3 lets pass.
pub fn random_case_of(random: &mut Random, limits: Limits) -> Case {
    let count = random.below(6 * limits.window + 6);
    let supply = random_supply(random, count);
    let space = match random.below(4) {
        0 => random.below(count * CELLS + 1),
        1 => (count + 2) * CELLS,
        _ => count * CELLS,
    };
    let record = (0..space).map(|_| random.next() as u16).collect();
    let events = random_events(random, limits, &supply, space);
    Case { limits, supply, record, calls: cut(random, &events) }
}
