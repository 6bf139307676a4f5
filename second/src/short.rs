//! All short lists of events, and the proved library compared with the built ends here on them.

use crate::compare::{ones, Call, Case, UNWRITTEN};
use crate::differ::{difference, Pair};
use crate::library::Library;
use crate::limits::{Limits, CELLS, TORN_CELL};
use std::collections::HashMap;
use std::hash::{BuildHasherDefault, Hash, Hasher};

/// The events of these lists, for a window and times of at most 2 and the least resend wait, which is then at most 4. Each event
/// that acts differently is among them; of the refused events there are only examples.
pub const EVENTS: [(u8, u8); 23] = [
    (0, 0),
    (1, 0),
    (1, 1),
    (2, 0),
    (2, 1),
    (2, 2),
    (3, 0),
    (3, 1),
    (3, 2),
    (4, 0),
    (4, 1),
    (5, 0),
    (5, 1),
    (5, 2),
    (6, 0),
    (6, 1),
    (7, 0),
    (7, 1),
    (8, 0),
    (8, 1),
    (8, 2),
    (8, 3),
    (8, 255),
];

/// What was compared.
#[derive(Clone, Copy, Debug, Default, PartialEq, Eq)]
pub struct Compared {
    /// The lists.
    pub lists: u64,
    /// The calls that were made for them.
    pub calls: u64,
}

impl Compared {
    /// Both together.
    pub fn and(self, other: Compared) -> Compared {
        Compared { lists: self.lists + other.lists, calls: self.calls + other.calls }
    }
}

/// An event's kind and argument.
pub type Event = (u8, u8);

/// What comes of an event that is put to a state.
pub enum After<S> {
    /// It was done: the state after it.
    Done(S),
    /// It was refused, which leaves the state as it was.
    Refused,
    /// Something differs that must be the same.
    Differs,
}

/// A state, how many lists lead to it, and one of them.
type Layer<S> = HashMap<S, (u64, Vec<Event>), BuildHasherDefault<Sum>>;

/// A sum of the bytes of a state. States are some thousand bytes long, and the standard library's sum takes most of a search.
#[derive(Default)]
struct Sum(u64);

impl Hasher for Sum {
    fn write(&mut self, bytes: &[u8]) {
        let (words, rest) = bytes.as_chunks();
        for word in words {
            self.write_u64(u64::from_le_bytes(*word));
        }
        for byte in rest {
            self.write_u64((*byte).into());
        }
    }

    fn write_u64(&mut self, word: u64) {
        self.0 = (self.0.rotate_left(23) ^ word).wrapping_mul(0x9E37_79B9_7F4A_7C15);
    }

    fn finish(&self) -> u64 {
        self.0 ^ self.0 >> 32
    }
}

/// So many legal rows, at most 256, that all differ. All but each 17th have a torn cell.
pub fn different_rows(rows: usize) -> Vec<u16> {
    let cell = |at: usize| if at.is_multiple_of(CELLS + 1) { TORN_CELL } else { (at * 1021 % 4096) as u16 };
    (0..rows * CELLS).map(cell).collect()
}

/// Which lists: they begin with so many rows sent, recorded and acknowledged, and go on with so many of EVENTS. Behind the
/// beginning the record has space for so many rows, and the supply for one more.
#[derive(Clone, Copy, Debug)]
pub struct Short {
    /// The limits.
    pub limits: Limits,
    /// Rows recorded before the lists part.
    pub rounds: usize,
    /// Rows of space behind them.
    pub space: usize,
    /// Events behind the beginning.
    pub length: usize,
}

impl Short {
    /// Rows that all differ, and a record whose cells are not legal.
    pub fn empty_case(&self) -> Case {
        let rows = self.rounds + self.space;
        let record = vec![UNWRITTEN; rows * CELLS];
        Case { limits: self.limits, supply: different_rows(rows + 1), record, calls: vec![] }
    }

    /// Puts all of them to whatever has states. Lists that lead to the same state go on together, as a call reads nothing but the
    /// state. Gives a list that differs.
    pub fn search<S: Eq + Hash>(&self, fresh: S, put: impl Fn(&S, Event) -> After<S>) -> Result<Compared, Vec<Event>> {
        let beginning = [(1, 0), (3, 0), (4, 0), (5, 0)].repeat(self.rounds);
        let mut compared = Compared::default();
        let mut layer = Layer::from_iter([(fresh, (1, vec![]))]);
        for at in 0..beginning.len() + self.length {
            let events = beginning.get(at..=at).unwrap_or(&EVENTS);
            layer = longer(layer, events, &put, &mut compared.calls)?;
        }
        compared.lists = layer.values().map(|entry| entry.0).sum();
        Ok(compared)
    }

    /// The library and the built ends here on all of them.
    pub fn compare(&self, library: &dyn Library) -> Result<Compared, Case> {
        let mut case = self.empty_case();
        let (fresh, _, found) = Pair::open(library, self.limits, &case.record);
        if found.is_some() {
            return Err(case);
        }
        let put = |pair: &Pair, (kind, argument)| {
            let mut pair = pair.clone();
            match pair.call(library, &Call::One { kind, argument }, &case.supply) {
                (_, Some(_)) => After::Differs,
                (called, None) if called.done.is_ok() => After::Done(pair),
                _ => After::Refused,
            }
        };
        self.search(fresh, put).map_err(|list| {
            case.calls = ones(&list);
            assert!(difference(library, &case).is_some(), "the list by itself differs, too");
            case
        })
    }
}

/// Every list of the layer with every event behind it, or a list on which something differs.
fn longer<S: Eq + Hash>(
    layer: Layer<S>,
    events: &[Event],
    put: &impl Fn(&S, Event) -> After<S>,
    calls: &mut u64,
) -> Result<Layer<S>, Vec<Event>> {
    let mut next = Layer::default();
    for (state, (lists, example)) in layer {
        let mut refused = 0;
        for &event in events {
            *calls += 1;
            let list = || [&example[..], &[event]].concat();
            match put(&state, event) {
                After::Done(after) => next.entry(after).or_insert_with(|| (0, list())).0 += lists,
                After::Refused => refused += lists,
                After::Differs => return Err(list()),
            }
        }
        if refused > 0 {
            next.entry(state).or_insert((0, example)).0 += refused;
        }
    }
    Ok(next)
}

/// From a fresh link and from the last number before the ring's end, with enough space and with space for one row. The resend
/// wait is the least one: a list that is done with a longer one is done with it, too.
pub fn all_short(length: usize) -> Vec<Short> {
    let mut all = vec![];
    for window in [1, 2] {
        for (rounds, space) in [(0, 6), (2 * window - 1, 6), (0, 1), (2 * window - 1, 1)] {
            for times in 0..8u16 {
                let (data_life, reply_life, reply_wait) = (1 + (times & 1), 1 + (times >> 1 & 1), 1 + (times >> 2));
                let limits = Limits { window, data_life, reply_life, reply_wait, resend_wait: 0 };
                all.push(Short { limits: limits.with_least_wait(), rounds, space, length });
            }
        }
    }
    all
}
