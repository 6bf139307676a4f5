//! Long lists for the benchmark, the same at every run.

use crate::compare::rows;
use crate::limits::{Limits, Row, CELLS};
use crate::random::Random;
use crate::unbounded::Ends;

/// A list with the limits and the supply it is for. The record is as long as the supply.
pub struct Ride {
    /// Its name in the table.
    pub name: &'static str,
    /// The limits.
    pub limits: Limits,
    /// Kind and argument of each event.
    pub events: Vec<u8>,
    /// The rows, as cells.
    pub supply: Vec<u16>,
}

fn limits(window: usize) -> Limits {
    Limits { window, data_life: 2, reply_life: 2, reply_wait: 2, resend_wait: 7 }
}

fn supply(rows: usize) -> Vec<u16> {
    (0..rows * CELLS).map(|cell| (cell * 1021 % 4096) as u16).collect()
}

/// Nothing is lost: blocks of so many rows are sent, arrive, are replied to by one reply, and the reply arrives.
fn quiet(name: &'static str, window: usize, block: usize, length: usize) -> Ride {
    let mut turn = [1, 0].repeat(block);
    turn.extend([3, 0].repeat(block));
    turn.extend([4, 0, 5, 0]);
    let turns = 2 * length / turn.len();
    Ride { name, limits: limits(window), events: turn.repeat(turns), supply: supply(turns * block) }
}

/// The ends that a list is made for, and the list so far.
struct Maker {
    random: Random,
    ends: Ends,
    supply: Vec<Row>,
    events: Vec<u8>,
}

impl Maker {
    /// Adds an event that is done; of the refused ones, one in twenty stays.
    fn put(&mut self, kind: u8, argument: usize) {
        let done = self.ends.event(kind, argument as u8, &self.supply, self.supply.len() * CELLS).is_ok();
        if done || self.random.once_in(20) {
            self.events.extend([kind, argument as u8]);
        }
    }

    /// Some rows are sent; messages arrive in any order, one in ten is lost; a reply; rows whose timer is 0 are sent again and
    /// arrive in the next turn; a tick.
    fn turn(&mut self) {
        for _ in 0..1 + self.random.below(self.ends.limits.window) {
            self.put(1, 0);
        }
        while !self.ends.data.is_empty() {
            let p = self.random.below(self.ends.data.len());
            let kind = if self.random.once_in(10) { 6 } else { 3 };
            self.put(kind, p);
        }
        self.put(4, 0);
        while !self.ends.replies.is_empty() {
            let p = self.random.below(self.ends.replies.len());
            let kind = if self.random.once_in(10) { 7 } else { 5 };
            self.put(kind, p);
        }
        for k in 0..self.ends.next - self.ends.oldest {
            self.put(2, k);
        }
        self.put(8, 1);
    }
}

/// Messages are lost and out of order, rows are sent again, and time passes.
fn lossy(window: usize, length: usize) -> Ride {
    let (limits, supply) = (limits(window), supply(length));
    let random = Random::new(window as u64);
    let mut maker = Maker { random, ends: Ends::fresh(limits), supply: rows(&supply), events: vec![] };
    while maker.events.len() < 2 * length {
        maker.turn();
    }
    Ride { name: "lossy", limits, events: maker.events, supply }
}

/// All rides of the benchmark, each with about so many events.
pub fn all_rides(length: usize) -> Vec<Ride> {
    let windows = [1, 8, 32];
    let mut all = vec![];
    all.extend(windows.map(|window| quiet("quiet, row by row", window, 1, length)));
    all.extend(windows.map(|window| quiet("quiet, w rows at a time", window, window, length)));
    all.extend(windows.map(|window| lossy(window, length)));
    all
}
