//! The pad: its state, and what it asks and does of each call. A link and a device put the air's questions between the two.

use crate::limits::{ask, legal, Limits, Refusal, Row, CELLS, LARGEST_WINDOW};
use crate::ring::{fall, Ring};

/// The receiver. What stands at places from w on means nothing, nor do rows and timers of places not held.
#[derive(Clone, Debug, Default, PartialEq, Eq, Hash)]
pub struct Pad {
    /// The first number not recorded (nr), modulo 2w.
    pub wanted: u8,
    /// The rows held until those before them have come, by place.
    pub rows: [Row; LARGEST_WINDOW],
    /// Held marks (rcvd), by place.
    pub held: [bool; LARGEST_WINDOW],
    /// Reply timers (tmr), by place: above 0, the row may be acknowledged.
    pub timers: [u16; LARGEST_WINDOW],
}

/// The rows that one reply covers.
#[derive(Clone, Copy, Debug, PartialEq, Eq)]
pub(crate) struct Run {
    /// The number of the first one.
    pub(crate) first: u8,
    /// The number of the last one.
    pub(crate) last: u8,
    /// How many there are.
    pub(crate) length: u8,
}

impl Run {
    /// The cells of its rows.
    pub(crate) fn cells(self) -> usize {
        usize::from(self.length) * CELLS
    }
}

impl Pad {
    /// The pad's part of question 4, behind that of its limits.
    pub(crate) fn sound(&self, limits: &Limits) -> bool {
        Ring::of(limits).has(self.wanted)
            && (0..limits.window)
                .all(|place| self.timers[place] <= limits.reply_wait && (!self.held[place] || legal(&self.rows[place])))
    }

    /// Whether the row with this number is an old one, which was recorded before.
    #[inline]
    pub(crate) fn is_old(&self, limits: &Limits, number: u8) -> bool {
        let ring = Ring::of(limits);
        ring.distance(self.wanted, number) >= ring.window
    }

    /// Holds a row that is not an old one. Its reply timer starts at each arrival.
    #[inline]
    pub(crate) fn hold(&mut self, limits: &Limits, number: u8, row: &Row) {
        let place = Ring::of(limits).place(number);
        self.rows[place] = *row;
        self.held[place] = true;
        self.timers[place] = limits.reply_wait;
    }

    /// How many rows from wanted on one reply may cover.
    #[inline]
    fn run_length(&self, ring: Ring) -> u8 {
        let mut length = 0;
        while length < ring.window {
            let place = ring.place(ring.after(self.wanted, length));
            if !self.held[place] || self.timers[place] == 0 {
                break;
            }
            length += 1;
        }
        length
    }

    /// Questions 20 and 21, and what one reply covers.
    #[inline]
    pub(crate) fn run_to_reply(&self, limits: &Limits, record: &[u16]) -> Result<Run, Refusal> {
        let ring = Ring::of(limits);
        let length = self.run_length(ring);
        ask(length > 0, Refusal::NothingToReply)?;
        let run = Run { first: self.wanted, last: ring.after(self.wanted, length - 1), length };
        ask(run.cells() <= record.len(), Refusal::RecordShort)?;
        Ok(run)
    }

    /// Writes the run's rows to the front of the record. Wanted passes them.
    #[inline]
    pub(crate) fn record(&mut self, limits: &Limits, run: Run, record: &mut [u16]) {
        let ring = Ring::of(limits);
        for (k, row) in (0..run.length).zip(record.chunks_exact_mut(CELLS)) {
            let place = ring.place(ring.after(run.first, k));
            row.copy_from_slice(&self.rows[place]);
            self.held[place] = false;
        }
        self.wanted = ring.after(run.first, run.length);
    }

    pub(crate) fn tick(&mut self, d: u16) {
        fall(&mut self.timers, d);
    }
}
