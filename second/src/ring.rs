//! The ring of 2w sequence numbers.

use crate::limits::{Limits, LARGEST_WINDOW};

/// Steps on the ring. Numbers and steps stay below 2w, so one comparison replaces the remainder.
#[derive(Clone, Copy)]
pub(crate) struct Ring {
    pub(crate) window: u8,
}

impl Ring {
    /// For limits that are sound: the window then fits a byte.
    #[inline]
    pub(crate) fn of(limits: &Limits) -> Ring {
        Ring { window: limits.window as u8 }
    }

    /// (to − from) mod 2w.
    #[inline]
    pub(crate) fn distance(self, from: u8, to: u8) -> u8 {
        if from <= to {
            to - from
        } else {
            to + 2 * self.window - from
        }
    }

    /// (from + by) mod 2w.
    #[inline]
    pub(crate) fn after(self, from: u8, by: u8) -> u8 {
        let to = from + by;
        if to < 2 * self.window {
            to
        } else {
            to - 2 * self.window
        }
    }

    /// Number m uses place m mod w.
    #[inline]
    pub(crate) fn place(self, number: u8) -> usize {
        usize::from(if number < self.window { number } else { number - self.window })
    }

    pub(crate) fn has(self, number: u8) -> bool {
        number < 2 * self.window
    }
}

/// Timers stop at 0. Those of all places fall, also where they mean nothing, as a loop of fixed length is the faster one.
pub(crate) fn fall(timers: &mut [u16; LARGEST_WINDOW], d: u16) {
    for timer in timers {
        *timer = timer.saturating_sub(d);
    }
}
