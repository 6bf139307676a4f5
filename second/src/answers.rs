//! How often each answer of a call came.

use std::fmt;

/// The answers that a call can have, and how often each came.
#[derive(Clone, Copy, Debug)]
pub struct Answers<const N: usize> {
    can: [u8; N],
    times: [u64; N],
}

impl<const N: usize> Answers<N> {
    /// None so far of these.
    pub const fn of(can: [u8; N]) -> Answers<N> {
        Answers { can, times: [0; N] }
    }

    /// One more. Any other answer than these is not counted.
    pub fn add(&mut self, answer: u8) {
        for (can, times) in self.can.iter().zip(&mut self.times) {
            *times += u64::from(*can == answer);
        }
    }

    /// All of them.
    pub fn calls(&self) -> u64 {
        self.times.iter().sum()
    }

    /// Whether each came.
    pub fn all_there(&self, what: &str) -> Result<(), String> {
        let missing = self.can.iter().zip(self.times).find(|(_, times)| *times == 0);
        missing.map_or(Ok(()), |(answer, _)| Err(format!("{what}: never answered {answer}")))
    }
}

impl<const N: usize> fmt::Display for Answers<N> {
    fn fmt(&self, out: &mut fmt::Formatter) -> fmt::Result {
        let shown: Vec<String> =
            self.can.iter().zip(self.times).map(|(answer, times)| format!("{answer}: {times}")).collect();
        write!(out, "{}", shown.join(", "))
    }
}
