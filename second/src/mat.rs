//! The mat: its state, and what it asks and does of each call. A link and a device put the air's questions between the two.

use crate::limits::{ask, legal, Limits, Refusal, Row, LARGEST_WINDOW};
use crate::ring::{fall, Ring};

/// The sender. What stands at places from w on means nothing.
#[derive(Clone, Debug, Default, PartialEq, Eq, Hash)]
pub struct Mat {
    /// The first unacknowledged number (na), modulo 2w.
    pub oldest: u8,
    /// The number to be sent (ns), modulo 2w.
    pub next: u8,
    /// The rows kept for retransmission, by place.
    pub rows: [Row; LARGEST_WINDOW],
    /// Acknowledged marks (ackd), by place. Off for every row that is not outstanding.
    pub marked: [bool; LARGEST_WINDOW],
    /// Retransmission timers (tms), by place. An acknowledgment does not stop them.
    pub timers: [u16; LARGEST_WINDOW],
}

impl Mat {
    #[inline]
    fn outstanding(&self, ring: Ring) -> u8 {
        ring.distance(self.oldest, self.next)
    }

    /// The mat's part of question 4, behind that of its limits.
    pub(crate) fn sound(&self, limits: &Limits) -> bool {
        let ring = Ring::of(limits);
        if !(ring.has(self.oldest) && ring.has(self.next)) {
            return false;
        }
        let outstanding = self.outstanding(ring);
        outstanding <= ring.window
            && !self.marked[ring.place(self.oldest)]
            && self.timers[..limits.window].iter().all(|timer| *timer <= limits.resend_wait)
            && (0..ring.window).all(|k| {
                let place = ring.place(ring.after(self.oldest, k));
                if k < outstanding {
                    legal(&self.rows[place])
                } else {
                    !self.marked[place]
                }
            })
    }

    /// Questions 10 to 12, and the row to be sent.
    #[inline]
    pub(crate) fn row_to_send<'a>(&self, limits: &Limits, supply: &'a [u16]) -> Result<&'a Row, Refusal> {
        let ring = Ring::of(limits);
        ask(self.outstanding(ring) < ring.window, Refusal::WindowFull)?;
        let row: &Row = supply.first_chunk().ok_or(Refusal::SupplyEmpty)?;
        ask(legal(row), Refusal::IllegalCell)?;
        Ok(row)
    }

    /// Row next is kept.
    #[inline]
    pub(crate) fn keep(&mut self, limits: &Limits, row: &Row) {
        let ring = Ring::of(limits);
        self.rows[ring.place(self.next)] = *row;
        self.next = ring.after(self.next, 1);
    }

    /// Questions 14 to 16, and the number of the row to be sent again.
    #[inline]
    pub(crate) fn number_to_resend(&self, limits: &Limits, k: usize) -> Result<u8, Refusal> {
        let ring = Ring::of(limits);
        ask(k < usize::from(self.outstanding(ring)), Refusal::NotOutstanding)?;
        let number = ring.after(self.oldest, k as u8);
        ask(!self.marked[ring.place(number)], Refusal::Acknowledged)?;
        ask(self.timers[ring.place(number)] == 0, Refusal::TimerRuns)?;
        Ok(number)
    }

    /// The kept row with this number.
    #[inline]
    pub(crate) fn kept(&self, limits: &Limits, number: u8) -> &Row {
        &self.rows[Ring::of(limits).place(number)]
    }

    /// Starts a row's retransmission timer, at each sending.
    #[inline]
    pub(crate) fn start_timer(&mut self, limits: &Limits, number: u8) {
        self.timers[Ring::of(limits).place(number)] = limits.resend_wait;
    }

    /// Question 19, and by how many rows oldest rises. The span is marked wherever it lies in the window. A passed row's mark
    /// goes, as its place is used again.
    pub(crate) fn acknowledge(&mut self, limits: &Limits, first: u8, last: u8) -> Result<u8, Refusal> {
        let ring = Ring::of(limits);
        let outstanding = self.outstanding(ring);
        let from = ring.distance(self.oldest, first);
        let span = ring.distance(first, last) + 1;
        ask(from + span <= outstanding, Refusal::SpanNotOutstanding)?;
        for k in from..from + span {
            self.marked[ring.place(ring.after(self.oldest, k))] = true;
        }
        let mut passed = 0;
        while passed < outstanding {
            let marked = &mut self.marked[ring.place(ring.after(self.oldest, passed))];
            if !*marked {
                break;
            }
            *marked = false;
            passed += 1;
        }
        self.oldest = ring.after(self.oldest, passed);
        Ok(passed)
    }

    pub(crate) fn tick(&mut self, d: u16) {
        fall(&mut self.timers, d);
    }
}
