//! The account of a list by a second method: from the link at its start, its events and their answers.
//!
//! Puts, arrivals and losses are counted by the kinds of the events that were done. What that leaves open, old rows and messages
//! that ticks dropped, comes of a replay that shares no code with `built`. It keeps no cells, and time is a clock in it: a message
//! has the tick that drops it, a held row the tick from which on no reply covers it. The outstanding rows are a queue.

use crate::built::{Account, Link};
use crate::limits::Limits;
use std::collections::VecDeque;

/// A message on its way.
struct Message {
    /// The tick that drops it.
    until: u64,
    /// The number of its row, or the first one that a reply acknowledges.
    first: usize,
    /// The last one.
    last: usize,
}

/// A list so far.
pub struct Recount {
    limits: Limits,
    /// Ticks since the start.
    now: u64,
    /// The outstanding rows, oldest first: the number, and whether it is marked.
    outstanding: VecDeque<(usize, bool)>,
    next: usize,
    /// The w rows from wanted on: until which tick a reply may cover each. 0 for one that is not held.
    coverable: VecDeque<u64>,
    wanted: usize,
    data: Vec<Message>,
    replies: Vec<Message>,
    /// How many events of each kind were done.
    done: [usize; 9],
    /// Data that arrived for an old row, each of which put a reply.
    old_rows: usize,
    data_dropped: usize,
    replies_dropped: usize,
}

/// Takes a message out of a table that has it.
fn take(table: &mut Vec<Message>, p: usize) -> Option<Message> {
    (p < table.len()).then(|| table.remove(p))
}

/// Takes out the messages whose time is over, and counts them: those whose life was at most the ticks that passed.
fn drop_old(table: &mut Vec<Message>, now: u64) -> usize {
    let old = table.iter().filter(|message| message.until <= now).count();
    table.retain(|message| message.until > now);
    old
}

impl Recount {
    /// A list that starts from this link, which is sound.
    pub fn of(start: &Link) -> Recount {
        let Link { limits, mat, pad, data, replies } = start;
        let (w, ring) = (limits.window, 2 * limits.window);
        let [oldest, next, wanted] = [mat.oldest, mat.next, pad.wanted].map(usize::from);
        let rows = (0..(next + ring - oldest) % ring).map(|k| (oldest + k) % ring);
        let covered = |place: usize| if pad.held[place] { pad.timers[place].into() } else { 0 };
        let message =
            |first: u8, last: u8, life: u16| Message { until: life.into(), first: first.into(), last: last.into() };
        Recount {
            limits: *limits,
            now: 0,
            outstanding: rows.map(|number| (number, mat.marked[number % w])).collect(),
            next,
            coverable: (0..w).map(|k| covered((wanted + k) % w)).collect(),
            wanted,
            data: data.all().iter().map(|m| message(m.number, m.number, m.life)).collect(),
            replies: replies.all().iter().map(|m| message(m.first, m.last, m.life)).collect(),
            done: [0; 9],
            old_rows: 0,
            data_dropped: 0,
            replies_dropped: 0,
        }
    }

    /// An event that was done; one that was refused adds nothing. None if the list so far leaves nothing that it could do.
    pub fn event(&mut self, kind: u8, argument: u8) -> Option<()> {
        let p = usize::from(argument);
        match kind {
            1 => self.send(),
            2 => {
                let (number, _) = *self.outstanding.get(p)?;
                self.put_data(number);
            }
            3 => {
                let message = take(&mut self.data, p)?;
                self.arrive_data(message.first);
            }
            4 => self.reply()?,
            5 => {
                let reply = take(&mut self.replies, p)?;
                self.arrive_reply(&reply);
            }
            6 => {
                take(&mut self.data, p)?;
            }
            7 => {
                take(&mut self.replies, p)?;
            }
            8 => self.tick(argument.into()),
            _ => return None,
        }
        self.done[usize::from(kind)] += 1;
        Some(())
    }

    /// The accounts of both tables, data first.
    pub fn accounts(&self) -> [Account; 2] {
        let [_, sends, resends, data_arrived, replies, replies_arrived, data_lost, replies_lost, _] = self.done;
        let (dropped, put) = (self.data_dropped, sends + resends);
        let data = Account { put, arrived: data_arrived, lost: data_lost, dropped };
        let (dropped, put) = (self.replies_dropped, replies + self.old_rows);
        [data, Account { put, arrived: replies_arrived, lost: replies_lost, dropped }]
    }

    /// (number − from) mod 2w.
    fn steps(&self, from: usize, number: usize) -> usize {
        (number + 2 * self.limits.window - from) % (2 * self.limits.window)
    }

    /// (number + by) mod 2w.
    fn after(&self, number: usize, by: usize) -> usize {
        (number + by) % (2 * self.limits.window)
    }

    fn put_data(&mut self, number: usize) {
        let until = self.now + u64::from(self.limits.data_life);
        self.data.push(Message { until, first: number, last: number });
    }

    fn put_reply(&mut self, first: usize, last: usize) {
        let until = self.now + u64::from(self.limits.reply_life);
        self.replies.push(Message { until, first, last });
    }

    fn send(&mut self) {
        self.put_data(self.next);
        self.outstanding.push_back((self.next, false));
        self.next = self.after(self.next, 1);
    }

    fn arrive_data(&mut self, number: usize) {
        match self.coverable.get_mut(self.steps(self.wanted, number)) {
            Some(until) => *until = self.now + u64::from(self.limits.reply_wait),
            None => {
                self.old_rows += 1;
                self.put_reply(number, number);
            }
        }
    }

    /// The rows behind those of the reply move up, and as many that are not held come behind them.
    fn reply(&mut self) -> Option<()> {
        let rows = self.coverable.iter().take_while(|until| **until > self.now).count();
        if rows == 0 {
            return None;
        }
        self.put_reply(self.wanted, self.after(self.wanted, rows - 1));
        self.coverable.rotate_left(rows);
        self.coverable.iter_mut().rev().take(rows).for_each(|until| *until = 0);
        self.wanted = self.after(self.wanted, rows);
        Some(())
    }

    fn arrive_reply(&mut self, reply: &Message) {
        let (first, span) = (reply.first, self.steps(reply.first, reply.last));
        for at in 0..self.outstanding.len() {
            let (number, _) = self.outstanding[at];
            self.outstanding[at].1 |= self.steps(first, number) <= span;
        }
        while self.outstanding.front().is_some_and(|(_, marked)| *marked) {
            self.outstanding.pop_front();
        }
    }

    fn tick(&mut self, d: u64) {
        self.now += d;
        self.data_dropped += drop_old(&mut self.data, self.now);
        self.replies_dropped += drop_old(&mut self.replies, self.now);
    }
}
