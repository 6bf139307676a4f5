//! The ends that are built: sequence numbers modulo 2w, w places at each end, and tables of 32 places.
//!
//! A link is changed in place; a refused call leaves it, the record and the answers as they were.

pub use crate::air::{Account, Data, Reply, Table};
use crate::limits::{ask, legal, number, Limits, Refusal, CELLS, TABLE_PLACES};
pub use crate::mat::Mat;
pub use crate::pad::Pad;
use crate::ring::Ring;

/// By how much next, oldest and wanted rose in a call, and what became of the messages in the air.
#[derive(Clone, Copy, Debug, Default, PartialEq, Eq, Hash)]
pub struct Counts {
    /// Rows sent for the first time.
    pub sent: usize,
    /// Rows that oldest passed.
    pub acknowledged: usize,
    /// Rows written to the record.
    pub recorded: usize,
    /// The account of the data table.
    pub data: Account,
    /// The account of the reply table.
    pub replies: Account,
}

impl Counts {
    /// Adds the counts of a later call.
    #[inline]
    pub fn add(&mut self, later: Counts) {
        self.sent += later.sent;
        self.acknowledged += later.acknowledged;
        self.recorded += later.recorded;
        self.data.add(later.data);
        self.replies.add(later.replies);
    }

    /// The counts of rows alone, with empty accounts: lists that lead to the same state have them in common.
    pub fn rows(self) -> Counts {
        Counts { data: Account::default(), replies: Account::default(), ..self }
    }
}

/// Both ends, the air between them and their limits. Its fields are open, so that a caller can make up any state; question 4
/// stands before every use of one.
#[derive(Clone, Debug, Default, PartialEq, Eq, Hash)]
pub struct Link {
    /// The limits that the opening returned.
    pub limits: Limits,
    /// The sender.
    pub mat: Mat,
    /// The receiver.
    pub pad: Pad,
    /// Data messages in the air.
    pub data: Table<Data>,
    /// Replies in the air.
    pub replies: Table<Reply>,
}

impl Link {
    /// A fresh link. A refused opening gives a link of zeros, which is not sound.
    pub fn open(asked: Limits) -> (Result<(), Refusal>, Link) {
        match asked.accept() {
            Ok(limits) => (Ok(()), Link { limits, ..Link::default() }),
            Err(refusal) => (Err(refusal), Link::default()),
        }
    }

    /// A fresh link with limits that no question was put to. For `short_wait` alone, whose waits question 3 refuses.
    pub(crate) fn unasked(limits: Limits) -> Link {
        Link { limits, ..Link::default() }
    }

    /// Question 4. The limits come first, as the other clauses rest on them.
    pub fn sound(&self) -> bool {
        let Link { limits, mat, pad, data, replies } = self;
        if !limits.sound() || data.count > TABLE_PLACES || replies.count > TABLE_PLACES {
            return false;
        }
        let ring = Ring::of(limits);
        mat.sound(limits)
            && pad.sound(limits)
            && data.all().iter().all(|m| ring.has(m.number) && (1..=limits.data_life).contains(&m.life) && legal(&m.row))
            && replies.all().iter().all(|m| {
                ring.has(m.first)
                    && ring.has(m.last)
                    && ring.distance(m.first, m.last) < ring.window
                    && (1..=limits.reply_life).contains(&m.life)
            })
    }

    /// One event from the front of supply and record, behind questions 4 and 6.
    pub fn step(&mut self, kind: u8, argument: u8, supply: &[u16], record: &mut [u16]) -> Result<Counts, Refusal> {
        ask(self.sound(), Refusal::Unsound)?;
        ask(supply.len().is_multiple_of(CELLS), Refusal::SupplyLength)?;
        let mut counts = Counts::default();
        self.event(kind, argument, supply, record, &mut counts)?;
        Ok(counts)
    }

    /// A run of events from the front of supply and record: one answer for each event, and the counts of the run.
    ///
    /// Question 4 is put once, as every event leaves a sound link sound.
    pub fn run(&mut self, events: &[u8], supply: &[u16], record: &mut [u16], answers: &mut [u8]) -> Result<Counts, Refusal> {
        ask(self.sound(), Refusal::Unsound)?;
        ask(events.len().is_multiple_of(2), Refusal::OddEvents)?;
        ask(supply.len().is_multiple_of(CELLS), Refusal::SupplyLength)?;
        ask(answers.len() >= events.len() / 2, Refusal::AnswersShort)?;
        let mut counts = Counts::default();
        for (event, answer) in events.chunks_exact(2).zip(answers) {
            let supply = &supply[counts.sent * CELLS..];
            let record = &mut record[counts.recorded * CELLS..];
            *answer = number(&self.event(event[0], event[1], supply, record, &mut counts));
        }
        Ok(counts)
    }

    /// Questions 8 and 9, then the kind's. All questions of an event stand before its first change. The caller puts 4 and 6.
    ///
    /// The counts of a list are lent to each event, which raises only its own: adding up all of them would take longer.
    #[inline]
    pub(crate) fn event(
        &mut self,
        kind: u8,
        argument: u8,
        supply: &[u16],
        record: &mut [u16],
        counts: &mut Counts,
    ) -> Result<(), Refusal> {
        ask((1..=8).contains(&kind), Refusal::Kind)?;
        match kind {
            1 | 4 => ask(argument == 0, Refusal::Argument)?,
            8 => ask(argument >= 1, Refusal::Argument)?,
            _ => {}
        }
        match kind {
            1 => self.send(supply, counts),
            2 => self.resend(argument, counts),
            3 => self.arrive_data(argument, counts),
            4 => self.reply(record, counts),
            5 => self.arrive_reply(argument, counts),
            6 => self.data.lose(argument, &mut counts.data),
            7 => self.replies.lose(argument, &mut counts.replies),
            _ => {
                self.tick(u16::from(argument), counts);
                Ok(())
            }
        }
    }

    fn send(&mut self, supply: &[u16], counts: &mut Counts) -> Result<(), Refusal> {
        let row = self.mat.row_to_send(&self.limits, supply)?;
        ask(self.data.has_place(), Refusal::DataTableFull)?;
        let sent = self.mat.next;
        self.mat.keep(&self.limits, row);
        self.transmit(sent, counts);
        counts.sent += 1;
        Ok(())
    }

    fn resend(&mut self, k: u8, counts: &mut Counts) -> Result<(), Refusal> {
        let sent = self.mat.number_to_resend(&self.limits, usize::from(k))?;
        ask(self.data.has_place(), Refusal::DataTableFull)?;
        self.transmit(sent, counts);
        Ok(())
    }

    /// Puts a kept row in the air and starts its retransmission timer, at each sending.
    #[inline]
    fn transmit(&mut self, number: u8, counts: &mut Counts) {
        self.mat.start_timer(&self.limits, number);
        let message = Data { number, life: self.limits.data_life, row: *self.mat.kept(&self.limits, number) };
        self.data.put(message, &mut counts.data);
    }

    /// A row below wanted is acknowledged again at once; any other is held.
    fn arrive_data(&mut self, p: u8, counts: &mut Counts) -> Result<(), Refusal> {
        let message = self.data.at(p)?;
        let v = message.number;
        if self.pad.is_old(&self.limits, v) {
            ask(self.replies.has_place(), Refusal::ReplyTableFull)?;
            self.replies.put(Reply { first: v, last: v, life: self.limits.reply_life }, &mut counts.replies);
        } else {
            self.pad.hold(&self.limits, v, &message.row);
        }
        self.data.arrive(p, &mut counts.data);
        Ok(())
    }

    fn reply(&mut self, record: &mut [u16], counts: &mut Counts) -> Result<(), Refusal> {
        let run = self.pad.run_to_reply(&self.limits, record)?;
        ask(self.replies.has_place(), Refusal::ReplyTableFull)?;
        self.pad.record(&self.limits, run, record);
        let reply = Reply { first: run.first, last: run.last, life: self.limits.reply_life };
        self.replies.put(reply, &mut counts.replies);
        counts.recorded += usize::from(run.length);
        Ok(())
    }

    fn arrive_reply(&mut self, p: u8, counts: &mut Counts) -> Result<(), Refusal> {
        let &Reply { first, last, .. } = self.replies.at(p)?;
        counts.acknowledged += usize::from(self.mat.acknowledge(&self.limits, first, last)?);
        self.replies.arrive(p, &mut counts.replies);
        Ok(())
    }

    fn tick(&mut self, d: u16, counts: &mut Counts) {
        self.mat.tick(d);
        self.pad.tick(d);
        self.data.tick(d, &mut counts.data);
        self.replies.tick(d, &mut counts.replies);
    }
}
