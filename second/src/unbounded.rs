//! The unbounded ends, written as the paper's rules read: numbers grow without end, and tables have no limit.
//!
//! Nothing here is shared with the built ends but limits and refusals. Questions 13, 18 and 19 are not put.

use crate::limits::{ask, legal, Limits, Refusal, Row, CELLS};

/// What the mat has for one number; all clear where nothing happened to it yet.
#[derive(Clone, Debug, Default, PartialEq, Eq, Hash)]
pub struct MatRow {
    /// The kept row.
    pub row: Row,
    /// The acknowledged mark.
    pub marked: bool,
    /// The retransmission timer.
    pub timer: u16,
}

/// What the pad has for one number; all clear where nothing happened to it yet.
#[derive(Clone, Debug, Default, PartialEq, Eq, Hash)]
pub struct PadRow {
    /// The held row.
    pub row: Row,
    /// The held mark. It stays when the row is recorded: nothing reads it from then on.
    pub held: bool,
    /// The reply timer.
    pub timer: u16,
}

/// A row on its way, with its true number.
#[derive(Clone, Debug, PartialEq, Eq, Hash)]
pub struct Data {
    /// The true number.
    pub number: usize,
    /// The ticks that are left.
    pub life: u16,
    /// Its content.
    pub row: Row,
}

/// An acknowledgment on its way, with true numbers.
#[derive(Clone, Debug, PartialEq, Eq, Hash)]
pub struct Reply {
    /// The first number it acknowledges.
    pub first: usize,
    /// The last one.
    pub last: usize,
    /// The ticks that are left.
    pub life: u16,
}

/// Both ends, the air and the record. The record is this machine's own: it reads nothing of the built ends' buffer.
#[derive(Clone, Debug, PartialEq, Eq, Hash)]
pub struct Ends {
    /// The same limits as the built link's.
    pub limits: Limits,
    /// The first unacknowledged number (na).
    pub oldest: usize,
    /// The number to be sent (ns).
    pub next: usize,
    /// The first number not recorded (nr).
    pub wanted: usize,
    /// The mat's rows by number; what lies behind its end is clear.
    pub mat: Vec<MatRow>,
    /// The pad's rows by number; what lies behind its end is clear.
    pub pad: Vec<PadRow>,
    /// Data messages in the air, oldest first.
    pub data: Vec<Data>,
    /// Replies in the air, oldest first.
    pub replies: Vec<Reply>,
    /// The rows recorded so far.
    pub record: Vec<Row>,
}

/// The entry of a number, which is made where there is none yet.
fn entry<T: Clone + Default>(rows: &mut Vec<T>, number: usize) -> &mut T {
    if rows.len() <= number {
        rows.resize(number + 1, T::default());
    }
    &mut rows[number]
}

/// Question 17, and what the rules say of a message that arrives or is lost: it leaves the table.
fn leave<T>(table: &mut Vec<T>, p: u8) -> Result<T, Refusal> {
    ask(usize::from(p) < table.len(), Refusal::NoMessage)?;
    Ok(table.remove(usize::from(p)))
}

impl Ends {
    /// Fresh ends.
    pub fn fresh(limits: Limits) -> Ends {
        Ends {
            limits,
            oldest: 0,
            next: 0,
            wanted: 0,
            mat: vec![],
            pad: vec![],
            data: vec![],
            replies: vec![],
            record: vec![],
        }
    }

    /// One event. `supply` is the whole list of rows, `record_cells` the length of the whole record in cells.
    pub fn event(&mut self, kind: u8, argument: u8, supply: &[Row], record_cells: usize) -> Result<(), Refusal> {
        ask((1..=8).contains(&kind), Refusal::Kind)?;
        ask((kind != 1 && kind != 4) || argument == 0, Refusal::Argument)?;
        ask(kind != 8 || argument >= 1, Refusal::Argument)?;
        match kind {
            1 => self.send(supply),
            2 => self.resend(usize::from(argument)),
            3 => self.arrive_data(argument),
            4 => self.reply(record_cells),
            5 => self.arrive_reply(argument),
            6 => leave(&mut self.data, argument).map(|_| ()),
            7 => leave(&mut self.replies, argument).map(|_| ()),
            _ => {
                self.tick(u16::from(argument));
                Ok(())
            }
        }
    }

    fn send(&mut self, supply: &[Row]) -> Result<(), Refusal> {
        ask(self.next - self.oldest < self.limits.window, Refusal::WindowFull)?;
        ask(self.next < supply.len(), Refusal::SupplyEmpty)?;
        let row = supply[self.next];
        ask(legal(&row), Refusal::IllegalCell)?;
        entry(&mut self.mat, self.next).row = row;
        self.put_data(self.next);
        self.next += 1;
        Ok(())
    }

    fn resend(&mut self, k: usize) -> Result<(), Refusal> {
        ask(k < self.next - self.oldest, Refusal::NotOutstanding)?;
        let number = self.oldest + k;
        ask(!entry(&mut self.mat, number).marked, Refusal::Acknowledged)?;
        ask(entry(&mut self.mat, number).timer == 0, Refusal::TimerRuns)?;
        self.put_data(number);
        Ok(())
    }

    fn put_data(&mut self, number: usize) {
        let kept = entry(&mut self.mat, number);
        kept.timer = self.limits.resend_wait;
        self.data.push(Data { number, life: self.limits.data_life, row: kept.row });
    }

    fn arrive_data(&mut self, p: u8) -> Result<(), Refusal> {
        let message = leave(&mut self.data, p)?;
        let v = message.number;
        if v < self.wanted {
            self.replies.push(Reply { first: v, last: v, life: self.limits.reply_life });
        } else {
            *entry(&mut self.pad, v) = PadRow { row: message.row, held: true, timer: self.limits.reply_wait };
        }
        Ok(())
    }

    fn reply(&mut self, record_cells: usize) -> Result<(), Refusal> {
        let mut run: Vec<Row> = vec![];
        while run.len() < self.limits.window {
            match self.pad.get(self.wanted + run.len()) {
                Some(entry) if entry.held && entry.timer > 0 => run.push(entry.row),
                _ => break,
            }
        }
        ask(!run.is_empty(), Refusal::NothingToReply)?;
        ask((self.record.len() + run.len()) * CELLS <= record_cells, Refusal::RecordShort)?;
        let last = self.wanted + run.len() - 1;
        self.replies.push(Reply { first: self.wanted, last, life: self.limits.reply_life });
        self.wanted += run.len();
        self.record.extend(run);
        Ok(())
    }

    fn arrive_reply(&mut self, p: u8) -> Result<(), Refusal> {
        let message = leave(&mut self.replies, p)?;
        for number in message.first..=message.last {
            entry(&mut self.mat, number).marked = true;
        }
        while self.mat.get(self.oldest).is_some_and(|row| row.marked) {
            self.oldest += 1;
        }
        Ok(())
    }

    fn tick(&mut self, d: u16) {
        for row in &mut self.mat {
            row.timer = row.timer.saturating_sub(d);
        }
        for row in &mut self.pad {
            row.timer = row.timer.saturating_sub(d);
        }
        self.data.retain(|message| message.life > d);
        for message in &mut self.data {
            message.life -= d;
        }
        self.replies.retain(|message| message.life > d);
        for message in &mut self.replies {
            message.life -= d;
        }
    }
}
