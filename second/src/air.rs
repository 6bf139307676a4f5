//! The messages in the air: two tables of 32 places, oldest message first.

use crate::limits::{Refusal, Row, TABLE_PLACES};

/// What a table needs of its messages: a life that falls with time.
pub trait Message: Copy {
    /// The ticks that are left.
    fn life(&mut self) -> &mut u16;
}

/// A row on its way from the mat to the pad.
#[derive(Clone, Copy, Debug, Default, PartialEq, Eq, Hash)]
pub struct Data {
    /// Its sequence number, modulo 2w.
    pub number: u8,
    /// The ticks that are left.
    pub life: u16,
    /// Its content.
    pub row: Row,
}

impl Message for Data {
    #[inline]
    fn life(&mut self) -> &mut u16 {
        &mut self.life
    }
}

/// A block acknowledgment on its way from the pad to the mat.
#[derive(Clone, Copy, Debug, Default, PartialEq, Eq, Hash)]
pub struct Reply {
    /// The first number it acknowledges, modulo 2w.
    pub first: u8,
    /// The last one, modulo 2w; below `first` where the span passes the ring's end.
    pub last: u8,
    /// The ticks that are left.
    pub life: u16,
}

impl Message for Reply {
    #[inline]
    fn life(&mut self) -> &mut u16 {
        &mut self.life
    }
}

/// What became of the messages of one table, counted over a call or a list.
#[derive(Clone, Copy, Debug, Default, PartialEq, Eq, Hash)]
pub struct Account {
    /// Messages put in the table.
    pub put: usize,
    /// Messages that arrived.
    pub arrived: usize,
    /// Messages that were lost.
    pub lost: usize,
    /// Messages that a tick dropped, as it was at least their life.
    pub dropped: usize,
}

impl Account {
    /// Adds the account of a later call.
    #[inline]
    pub fn add(&mut self, later: Account) {
        self.put += later.put;
        self.arrived += later.arrived;
        self.lost += later.lost;
        self.dropped += later.dropped;
    }
}

/// The messages in the air in one direction, oldest first. What stands behind the count means nothing.
#[derive(Clone, Debug, Default, PartialEq, Eq, Hash)]
pub struct Table<M> {
    /// How many messages there are.
    pub count: usize,
    /// The messages and the places behind them.
    pub messages: [M; TABLE_PLACES],
}

impl<M: Message> Table<M> {
    /// The messages that are there, for a sound table.
    #[inline]
    pub fn all(&self) -> &[M] {
        &self.messages[..self.count]
    }

    #[inline]
    pub(crate) fn has_place(&self) -> bool {
        self.count < TABLE_PLACES
    }

    /// Question 17.
    #[inline]
    pub(crate) fn at(&self, p: u8) -> Result<&M, Refusal> {
        self.all().get(usize::from(p)).ok_or(Refusal::NoMessage)
    }

    #[inline]
    pub(crate) fn put(&mut self, message: M, account: &mut Account) {
        self.messages[self.count] = message;
        self.count += 1;
        account.put += 1;
    }

    #[inline]
    fn remove(&mut self, p: u8) {
        self.messages.copy_within(usize::from(p) + 1..self.count, usize::from(p));
        self.count -= 1;
    }

    /// The message leaves, as it has arrived. The caller puts question 17, and those that come behind it.
    #[inline]
    pub(crate) fn arrive(&mut self, p: u8, account: &mut Account) {
        self.remove(p);
        account.arrived += 1;
    }

    pub(crate) fn lose(&mut self, p: u8, account: &mut Account) -> Result<(), Refusal> {
        self.at(p)?;
        self.remove(p);
        account.lost += 1;
        Ok(())
    }

    /// Lives fall, and messages with none left go.
    pub(crate) fn tick(&mut self, d: u16, account: &mut Account) {
        let mut kept = 0;
        for place in 0..self.count {
            let life = *self.messages[place].life();
            if life > d {
                if kept != place {
                    self.messages[kept] = self.messages[place];
                }
                *self.messages[kept].life() = life - d;
                kept += 1;
            } else {
                account.dropped += 1;
            }
        }
        self.count = kept;
    }
}
