//! The mat and the pad as two devices: each has its own limits, sees bytes alone and hands out frames in a lent buffer.
//!
//! A device is changed in place; a refused call leaves it and all that is lent to it as it was. Each call puts question 4
//! first.

use crate::frames::{read, write, Frame};
use crate::limits::{ask, Limits, Refusal, Row, CELLS};
use crate::mat::Mat;
use crate::pad::Pad;

/// A life in a frame. No sound device has one that a byte does not hold.
fn life(ticks: u16) -> u8 {
    ticks as u8
}

/// A mat with its limits. Its fields are open, so that a caller can make up any state.
#[derive(Clone, Debug, Default, PartialEq, Eq, Hash)]
pub struct MatDevice {
    /// The limits that the opening returned.
    pub limits: Limits,
    /// The sender.
    pub mat: Mat,
}

impl MatDevice {
    /// A fresh device. A refused opening gives one of zeros, which is not sound.
    pub fn open(asked: Limits) -> (Result<(), Refusal>, MatDevice) {
        match asked.accept() {
            Ok(limits) => (Ok(()), MatDevice { limits, ..MatDevice::default() }),
            Err(refusal) => (Err(refusal), MatDevice::default()),
        }
    }

    /// Question 4 of a mat.
    pub fn sound(&self) -> bool {
        self.limits.sound() && self.mat.sound(&self.limits)
    }

    /// Sends the supply's first row: the length of its frame.
    pub fn send(&mut self, supply: &[u16], frame: &mut [u8]) -> Result<usize, Refusal> {
        ask(self.sound(), Refusal::Unsound)?;
        ask(supply.len().is_multiple_of(CELLS), Refusal::SupplyLength)?;
        let row = self.mat.row_to_send(&self.limits, supply)?;
        let sent = self.mat.next;
        let length = self.write(sent, row, frame)?;
        self.mat.keep(&self.limits, row);
        self.mat.start_timer(&self.limits, sent);
        Ok(length)
    }

    /// Sends the kept row oldest + k again: the length of its frame.
    pub fn resend(&mut self, k: usize, frame: &mut [u8]) -> Result<usize, Refusal> {
        ask(self.sound(), Refusal::Unsound)?;
        let sent = self.mat.number_to_resend(&self.limits, k)?;
        let length = self.write(sent, self.mat.kept(&self.limits, sent), frame)?;
        self.mat.start_timer(&self.limits, sent);
        Ok(length)
    }

    /// The data frame of a row, with the whole data life.
    fn write(&self, number: u8, row: &Row, frame: &mut [u8]) -> Result<usize, Refusal> {
        let Limits { window, data_life, .. } = self.limits;
        write(&Frame::Data { life: life(data_life), window: window as u8, number, row: *row }, frame)
    }

    /// Takes the bytes of a frame: how many rows are newly acknowledged.
    pub fn receive(&mut self, bytes: &[u8]) -> Result<usize, Refusal> {
        ask(self.sound(), Refusal::Unsound)?;
        let Frame::Reply { window, first, last, .. } = read(bytes)? else { return Err(Refusal::FrameKind) };
        ask(usize::from(window) == self.limits.window, Refusal::FrameWindow)?;
        self.mat.acknowledge(&self.limits, first, last).map(usize::from)
    }

    /// Time passes.
    pub fn tick(&mut self, d: u16) -> Result<(), Refusal> {
        ask(self.sound(), Refusal::Unsound)?;
        ask(d >= 1, Refusal::Argument)?;
        self.mat.tick(d);
        Ok(())
    }
}

/// A pad with its limits. Its fields are open, so that a caller can make up any state.
#[derive(Clone, Debug, Default, PartialEq, Eq, Hash)]
pub struct PadDevice {
    /// The limits that the opening returned.
    pub limits: Limits,
    /// The receiver.
    pub pad: Pad,
}

/// What a pad made of a data frame.
#[derive(Clone, Copy, Debug, PartialEq, Eq)]
pub enum Received {
    /// The row is held.
    Held,
    /// The row is an old one, and a reply of so many bytes was written.
    Old(usize),
}

impl PadDevice {
    /// A fresh device. A refused opening gives one of zeros, which is not sound.
    pub fn open(asked: Limits) -> (Result<(), Refusal>, PadDevice) {
        match asked.accept() {
            Ok(limits) => (Ok(()), PadDevice { limits, ..PadDevice::default() }),
            Err(refusal) => (Err(refusal), PadDevice::default()),
        }
    }

    /// Question 4 of a pad.
    pub fn sound(&self) -> bool {
        self.limits.sound() && self.pad.sound(&self.limits)
    }

    /// Takes the bytes of a frame. An old row is answered at once.
    pub fn receive(&mut self, bytes: &[u8], reply: &mut [u8]) -> Result<Received, Refusal> {
        ask(self.sound(), Refusal::Unsound)?;
        let Frame::Data { window, number, row, .. } = read(bytes)? else { return Err(Refusal::FrameKind) };
        ask(usize::from(window) == self.limits.window, Refusal::FrameWindow)?;
        if self.pad.is_old(&self.limits, number) {
            return self.write(number, number, reply).map(Received::Old);
        }
        self.pad.hold(&self.limits, number, &row);
        Ok(Received::Held)
    }

    /// Records the run of rows from wanted on and writes the reply for it: how many rows, and the length of the frame.
    pub fn reply(&mut self, record: &mut [u16], reply: &mut [u8]) -> Result<(usize, usize), Refusal> {
        ask(self.sound(), Refusal::Unsound)?;
        let run = self.pad.run_to_reply(&self.limits, record)?;
        let length = self.write(run.first, run.last, reply)?;
        self.pad.record(&self.limits, run, record);
        Ok((usize::from(run.length), length))
    }

    /// The reply frame of these numbers, with the whole reply life.
    fn write(&self, first: u8, last: u8, reply: &mut [u8]) -> Result<usize, Refusal> {
        let Limits { window, reply_life, .. } = self.limits;
        write(&Frame::Reply { life: life(reply_life), window: window as u8, first, last }, reply)
    }

    /// Time passes.
    pub fn tick(&mut self, d: u16) -> Result<(), Refusal> {
        ask(self.sound(), Refusal::Unsound)?;
        ask(d >= 1, Refusal::Argument)?;
        self.pad.tick(d);
        Ok(())
    }
}
