//! Frames: the bytes of one message on the radio, read and written.

use crate::cell_bytes;
use crate::limits::{ask, legal, Refusal, Row};

/// Bytes of a data frame.
pub const DATA_LENGTH: usize = 36;

/// Bytes of a reply frame.
pub const REPLY_LENGTH: usize = 5;

/// What a frame says. Its window is the sender's: a reader that has a link compares it itself.
#[derive(Clone, Copy, Debug, PartialEq, Eq)]
pub enum Frame {
    /// A row with its sequence number modulo twice the window.
    Data {
        /// Ticks left.
        life: u8,
        /// The sender's window.
        window: u8,
        /// The row's number.
        number: u8,
        /// The row.
        row: Row,
    },
    /// A block acknowledgment of the numbers from first to last, both modulo twice the window.
    Reply {
        /// Ticks left.
        life: u8,
        /// The sender's window.
        window: u8,
        /// The first number.
        first: u8,
        /// The last number, below the first where the span passes the ring's end.
        last: u8,
    },
}

impl Frame {
    /// The cells of a data frame. A reply has none.
    pub fn cells(&self) -> &[u16] {
        match self {
            Frame::Data { row, .. } => row,
            Frame::Reply { .. } => &[],
        }
    }

    /// Questions 24 to 27 and 12, which reading and writing share.
    fn questions(&self) -> Result<(), Refusal> {
        let (life, window, numbers) = match *self {
            Frame::Data { life, window, number, .. } => (life, window, [number, number]),
            Frame::Reply { life, window, first, last } => (life, window, [first, last]),
        };
        ask((1..=32).contains(&window), Refusal::FrameWindow)?;
        ask(numbers.iter().all(|number| *number < 2 * window), Refusal::FrameNumber)?;
        ask((1..=250).contains(&life), Refusal::FrameLife)?;
        match self {
            Frame::Data { row, .. } => ask(legal(row), Refusal::IllegalCell),
            Frame::Reply { first, last, .. } => ask((last + 2 * window - first) % (2 * window) < window, Refusal::FrameSpan),
        }
    }
}

/// Reads a frame. The bytes are the frame alone: a longer or shorter slice is refused.
pub fn read(bytes: &[u8]) -> Result<Frame, Refusal> {
    let frame = match bytes.first() {
        Some(1) => {
            ask(bytes.len() == DATA_LENGTH, Refusal::FrameLength)?;
            Frame::Data { life: bytes[1], window: bytes[2], number: bytes[3], row: cell_bytes::row(&bytes[4..]) }
        }
        Some(2) => {
            ask(bytes.len() == REPLY_LENGTH, Refusal::FrameLength)?;
            Frame::Reply { life: bytes[1], window: bytes[2], first: bytes[3], last: bytes[4] }
        }
        _ => return Err(Refusal::FrameKind),
    };
    frame.questions()?;
    Ok(frame)
}

/// Writes a frame at the front of the buffer and gives its length. The bytes behind it keep their contents.
pub fn write(frame: &Frame, buffer: &mut [u8]) -> Result<usize, Refusal> {
    frame.questions()?;
    match frame {
        Frame::Data { life, window, number, row } => {
            let place = buffer.get_mut(..DATA_LENGTH).ok_or(Refusal::FrameBufferShort)?;
            place[..4].copy_from_slice(&[1, *life, *window, *number]);
            cell_bytes::put(&mut place[4..], row);
            Ok(DATA_LENGTH)
        }
        Frame::Reply { life, window, first, last } => {
            let place = buffer.get_mut(..REPLY_LENGTH).ok_or(Refusal::FrameBufferShort)?;
            place.copy_from_slice(&[2, *life, *window, *first, *last]);
            Ok(REPLY_LENGTH)
        }
    }
}
