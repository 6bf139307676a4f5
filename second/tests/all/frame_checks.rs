//! The comparison of frames finds what is wrong in a library: here the library is the reader and the writer of this crate.

use second::frame_checks::{readings, writings};
use second::frames::{read, write, Frame};
use second::library::FrameLibrary;
use second::limits::{number, Refusal, TORN_CELL};
use second::matlink::MatlinkFrame;
use second::met::torn;
use second::report::Replay;
use second::threads::Amount;

/// What is wrong.
#[derive(Clone, Copy, Debug, PartialEq)]
enum Wrong {
    Nothing,
    /// A life of 250 is refused.
    Life,
    /// A reply of w rows is refused.
    Span,
    /// One byte behind the frame is written.
    Behind,
    /// A refused reading writes a number.
    Number,
    /// A window is cut to a byte.
    Cut,
    /// A kind is cut to a byte.
    Kind,
    /// A torn cell is not read.
    TornRead,
    /// A torn cell is not written.
    TornWritten,
    /// The number below a torn cell is read.
    BelowTorn,
    /// The number above the greatest whole cell is read.
    AboveWhole,
}

const ALL: [Wrong; 10] = [
    Wrong::Life,
    Wrong::Span,
    Wrong::Behind,
    Wrong::Number,
    Wrong::Cut,
    Wrong::Kind,
    Wrong::TornRead,
    Wrong::TornWritten,
    Wrong::BelowTorn,
    Wrong::AboveWhole,
];

/// Whether a data frame has this cell.
fn has_cell(bytes: &[u8], cell: u16) -> bool {
    bytes[4..].chunks_exact(2).any(|pair| pair == cell.to_le_bytes())
}

struct StandIn(Wrong);

impl FrameLibrary for StandIn {
    fn read_frame(&self, bytes: &[u8], out: &mut MatlinkFrame) -> u8 {
        match read(bytes) {
            Ok(Frame::Data { life: 250, .. }) if self.0 == Wrong::Life => 26,
            Ok(Frame::Reply { window: 32, first, last, .. }) if self.0 == Wrong::Span && first + 31 == last => 27,
            Ok(frame) if self.0 == Wrong::TornRead && torn(frame.cells()) => 12,
            Err(Refusal::IllegalCell) if self.0 == Wrong::BelowTorn && has_cell(bytes, TORN_CELL - 1) => 0,
            Err(Refusal::IllegalCell) if self.0 == Wrong::AboveWhole && has_cell(bytes, 4096) => 0,
            Ok(frame) => {
                *out = MatlinkFrame::from(&frame);
                0
            }
            Err(refusal) => {
                if self.0 == Wrong::Number {
                    out.kind = 0;
                }
                refusal as u8
            }
        }
    }

    fn write_frame(&self, frame: &MatlinkFrame, buffer: &mut [u8], count: &mut usize) -> u8 {
        let mut frame = frame.clone();
        match self.0 {
            Wrong::Cut => frame.window %= 256,
            Wrong::Kind => frame.kind %= 256,
            _ => {}
        }
        *count = 0;
        let Some(frame) = frame.frame() else {
            return 22;
        };
        if self.0 == Wrong::TornWritten && torn(frame.cells()) {
            return 12;
        }
        let written = write(&frame, buffer);
        *count = written.unwrap_or(0);
        if let (Ok(length), Wrong::Behind) = (written, self.0) {
            if let Some(byte) = buffer.get_mut(length) {
                *byte = 0;
            }
        }
        number(&written)
    }
}

#[test]
fn wrong_readers_and_writers_are_found() {
    for wrong in [Wrong::Nothing].into_iter().chain(ALL) {
        let (library, replay, amount) = (&StandIn(wrong), &Replay { command: String::new() }, Amount { seed: 0, events: 1 });
        let found = readings(library, replay, amount).and_then(|_| writings(library, replay, amount, 20_000));
        assert_eq!(found.is_err(), wrong != Wrong::Nothing, "{wrong:?}: {found:?}");
    }
}
