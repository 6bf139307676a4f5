//! The proved frame reader and writer, as the library has them, compared with the ones here.

use crate::compare::different;
use crate::differ::Difference;
use crate::draw_cells::{random_row, EDGES};
use crate::frame_lists::{damaged, edges, small};
use crate::frames::{read, write, Frame};
use crate::library::FrameLibrary;
use crate::limits::{number, Refusal, CELLS};
use crate::matlink::MatlinkFrame;
use crate::met::Accepted;
use crate::report::{Outcome, Replay};
use crate::threads::Amount;

/// What stands in a lent frame before a call.
const BLANK: u16 = 0xAAAA;

/// From so many random writings on, a torn cell must have been written.
const ENOUGH: u64 = 10_000;

/// Reading. A refused one writes nothing.
fn reading_difference(library: &dyn FrameLibrary, bytes: &[u8]) -> Difference {
    let frame = read(bytes);
    let expected = frame.as_ref().map_or(MatlinkFrame::filled(BLANK), MatlinkFrame::from);
    let mut got = MatlinkFrame::filled(BLANK);
    let answer = library.read_frame(bytes, &mut got);
    different(answer, number(&frame), || "number of the reading".into())
        .or_else(|| different(got, expected, || "frame".into()))
}

/// What the writer here makes of the frame.
fn written(frame: &MatlinkFrame, buffer: &mut [u8]) -> Result<usize, Refusal> {
    frame.frame().ok_or(Refusal::FrameKind).and_then(|frame| write(&frame, buffer))
}

/// Writing into a buffer of this length.
fn writing_difference(library: &dyn FrameLibrary, frame: &MatlinkFrame, length: usize) -> Difference {
    let (mut got, mut expected) = (vec![0xAA; length], vec![0xAA; length]);
    let mut count = usize::MAX;
    let done = written(frame, &mut expected);
    let answer = library.write_frame(frame, &mut got, &mut count);
    different(answer, number(&done), || "number of the writing".into())
        .or_else(|| different(count, done.unwrap_or(0), || "count of bytes".into()))
        .or_else(|| different(got, expected, || "written buffer".into()))
}

/// Reads every frame; writes every accepted one again, into buffers of all lengths about its own.
pub fn readings(library: &dyn FrameLibrary, replay: &Replay, amount: Amount) -> Outcome {
    let mut frames = edges();
    frames.extend(damaged(&mut amount.random()));
    frames.extend(small());
    let (mut accepted, mut written) = (Accepted::default(), 0);
    for bytes in &frames {
        let found = reading_difference(library, bytes);
        let again = read(bytes).ok().and_then(|frame| {
            accepted.add(frame.cells());
            let lengths = [0, bytes.len() - 1, bytes.len(), bytes.len() + 3];
            written += lengths.len();
            lengths.into_iter().find_map(|length| writing_difference(library, &MatlinkFrame::from(&frame), length))
        });
        if let Some(text) = found.or(again) {
            return Err(replay.failed("readings", amount.seed, &format!("frame {bytes:?}: {text}")));
        }
    }
    accepted.all_there("readings", true)?;
    let count = frames.len();
    Ok(format!("{count} frames read, accepted {accepted}; {written} written again"))
}

/// Writes frames with values at and beyond every edge, with anything where their kind does not look.
pub fn writings(library: &dyn FrameLibrary, replay: &Replay, amount: Amount, count: u64) -> Outcome {
    let mut random = amount.random();
    let mut accepted = Accepted::default();
    for _ in 0..count {
        let window: u16 = random.one_of(&[0, 1, 2, 31, 32, 33, 255, 256, 257, 65_535]);
        let twice = window.saturating_mul(2);
        let mut near = || random.one_of(&[0, 1, twice.saturating_sub(1), twice, 256, 65_535]);
        let (number, last) = (near(), near());
        let life = random.one_of(&[0, 1, 1, 2, 250, 251, 256, 257, 65_535]);
        let mut cell = random_row(&mut random);
        if random.once_in(4) {
            cell[random.below(CELLS)] = random.one_of(&EDGES);
        }
        let kind = random.one_of(&[1, 1, 1, 1, 2, 2, 2, 2, 0, 3, 257, 258, 65_535]);
        let frame = MatlinkFrame { kind, life, window, number, last, cell };
        let length = random.one_of(&[0, 4, 5, 6, 35, 36, 37, 60]);
        if let Some(text) = writing_difference(library, &frame, length) {
            return Err(replay.failed("writings", amount.seed, &format!("{frame:?} into {length} bytes: {text}")));
        }
        if written(&frame, &mut vec![0; length]).is_ok() {
            accepted.add(frame.frame().as_ref().map_or(&[], Frame::cells));
        }
    }
    accepted.all_there("writings", count >= ENOUGH)?;
    Ok(format!("{count} frames written, accepted {accepted}"))
}
