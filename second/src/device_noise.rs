//! Noise at two devices: bytes that are refused, and calls with too little space. Nothing changes by them.

use crate::device_calls::Call;
use crate::device_draw::{any_frame, damage};
use crate::device_lists::World;
use crate::differ::Difference;
use crate::frames::{read, Frame, DATA_LENGTH, REPLY_LENGTH};
use crate::limits::{Refusal, CELLS};
use crate::random::Random;

/// The sorts of noise.
#[derive(Clone, Copy, Debug, PartialEq, Eq)]
enum Sort {
    /// Bytes that the frame reader refuses.
    Bytes,
    /// Frames of the other kind.
    OtherKind,
    /// Frames of another window.
    OtherWindow,
    /// A buffer that is too short. Only those count for which nothing else is asked before.
    Short,
    /// A supply that is not whole rows.
    PartOfARow,
}

/// Their names, in their order.
const NAMES: [&str; 5] =
    ["bytes no frame reads", "frames of the other kind", "frames of another window", "buffers too short", "parts of a row"];

/// How often each came.
#[derive(Clone, Copy, Debug, Default, PartialEq, Eq)]
pub struct Noise([u64; NAMES.len()]);

impl Noise {
    /// Both together.
    pub fn and(self, other: Noise) -> Noise {
        Noise(std::array::from_fn(|at| self.0[at] + other.0[at]))
    }

    /// All by name.
    pub fn named(&self) -> [(&'static str, u64); NAMES.len()] {
        std::array::from_fn(|at| (NAMES[at], self.0[at]))
    }
}

/// A call that must be refused.
struct Disturbance {
    mat: bool,
    call: Call<'static>,
    space: usize,
    sort: Sort,
}

/// Where a device refuses these bytes whatever its state is: which noise they are. False frames of its kind and window are
/// none.
fn sort(bytes: &[u8], mat: bool, w: usize) -> Option<Sort> {
    let (of_mat, window) = match read(bytes) {
        Err(_) => return Some(Sort::Bytes),
        Ok(Frame::Data { window, .. }) => (true, window),
        Ok(Frame::Reply { window, .. }) => (false, window),
    };
    if of_mat == mat {
        Some(Sort::OtherKind)
    } else if usize::from(window) != w {
        Some(Sort::OtherWindow)
    } else {
        None
    }
}

/// Random bytes, a frame from the air as it is or damaged, or any frame.
fn bytes(world: &World, random: &mut Random) -> Vec<u8> {
    let (data, replies) = (&world.data.frames, &world.replies.frames);
    let mut bytes = match random.below(4) {
        0 => return (0..random.below(41)).map(|_| random.byte()).collect(),
        1 if !data.is_empty() => data[random.below(data.len())].bytes.clone(),
        2 if !replies.is_empty() => replies[random.below(replies.len())].bytes.clone(),
        _ => any_frame(random, world.mat.here.limits.window),
    };
    if random.once_in(2) {
        damage(random, &mut bytes);
    }
    bytes
}

/// Bytes at either device.
fn received(world: &World, random: &mut Random) -> Option<Disturbance> {
    let (mat, bytes) = (random.once_in(2), bytes(world, random));
    let sort = sort(&bytes, mat, world.mat.here.limits.window)?;
    Some(Disturbance { mat, call: Call::Receive(bytes.into()), space: REPLY_LENGTH, sort })
}

fn short_at_mat(world: &World, random: &mut Random) -> Disturbance {
    let space = random.one_of(&[0, REPLY_LENGTH, DATA_LENGTH - 1]);
    let resend = random.once_in(2);
    let call = if resend { Call::Resend(random.below(3) as u32) } else { Call::Send(world.rest().to_vec().into()) };
    Disturbance { mat: true, call, space, sort: Sort::Short }
}

/// A reply, or a frame from the air that is an old row: one that is not would be held.
fn short_at_pad(world: &World, random: &mut Random) -> Disturbance {
    let limits = world.pad.here.limits;
    let old = world.data.frames.iter().find(|frame| match read(&frame.bytes) {
        Ok(Frame::Data { number, .. }) => world.pad.here.pad.is_old(&limits, number),
        _ => false,
    });
    let call = old.map_or(Call::Reply, |frame| Call::Receive(frame.bytes.clone().into()));
    Disturbance { mat: false, call, space: random.below(REPLY_LENGTH), sort: Sort::Short }
}

fn part_of_a_row(random: &mut Random) -> Disturbance {
    let cells = vec![1; 1 + random.below(CELLS - 1) + CELLS * random.below(2)];
    Disturbance { mat: true, call: Call::Send(cells.into()), space: DATA_LENGTH, sort: Sort::PartOfARow }
}

/// The numbers with which noise may be refused, where it is not the reader's.
fn right(sort: Sort, answer: u8) -> bool {
    match sort {
        Sort::OtherKind => answer == Refusal::FrameKind as u8,
        Sort::OtherWindow => answer == Refusal::FrameWindow as u8,
        Sort::PartOfARow => answer == Refusal::SupplyLength as u8,
        Sort::Bytes | Sort::Short => answer > 0,
    }
}

/// Nothing, or one call that must be refused, and what is wrong with it.
pub(crate) fn noise(world: &mut World, random: &mut Random) -> Difference {
    let drawn = match random.below(12) {
        0..4 => received(world, random),
        4 => Some(short_at_mat(world, random)),
        5 => Some(short_at_pad(world, random)),
        6 => Some(part_of_a_row(random)),
        _ => None,
    };
    let Disturbance { mat, call, space, sort } = drawn?;
    let gave = if mat { world.at_mat(&call, space) } else { world.at_pad(&call, space) };
    let found = match gave {
        Err(found) => found,
        Ok((gave, _)) if right(sort, gave.answer) => {
            let counts = sort != Sort::Short || gave.answer == Refusal::FrameBufferShort as u8;
            world.met.noise.0[sort as usize] += u64::from(counts);
            return None;
        }
        Ok((gave, _)) => format!("answer {}", gave.answer),
    };
    Some(format!("{call}, with a frame buffer of {space} bytes: {found}"))
}
