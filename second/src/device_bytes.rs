//! Any bytes handed to a mat and to a pad: random ones, every length, good frames, damaged ones, those of the other end and
//! those of another window. What is accepted changes the device that the next ones are handed to.

use crate::device_calls::{Both, Call, Device};
use crate::device_checks::{put_on, Try};
use crate::device_draw::{any_frame, damage, data_frame, draw_marks, reply_frame, space};
use crate::device_library::DeviceLibrary;
use crate::device_met::Met;
use crate::devices::{MatDevice, PadDevice};
use crate::draw_link::{drawn_link, sound_link};
use crate::random::Random;
use crate::report::{Outcome, Replay};
use crate::threads::{seeds, Amount};

/// The most bytes that are handed in.
const LONGEST: usize = 40;

/// How many frames and other bytes of each sort one device gets.
const OF_EACH: usize = 12;

/// Bytes as a frame begins, or any, of this length.
fn bytes(random: &mut Random, window: usize, length: usize) -> Vec<u8> {
    let mut bytes: Vec<u8> = (0..length).map(|_| random.byte()).collect();
    if !random.once_in(4) {
        let start = [random.one_of(&[1, 2, 1, 2, 0, 3]), 1 + random.below(250) as u8, window as u8, random.below(64) as u8];
        bytes.iter_mut().zip(start).for_each(|(byte, start)| *byte = start);
    }
    bytes
}

/// A sort of bytes that a device gets.
#[derive(Clone, Copy)]
enum Sort {
    /// So many bytes.
    Length(usize),
    /// A good frame of the device's kind and window.
    Good,
    /// The same, damaged.
    Damaged,
    /// A frame of either kind, of this window or another, good or damaged.
    Any,
}

/// The sorts of all bytes that one device gets, in any order.
fn sorts(random: &mut Random) -> Vec<Sort> {
    let mut all: Vec<Sort> = (0..=LONGEST).map(Sort::Length).collect();
    for _ in 0..OF_EACH {
        all.extend([Sort::Length(random.below(LONGEST + 1)), Sort::Good, Sort::Good, Sort::Damaged, Sort::Any]);
    }
    for at in (1..all.len()).rev() {
        all.swap(at, random.below(at + 1));
    }
    all
}

/// Bytes of a sort for a device of this window, for which `good` makes a frame.
fn of_sort(random: &mut Random, sort: Sort, window: usize, good: impl Fn(&mut Random) -> Vec<u8>) -> Vec<u8> {
    match sort {
        Sort::Length(length) => bytes(random, window, length),
        Sort::Good => good(random),
        Sort::Damaged => {
            let mut bytes = good(random);
            damage(random, &mut bytes);
            bytes
        }
        Sort::Any => any_frame(random, window),
    }
}

/// What is compared, and with which seed.
struct Receiver<'a> {
    library: &'a dyn DeviceLibrary,
    replay: &'a Replay,
    seed: u64,
}

impl Receiver<'_> {
    /// Bytes of all sorts handed to one device, which now and then is again as it was at first.
    fn receive<D: Device<N>, const N: usize>(
        &self,
        random: &mut Random,
        (first, window): (&D, usize),
        good: impl Fn(&mut Random, &D) -> Vec<u8>,
        met: &mut Met,
    ) -> Result<u64, String> {
        let mut kept = first.kept();
        draw_marks(random, &mut kept);
        let mut both = Both::<D, N>::made_up(kept.clone());
        let sorts = sorts(random);
        for sort in &sorts {
            if random.once_in(8) {
                both = Both::made_up(kept.clone());
            }
            let space = space(random, 5);
            let bytes = of_sort(random, *sort, window, |random| good(random, &both.here));
            let call = Call::Receive(bytes.into());
            let before = both.kept().clone();
            let gave = put_on(self.library, &mut both, &call, space, 0).map_err(|found| {
                let tried = Try { kept: before, call: call.clone(), bytes: space, cells: 0 };
                self.replay.failed("device-bytes", self.seed, &tried.report::<D>(self.library, &found))
            })?;
            met.call(N == 2, &call, &gave);
        }
        Ok(sorts.len() as u64)
    }
}

/// The bytes of each seed, at a mat and at a pad that are sound, now and then at ones that need not be.
pub fn any_bytes(library: &dyn DeviceLibrary, replay: &Replay, amount: Amount) -> Outcome {
    let met = seeds(amount, |seed, met: &mut Met| {
        let mut random = Random::new(seed);
        let receiver = Receiver { library, replay, seed };
        let link = if random.once_in(8) { drawn_link(&mut random) } else { sound_link(&mut random) };
        let (mat, pad) =
            (MatDevice { limits: link.limits, mat: link.mat }, PadDevice { limits: link.limits, pad: link.pad });
        let window = link.limits.window;
        let mats = receiver.receive(&mut random, (&mat, window), reply_frame, met)?;
        Ok(mats + receiver.receive(&mut random, (&pad, window), data_frame, met)?)
    })?;
    let met = met.into_iter().reduce(Met::and).unwrap_or_default();
    met.all_there("device-bytes")?;
    Ok(format!("{met}\n  every length up to {LONGEST} at each device"))
}
