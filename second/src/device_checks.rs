//! Single calls of devices that a caller made up, sound or not, and openings.

use crate::built::Link;
use crate::device_calls::{Both, Buffers, Call, Device, Gave};
use crate::device_draw::{draw_marks, mat_calls, pad_calls, Break, BREAK_MAT, BREAK_PAD};
use crate::device_library::DeviceLibrary;
use crate::device_met::Met;
use crate::devices::{MatDevice, PadDevice};
use crate::draw_cells::EDGES;
use crate::draw_link::{drawn_link, sound_link};
use crate::kept_devices::{Kept, KeptMat, KeptPad};
use crate::limits::Refusal;
use crate::random::Random;
use crate::report::{Outcome, Replay};
use crate::threads::{seeds, sums, Amount};

/// A call on a made-up device, with the lengths of the buffers that are lent to it.
#[derive(Clone)]
pub(crate) struct Try<const N: usize> {
    pub(crate) kept: Kept<N>,
    pub(crate) call: Call<'static>,
    pub(crate) bytes: usize,
    pub(crate) cells: usize,
}

impl<const N: usize> Try<N> {
    /// What the call gave, or what differs.
    fn put<D: Device<N>>(&self, library: &dyn DeviceLibrary) -> Result<Gave, String> {
        put_on::<D, N>(library, &mut Both::made_up(self.kept.clone()), &self.call, self.bytes, self.cells)
    }

    /// The same with 0 or 1 for each number of which the difference needs no other.
    fn smallest<D: Device<N>>(mut self, library: &dyn DeviceLibrary) -> Try<N> {
        for at in (0..Kept::<N>::COUNT).rev() {
            for small in [0, 1] {
                let mut less = self.clone();
                let number = less.kept.at(at);
                *number = small.min(*number);
                if less.put::<D>(library).is_err() {
                    self = less;
                }
            }
        }
        self
    }

    /// What differs, and the call and the device it differs on.
    pub(crate) fn report<D: Device<N>>(self, library: &dyn DeviceLibrary, found: &str) -> String {
        let (name, call) = (D::NAME, self.call.to_string());
        let lent = format!("frame buffer of {} bytes, record of {} cells", self.bytes, self.cells);
        let small = self.smallest::<D>(library);
        let again = small.put::<D>(library).err().unwrap_or_default();
        let numbers = small.kept.all();
        let not_zero = numbers.iter().enumerate().filter(|(_, number)| **number != 0);
        let shown: Vec<String> = not_zero.map(|(at, number)| format!("{} = {number}", Kept::<N>::name(at))).collect();
        let shown = shown.join("\n");
        format!(
            "{name}, {call}, {lent}: {found}\nThe same on the smallest {name}: {again}\nnumbers that are not 0:\n{shown}"
        )
    }
}

/// A call on both with fresh buffers: what it gave, or what differs.
pub(crate) fn put_on<D: Device<N>, const N: usize>(
    library: &dyn DeviceLibrary,
    both: &mut Both<D, N>,
    call: &Call,
    bytes: usize,
    cells: usize,
) -> Result<Gave, String> {
    let mut there = Buffers::blank(bytes, cells);
    let mut here = there.clone();
    let (gave, found) = both.call(library, call, there.lend(), here.lend());
    found.or_else(|| there.difference(&here)).map_or(Ok(gave), Err)
}

/// Puts calls on one device after another, and adds to what was met.
struct Putter<'a> {
    library: &'a dyn DeviceLibrary,
    replay: &'a Replay,
    part: &'static str,
    seed: u64,
}

impl Putter<'_> {
    fn put<D: Device<N>, const N: usize>(&self, tried: Try<N>, met: &mut Met) -> Result<u8, String> {
        let gave = tried
            .put::<D>(self.library)
            .map_err(|found| self.replay.failed(self.part, self.seed, &tried.clone().report::<D>(self.library, &found)))?;
        met.call(N == 2, &tried.call, &gave);
        Ok(gave.answer)
    }

    /// One of each call of this mat: the numbers.
    fn mat(&self, random: &mut Random, kept: &KeptMat, met: &mut Met) -> Result<Vec<u8>, String> {
        let calls = mat_calls(random, &MatDevice::from(kept));
        let put = |(call, bytes)| self.put::<MatDevice, 2>(Try { kept: kept.clone(), call, bytes, cells: 0 }, met);
        calls.into_iter().map(put).collect()
    }

    /// One of each call of this pad, but two replies: the numbers.
    fn pad(&self, random: &mut Random, kept: &KeptPad, met: &mut Met) -> Result<Vec<u8>, String> {
        let calls = pad_calls(random, &PadDevice::from(kept));
        let put = |(call, bytes, cells)| self.put::<PadDevice, 1>(Try { kept: kept.clone(), call, bytes, cells }, met);
        calls.into_iter().map(put).collect()
    }

    /// Whether a device with a broken clause was refused as such.
    fn refused(&self, clause: &str, answers: &[u8]) -> Result<(), String> {
        if answers.iter().all(|answer| *answer == Refusal::Unsound as u8) {
            return Ok(());
        }
        Err(self.replay.failed(self.part, self.seed, &format!("{clause}: answered {answers:?}")))
    }
}

/// A clause broken: the device, where it has room for it.
fn broken<const N: usize>(random: &mut Random, mut kept: Kept<N>, (_, change): Break<N>) -> Option<Kept<N>> {
    change(random, &mut kept).then_some(kept)
}

/// The two ends of a link, as devices.
fn ends(Link { limits, mat, pad, .. }: Link) -> (KeptMat, KeptPad) {
    (KeptMat::from(&MatDevice { limits, mat }), KeptPad::from(&PadDevice { limits, pad }))
}

/// How often each clause of question 4 was broken.
#[derive(Clone, Default)]
struct Clauses {
    mat: [u64; BREAK_MAT.len()],
    pad: [u64; BREAK_PAD.len()],
}

/// Drawn devices with one of each call, and sound ones in which one clause of question 4 after the other is broken.
pub fn made_up_devices(library: &dyn DeviceLibrary, replay: &Replay, amount: Amount) -> Outcome {
    let counted = seeds(amount, |seed, (met, clauses): &mut (Met, Clauses)| {
        let mut random = Random::new(seed);
        let putter = Putter { library, replay, part: "device-calls", seed };
        for _ in 0..4 {
            let (mut mat, mut pad) = ends(drawn_link(&mut random));
            draw_marks(&mut random, &mut mat);
            draw_marks(&mut random, &mut pad);
            putter.mat(&mut random, &mat, met)?;
            putter.pad(&mut random, &pad, met)?;
        }
        let (mat, pad) = ends(sound_link(&mut random));
        let at = seed as usize % BREAK_MAT.len();
        if let Some(mat) = broken(&mut random, mat, BREAK_MAT[at]) {
            putter.refused(BREAK_MAT[at].0, &putter.mat(&mut random, &mat, met)?)?;
            clauses.mat[at] += 1;
        }
        let at = seed as usize % BREAK_PAD.len();
        if let Some(pad) = broken(&mut random, pad, BREAK_PAD[at]) {
            putter.refused(BREAK_PAD[at].0, &putter.pad(&mut random, &pad, met)?)?;
            clauses.pad[at] += 1;
        }
        Ok(40)
    })?;
    let (mut met, mut mats, mut pads) = (Met::default(), [0; BREAK_MAT.len()], [0; BREAK_PAD.len()]);
    for (more, clauses) in counted {
        met = met.and(more);
        mats = sums(vec![mats, clauses.mat]);
        pads = sums(vec![pads, clauses.pad]);
    }
    met.all_there("device-calls")?;
    let named = |names: Vec<&str>, times: &[u64]| {
        names.iter().zip(times).map(|(name, times)| format!("{name}: {times}")).collect::<Vec<_>>().join(", ")
    };
    let mats = named(BREAK_MAT.map(|(name, _)| name).to_vec(), &mats);
    let pads = named(BREAK_PAD.map(|(name, _)| name).to_vec(), &pads);
    Ok(format!("{met}\n  question 4 of a mat broken in  {mats}\n  of a pad in  {pads}"))
}

/// Numbers at and beyond the edges of a device with these limits.
fn edges(limits: [u16; 5]) -> Vec<u16> {
    let [window, data_life, reply_life, reply_wait, resend_wait] = limits;
    let mut all = vec![0, 1, 2, 33, 251, 256, 1001];
    all.extend(EDGES);
    all.push((data_life + reply_life + reply_wait).saturating_sub(3));
    for edge in [window, 2 * window, reply_wait, resend_wait] {
        all.extend([edge.saturating_sub(1), edge, edge + 1, edge + 256]);
    }
    all.sort_unstable();
    all.dedup();
    all
}

/// A sound device with each of its numbers replaced by others, each with one call: how many there were, and how many of
/// these were not sound.
fn damaged<const N: usize>(
    kept: &Kept<N>,
    mut put: impl FnMut(&Kept<N>, usize) -> Result<u8, String>,
) -> Result<[u64; 2], String> {
    let mut changed = kept.clone();
    let mut counted = [0, 0];
    for at in 0..Kept::<N>::COUNT {
        let was = *changed.at(at);
        for value in edges(kept.limits).into_iter().chain([was ^ 1]) {
            *changed.at(at) = value;
            counted[0] += 1;
            counted[1] += u64::from(put(&changed, counted[0] as usize)? == Refusal::Unsound as u8);
        }
        *changed.at(at) = was;
    }
    Ok(counted)
}

/// Question 4 of every number that a device has.
pub fn damaged_devices(library: &dyn DeviceLibrary, replay: &Replay, amount: Amount) -> Outcome {
    let counted = seeds(amount, |seed, counted: &mut [u64; 2]| {
        let mut random = Random::new(seed);
        let putter = Putter { library, replay, part: "device-damage", seed };
        let (mat, pad) = ends(sound_link(&mut random));
        let mut met = Met::default();
        let mut calls = mat_calls(&mut random, &MatDevice::from(&mat));
        calls.push((Call::Tick(1), 0));
        let mats = damaged(&mat, |kept, turn| {
            let (call, bytes) = calls[turn % calls.len()].clone();
            putter.put::<MatDevice, 2>(Try { kept: kept.clone(), call, bytes, cells: 0 }, &mut met)
        })?;
        let calls = pad_calls(&mut random, &PadDevice::from(&pad));
        let pads = damaged(&pad, |kept, turn| {
            let (call, bytes, cells) = calls[turn % calls.len()].clone();
            putter.put::<PadDevice, 1>(Try { kept: kept.clone(), call, bytes, cells }, &mut met)
        })?;
        *counted = sums(vec![*counted, mats, pads]);
        Ok(mats[0] + pads[0])
    })?;
    let [devices, unsound] = sums(counted);
    Ok(format!("{devices} devices with one number replaced, {unsound} of them not sound"))
}
