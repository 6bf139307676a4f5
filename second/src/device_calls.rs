//! One call of a device in the library and here: the answer, what is counted, and the whole device after it.

use crate::compare::different;
use crate::device_library::DeviceLibrary;
use crate::devices::{MatDevice, PadDevice, Received};
use crate::differ::Difference;
use crate::kept_devices::Kept;
use crate::library::asked;
use crate::limits::{number, Limits, Refusal, CELLS};
use crate::matlink::{mat_without_free, pad_without_free};
use crate::members::named;
use std::borrow::Cow;
use std::fmt;

/// What stands in a lent array or buffer that nothing must write.
const BLANK: u16 = 0xAAAA;

/// Numbers behind a kept device and behind lent buffers, which must stay.
const BEHIND: usize = 8;

/// What stands in a lent count before a call.
const NO_COUNT: usize = usize::MAX;

/// A call, without the buffers that are lent to it. A mat has the first three and the last, a pad the last three.
#[derive(Clone, Debug, PartialEq, Eq)]
pub enum Call<'a> {
    /// The first row of this supply is sent.
    Send(Cow<'a, [u16]>),
    /// Row oldest + k is sent again.
    Resend(u32),
    /// These bytes are handed in.
    Receive(Cow<'a, [u8]>),
    /// A run of rows is recorded and replied to.
    Reply,
    /// Time passes.
    Tick(u32),
}

impl fmt::Display for Call<'_> {
    fn fmt(&self, out: &mut fmt::Formatter) -> fmt::Result {
        match self {
            Call::Send(supply) => write!(out, "send from {} cells {:?}", supply.len(), &supply[..supply.len().min(CELLS)]),
            Call::Resend(k) => write!(out, "resend {k}"),
            Call::Receive(bytes) => write!(out, "receive {} bytes {bytes:?}", bytes.len()),
            Call::Reply => write!(out, "reply"),
            Call::Tick(d) => write!(out, "tick {d}"),
        }
    }
}

/// The buffers that are lent to a call, which uses those it has.
pub struct Lent<'a> {
    /// Where a frame is written.
    pub frame: &'a mut [u8],
    /// Where rows are recorded.
    pub record: &'a mut [u16],
}

/// Buffers for one call, with numbers behind them.
#[derive(Clone, Debug, PartialEq, Eq)]
pub struct Buffers {
    frame: Vec<u8>,
    record: Vec<u16>,
}

impl Buffers {
    /// Buffers of so many bytes and cells that nothing was written to.
    pub fn blank(bytes: usize, cells: usize) -> Buffers {
        Buffers { frame: vec![BLANK as u8; bytes + BEHIND], record: vec![BLANK; cells + BEHIND] }
    }

    /// What a call may write.
    pub fn lend(&mut self) -> Lent<'_> {
        let (bytes, cells) = (self.frame.len() - BEHIND, self.record.len() - BEHIND);
        Lent { frame: &mut self.frame[..bytes], record: &mut self.record[..cells] }
    }

    /// The first so many bytes of the frame.
    pub fn frame(&self, bytes: usize) -> &[u8] {
        &self.frame[..bytes]
    }

    /// The whole buffers, and what stands behind them.
    pub fn difference(&self, expected: &Buffers) -> Difference {
        if self == expected {
            return None;
        }
        named(&self.frame, &expected.frame, |at| format!("frame buffer [{at}]"))
            .or_else(|| named(&self.record, &expected.record, |at| format!("record[{at}]")))
    }
}

/// What a call gave: its number, and two counts, of which it writes those it has.
#[derive(Clone, Copy, Debug, PartialEq, Eq)]
pub struct Gave {
    /// The number.
    pub answer: u8,
    /// Bytes written, rows newly acknowledged, or rows recorded and bytes written.
    pub counts: [usize; 2],
}

/// A device here, which in the library has N sequence numbers.
pub trait Device<const N: usize>: Clone + PartialEq {
    /// What it is called.
    const NAME: &str;

    /// Opens it.
    fn opened(limits: Limits) -> (Result<(), Refusal>, Self);

    /// As C keeps it.
    fn kept(&self) -> Kept<N>;

    /// The device that C keeps so.
    fn of(kept: &Kept<N>) -> Self;

    /// Question 4.
    fn is_sound(&self) -> bool;

    /// A sound one with zeros in place of what is free.
    fn without_free(&self) -> Self;

    /// A call here.
    fn here(&mut self, call: &Call, lent: Lent) -> Gave;

    /// A call in the library. The counts that it does not write stay.
    fn there(library: &dyn DeviceLibrary, kept: &mut Kept<N>, call: &Call, lent: Lent) -> Gave;

    /// Opens it in the library.
    fn open_there(library: &dyn DeviceLibrary, kept: &mut Kept<N>, asked: [u32; 5]) -> u8;
}

/// A call that gives one count.
fn one(done: Result<usize, Refusal>) -> Gave {
    Gave { answer: number(&done), counts: [done.unwrap_or(0), NO_COUNT] }
}

/// A call that gives none.
fn none(done: Result<(), Refusal>) -> Gave {
    Gave { answer: number(&done), counts: [NO_COUNT; 2] }
}

/// The ticks of a call. Of more than 65,535 no timer is left, as of 65,535.
fn ticks(d: u32) -> u16 {
    d.min(65_535) as u16
}

impl Device<2> for MatDevice {
    const NAME: &str = "mat";

    fn opened(limits: Limits) -> (Result<(), Refusal>, MatDevice) {
        MatDevice::open(limits)
    }

    fn kept(&self) -> Kept<2> {
        Kept::from(self)
    }

    fn of(kept: &Kept<2>) -> MatDevice {
        MatDevice::from(kept)
    }

    fn is_sound(&self) -> bool {
        self.sound()
    }

    fn without_free(&self) -> MatDevice {
        let mut device = self.clone();
        mat_without_free(&self.limits, &mut device.mat);
        device
    }

    fn here(&mut self, call: &Call, lent: Lent) -> Gave {
        match call {
            Call::Send(supply) => one(self.send(supply, lent.frame)),
            Call::Resend(k) => one(self.resend(*k as usize, lent.frame)),
            Call::Receive(bytes) => one(self.receive(bytes)),
            Call::Tick(d) => none(self.tick(ticks(*d))),
            Call::Reply => panic!("a mat has no reply"),
        }
    }

    fn there(library: &dyn DeviceLibrary, kept: &mut Kept<2>, call: &Call, lent: Lent) -> Gave {
        let mut counts = [NO_COUNT; 2];
        let answer = match call {
            Call::Send(supply) => library.mat_send(kept, supply, lent.frame, &mut counts[0]),
            Call::Resend(k) => library.mat_resend(kept, *k, lent.frame, &mut counts[0]),
            Call::Receive(bytes) => library.mat_receive(kept, bytes, &mut counts[0]),
            Call::Tick(d) => library.mat_tick(kept, *d),
            Call::Reply => panic!("a mat has no reply"),
        };
        Gave { answer, counts }
    }

    fn open_there(library: &dyn DeviceLibrary, kept: &mut Kept<2>, asked: [u32; 5]) -> u8 {
        library.mat_open(kept, asked)
    }
}

impl Device<1> for PadDevice {
    const NAME: &str = "pad";

    fn opened(limits: Limits) -> (Result<(), Refusal>, PadDevice) {
        PadDevice::open(limits)
    }

    fn kept(&self) -> Kept<1> {
        Kept::from(self)
    }

    fn of(kept: &Kept<1>) -> PadDevice {
        PadDevice::from(kept)
    }

    fn is_sound(&self) -> bool {
        self.sound()
    }

    fn without_free(&self) -> PadDevice {
        let mut device = self.clone();
        pad_without_free(&self.limits, &mut device.pad);
        device
    }

    fn here(&mut self, call: &Call, lent: Lent) -> Gave {
        match call {
            Call::Receive(bytes) => one(self.receive(bytes, lent.frame).map(|received| match received {
                Received::Held => 0,
                Received::Old(bytes) => bytes,
            })),
            Call::Reply => {
                let done = self.reply(lent.record, lent.frame);
                let (rows, bytes) = done.unwrap_or((0, 0));
                Gave { answer: number(&done), counts: [rows, bytes] }
            }
            Call::Tick(d) => none(self.tick(ticks(*d))),
            Call::Send(_) | Call::Resend(_) => panic!("a pad sends no rows"),
        }
    }

    fn there(library: &dyn DeviceLibrary, kept: &mut Kept<1>, call: &Call, lent: Lent) -> Gave {
        let mut counts = [NO_COUNT; 2];
        let [rows, bytes] = &mut counts;
        let answer = match call {
            Call::Receive(frame) => library.pad_receive(kept, frame, lent.frame, rows),
            Call::Reply => library.pad_reply(kept, lent.record, lent.frame, rows, bytes),
            Call::Tick(d) => library.pad_tick(kept, *d),
            Call::Send(_) | Call::Resend(_) => panic!("a pad sends no rows"),
        };
        Gave { answer, counts }
    }

    fn open_there(library: &dyn DeviceLibrary, kept: &mut Kept<1>, asked: [u32; 5]) -> u8 {
        library.pad_open(kept, asked)
    }
}

/// A device as the library's caller keeps it, and what stands behind it.
#[derive(Clone, PartialEq)]
#[repr(C)]
struct Fenced<const N: usize> {
    kept: Kept<N>,
    behind: [u16; BEHIND],
}

/// A device of the library and the one here after some calls.
#[derive(Clone)]
pub struct Both<D, const N: usize> {
    fenced: Fenced<N>,
    /// The one here.
    pub here: D,
}

impl<D: Device<N>, const N: usize> Both<D, N> {
    /// A device that a caller made up.
    pub fn made_up(kept: Kept<N>) -> Both<D, N> {
        Both { here: D::of(&kept), fenced: Fenced { kept, behind: [BLANK; BEHIND] } }
    }

    /// Both opened, the answer here, and what differs then. A refused opening gives zeros.
    pub fn open(library: &dyn DeviceLibrary, limits: Limits) -> (Both<D, N>, u8, Difference) {
        let mut both = Both::made_up(Kept::filled(BLANK));
        let answer = D::open_there(library, &mut both.fenced.kept, asked(limits));
        let (opened, here) = D::opened(limits);
        both.here = here;
        let found = different(answer, number(&opened), || format!("{} opened with {limits:?}", D::NAME))
            .or_else(|| members(&both.fenced.kept, &both.here.kept()))
            .or_else(|| both.behind());
        (both, number(&opened), found)
    }

    /// A call on both: what the one here gave, and what differs but for the buffers. A refused one changes nothing.
    pub fn call(&mut self, library: &dyn DeviceLibrary, call: &Call, there: Lent, here: Lent) -> (Gave, Difference) {
        let before = self.fenced.clone();
        let got = D::there(library, &mut self.fenced.kept, call, there);
        let gave = self.here.here(call, here);
        let found = different(got.answer, gave.answer, || "answer".into())
            .or_else(|| different(got.counts, gave.counts, || "counts".into()))
            .or_else(|| match gave.answer {
                0 => self.difference(),
                _ if self.fenced == before => None,
                _ => members(&self.fenced.kept, &before.kept).or_else(|| self.behind()),
            });
        (gave, found)
    }

    /// The library's device.
    pub fn kept(&self) -> &Kept<N> {
        &self.fenced.kept
    }

    fn behind(&self) -> Difference {
        different(self.fenced.behind, [BLANK; BEHIND], || format!("numbers behind the {}", D::NAME))
    }

    /// Both devices after a call that was done, but for what is free. The single numbers come first, as they say what is
    /// free.
    fn difference(&self) -> Difference {
        let kept = &self.fenced.kept;
        let there = D::of(kept);
        let numbers = || if self.single() { None } else { members(kept, &self.here.kept()) };
        numbers().or_else(|| {
            let (p, e) = (there.without_free(), self.here.without_free());
            let marks = || kept.mark.iter().position(|mark| *mark > 1);
            members_of(&p, &e)
                .or_else(|| marks().map(|at| format!("mark[{at}]: library {}, expected 0 or 1", kept.mark[at])))
                .or_else(|| (!there.is_sound()).then(|| format!("the library's {} is not sound", D::NAME)))
                .or_else(|| self.behind())
        })
    }

    /// Whether limits and sequence numbers are the same.
    fn single(&self) -> bool {
        let (kept, here) = (&self.fenced.kept, self.here.kept());
        (kept.limits, kept.numbers) == (here.limits, here.numbers)
    }
}

/// The numbers in which two kept devices differ.
pub(crate) fn members<const N: usize>(library: &Kept<N>, expected: &Kept<N>) -> Difference {
    if library == expected {
        return None;
    }
    named(&library.all(), &expected.all(), Kept::<N>::name)
}

/// The numbers in which two devices differ.
pub(crate) fn members_of<D: Device<N>, const N: usize>(library: &D, expected: &D) -> Difference {
    if library == expected {
        return None;
    }
    members(&library.kept(), &expected.kept())
}
