//! Lists of events on two devices with nothing but frames between them, and on the link: the proved ones of both, and those
//! here.

use crate::built::{Account, Counts};
use crate::compare::{different, ones, Call as Event, Case};
use crate::device_calls::{members_of, Both, Buffers, Call, Gave, Lent};
use crate::device_library::DeviceLibrary;
use crate::device_noise::{noise, Noise};
use crate::devices::{MatDevice, PadDevice};
use crate::differ::{Difference, Pair};
use crate::frames::{read, Frame, DATA_LENGTH, REPLY_LENGTH};
use crate::library::Library;
use crate::limits::{number, Limits, CELLS};
use crate::members::named;
use crate::random::Random;
use crate::ride_text::words;
use crate::shrink::flat;

/// A library with the link and the devices.
pub trait Libraries: Library + DeviceLibrary {}

impl<T: Library + DeviceLibrary> Libraries for T {}

/// A frame in the air. The proved device and the one here wrote the same.
#[derive(Clone, Debug, PartialEq, Eq)]
pub(crate) struct Flying {
    pub(crate) bytes: Vec<u8>,
    life: u16,
}

/// The frames in the air in one direction, oldest first, and what became of them.
#[derive(Default)]
pub(crate) struct Air {
    pub(crate) frames: Vec<Flying>,
    account: Account,
}

impl Air {
    /// A frame that was written is put at the end.
    fn put(&mut self, bytes: &[u8], life: u16) {
        self.frames.push(Flying { bytes: bytes.to_vec(), life });
        self.account.put += 1;
    }

    fn arrived(&mut self, p: usize) {
        self.frames.remove(p);
        self.account.arrived += 1;
    }

    fn lost(&mut self, p: usize) {
        self.frames.remove(p);
        self.account.lost += 1;
    }

    /// Lives fall, and frames with none left go.
    fn age(&mut self, d: u16) {
        let before = self.frames.len();
        self.frames.retain(|frame| frame.life > d);
        self.frames.iter_mut().for_each(|frame| frame.life -= d);
        self.account.dropped += before - self.frames.len();
    }
}

/// What was met on lists.
#[derive(Clone, Copy, Debug, Default, PartialEq, Eq)]
pub struct Met {
    /// The events.
    pub events: u64,
    /// Those that were done.
    pub done: u64,
    /// Rows that were sent, acknowledged and recorded.
    pub rows: [u64; 3],
    /// Old rows that were answered.
    pub old: u64,
    /// Frames that were compared with the message at their place.
    pub frames: u64,
    /// Calls that brought noise: refused bytes, and buffers too short.
    pub noise: Noise,
}

/// Two devices with frames between them, and the link.
pub(crate) struct World<'a> {
    library: &'a dyn Libraries,
    supply: &'a [u16],
    link: Pair,
    pub(crate) mat: Both<MatDevice, 2>,
    pub(crate) pad: Both<PadDevice, 1>,
    /// Data frames in the air.
    pub(crate) data: Air,
    /// Reply frames in the air.
    pub(crate) replies: Air,
    /// What the proved pad and the one here recorded.
    record: [Vec<u16>; 2],
    /// Rows sent, acknowledged and recorded by the devices.
    rows: [usize; 3],
    /// What the link counted.
    counts: Counts,
    pub(crate) met: Met,
}

/// The answer to an event, where the devices have such a call, and what differs.
type Answered = Result<u8, String>;

/// What a call at a device found, with its name.
fn at<T>(name: &str, found: Difference, gave: T) -> Result<T, String> {
    found.map_or(Ok(gave), |text| Err(format!("{name}: {text}")))
}

impl<'a> World<'a> {
    /// All opened, or what differs then. The limits are accepted.
    fn open(library: &'a dyn Libraries, case: &'a Case) -> Result<World<'a>, String> {
        let (link, _, of_link) = Pair::open(library, case.limits, &case.record);
        let (mat, _, of_mat) = Both::open(library, case.limits);
        let (pad, _, of_pad) = Both::open(library, case.limits);
        of_link.or(of_mat).or(of_pad).map_or(Ok(()), Err)?;
        let record = [case.record.clone(), case.record.clone()];
        let met = Met::default();
        let (supply, data, replies, counts) = (&case.supply[..], Air::default(), Air::default(), Counts::default());
        Ok(World { library, supply, link, mat, pad, data, replies, record, rows: [0; 3], counts, met })
    }

    /// The supply behind the rows sent.
    pub(crate) fn rest(&self) -> &'a [u16] {
        &self.supply[self.rows[0] * CELLS..]
    }

    /// A call of the mat.
    pub(crate) fn at_mat(&mut self, call: &Call, space: usize) -> Result<(Gave, Buffers), String> {
        let mut there = Buffers::blank(space, 0);
        let mut here = there.clone();
        let (gave, found) = self.mat.call(self.library, call, there.lend(), here.lend());
        at("mat", found.or_else(|| there.difference(&here)), (gave, there))
    }

    /// A call of the pad, with the record behind the rows recorded.
    pub(crate) fn at_pad(&mut self, call: &Call, space: usize) -> Result<(Gave, Buffers), String> {
        let mut there = Buffers::blank(space, 0);
        let mut here = there.clone();
        let cells = self.rows[2] * CELLS;
        let [proved, mine] = &mut self.record;
        let (of_there, of_here) = (there.lend(), here.lend());
        let of_there = Lent { frame: of_there.frame, record: &mut proved[cells..] };
        let of_here = Lent { frame: of_here.frame, record: &mut mine[cells..] };
        let (gave, found) = self.pad.call(self.library, call, of_there, of_here);
        at("pad", found.or_else(|| there.difference(&here)), (gave, there))
    }

    /// The event on the devices: a tick passes for both and for the air; an index past the end of a list is no call and 17.
    fn on_devices(&mut self, kind: u8, argument: u8) -> Answered {
        let p = usize::from(argument);
        let length = if matches!(kind, 3 | 6) { self.data.frames.len() } else { self.replies.frames.len() };
        match kind {
            1 | 4 if argument > 0 => Ok(9),
            1 => self.sent(&Call::Send(self.rest().into())),
            2 => self.sent(&Call::Resend(argument.into())),
            3 | 5 | 6 | 7 if p >= length => Ok(17),
            3 => self.data_arrives(p),
            4 => self.reply(),
            5 => self.reply_arrives(p),
            6 => {
                self.data.lost(p);
                Ok(0)
            }
            7 => {
                self.replies.lost(p);
                Ok(0)
            }
            8 => self.tick(argument),
            _ => Ok(8),
        }
    }

    /// A frame that the mat wrote is put at the end, with the data life.
    fn sent(&mut self, call: &Call) -> Answered {
        let (gave, buffers) = self.at_mat(call, DATA_LENGTH)?;
        if gave.answer == 0 {
            self.rows[0] += usize::from(matches!(call, Call::Send(_)));
            self.data.put(buffers.frame(gave.counts[0]), self.limits().data_life);
        }
        Ok(gave.answer)
    }

    /// A frame leaves the air where the pad takes it. The frame that answers an old row is put at the end, with the reply
    /// life.
    fn data_arrives(&mut self, p: usize) -> Answered {
        let bytes = self.data.frames[p].bytes.clone();
        let (gave, buffers) = self.at_pad(&Call::Receive(bytes.into()), REPLY_LENGTH)?;
        if gave.answer == 0 {
            self.data.arrived(p);
            self.replied(&buffers, gave.counts[0]);
            self.met.old += u64::from(gave.counts[0] > 0);
        }
        Ok(gave.answer)
    }

    /// So many bytes of a reply frame, none for none, are put in the air.
    fn replied(&mut self, buffers: &Buffers, length: usize) {
        if length > 0 {
            self.replies.put(buffers.frame(length), self.limits().reply_life);
        }
    }

    fn reply(&mut self) -> Answered {
        let (gave, buffers) = self.at_pad(&Call::Reply, REPLY_LENGTH)?;
        let [rows, length] = gave.counts;
        if gave.answer == 0 {
            self.rows[2] += rows;
            self.replied(&buffers, length);
        }
        Ok(gave.answer)
    }

    /// A frame leaves the air where the mat takes it.
    fn reply_arrives(&mut self, p: usize) -> Answered {
        let bytes = self.replies.frames[p].bytes.clone();
        let (gave, _) = self.at_mat(&Call::Receive(bytes.into()), 0)?;
        if gave.answer == 0 {
            self.replies.arrived(p);
            self.rows[1] += gave.counts[0];
        }
        Ok(gave.answer)
    }

    fn tick(&mut self, d: u8) -> Answered {
        let call = Call::Tick(d.into());
        let (mat, pad) = (self.at_mat(&call, 0)?.0.answer, self.at_pad(&call, 0)?.0.answer);
        at("tick", different(mat, pad, || "answers of mat and pad".into()), ())?;
        if mat == 0 {
            self.data.age(d.into());
            self.replies.age(d.into());
        }
        Ok(mat)
    }

    fn limits(&self) -> Limits {
        self.link.link.limits
    }

    /// A call for one event on all, and what differs after it.
    fn call(&mut self, call: &Event) -> Difference {
        let Event::One { kind, argument } = *call else { panic!("a list of single events") };
        self.event(kind, argument).map(|text| format!("`{}`: {text}", words(kind, argument)))
    }

    /// One event on all, and what differs after it.
    fn event(&mut self, kind: u8, argument: u8) -> Difference {
        let answer = match self.on_devices(kind, argument) {
            Ok(answer) => answer,
            Err(found) => return Some(found),
        };
        let (called, found) = self.link.call(self.library, &Event::One { kind, argument }, self.supply);
        let expected = number(&called.done);
        self.met.events += 1;
        self.met.done += u64::from(expected == 0);
        self.counts.add(called.done.unwrap_or_default());
        found
            .map(|text| format!("link: {text}"))
            .or_else(|| different(answer, expected, || "answer of the devices, expected that of the link".into()))
            // from fresh these never arise
            .or_else(|| [13, 18, 19].contains(&answer).then(|| format!("answer {answer}")))
            .or_else(|| self.states())
            .or_else(|| self.records())
            .or_else(|| self.air())
    }

    /// Mat, pad, limits and counts. The devices here are compared with the link here: each is as its proved one is.
    fn states(&self) -> Difference {
        let (link, counts) = (&self.link.link, &self.counts);
        let Counts { sent, acknowledged, recorded, .. } = *counts;
        let (mat, pad) = (&self.mat.here, &self.pad.here);
        let limits = [mat.limits, pad.limits];
        let (of_mat, of_pad) = (mat.mat == link.mat, pad.pad == link.pad);
        let mat = || members_of(mat, &MatDevice { limits: link.limits, mat: link.mat.clone() });
        let pad = || members_of(pad, &PadDevice { limits: link.limits, pad: link.pad.clone() });
        let accounts = [self.data.account, self.replies.account];
        different(self.rows, [sent, acknowledged, recorded], || "rows sent, acknowledged and recorded".into())
            .or_else(|| different(accounts, [counts.data, counts.replies], || "accounts of the air".into()))
            .or_else(|| different(limits, [link.limits; 2], || "limits of the devices".into()))
            .or_else(|| if of_mat { None } else { mat() })
            .or_else(|| if of_pad { None } else { pad() })
    }

    /// The whole records of the proved pad and of the one here beside the link's.
    fn records(&self) -> Difference {
        let of = |record: &Vec<u16>, what: &str| {
            let found =
                if *record == self.link.expected { None } else { named(record, &self.link.expected, |at| at.to_string()) };
            found.map(|text| format!("record of {what}, by cell\n{text}"))
        };
        of(&self.record[0], "the proved pad").or_else(|| of(&self.record[1], "the pad here"))
    }

    /// Every frame in the air reads as the message at its place in the link's table.
    fn air(&mut self) -> Difference {
        let (link, limits) = (&self.link.link, self.limits());
        self.met.frames += (self.data.frames.len() + self.replies.frames.len()) as u64;
        let [window, data_life, reply_life] = [limits.window as u8, limits.data_life as u8, limits.reply_life as u8];
        let data = link.data.all().iter().map(|m| {
            let (number, row) = (m.number, m.row);
            (m.life, Frame::Data { life: data_life, window, number, row })
        });
        let replies = link.replies.all().iter().map(|m| {
            let (first, last) = (m.first, m.last);
            (m.life, Frame::Reply { life: reply_life, window, first, last })
        });
        let (of_mat, of_pad) = (&self.data.frames, &self.replies.frames);
        in_the_air("data frame", of_mat, data).or_else(|| in_the_air("reply frame", of_pad, replies))
    }
}

/// The first frame whose life, or what it reads as, is not that of the message at its place.
fn in_the_air(what: &str, frames: &[Flying], expected: impl ExactSizeIterator<Item = (u16, Frame)>) -> Difference {
    let count = || different(frames.len(), expected.len(), || format!("count of {what}s in the air"));
    count().or_else(|| {
        frames.iter().zip(expected).enumerate().find_map(|(p, (frame, expected))| {
            let (life, message) = expected;
            different((frame.life, read(&frame.bytes)), (life, Ok(message)), || {
                format!("{what} {p}, its life and what it reads as")
            })
        })
    })
}

/// The first difference on a list.
pub(crate) struct Found {
    /// Behind how many events.
    pub(crate) behind: usize,
    /// Where it is noise that shows it: the numbers that the noise is drawn by.
    pub(crate) noise: Option<Random>,
    /// In words.
    pub(crate) text: String,
}

/// A list on all four, with noise before each event: what was met, or the first difference.
pub(crate) fn compare(library: &dyn Libraries, seed: u64, case: &Case) -> Result<Met, Found> {
    let failed = |behind, noise, text| Found { behind, noise, text };
    let mut world = World::open(library, case).map_err(|text| failed(0, None, text))?;
    let mut random = Random::new(!seed);
    for (behind, event) in case.calls.iter().enumerate() {
        let drawn = random.clone();
        if let Some(text) = noise(&mut world, &mut random) {
            return Err(failed(behind, Some(drawn), text));
        }
        if let Some(text) = world.call(event) {
            return Err(failed(behind + 1, None, text));
        }
    }
    world.met.rows = world.rows.map(|rows| rows as u64);
    Ok(world.met)
}

/// The same without noise, or with noise by these numbers behind the list alone. What is refused changes nothing, so a
/// difference needs no other noise.
pub(crate) fn alone(library: &dyn Libraries, case: &Case, last: Option<&Random>) -> Difference {
    let mut world = match World::open(library, case) {
        Ok(world) => world,
        Err(text) => return Some(text),
    };
    let found = case.calls.iter().enumerate().find_map(|(at, event)| {
        let found = world.call(event);
        found.map(|text| format!("after event {}: {text}", at + 1))
    });
    found.or_else(|| {
        let found = noise(&mut world, &mut last?.clone());
        found.map(|text| format!("after the list, noise: {text}"))
    })
}

/// The list of a case as single events, with a supply of whole rows.
pub(crate) fn as_events(mut case: Case) -> Case {
    case.supply.truncate(case.supply.len() / CELLS * CELLS);
    case.calls = ones(&flat(&case.calls));
    case
}
