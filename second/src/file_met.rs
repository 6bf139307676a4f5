//! What was met in comparing files, so that a comparison that leaves something out is found out.

use crate::answers::Answers;
use crate::cell_bytes::cells;
use crate::file::{saved_once, Entry, MOST_ENTRIES};
use crate::met::Accepted;
use std::fmt;

/// From so many lookups on, everything must have been met.
const ENOUGH: u64 = 1_000;

/// A lookup that was compared.
#[derive(Clone, Copy, Debug)]
pub struct Looked<'a> {
    /// The entries of the file, which may have been damaged since.
    pub entries: &'a [Entry],
    /// The horse.
    pub horse: u32,
    /// The leg.
    pub leg: u32,
    /// The answer.
    pub answer: u8,
    /// The body, empty where the lookup was refused.
    pub body: &'a [u8],
}

impl Looked<'_> {
    /// How many saves there are of these numbers.
    fn saves(&self, horse: u32, leg: u32) -> usize {
        self.entries.iter().filter(|entry| (u32::from(entry.horse), u32::from(entry.leg)) == (horse, leg)).count()
    }

    /// Whether the numbers, one of which is too great, are those of an entry by their low bits, and the answer is 35.
    fn wide(&self) -> bool {
        self.answer == 35 && self.saves(self.horse & 0xFFFF, self.leg & 0xFF) > 0
    }
}

/// A writing that was compared.
#[derive(Clone, Copy, Debug)]
pub struct Wrote<'a> {
    /// The entries.
    pub entries: &'a [Entry],
    /// The cells of their rows.
    pub cells: &'a [u16],
    /// The answer.
    pub answer: u8,
}

/// What must be met: the name, and whether a call is it.
type Special<F> = (&'static str, F);

/// Whether a lookup is so.
type OfLookup = fn(&Looked) -> bool;

const LOOKED: [Special<OfLookup>; 7] = [
    ("an empty body", |call| call.answer == 0 && call.body.is_empty()),
    ("a superseded save", |call| call.answer == 0 && call.saves(call.horse, call.leg) > 1),
    ("64 entries", |call| call.answer == 0 && call.entries.len() == MOST_ENTRIES),
    ("a horse that is there modulo 65,536", |call| call.horse > 0xFFFF && call.wide()),
    ("a leg that is there modulo 256", |call| call.leg > 0xFF && call.wide()),
    ("34 before 35", |call| call.answer == 34 && call.saves(call.horse, call.leg) == 0),
    ("33 before 34", |call| call.answer == 33 && !saved_once(call.entries)),
];

/// Whether a writing is so.
type OfWriting = fn(&Wrote) -> bool;

const WROTE: [Special<OfWriting>; 3] = [
    ("no entries", |call| call.answer == 0 && call.entries.is_empty()),
    ("64 entries", |call| call.answer == 0 && call.entries.len() == MOST_ENTRIES),
    ("33 before 34", |call| call.answer == 33 && !saved_once(call.entries)),
];

/// Counts those that a call is.
fn count<F>(times: &mut [u64], special: &[Special<F>], call: impl Fn(&F) -> bool) {
    for (times, (_, is)) in times.iter_mut().zip(special) {
        *times += u64::from(call(is));
    }
}

/// Whether each was met.
fn met<F>(what: &str, times: &[u64], special: &[Special<F>]) -> Result<(), String> {
    let missing = special.iter().zip(times).find(|(_, times)| **times == 0);
    missing.map_or(Ok(()), |((name, _), _)| Err(format!("files: no {what} with {name}")))
}

fn shown<F>(times: &[u64], special: &[Special<F>]) -> String {
    special.iter().zip(times).map(|((name, _), times)| format!("{name}: {times}")).collect::<Vec<_>>().join(", ")
}

/// The calls that were compared.
#[derive(Clone, Copy)]
pub struct Met {
    lookups: Answers<4>,
    looked: [u64; LOOKED.len()],
    current: Accepted,
    writings: Answers<3>,
    wrote: [u64; WROTE.len()],
    written: Accepted,
}

impl Default for Met {
    fn default() -> Met {
        Met {
            lookups: Answers::of([0, 33, 34, 35]),
            looked: [0; _],
            current: Accepted::default(),
            writings: Answers::of([0, 33, 34]),
            wrote: [0; _],
            written: Accepted::default(),
        }
    }
}

impl Met {
    /// One more lookup.
    pub fn looked(&mut self, call: &Looked) {
        self.lookups.add(call.answer);
        count(&mut self.looked, &LOOKED, |is| is(call));
        if call.answer == 0 {
            self.current.add(&cells(call.body).collect::<Vec<_>>());
        }
    }

    /// One more writing.
    pub fn wrote(&mut self, call: &Wrote) {
        self.writings.add(call.answer);
        count(&mut self.wrote, &WROTE, |is| is(call));
        if call.answer == 0 {
            self.written.add(call.cells);
        }
    }

    /// Whether every answer and all else came, in lookups enough.
    pub fn all_there(&self) -> Result<(), String> {
        if self.lookups.calls() < ENOUGH {
            return Ok(());
        }
        self.lookups.all_there("lookups in files")?;
        met("lookup", &self.looked, &LOOKED)?;
        self.current.all_there("bodies", true)?;
        self.writings.all_there("writings of files")?;
        met("writing", &self.wrote, &WROTE)?;
        self.written.all_there("files", true)
    }
}

impl fmt::Display for Met {
    fn fmt(&self, out: &mut fmt::Formatter) -> fmt::Result {
        let Met { lookups, looked, current, writings, wrote, written } = self;
        write!(out, "{} lookups; answers  {lookups}; bodies {current}", lookups.calls())?;
        write!(out, "\n    with  {}", shown(looked, &LOOKED))?;
        write!(out, "\n    {} writings; answers  {writings}; files {written}", writings.calls())?;
        write!(out, "\n    with  {}", shown(wrote, &WROTE))
    }
}
