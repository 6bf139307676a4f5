//! The built ends compared with the unbounded ends on one list, as the paper says under "Compared with the unbounded ends".

use crate::audit::Audit;
use crate::built::{Counts, Link};
use crate::limits::{number, Limits, Refusal, Row, CELLS};
use crate::unbounded::Ends;

/// One call of a list.
#[derive(Clone, Debug, PartialEq, Eq)]
pub enum Call {
    /// A run of events with an answer buffer of this length; it may be refused by 5, 6 or 7 and then adds no event.
    Run {
        /// Kind and argument of each event.
        events: Vec<u8>,
        /// Length of the answer buffer.
        answers: usize,
    },
    /// A call for one event.
    One {
        /// The event's kind.
        kind: u8,
        /// Its argument.
        argument: u8,
    },
}

/// What the built ends gave for a call.
#[derive(Clone, Debug)]
pub struct Called {
    /// The counts, or why it was refused.
    pub done: Result<Counts, Refusal>,
    /// The answers to the events of a run.
    pub answers: Vec<u8>,
}

/// A list with all that both ends are handed.
#[derive(Clone, Debug, PartialEq, Eq)]
pub struct Case {
    /// The limits as asked for; the opening must answer 0.
    pub limits: Limits,
    /// The supply's cells.
    pub supply: Vec<u16>,
    /// The record buffer as it is at first.
    pub record: Vec<u16>,
    /// The calls, in order.
    pub calls: Vec<Call>,
}

/// A call for each event.
pub fn ones(events: &[(u8, u8)]) -> Vec<Call> {
    events.iter().map(|&(kind, argument)| Call::One { kind, argument }).collect()
}

/// Kind and argument of each event, as a run takes them.
pub fn event_bytes(events: &[(u8, u8)]) -> Vec<u8> {
    events.iter().flat_map(|&(kind, argument)| [kind, argument]).collect()
}

/// How the built ends take one event, so that a test can put a wrong one in its place.
pub type Step = fn(&mut Link, u8, u8, &[u16], &mut [u16]) -> Result<Counts, Refusal>;

/// What a record holds before a case: no legal cell, so that a written row shows.
pub const UNWRITTEN: u16 = 0x8888;

/// What the answer buffer holds before a run: no answer has this number.
const UNTOUCHED: u8 = 0xAA;

/// The supply as rows. Cells behind the last whole row are left out: question 6 then refuses every call.
pub fn rows(supply: &[u16]) -> Vec<Row> {
    supply.as_chunks().0.to_vec()
}

/// The first difference between the ends on this list, in words. After each call everything is compared: the calls so far are
/// a list too.
pub fn compare(case: &Case) -> Option<String> {
    compare_with(case, Link::step)
}

/// The same with another call for one event.
pub fn compare_with(case: &Case, step: Step) -> Option<String> {
    let (opened, link) = Link::open(case.limits);
    if let Err(refusal) = opened {
        return Some(format!("the opening answers {}", refusal as u8));
    }
    let ends = Ends::fresh(link.limits);
    let (supply, record) = (rows(&case.supply), case.record.clone());
    let mut audit = Audit::of(&link);
    let mut both = Both { case, supply, link, ends, record, total: Counts::default() };
    case.calls.iter().enumerate().find_map(|(at, call)| {
        let (called, found) = match call {
            Call::One { kind, argument } => both.one(step, *kind, *argument),
            Call::Run { events, answers } => both.run(events, *answers),
        };
        let found = found
            .or_else(|| state_difference(&both.link, &both.ends, both.total))
            .or_else(|| record_difference(&both.record, &case.record, &both.supply, &both.ends))
            .or_else(|| audit.call(call, &called, &both.link));
        found.map(|text| format!("after call {}: {text}", at + 1))
    })
}

/// Both ends after some calls of a case.
struct Both<'a> {
    case: &'a Case,
    supply: Vec<Row>,
    link: Link,
    ends: Ends,
    record: Vec<u16>,
    total: Counts,
}

impl Both<'_> {
    /// A call for one event. Question 6 is for the built ends alone.
    fn one(&mut self, step: Step, kind: u8, argument: u8) -> (Called, Option<String>) {
        let rest = &self.case.supply[self.total.sent * CELLS..];
        let space = &mut self.record[self.total.recorded * CELLS..];
        let done = step(&mut self.link, kind, argument, rest, space);
        self.total.add(done.unwrap_or_default());
        let expected = if rest.len().is_multiple_of(CELLS) {
            number(&self.ends.event(kind, argument, &self.supply, self.case.record.len()))
        } else {
            Refusal::SupplyLength as u8
        };
        let found = different(number(&done), expected, || format!("answer to {kind} {argument}"));
        (Called { done, answers: vec![] }, found)
    }

    /// A run. Questions 5 to 7 are for the built ends alone.
    fn run(&mut self, events: &[u8], answers: usize) -> (Called, Option<String>) {
        let rest = &self.case.supply[self.total.sent * CELLS..];
        let space = &mut self.record[self.total.recorded * CELLS..];
        let (mut buffer, mut expected) = (vec![UNTOUCHED; answers], vec![UNTOUCHED; answers]);
        let before = self.link.clone();
        let done = self.link.run(events, rest, space, &mut buffer);
        self.total.add(done.unwrap_or_default());
        let refusal = if !events.len().is_multiple_of(2) {
            5
        } else if !rest.len().is_multiple_of(CELLS) {
            6
        } else if answers < events.len() / 2 {
            7
        } else {
            0
        };
        if refusal == 0 {
            for (event, answer) in events.chunks_exact(2).zip(&mut expected) {
                *answer = number(&self.ends.event(event[0], event[1], &self.supply, self.case.record.len()));
            }
        }
        let found = different(number(&done), refusal, || "number of the run".into())
            .or_else(|| different(&buffer, &expected, || "answer buffer".into()))
            .or_else(|| {
                let as_given = refusal == 0 || self.link == before;
                different(as_given, true, || "link of a refused run is as given".into())
            });
        (Called { done, answers: buffer }, found)
    }
}

/// A difference, in words, where there is one.
pub fn different<T: PartialEq + std::fmt::Debug>(built: T, expected: T, what: impl Fn() -> String) -> Option<String> {
    (built != expected).then(|| format!("{}: built {built:?}, expected {expected:?}", what()))
}

/// The first difference between the two states, given the counts added up over the list.
pub fn state_difference(link: &Link, ends: &Ends, total: Counts) -> Option<String> {
    let w = link.limits.window;
    let ring = |number: usize| (number % (2 * w)) as u8;
    let Counts { sent, acknowledged, recorded, .. } = total;
    let (rows, expected) = ([sent, acknowledged, recorded], [ends.next, ends.oldest, ends.wanted]);
    different(link.limits, ends.limits, || "limits".into())
        .or_else(|| different(rows, expected, || "counts of rows sent, acknowledged and recorded".into()))
        .or_else(|| different(link.mat.oldest, ring(ends.oldest), || "oldest".into()))
        .or_else(|| different(link.mat.next, ring(ends.next), || "next".into()))
        .or_else(|| different(link.pad.wanted, ring(ends.wanted), || "wanted".into()))
        .or_else(|| different(link.data.count, ends.data.len(), || "count of the data table".into()))
        .or_else(|| different(link.replies.count, ends.replies.len(), || "count of the reply table".into()))
        .or_else(|| {
            link.data.all().iter().zip(&ends.data).enumerate().find_map(|(p, (m, t))| {
                let (built, expected) = ((m.number, m.life, m.row), (ring(t.number), t.life, t.row));
                different(built, expected, || format!("data message {p} (row {})", t.number))
            })
        })
        .or_else(|| {
            link.replies.all().iter().zip(&ends.replies).enumerate().find_map(|(p, (m, t))| {
                let (built, expected) = ((m.first, m.last, m.life), (ring(t.first), ring(t.last), t.life));
                different(built, expected, || format!("reply {p} (rows {} to {})", t.first, t.last))
            })
        })
        .or_else(|| {
            (ends.oldest..ends.next).find_map(|m| {
                let (built, expected) = ((link.mat.marked[m % w], link.mat.timers[m % w]), &ends.mat[m]);
                different(built, (expected.marked, expected.timer), || format!("mark and resend timer of row {m}"))
            })
        })
        .or_else(|| {
            (ends.wanted..ends.wanted + w).find_map(|m| {
                let pad = &link.pad;
                let built = pad.held[m % w].then(|| (pad.timers[m % w], pad.rows[m % w]));
                let expected = ends.pad.get(m).filter(|entry| entry.held).map(|entry| (entry.timer, entry.row));
                different(built, expected, || format!("held row {m} with reply timer and cells"))
            })
        })
}

/// The whole record: rows 0 to wanted - 1 of the supply, then the buffer's first contents.
pub fn record_difference(record: &[u16], at_first: &[u16], supply: &[Row], ends: &Ends) -> Option<String> {
    let recorded = &supply[..ends.wanted];
    let (written, rest) = record.split_at(ends.wanted * CELLS);
    different(ends.record.as_slice(), recorded, || "record of the unbounded ends".into())
        .or_else(|| different(written, recorded.as_flattened(), || "recorded rows".into()))
        .or_else(|| different(rest, &at_first[written.len()..], || "record behind the recorded rows".into()))
}
