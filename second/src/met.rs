//! What a comparison met, above all on made-up links, so that one that leaves something out is found out.

use crate::built::{Counts, Link};
use crate::compare::{rows, Case};
use crate::library::{count_numbers, COUNT_NAMES};
use crate::limits::TORN_CELL;
use crate::matlink::{without_free, Matlink};
use crate::shrink::flat;
use std::fmt;

/// From so many calls or events on, everything that can be met must have been.
pub const ENOUGH: u64 = 50_000;

/// The answers that a call for one event of each kind can give, beside 4 and 6. Kind 0 stands for those that there are not.
pub const REACHABLE: [&[u8]; 9] = [
    &[8],
    &[0, 9, 10, 11, 12, 13],
    &[0, 13, 14, 15, 16],
    &[0, 17, 18],
    &[0, 9, 18, 20, 21],
    &[0, 17, 19],
    &[0, 17],
    &[0, 17],
    &[0, 9],
];

/// The answers that a run can give.
pub const RUN_REACHABLE: [u8; 5] = [0, 4, 5, 6, 7];

/// Limits at and beyond their edges: the name, and whether a link has it.
type Edge = (&'static str, fn(&Matlink) -> bool);

/// Whether the resend wait is the three times' sum less so many, and above 0 with times that question 2 lets pass, so that
/// question 3 alone decides.
fn wait_below_sum(link: &Matlink, less: u16) -> bool {
    let times = [link.data_life, link.reply_life, link.reply_wait];
    let good = times.iter().all(|time| (1..=250).contains(time));
    good && link.resend_wait > 0 && link.resend_wait + less == times.iter().sum::<u16>()
}

const EDGES: [Edge; 10] = [
    ("window 0", |link| link.window == 0),
    ("window 33", |link| link.window == 33),
    ("reply wait 0", |link| link.reply_wait == 0),
    ("reply wait 251", |link| link.reply_wait == 251),
    ("resend wait 0", |link| link.resend_wait == 0),
    ("resend wait 1000", |link| link.resend_wait == 1000),
    ("resend wait 1001", |link| link.resend_wait == 1001),
    ("a resend timer above 751", |link| link.window > 0 && link.mat_timer[0] > 751),
    ("resend wait of the sum less 2", |link| wait_below_sum(link, 2)),
    ("resend wait of the sum less 3", |link| wait_below_sum(link, 3)),
];

/// Whether one of the cells is torn.
pub fn torn(cells: &[u16]) -> bool {
    cells.contains(&TORN_CELL)
}

/// Rows of which question 4 asks the cells: the name, and whether a link whose free cells are 0 has a torn one there.
type TornRow = (&'static str, fn(&Link) -> bool);

const TORN_ROWS: [TornRow; 3] = [
    ("an outstanding row", |link| torn(link.mat.rows.as_flattened())),
    ("a held row", |link| torn(link.pad.rows.as_flattened())),
    ("a data message", |link| link.data.all().iter().any(|message| torn(&message.row))),
];

/// Rows, frames, pages or bodies that were accepted.
#[derive(Clone, Copy, Debug, Default, PartialEq, Eq)]
pub struct Accepted {
    /// All of them.
    pub all: u64,
    /// Those with a torn cell.
    pub torn: u64,
}

impl Accepted {
    /// One more, with these cells.
    pub fn add(&mut self, cells: &[u16]) {
        self.all += 1;
        self.torn += u64::from(torn(cells));
    }

    /// Both together.
    pub fn and(self, other: Accepted) -> Accepted {
        Accepted { all: self.all + other.all, torn: self.torn + other.torn }
    }

    /// Whether a torn cell was accepted, where there were enough to be met.
    pub fn all_there(&self, what: &str, enough: bool) -> Result<(), String> {
        if self.torn == 0 && enough {
            return Err(format!("{what}: none accepted with a torn cell"));
        }
        Ok(())
    }
}

impl fmt::Display for Accepted {
    fn fmt(&self, out: &mut fmt::Formatter) -> fmt::Result {
        write!(out, "{}, {} of these with a torn cell", self.all, self.torn)
    }
}

/// Random lists that were compared.
#[derive(Clone, Copy, Debug, Default, PartialEq, Eq)]
pub struct Lists {
    lists: u64,
    calls: u64,
    /// The events in them.
    pub events: u64,
    /// The rows sent in them.
    sent: Accepted,
    /// Those with a resend wait of 0.
    wait_of_0: u64,
    /// Their counts, added up.
    counts: Counts,
}

impl Lists {
    /// One more, with its counts.
    pub fn add(&mut self, case: &Case, counts: Counts) {
        self.lists += 1;
        self.calls += case.calls.len() as u64;
        self.events += flat(&case.calls).len() as u64;
        rows(&case.supply)[..counts.sent].iter().for_each(|row| self.sent.add(row));
        self.wait_of_0 += u64::from(case.limits.resend_wait == 0);
        self.counts.add(counts);
    }

    /// Both together.
    pub fn and(self, other: Lists) -> Lists {
        let mut counts = self.counts;
        counts.add(other.counts);
        Lists {
            lists: self.lists + other.lists,
            calls: self.calls + other.calls,
            events: self.events + other.events,
            sent: self.sent.and(other.sent),
            wait_of_0: self.wait_of_0 + other.wait_of_0,
            counts,
        }
    }

    /// Whether a resend wait was 0, a torn cell was sent and each count rose, where there were events enough.
    pub fn all_there(&self) -> Result<(), String> {
        let enough = self.events >= ENOUGH;
        if self.wait_of_0 == 0 && enough {
            return Err("lists: none with resend wait 0".into());
        }
        let missing = COUNT_NAMES.iter().zip(count_numbers(self.counts)).find(|(_, count)| *count == 0 && enough);
        missing.map_or(Ok(()), |(name, _)| Err(format!("lists: no {name}")))?;
        self.sent.all_there("lists", enough)
    }
}

impl fmt::Display for Lists {
    fn fmt(&self, out: &mut fmt::Formatter) -> fmt::Result {
        let Lists { lists, calls, events, sent, wait_of_0, counts } = self;
        write!(out, "{lists} random lists in {calls} calls and {lists} rides, {events} events; rows sent {sent}; ")?;
        let counts = COUNT_NAMES.iter().zip(count_numbers(*counts)).map(|(name, count)| format!("{name}: {count}"));
        write!(out, "{wait_of_0} lists with resend wait 0\n  counts  {}", counts.collect::<Vec<_>>().join(", "))
    }
}

/// How often each answer came.
pub(crate) type Answers = [u64; 32];

/// How often each kind had each answer, a run had each, how many links had each edge, and how many sound ones had torn cells.
#[derive(Clone, Default)]
pub struct Met {
    links: u64,
    runs: Answers,
    answers: [Answers; REACHABLE.len()],
    edges: [u64; EDGES.len()],
    torn: [u64; TORN_ROWS.len()],
}

impl Met {
    /// A call for one event.
    pub fn answer(&mut self, kind: u8, answer: u8) {
        let kind = if (1..=8).contains(&kind) { kind } else { 0 };
        self.answers[usize::from(kind)][usize::from(answer.min(31))] += 1;
    }

    /// A link that calls were made on.
    pub fn link(&mut self, link: &Matlink) {
        self.links += 1;
        for (count, (_, has)) in self.edges.iter_mut().zip(EDGES) {
            *count += u64::from(has(link));
        }
        let link = Link::from(link);
        if link.sound() {
            let link = without_free(&link);
            for (count, (_, has)) in self.torn.iter_mut().zip(TORN_ROWS) {
                *count += u64::from(has(&link));
            }
        }
    }

    /// A run.
    pub fn run(&mut self, answer: u8) {
        self.runs[usize::from(answer.min(31))] += 1;
    }

    /// Both together.
    pub fn and(mut self, other: Met) -> Met {
        self.links += other.links;
        add(&mut self.runs, &other.runs);
        add(self.answers.as_flattened_mut(), other.answers.as_flattened());
        add(&mut self.edges, &other.edges);
        add(&mut self.torn, &other.torn);
        self
    }

    fn calls(&self) -> u64 {
        self.answers.as_flattened().iter().sum()
    }

    /// Whether everything was met, and no answer that there cannot be.
    pub fn all_there(&self) -> Result<(), String> {
        let enough = self.calls() >= ENOUGH;
        for (kind, (answers, reachable)) in self.answers.iter().zip(REACHABLE).enumerate() {
            let reachable = [&[4, 6], reachable].concat();
            reached(answers, &reachable, enough).map_err(|text| format!("made-up links: kind {kind} {text}"))?;
        }
        reached(&self.runs, &RUN_REACHABLE, enough).map_err(|text| format!("made-up links: a run {text}"))?;
        let missing = EDGES.iter().zip(self.edges).find(|(_, times)| *times == 0 && enough);
        missing.map_or(Ok(()), |((name, _), _)| Err(format!("made-up links: none with {name}")))?;
        let missing = TORN_ROWS.iter().zip(self.torn).find(|(_, times)| *times == 0 && enough);
        missing.map_or(Ok(()), |((name, _), _)| Err(format!("made-up links: none sound with a torn cell in {name}")))
    }
}

fn add(sum: &mut [u64], more: &[u64]) {
    for (mine, more) in sum.iter_mut().zip(more) {
        *mine += more;
    }
}

/// Whether the answers that came are those that can come.
pub(crate) fn reached(answers: &Answers, reachable: &[u8], enough: bool) -> Result<(), String> {
    for (answer, times) in (0u8..).zip(answers) {
        let can = reachable.contains(&answer);
        if *times > 0 && !can {
            return Err(format!("answers {answer}"));
        }
        if *times == 0 && can && enough {
            return Err(format!("never answered {answer}"));
        }
    }
    Ok(())
}

/// The answers that came, each with how often.
pub(crate) fn counts(answers: &Answers) -> String {
    let came = |(answer, times): (usize, &u64)| (*times > 0).then(|| format!("{answer}: {times}"));
    answers.iter().enumerate().filter_map(came).collect::<Vec<_>>().join(", ")
}

impl fmt::Display for Met {
    fn fmt(&self, out: &mut fmt::Formatter) -> fmt::Result {
        let runs: u64 = self.runs.iter().sum();
        let all = std::array::from_fn(|answer| self.answers.iter().map(|kind| kind[answer]).sum());
        write!(out, "{} made-up links, {} calls for one event and {runs} runs on them", self.links, self.calls())?;
        write!(out, "\n  answers to one event  {}\n  answers of a run  {}", counts(&all), counts(&self.runs))?;
        let edges: Vec<String> = EDGES.iter().zip(self.edges).map(|((name, _), times)| format!("{name}: {times}")).collect();
        write!(out, "\n  links with  {}", edges.join(", "))?;
        let torn: Vec<String> =
            TORN_ROWS.iter().zip(self.torn).map(|((name, _), times)| format!("{name}: {times}")).collect();
        write!(out, "\n  sound links with a torn cell in  {}", torn.join(", "))
    }
}
