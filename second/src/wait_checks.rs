//! The lists of `short_wait` through the proved library, on both sides of the edge of question 3.
//!
//! No call of the library leaves question 3 out, so there a wait that is too short must be refused. With the least wait, with 0
//! in its place and with the three waits above it the lists must go as they go here, whether the resend comes as soon as the
//! timer of row 0 is 0 or too early.

use crate::checks::{cut, limits_of};
use crate::compare::{event_bytes, ones, Call, Case, UNWRITTEN};
use crate::differ::{ride_difference, AuditedPair, Pair};
use crate::library::Library;
use crate::limits::{number, Limits, CELLS, LARGEST_WINDOW};
use crate::random::Random;
use crate::report::{Outcome, Replay};
use crate::short::{different_rows, Event};
use crate::short_wait::events;
use crate::threads::{items, Amount};
use std::fmt;

/// The resend waits: those that are too short, and from LEAST on those that pass.
const WAITS: [&str; 7] = ["shorter", "sum less 3", "sum less 2", "sum less 1", "sum", "sum plus 1", "0"];

/// The first one that passes.
const LEAST: usize = 2;

/// The last one, which stands for the least.
const ZERO: usize = WAITS.len() - 1;

/// How often everything must be met with each window. It has 32 times that are not random and whose sum is 4 or more.
const ENOUGH: u64 = 32;

/// Limits with this window, of which the resend wait is left open: all times from 1 to 3, one that is long, all that are long,
/// and so many random ones.
pub fn spread(window: usize, random: &mut Random, more: usize) -> Vec<Limits> {
    let mut times = vec![[250, 250, 250], [1, 1, 250], [1, 250, 1], [250, 1, 1], [9, 9, 1], [5, 5, 3]];
    times.extend((0..27).map(|at| [1 + at % 3, 1 + at / 3 % 3, 1 + at / 9]));
    times.extend((0..more).map(|_| [(); 3].map(|()| 1 + random.below(250) as u16)));
    times.into_iter().map(|times| limits_of(window, times, 0)).collect()
}

/// Waits from 1 to the sum less 3: all of them where they are few, otherwise the ends and the middle.
pub fn too_short(limits: Limits) -> Vec<Limits> {
    let sum = limits.sum();
    let waits = if sum < 10 { (1..sum - 2).collect() } else { vec![1, 2, sum / 2, sum - 4, sum - 3] };
    waits.into_iter().map(|resend_wait| Limits { resend_wait, ..limits }).collect()
}

/// What a list is to show.
#[derive(Clone, Copy, Debug, PartialEq, Eq)]
pub enum Shows {
    /// The wait is too short: 3, and 4 to all that comes then.
    TooShort,
    /// The timer of row 0 is above 0 when it is to be sent again: 16.
    TimerRuns,
    /// It is 0.
    SentAgain,
}

impl Shows {
    /// The answers to the opening and to the resend.
    fn answers(self) -> [u8; 2] {
        match self {
            Shows::TooShort => [3, 4],
            Shows::TimerRuns => [0, 16],
            Shows::SentAgain => [0, 0],
        }
    }
}

/// A list with the limits that it is put to.
#[derive(Clone, Debug)]
pub struct Edge {
    /// The limits.
    pub limits: Limits,
    /// The list.
    pub list: Vec<Event>,
    /// What it is to show.
    pub shows: Shows,
}

/// For each wait that is too short its list. For each that passes the lists in which row 0 is to be sent again after so many
/// ticks: from the sum less 3 to the wait, which for 0 is the least.
pub fn edges(limits: Limits) -> Vec<Edge> {
    let of = |limits: Limits| Edge { limits, list: events(&limits), shows: Shows::TooShort };
    let mut all: Vec<Edge> = too_short(limits).into_iter().map(of).collect();
    let least = limits.least_wait();
    for resend_wait in (least..).take(ZERO - LEAST).chain([0]) {
        let (limits, wait) = (Limits { resend_wait, ..limits }, resend_wait.max(least));
        for ticks in (least - 1..=wait).filter(|ticks| *ticks > 0) {
            let shows = if ticks < wait { Shows::TimerRuns } else { Shows::SentAgain };
            all.push(Edge { limits, list: after_ticks(limits, ticks), shows });
        }
    }
    all
}

/// The list in which row 0 is to be sent again after so many ticks. Up to the least wait it is that for a wait of so many.
fn after_ticks(limits: Limits, ticks: u16) -> Vec<Event> {
    let least = limits.least_wait();
    let mut list = events(&Limits { resend_wait: ticks.min(least), ..limits });
    if ticks > least {
        let at = resend(&list);
        list.insert(at, (8, (ticks - least) as u8));
    }
    list
}

/// Where the resend is.
fn resend(list: &[Event]) -> usize {
    list.iter().position(|event| *event == (2, 0)).expect("row 0 is sent again")
}

impl Edge {
    /// A call for each event up to the reply's arrival behind the resend, and a run of the others. The record has space for one
    /// row more than are sent.
    pub fn case(&self) -> Case {
        let (first, rest) = self.list.split_at(resend(&self.list) + 2);
        let mut calls = ones(first);
        calls.push(Call::Run { events: event_bytes(rest), answers: rest.len() });
        let supply = different_rows(2 * self.limits.window);
        let record = vec![UNWRITTEN; supply.len() + CELLS];
        Case { limits: self.limits, supply, record, calls }
    }

    /// The rows recorded, or what differs by calls or in one ride, or is not what the list is to show.
    pub fn recorded(&self, library: &dyn Library, case: &Case) -> Result<usize, String> {
        let (pair, opened, found) = Pair::open(library, self.limits, &case.record);
        found.map_or(Ok(()), Err)?;
        let mut audited = AuditedPair::of(pair);
        let mut answers = vec![];
        for call in &case.calls {
            let (called, found) = audited.call(library, call, &case.supply);
            found.map_or(Ok(()), Err)?;
            answers.push(number(&called.done));
        }
        ride_difference(library, case, &event_bytes(&self.list), self.list.len()).map_or(Ok(()), Err)?;
        let answers = [opened, answers[resend(&self.list)]];
        if answers != self.shows.answers() {
            return Err(format!("the opening and the resend answer {answers:?}, which does not show {:?}", self.shows));
        }
        Ok(audited.total().recorded)
    }
}

/// What was met.
#[derive(Clone, Copy, Debug, Default, PartialEq, Eq)]
pub struct Waits {
    times: u64,
    lists: u64,
    calls: u64,
    events: u64,
    recorded: u64,
    /// For each wait the lists in which the resend was refused and done.
    resends: [[u64; 2]; WAITS.len()],
}

impl Waits {
    /// The lists of these times.
    fn compare(&mut self, library: &dyn Library, limits: Limits) -> Result<(), (String, Case)> {
        self.times += 1;
        for edge in edges(limits) {
            let case = edge.case();
            let recorded = edge.recorded(library, &case).map_err(|found| cut(library, case.clone(), found))?;
            self.list(&edge, case.calls.len(), recorded);
        }
        Ok(())
    }

    /// A list in so many calls, by which so many rows were recorded.
    pub fn list(&mut self, edge: &Edge, calls: usize, recorded: usize) {
        self.lists += 1;
        self.calls += calls as u64;
        self.events += edge.list.len() as u64;
        self.recorded += recorded as u64;
        let wait = match edge.limits.resend_wait {
            0 => ZERO,
            wait => usize::from((wait + 2).saturating_sub(edge.limits.least_wait())),
        };
        self.resends[wait][usize::from(edge.shows == Shows::SentAgain)] += 1;
    }

    /// Both together.
    fn and(self, other: Waits) -> Waits {
        let sum = |wait: usize, done: usize| self.resends[wait][done] + other.resends[wait][done];
        Waits {
            times: self.times + other.times,
            lists: self.lists + other.lists,
            calls: self.calls + other.calls,
            events: self.events + other.events,
            recorded: self.recorded + other.recorded,
            resends: std::array::from_fn(|wait| [0, 1].map(|done| sum(wait, done))),
        }
    }

    /// Whether there were lists enough of each kind with this window.
    pub fn all_there(&self, window: usize) -> Result<(), String> {
        for (wait, (name, [refused, done])) in WAITS.into_iter().zip(self.resends).enumerate() {
            if refused < ENOUGH || wait >= LEAST && done < ENOUGH {
                return Err(format!("waits: window {window}, {name}: {refused} resends refused, {done} done"));
            }
        }
        Ok(())
    }
}

impl fmt::Display for Waits {
    fn fmt(&self, out: &mut fmt::Formatter) -> fmt::Result {
        let Waits { times, lists, calls, events, recorded, .. } = self;
        write!(out, "{times} windows with times, {lists} lists in {calls} calls and {lists} rides, {events} events; ")?;
        write!(out, "{recorded} rows recorded")?;
        let resends = |(name, [refused, done]): (&str, [u64; 2])| format!("{name}: {refused} and {done}");
        let resends: Vec<String> = WAITS.into_iter().zip(self.resends).map(resends).collect();
        write!(out, "\n  lists with the resend refused and done, by wait  {}", resends.join(", "))
    }
}

/// Every window, each with so many random times beside the others.
pub fn waits(library: &dyn Library, replay: &Replay, amount: Amount, more: usize) -> Outcome {
    let mut random = amount.random();
    // the longest lists first, so that the threads end together
    let windows = (1..=LARGEST_WINDOW).rev().map(|window| (window, spread(window, &mut random, more)));
    let met = items(&windows.collect::<Vec<_>>(), |(window, times), total: &mut Waits| {
        let mut met = Waits::default();
        for limits in times {
            let failed = |(found, case): (String, Case)| replay.failed_ride("waits", amount.seed, &found, &case);
            met.compare(library, *limits).map_err(failed)?;
        }
        met.all_there(*window)?;
        *total = total.and(met);
        Ok(())
    })?;
    Ok(met.into_iter().fold(Waits::default(), Waits::and).to_string())
}
