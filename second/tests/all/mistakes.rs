//! The five mistakes that the paper says this link invites: each as a wrong variant, and a list on which it differs.
//!
//! A variant is the right call with one thing done wrong before or after it, so that the code that is tested has no switch.

use super::lists::{found_by_random_lists, found_by_short_lists};
use super::{limits, ran, record, supply};
use second::built::{Counts, Link, Reply};
use second::compare::{compare_with, ones, Case, Step};
use second::limits::Refusal;
use second::ride_text::text;

/// The paper's five, in its order.
#[derive(Clone, Copy, Debug, PartialEq, Eq)]
pub enum Mistake {
    /// A reply covers every held row, timer or not.
    EveryHeldRow,
    /// The reply timer is set at the first arrival only.
    FirstArrivalOnly,
    /// The resend timer is started once.
    FirstSendingOnly,
    /// A reply over the ring's end is read from its last number up to its first.
    Backwards,
    /// A later row is not marked before the oldest is acknowledged.
    OldestFirst,
}

/// A call for one event with this mistake.
pub fn step(
    mistake: Option<Mistake>,
    link: &mut Link,
    kind: u8,
    argument: u8,
    supply: &[u16],
    record: &mut [u16],
) -> Result<Counts, Refusal> {
    let before = link.clone();
    let w = before.limits.window;
    let reply = before.replies.all().get(usize::from(argument)).copied();
    match (mistake, kind, reply) {
        (Some(Mistake::EveryHeldRow), 4, _) => {
            link.pad.timers = before.pad.held.map(|held| u16::from(held) * before.limits.reply_wait);
            let done = link.step(kind, argument, supply, record);
            link.pad.timers = before.pad.timers;
            done
        }
        (Some(Mistake::FirstArrivalOnly), 3, _) => {
            let done = link.step(kind, argument, supply, record)?;
            for place in (0..w).filter(|place| before.pad.held[*place]) {
                link.pad.timers[place] = before.pad.timers[place];
            }
            Ok(done)
        }
        (Some(Mistake::FirstSendingOnly), 2, _) => {
            let done = link.step(kind, argument, supply, record)?;
            link.mat.timers = before.mat.timers;
            Ok(done)
        }
        (Some(Mistake::Backwards), 5, Some(Reply { first, last, .. })) if last < first => {
            Err(read_backwards(&before, usize::from(first), usize::from(last)))
        }
        (Some(Mistake::OldestFirst), 5, Some(Reply { first, .. })) if first != before.mat.oldest => {
            link.step(7, argument, supply, record)
        }
        _ => link.step(kind, argument, supply, record),
    }
}

/// The answer to a reply over the ring's end that is read backwards: the numbers not in its span, and its two ends. They are more
/// than w, so never all outstanding.
fn read_backwards(link: &Link, first: usize, last: usize) -> Refusal {
    let ring = 2 * link.limits.window;
    let (oldest, next) = (usize::from(link.mat.oldest), usize::from(link.mat.next));
    let (outstanding, from) = ((next + ring - oldest) % ring, (last + ring - oldest) % ring);
    assert!(from + (first - last + 1) > outstanding);
    Refusal::SpanNotOutstanding
}

fn every_held_row(link: &mut Link, kind: u8, argument: u8, supply: &[u16], record: &mut [u16]) -> Result<Counts, Refusal> {
    step(Some(Mistake::EveryHeldRow), link, kind, argument, supply, record)
}

fn first_arrival_only(
    link: &mut Link,
    kind: u8,
    argument: u8,
    supply: &[u16],
    record: &mut [u16],
) -> Result<Counts, Refusal> {
    step(Some(Mistake::FirstArrivalOnly), link, kind, argument, supply, record)
}

fn first_sending_only(
    link: &mut Link,
    kind: u8,
    argument: u8,
    supply: &[u16],
    record: &mut [u16],
) -> Result<Counts, Refusal> {
    step(Some(Mistake::FirstSendingOnly), link, kind, argument, supply, record)
}

fn backwards(link: &mut Link, kind: u8, argument: u8, supply: &[u16], record: &mut [u16]) -> Result<Counts, Refusal> {
    step(Some(Mistake::Backwards), link, kind, argument, supply, record)
}

fn oldest_first(link: &mut Link, kind: u8, argument: u8, supply: &[u16], record: &mut [u16]) -> Result<Counts, Refusal> {
    step(Some(Mistake::OldestFirst), link, kind, argument, supply, record)
}

/// The right link agrees with the unbounded ends on the list, with times of 1 and the least resend wait; the wrong one differs
/// first after this call.
fn differs(window: usize, events: &[(u8, u8)], wrong: Step, found: &str) {
    let limits = limits(window, 1, 1, 1, 1);
    ran(limits, events);
    let case = Case { limits, supply: supply(8), record: record(8), calls: ones(events) };
    let difference = compare_with(&case, wrong).expect("the wrong link differs");
    assert!(difference.starts_with(found), "{difference}");
}

/// Row 1 is held with its reply timer at 0 and its resend is in the air. The wrong reply covers it all the same; where that
/// leads, a late row read as one 2w further on, is shown with Figure 1 of the source.
#[test]
fn a_reply_that_covers_every_held_row() {
    let events = [(1, 0), (1, 0), (6, 0), (3, 0), (8, 1), (2, 1), (2, 0), (3, 1), (4, 0)];
    differs(2, &events, every_held_row, "after call 9: counts");
}

/// The held row whose resend came: the wrong pad has nothing to reply, now and after every further resend.
#[test]
fn a_reply_timer_set_at_the_first_arrival_only() {
    let mut events = vec![(1, 0), (3, 0), (8, 1)];
    for _ in 0..3 {
        events.extend([(2, 0), (3, 0), (8, 1)]);
    }
    events.extend([(2, 0), (3, 0), (4, 0), (5, 0)]);
    differs(1, &events, first_arrival_only, "after call 5: held row 0");
    let case = Case { limits: limits(1, 1, 1, 1, 1), supply: supply(8), record: record(8), calls: ones(&events) };
    let (_, mut link) = Link::open(case.limits);
    let mut answers = vec![];
    for &(kind, argument) in &events {
        let supply: &[u16] = if kind == 1 { &case.supply } else { &[] };
        answers.push(first_arrival_only(&mut link, kind, argument, supply, &mut record(1)));
    }
    assert_eq!(answers[answers.len() - 2], Err(Refusal::NothingToReply), "never acknowledged");
}

/// The second resend at once: two messages of one row are in the air.
#[test]
fn a_resend_timer_started_once() {
    differs(1, &[(1, 0), (8, 1), (2, 0), (2, 0)], first_sending_only, "after call 3: mark and resend timer of row 0");
}

/// A reply of rows 3 and 4, numbers 3 and 0.
#[test]
fn a_reply_read_backwards() {
    let mut events = [(1, 0), (3, 0), (4, 0), (5, 0)].repeat(3);
    events.extend([(1, 0), (1, 0), (3, 0), (3, 0), (4, 0), (5, 0)]);
    differs(2, &events, backwards, "after call 18: answer to 5 0");
}

/// Case I: the reply for row 1 comes first.
#[test]
fn a_mark_that_waits_for_the_oldest_row() {
    let events = [(1, 0), (1, 0), (3, 0), (4, 0), (3, 0), (4, 0), (5, 1), (2, 1), (5, 0)];
    differs(2, &events, oldest_first, "after call 7: mark and resend timer of row 1");
}

/// The random lists find each of the five, and each is cut to a short list. All short lists find them, too.
#[test]
fn lists_find_each_mistake() {
    let variants: [(Step, usize); 5] =
        [(every_held_row, 8), (first_arrival_only, 5), (first_sending_only, 3), (backwards, 24), (oldest_first, 9)];
    for (wrong, longest) in variants {
        let (seed, shortest) = found_by_random_lists(wrong).expect("the wrong link is found");
        assert!(shortest.calls.len() <= longest, "seed {seed}: {}", text(&shortest));
        assert!(compare_with(&shortest, wrong).is_some());
        assert_eq!(compare_with(&shortest, Link::step), None);
        assert!(found_by_short_lists(wrong));
        println!("seed {seed}: {}", text(&shortest));
    }
}
