//! What is put to the proved library: random lists, all short lists, bad limits, numbers that are too wide.

use crate::built::Counts;
use crate::compare::{different, event_bytes, Call, Case};
use crate::differ::{counts, difference, ride_difference, Difference, LentCounts};
use crate::draw::{random_case, random_limits};
use crate::library::{asked, Asked, Lent, Library};
use crate::limits::{number, Limits, Refusal, CELLS};
use crate::matlink::Matlink;
use crate::members::members;
use crate::met::Lists;
use crate::report::{Outcome, Replay};
use crate::short::{all_short, Compared, EVENTS};
use crate::shrink::{flat, shortest};
use crate::threads::{items, seeds, Amount};

/// A list through calls, and where that shows nothing in one ride.
fn list_difference(library: &dyn Library, case: &Case) -> Option<String> {
    let whole_ride = || {
        let events = event_bytes(&flat(&case.calls));
        ride_difference(library, case, &events, events.len() / 2)
    };
    difference(library, case).or_else(whole_ride)
}

/// What differs, and the case cut to the shortest list that shows a difference. Where the list by itself shows none, both are
/// given as they were found. The answer to the opening stays.
pub(crate) fn cut(library: &dyn Library, case: Case, found: String) -> (String, Case) {
    let opening = number(&case.limits.accept());
    let fails = |case: &Case| number(&case.limits.accept()) == opening && list_difference(library, case).is_some();
    let cut = if fails(&case) { shortest(case, &fails) } else { case };
    (list_difference(library, &cut).unwrap_or(found), cut)
}

/// A seeded list through its calls and in one ride: the counts of its calls, or what differs, with the case cut.
fn random_list(library: &dyn Library, seed: u64, case: &Case) -> Result<Counts, (String, Case)> {
    let failed = |found| cut(library, case.clone(), found);
    let counts = counts(library, case).map_err(failed)?;
    let list = event_bytes(&flat(&case.calls));
    // the odd count and the short buffer come now and then
    let (odd, short) = (usize::from(seed % 50 == 3), usize::from(seed % 50 == 4));
    let bytes = &list[..list.len() - odd];
    let answers = (list.len() / 2).saturating_sub(short) + (seed % 3) as usize * (1 - short);
    ride_difference(library, case, bytes, answers).map_or(Ok(counts), |found| Err(failed(found)))
}

/// Seeded lists cut into runs and calls for one event, and each in one ride.
pub fn random_lists(library: &dyn Library, replay: &Replay, amount: Amount) -> Outcome {
    let met = seeds(amount, |seed, met: &mut Lists| {
        let case = random_case(seed);
        let failed = |(found, case): (String, Case)| replay.failed_ride("lists", seed, &found, &case);
        let before = met.events;
        met.add(&case, random_list(library, seed, &case).map_err(failed)?);
        Ok(met.events - before)
    })?;
    let met = met.into_iter().fold(Lists::default(), Lists::and);
    met.all_there()?;
    Ok(met.to_string())
}

/// All short lists, for windows and times 1 and 2.
pub fn short_lists(library: &dyn Library, replay: &Replay, length: usize) -> Outcome {
    let counted = items(&all_short(length), |short, total: &mut Compared| {
        let compared = short.compare(library).map_err(|case| {
            let (found, case) = cut(library, case, String::new());
            replay.failed_ride("short-lists", 0, &found, &case)
        })?;
        *total = total.and(compared);
        Ok(())
    })?;
    let Compared { lists, calls } = counted.into_iter().fold(Compared::default(), Compared::and);
    let events = EVENTS.len();
    Ok(format!("all {lists} lists of {length} of {events} events, by {calls} calls: lists to the same state go on together"))
}

/// Limits with a resend wait of 0, at both edges of question 3 and beyond. Question 2 need not let the times pass.
fn waits(limits: Limits) -> [Limits; 10] {
    let sum = limits.sum();
    let [a, b, c] = [3, 2, 1].map(|less| sum.saturating_sub(less));
    let all = [0, 1, a, b, c, sum, sum.saturating_add(1), 1000, 1001, 65_535];
    all.map(|resend_wait| Limits { resend_wait, ..limits })
}

/// Where the wait is 0: how the library's link differs from the one that it opens with the least wait.
fn zero_difference(library: &dyn Library, limits: Limits) -> Difference {
    if limits.resend_wait > 0 {
        return None;
    }
    let [(zero, link), (least, expected)] = [limits, limits.with_least_wait()].map(|limits| {
        let mut link = Matlink::filled(5);
        (library.open(&mut link, asked(limits)), link)
    });
    let numbers = (zero != least).then(|| format!("library answers {zero} and {least}"));
    let found = numbers.or_else(|| members(&link, &expected))?;
    Some(format!("opening with {limits:?} is not that with the least wait\n{found}"))
}

/// Limits at and beyond every edge, and random ones.
pub(crate) fn edge_limits(amount: Amount) -> Vec<Limits> {
    let mut limits = vec![];
    for window in (0..=34).chain([255, 256, 65_536, usize::MAX]) {
        for time in [0, 1, 250, 251, 65_535] {
            for times in [[time, 1, 1], [1, time, 250], [250, 250, time]] {
                limits.extend(waits(limits_of(window, times, 0)));
            }
        }
    }
    let mut random = amount.random();
    for _ in 0..5000 {
        let mut drawn = random_limits(&mut random);
        match random.below(4) {
            0 => drawn.resend_wait = drawn.least_wait() - 1,
            1 => drawn.resend_wait = random.below(1100) as u16,
            _ => {}
        }
        limits.push(drawn);
    }
    limits
}

/// Limits at and beyond every edge, each with an opening, a call for one event, a run and a ride.
pub fn openings(library: &dyn Library, replay: &Replay, amount: Amount) -> Outcome {
    let limits = edge_limits(amount);
    let (count, mut opened, mut zeros) = (limits.len(), 0, 0);
    for limits in limits {
        let calls = vec![Call::One { kind: 1, argument: 0 }, Call::Run { events: vec![3, 0, 4, 0], answers: 2 }];
        let case = Case { limits, supply: vec![7; CELLS], record: vec![8; CELLS], calls };
        let found = zero_difference(library, limits)
            .or_else(|| difference(library, &case))
            .or_else(|| ride_difference(library, &case, &[1, 0, 3, 0], 2));
        if let Some(found) = found {
            return Err(replay.failed_ride("openings", amount.seed, &found, &case));
        }
        opened += usize::from(limits.accept().is_ok());
        zeros += usize::from(limits.resend_wait == 0);
    }
    Ok(format!("{count} openings, {opened} of them done; {zeros} with resend wait 0, each as with the least wait"))
}

pub(crate) fn limits_of(window: usize, times: [u16; 3], resend_wait: u16) -> Limits {
    Limits { window, data_life: times[0], reply_life: times[1], reply_wait: times[2], resend_wait }
}

/// Numbers wider than a link has: a limit above 65,535 is refused as 65,535 is, and an event that is not two bytes answers 8.
pub fn wide_numbers(library: &dyn Library) -> Outcome {
    let good = [2, 1, 1, 1, 4];
    let mut calls = 0;
    let refusals = [Refusal::Window, Refusal::Times, Refusal::Times, Refusal::Times, Refusal::ResendWait];
    for (place, refusal) in refusals.into_iter().enumerate() {
        for wide in [65_536, 65_537, 65_538, 65_540, 1 << 31, u32::MAX] {
            let mut asked = good;
            asked[place] = wide;
            let found = wide_limit(library, asked, refusal);
            found.map_or(Ok(()), |text| Err(format!("wide numbers: limits {asked:?}: {text}")))?;
            calls += 2;
        }
    }
    let mut link = Matlink::filled(0);
    library.open(&mut link, good);
    for event in [(256, 0), (257, 0), (1, 256), (8, 257), (u32::MAX, 0), (8, u32::MAX), (264, 1)] {
        let (given, mut lent) = (link.clone(), LentCounts::blank());
        let answer = library.step(&mut link, event, &[1; CELLS], &mut [], lent.counts());
        let found = (answer != 8).then(|| format!("library answers {answer}"));
        let found = found.or_else(|| members(&link, &given)).or_else(|| lent.difference(&Err(Refusal::Kind)));
        found.map_or(Ok(()), |text| Err(format!("wide numbers: event {event:?}: {text}")))?;
        calls += 1;
    }
    Ok(format!("{calls} calls with numbers that are too wide"))
}

/// What differs in an opening and a ride that are refused.
fn wide_limit(library: &dyn Library, asked: Asked, refusal: Refusal) -> Difference {
    let (mut link, mut lent) = (Matlink::filled(5), LentCounts::blank());
    let opened = library.open(&mut link, asked);
    let ride = Lent { events: &[], supply: &[], record: &mut [], answers: &mut [], counts: lent.counts() };
    let rode = library.ride(asked, ride);
    different((opened, rode), (refusal as u8, refusal as u8), || "numbers".into())
        .or_else(|| members(&link, &Matlink::filled(0)).map(|text| format!("link of a refused opening\n{text}")))
        .or_else(|| lent.difference(&Err(refusal)))
}
