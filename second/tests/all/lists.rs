//! Lists on which the built ends are compared with the unbounded ends: random long ones, and all short ones.

use super::{counts, limits};
use second::audit::Audit;
use second::built::{Counts, Link};
use second::compare::{compare_with, ones, record_difference, rows, state_difference, Call, Case, Step};
use second::draw::random_case;
use second::limits::{number, CELLS};
use second::met::torn;
use second::ride_text::text;
use second::short::{all_short, After, Compared, Event, Short, EVENTS};
use second::shrink::shortest;
use second::threads::items;
use second::unbounded::Ends;

/// How many random lists are compared; fewer without optimization, which is some ten times slower.
const RANDOM_LISTS: u64 = if cfg!(debug_assertions) { 2_000 } else { 30_000 };

/// How long the lists are of which all are compared: as long as it takes to find a resend wait that is too short (waits.rs).
const LENGTH: usize = if cfg!(debug_assertions) { 5 } else { 10 };

/// A failing case as it is reported: its seed, the difference, and the shortest list it can be cut to.
fn report(seed: u64, case: Case, step: Step) -> String {
    let cut = shortest(case, &|case| fails(case, step));
    let difference = compare_with(&cut, step).unwrap_or_default();
    format!("seed {seed}: {difference}\n{}", text(&cut))
}

/// A case whose opening is refused is no case: the shrinker must not end there.
fn fails(case: &Case, step: Step) -> bool {
    case.limits.accept().is_ok() && compare_with(case, step).is_some()
}

/// The first seed on which a wrong link differs, with its case cut.
pub fn found_by_random_lists(wrong: Step) -> Option<(u64, Case)> {
    (0..RANDOM_LISTS).find_map(|seed| {
        let mut case = random_case(seed);
        case.calls = ones(&events_of(&case.calls));
        fails(&case, wrong).then(|| (seed, shortest(case, &|case| fails(case, wrong))))
    })
}

/// The events that are not part of a refused run.
fn events_of(calls: &[Call]) -> Vec<(u8, u8)> {
    let mut events = vec![];
    for call in calls {
        match call {
            Call::One { kind, argument } => events.push((*kind, *argument)),
            Call::Run { events: bytes, answers } if bytes.len().is_multiple_of(2) && *answers >= bytes.len() / 2 => {
                events.extend(bytes.chunks_exact(2).map(|event| (event[0], event[1])));
            }
            Call::Run { .. } => {}
        }
    }
    events
}

#[test]
fn random_lists() {
    let mut answered = [0u64; 256];
    let (mut events, mut rounds, mut with_torn) = (0, 0, 0);
    let mut windows = [false; 33];
    for seed in 0..RANDOM_LISTS {
        let case = random_case(seed);
        if let Some(difference) = compare_with(&case, Link::step) {
            panic!("{difference}\n{}", report(seed, case, Link::step));
        }
        windows[case.limits.window] = true;
        // what the list met, from the unbounded ends
        if case.supply.len().is_multiple_of(CELLS) {
            let supply = rows(&case.supply);
            let mut ends = Ends::fresh(case.limits.accept().expect("good limits"));
            for (kind, argument) in events_of(&case.calls) {
                answered[usize::from(number(&ends.event(kind, argument, &supply, case.record.len())))] += 1;
                events += 1;
            }
            rounds += u64::from(ends.wanted > 2 * case.limits.window);
            with_torn += ends.record.iter().filter(|row| torn(*row)).count();
        }
    }
    println!("{RANDOM_LISTS} random lists, {events} events, {rounds} lists past the ring's end");
    println!("  {with_torn} rows recorded with a torn cell");
    for (number, times) in answered.iter().enumerate().filter(|entry| *entry.1 > 0) {
        println!("  answer {number}: {times}");
    }
    for expected in [0, 8, 9, 10, 11, 12, 14, 15, 16, 17, 20, 21] {
        assert!(answered[expected] > 0, "answer {expected} never came");
    }
    assert!(windows[1..].iter().all(|seen| *seen) && rounds > RANDOM_LISTS / 10);
    assert!(with_torn > 0, "no torn cell was recorded");
}

/// Beside what the paper compares: the resend timers of the w rows before next, acknowledged or not, as only a sending and a
/// tick change them, and the kept cells of outstanding rows.
fn mat_agrees(link: &Link, ends: &Ends) -> bool {
    let w = link.limits.window;
    (ends.next.saturating_sub(w)..ends.next)
        .all(|m| link.mat.timers[m % w] == ends.mat[m].timer && (m < ends.oldest || link.mat.rows[m % w] == ends.mat[m].row))
}

/// The account of one event that was done; that of a list is the sum over its events.
fn account_agrees(before: &Link, (kind, argument): Event, counts: Counts, after: &Link) -> bool {
    before.sound() && Audit::of(before).events(&[kind, argument], &[0], counts, after).is_none()
}

/// Both ends after some list.
#[derive(Clone, PartialEq, Eq, Hash)]
struct State {
    link: Link,
    ends: Ends,
    record: Vec<u16>,
    /// Without the accounts, which differ between lists that lead to the same state.
    total: Counts,
}

/// All of these lists on the built ends and the unbounded ends, or the first difference. A refused event leaves both as they
/// were.
fn all_lists(short: &Short, step: Step) -> Result<Compared, String> {
    let empty = short.empty_case();
    let supply = rows(&empty.supply);
    let (_, link) = Link::open(short.limits);
    let ends = Ends::fresh(link.limits);
    let fresh = State { link, ends, record: empty.record.clone(), total: counts(0, 0, 0) };
    let put = |before: &State, (kind, argument): Event| {
        let mut after = before.clone();
        let State { link, ends, record, total } = &mut after;
        let (sent, recorded) = (total.sent * CELLS, total.recorded * CELLS);
        let answer = step(link, kind, argument, &empty.supply[sent..], &mut record[recorded..]);
        let expected = ends.event(kind, argument, &supply, empty.record.len());
        total.add(answer.unwrap_or_default().rows());
        let agree = number(&answer) == number(&expected)
            && mat_agrees(link, ends)
            && state_difference(link, ends, *total).is_none()
            && record_difference(record, &empty.record, &supply, ends).is_none();
        match answer {
            Ok(counts) if agree && account_agrees(&before.link, (kind, argument), counts, &after.link) => After::Done(after),
            Err(_) if agree && after == *before => After::Refused,
            _ => After::Differs,
        }
    };
    short.search(fresh, put).map_err(|list| {
        let case = Case { calls: ones(&list), ..empty.clone() };
        if fails(&case, step) {
            report(0, case, step)
        } else {
            text(&case)
        }
    })
}

#[test]
fn all_short_lists() {
    let compared = items(&all_short(LENGTH), |short, total: &mut Compared| {
        let compared = all_lists(short, Link::step)?;
        assert_eq!(compared.lists, (EVENTS.len() as u64).pow(LENGTH as u32));
        *total = total.and(compared);
        Ok(())
    });
    match compared {
        Ok(threads) => println!("{:?}", threads.into_iter().reduce(Compared::and)),
        Err(text) => panic!("{text}"),
    }
}

/// Whether the lists of 7 events, times 1 and the least resend wait, find a wrong link.
pub fn found_by_short_lists(wrong: Step) -> bool {
    all_lists(&Short { limits: limits(2, 1, 1, 1, 1), rounds: 3, space: 6, length: 7 }, wrong).is_err()
}
