//! A failing case is cut to a short one.

use super::{limits, record, supply};
use second::compare::{event_bytes, ones, Call, Case};
use second::ride_text::text;
use second::shrink::{flat, shortest};

/// A made-up failure: a tick above 9 somewhere behind a send.
#[test]
fn a_case_is_cut() {
    let fails = |case: &Case| {
        let events = flat(&case.calls);
        let sent = events.iter().position(|event| event.0 == 1);
        sent.is_some_and(|at| events[at..].iter().any(|event| event.0 == 8 && event.1 > 9))
    };
    let events: Vec<(u8, u8)> = (0..100u8).map(|k| (k % 9, k)).collect();
    let case = Case {
        limits: limits(30, 200, 100, 50, 1000),
        supply: supply(3),
        record: record(2),
        calls: vec![
            Call::Run { events: vec![1, 0, 8], answers: 0 },
            Call::Run { events: event_bytes(&events), answers: 100 },
        ],
    };
    let cut = shortest(case, &fails);
    assert_eq!(cut.calls, ones(&[(1, 0), (8, 10)]));
    assert_eq!((cut.limits, cut.supply.len(), cut.record.len()), (limits(1, 1, 1, 1, 0), 0, 0));
    assert_eq!(text(&cut), "window 1\ndata life 1\nreply life 1\nreply wait 1\nsend\ntick 10");
}

/// Where a wait of 0 does not fail, the shortest that does is left.
#[test]
fn a_long_wait_is_cut() {
    let fails = |case: &Case| case.limits.accept().is_ok_and(|limits| limits.resend_wait >= 14);
    let case = Case { limits: limits(4, 2, 2, 1, 743), supply: vec![], record: vec![], calls: vec![] };
    assert_eq!(shortest(case, &fails).limits, limits(1, 1, 1, 1, 14));
}
