//! Cutting a failing case to a short one.

use crate::compare::{ones, Call, Case, UNWRITTEN};
use crate::limits::CELLS;

/// The events of all calls. Runs that are refused add events here: the caller tries whether the case still fails.
pub fn flat(calls: &[Call]) -> Vec<(u8, u8)> {
    let mut events = vec![];
    for call in calls {
        match call {
            Call::One { kind, argument } => events.push((*kind, *argument)),
            Call::Run { events: bytes, .. } => events.extend(bytes.chunks_exact(2).map(|event| (event[0], event[1]))),
        }
    }
    events
}

/// A case that still fails and from which no call can be taken, where no argument and no limit can be made smaller. Runs are
/// taken apart first where the case then still fails.
pub fn shortest(mut case: Case, fails: &dyn Fn(&Case) -> bool) -> Case {
    assert!(fails(&case), "only a failing case can be cut");
    let apart = Case { calls: ones(&flat(&case.calls)), ..case.clone() };
    if fails(&apart) {
        case = apart;
    }
    loop {
        let before = case.clone();
        fewer_calls(&mut case, fails);
        fewer_ticks(&mut case, fails);
        smaller_arguments(&mut case, fails);
        smaller_limits(&mut case, fails);
        simple_rows(&mut case, fails);
        if case == before {
            return case;
        }
    }
}

/// Takes over a change after which the case still fails.
fn attempt(case: &mut Case, fails: &dyn Fn(&Case) -> bool, change: impl FnOnce(&mut Case)) -> bool {
    let mut changed = case.clone();
    change(&mut changed);
    let taken = changed != *case && fails(&changed);
    if taken {
        *case = changed;
    }
    taken
}

/// Takes away stretches of calls, from half of them down to one, then one with what depends on it.
fn fewer_calls(case: &mut Case, fails: &dyn Fn(&Case) -> bool) {
    let mut size = case.calls.len().div_ceil(2);
    while size > 0 {
        let mut end = case.calls.len();
        while end > 0 {
            let start = end.saturating_sub(size);
            attempt(case, fails, |case| {
                case.calls.drain(start..end);
            });
            end = start;
        }
        size /= 2;
    }
    for at in (0..case.calls.len()).rev() {
        fewer_messages(case, fails, at);
    }
    while two_calls(case, fails) {}
}

/// Takes away a call: without one message, those behind it have a smaller place.
fn fewer_messages(case: &mut Case, fails: &dyn Fn(&Case) -> bool, at: usize) {
    for until in [case.calls.len(), at + 2, at + 3, at + 4] {
        let taken = attempt(case, fails, |case| {
            let until = until.min(case.calls.len());
            for call in &mut case.calls[at + 1..until.max(at + 1)] {
                if let Call::One { kind: 2 | 3 | 5 | 6 | 7, argument } = call {
                    *argument = argument.saturating_sub(1);
                }
            }
            case.calls.remove(at);
        });
        if taken {
            return;
        }
    }
}

/// Takes away two calls at once: a sending and what depends on it often stand apart.
fn two_calls(case: &mut Case, fails: &dyn Fn(&Case) -> bool) -> bool {
    (1..case.calls.len()).rev().any(|second| {
        (second.saturating_sub(12)..second).rev().any(|first| {
            attempt(case, fails, |case| {
                case.calls.remove(second);
                case.calls.remove(first);
            })
        })
    })
}

/// Two ticks in a row become one.
fn fewer_ticks(case: &mut Case, fails: &dyn Fn(&Case) -> bool) {
    for at in (1..case.calls.len()).rev() {
        let [Call::One { kind: 8, argument: a }, Call::One { kind: 8, argument: b }] = case.calls[at - 1..=at] else {
            continue;
        };
        attempt(case, fails, |case| {
            case.calls[at - 1] = Call::One { kind: 8, argument: a.saturating_add(b) };
            case.calls.remove(at);
        });
    }
}

fn smaller_arguments(case: &mut Case, fails: &dyn Fn(&Case) -> bool) {
    for at in 0..case.calls.len() {
        let Call::One { kind, argument } = case.calls[at] else { continue };
        for smaller in [0, 1, argument / 2, argument.saturating_sub(1)] {
            let calls = |case: &mut Case| case.calls[at] = Call::One { kind, argument: smaller };
            if smaller < argument && attempt(case, fails, calls) {
                break;
            }
        }
    }
}

fn smaller_limits(case: &mut Case, fails: &dyn Fn(&Case) -> bool) {
    for _ in 0..6 {
        attempt(case, fails, |case| case.limits.window = (case.limits.window / 2).max(1));
        attempt(case, fails, |case| case.limits.window = (case.limits.window - 1).max(1));
        attempt(case, fails, |case| case.limits.data_life = (case.limits.data_life / 2).max(1));
        attempt(case, fails, |case| case.limits.reply_life = (case.limits.reply_life / 2).max(1));
        attempt(case, fails, |case| case.limits.reply_wait = (case.limits.reply_wait / 2).max(1));
        // 0 is the least wait; a case that needs a longer one gets the shortest that will do
        attempt(case, fails, |case| case.limits.resend_wait = 0);
        attempt(case, fails, |case| case.limits.resend_wait /= 2);
        attempt(case, fails, |case| case.limits.resend_wait = case.limits.resend_wait.saturating_sub(1));
    }
}

/// Rows as a ride's `rows N` has them, and a record as long as the supply, which is what a ride has.
fn simple_rows(case: &mut Case, fails: &dyn Fn(&Case) -> bool) {
    attempt(case, fails, |case| case.supply.truncate(case.supply.len() / CELLS * CELLS));
    attempt(case, fails, |case| {
        for (at, cell) in case.supply.iter_mut().enumerate() {
            *cell = (at / CELLS) as u16;
        }
    });
    let rows = case.supply.len() / CELLS;
    for fewer in 0..rows {
        if attempt(case, fails, |case| case.supply.truncate(fewer * CELLS)) {
            break;
        }
    }
    attempt(case, fails, |case| case.record = vec![UNWRITTEN; case.supply.len()]);
}
