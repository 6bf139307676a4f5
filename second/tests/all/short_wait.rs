//! Resend waits that question 3 refuses: for each there is a list by which row 0 is recorded twice. With the least wait that it
//! lets pass, the same list records no row twice.

use super::{counts, limits};
use second::built::{Counts, Link};
use second::compare::{compare, event_bytes, ones, rows, Case, UNWRITTEN};
use second::limits::{number, Limits, Refusal, CELLS};
use second::random::Random;
use second::ride_text::text;
use second::short::different_rows;
use second::short_wait::{events, Unasked};
use second::short_wait_ride::ride;
use second::unbounded::Ends;
use second::wait_checks::{edges, spread, too_short, Shows};
use std::process::{Command, Output};

/// Every window with times of all sorts.
fn all_times() -> Vec<Limits> {
    let mut random = Random::new(3);
    (1..=32).flat_map(|window| spread(window, &mut random, 20)).collect()
}

/// What the list must give: a tick of 0 is refused, and every other event is done.
fn all_done(list: &[(u8, u8)]) -> Vec<u8> {
    list.iter().map(|event| if *event == (8, 0) { 9 } else { 0 }).collect()
}

/// The list by itself, and one event less, after which no more rows are recorded than were sent.
fn row_0_is_recorded_twice(limits: Limits) {
    let (w, list, supply) = (limits.window, events(&limits), different_rows(2 * limits.window));
    assert_eq!(limits.accept(), Err(Refusal::ResendWait));
    let mut ends = Unasked::fresh(limits);
    let mut answers = vec![];
    for (at, event) in list.iter().enumerate() {
        assert!(ends.total.recorded <= ends.total.sent, "{limits:?}, {at} events");
        answers.push(number(&ends.put(*event, &supply)));
    }
    assert_eq!(answers, all_done(&list), "{limits:?}");
    assert_eq!(ends.total, counts(2 * w, 2 * w, 2 * w + 1), "{limits:?}");
    assert_eq!(ends.record, [&supply[..], &supply[..CELLS]].concat(), "{limits:?}");
}

/// At the unbounded ends the last message is that of the old row 0, so the last reply is refused.
fn unbounded_ends_refuse_it(limits: Limits) {
    let (w, list, supply) = (limits.window, events(&limits), rows(&different_rows(2 * limits.window)));
    let mut ends = Ends::fresh(limits);
    let space = (2 * w + 1) * CELLS;
    let put = |(kind, argument): &(u8, u8)| number(&ends.event(*kind, *argument, &supply, space));
    let answers: Vec<u8> = list.iter().map(put).collect();
    let mut expected = all_done(&list);
    expected[list.len() - 1] = 20;
    assert_eq!(answers, expected, "{limits:?}");
    assert_eq!((ends.next, ends.wanted, &ends.record), (2 * w, 2 * w, &supply), "{limits:?}");
}

#[test]
fn no_shorter_wait_is_enough() {
    let mut lists = 0;
    for fresh in all_times() {
        for limits in too_short(fresh) {
            row_0_is_recorded_twice(limits);
            unbounded_ends_refuse_it(limits);
            lists += 1;
        }
    }
    println!("{lists} lists");
}

/// What the same list gives with the least wait: the reply for row 0 is gone before row 0 goes out again, so row 0 stays
/// outstanding, and the window is full with row w - 1.
fn expected_with_least_wait(list: &[(u8, u8)], window: usize) -> Vec<u8> {
    let mut expected = all_done(list);
    expected[7] = 17;
    for turn in window..2 * window {
        expected[4 * turn + 4..][..4].copy_from_slice(&[10, 17, 20, 17]);
    }
    expected[list.len() - 1] = 20;
    expected
}

/// The question lets the least wait pass, by its number and as 0, and with it no more rows are recorded than were sent.
#[test]
fn the_least_wait_is_enough() {
    for fresh in all_times() {
        let limits = fresh.with_least_wait();
        assert_eq!((limits.resend_wait, limits.accept(), fresh.accept()), (fresh.sum() - 2, Ok(limits), Ok(limits)));
        let (w, list, supply) = (limits.window, events(&limits), different_rows(2 * limits.window));
        assert_eq!(list[5], (8, limits.reply_life as u8));
        let bytes = event_bytes(&list);

        let (_, mut link) = Link::open(limits);
        let (mut record, mut answers) = (vec![UNWRITTEN; supply.len() + CELLS], vec![99; list.len()]);
        let ran = link.run(&bytes, &supply, &mut record, &mut answers);
        assert_eq!(ran.map(Counts::rows), Ok(counts(w, 0, w)), "{limits:?}");
        assert_eq!(answers, expected_with_least_wait(&list, w), "{limits:?}");
        assert_eq!(record[..w * CELLS], supply[..w * CELLS], "{limits:?}");
        assert!(record[w * CELLS..].iter().all(|cell| *cell == UNWRITTEN), "{limits:?}");
    }
}

/// With every wait that passes the built ends agree with the unbounded ends on the lists that are put to the library.
#[test]
fn true_numbers_agree() {
    for edge in all_times().into_iter().flat_map(edges).filter(|edge| edge.shows != Shows::TooShort) {
        assert_eq!(compare(&edge.case()), None, "{edge:?}");
    }
}

/// The whole text for some limits, ticks of 0 for others.
#[test]
fn rides_in_words() {
    let expected = include_str!("../../../rides/short-wait.ride");
    assert_eq!(ride(limits(1, 2, 2, 2, 3)), Ok(expected.into()));
    let short = ride(limits(1, 2, 1, 1, 1)).expect("a ride");
    assert!(short.contains("\ntick 0              # refused 9\n"), "{short}");
}

/// Without its comments each is the list as other rides are written, and its last lines say what went wrong.
#[test]
fn rides_of_all_windows() {
    for limits in all_times().into_iter().filter(|limits| limits.sum() > 3).step_by(5) {
        let (w, limits) = (limits.window, Limits { resend_wait: limits.sum() - 3, ..limits });
        let written = ride(limits).expect("a ride");
        let bare: Vec<&str> = written.lines().map(|line| line.split('#').next().unwrap_or("").trim()).collect();
        let bare: Vec<&str> = bare.into_iter().filter(|line| !line.is_empty()).collect();
        let supply: Vec<u16> = (0..2 * w * CELLS).map(|at| (at / CELLS) as u16).collect();
        let case = Case { limits, record: supply.clone(), supply, calls: ones(&events(&limits)) };
        assert_eq!(bare.join("\n"), text(&case));
        let end = format!(
            "\ndata 0 arrives      # number 0 is row 0, and is held as row {}\n\
             reply               # row 0 is recorded as row {}: {} rows recorded, {} sent\n",
            2 * w,
            2 * w,
            2 * w + 1,
            2 * w
        );
        assert!(written.ends_with(&end), "{written}");
        assert!(written.lines().all(|line| !line.contains("refused") || line.starts_with("tick 0 ")), "{written}");
    }
}

fn program(words: &str) -> Output {
    let mut command = Command::new(env!("CARGO_BIN_EXE_short_wait"));
    command.args(words.split_whitespace()).output().expect("short_wait starts")
}

#[test]
fn the_program() {
    let done = program("2 3 3 2 5");
    assert_eq!((done.status.code(), done.stderr.len()), (Some(0), 0));
    assert_eq!(String::from_utf8(done.stdout), Ok(ride(limits(2, 3, 3, 2, 5)).expect("a ride")));
    for (words, why) in [
        ("0 3 3 2 5", "the window is not 1 to 32"),
        ("33 3 3 2 5", "the window is not 1 to 32"),
        ("2 0 3 2 1", "a life or the reply wait is not 1 to 250"),
        ("2 3 251 2 5", "a life or the reply wait is not 1 to 250"),
        ("2 3 3 2 0", "the resend wait is not from 1 to the three times' sum less 3, which is 5"),
        ("2 3 3 2 6", "the resend wait is not from 1 to the three times' sum less 3, which is 5"),
        ("2 3 3 2 1001", "the resend wait is not from 1 to the three times' sum less 3, which is 5"),
        ("2 1 1 1 1", "the resend wait is not from 1 to the three times' sum less 3, which is 0"),
        ("2 3 3 2", "usage: short_wait W D L Q R"),
        ("2 3 3 2 65536", "usage: short_wait W D L Q R"),
        ("", "usage: short_wait W D L Q R"),
    ] {
        let refused = program(words);
        let printed = (refused.status.code(), refused.stdout.len(), String::from_utf8(refused.stderr));
        assert_eq!(printed, (Some(1), 0, Ok(format!("{why}\n"))), "{words}");
    }
}
