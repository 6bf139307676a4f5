//! The comparison with a library finds what is wrong in one: here the library is the link of this crate, kept as C keeps it.

use super::mistakes::{step, Mistake};
use super::{limits, record, supply};
use second::built::{Counts, Link};
use second::checks::{openings, random_lists, wide_numbers};
use second::compare::{event_bytes, Case};
use second::differ::{difference, ride_difference, Pair};
use second::draw::random_case;
use second::draw_link::drawn_link;
use second::library::{count_numbers, Asked, CountNumbers, Lent, Library};
use second::limits::{number, Limits, Refusal};
use second::links::{damaged_links, made_up_links};
use second::matlink::{Matlink, NUMBERS};
use second::met::Met;
use second::random::Random;
use second::report::Replay;
use second::short::{all_short, Short};
use second::shrink::{flat, shortest};
use second::threads::Amount;

/// A library with this mistake, or with none.
pub struct StandIn(pub Option<Mistake>);

/// The number and the counts of a call, as a library gives them.
fn give(done: Result<Counts, Refusal>, counts: &mut CountNumbers) -> u8 {
    *counts = count_numbers(done.unwrap_or_default());
    number(&done)
}

/// Limits above 65,535 as 65,535.
pub fn limits_of(asked: Asked) -> Limits {
    let [window, data_life, reply_life, reply_wait, resend_wait] = asked.map(|limit| limit.min(65_535) as u16);
    limits(window.into(), data_life, reply_life, reply_wait, resend_wait)
}

impl StandIn {
    /// The kept link changes where the call is done.
    pub fn on(kept: &mut Matlink, call: impl FnOnce(&mut Link) -> Result<Counts, Refusal>) -> Result<Counts, Refusal> {
        let mut link = Link::from(&*kept);
        let done = call(&mut link);
        if done.is_ok() {
            *kept = Matlink::from(&link);
        }
        done
    }
}

impl Library for StandIn {
    fn open(&self, kept: &mut Matlink, asked: Asked) -> u8 {
        let (answer, link) = Link::open(limits_of(asked));
        *kept = Matlink::from(&link);
        number(&answer)
    }

    fn step(
        &self,
        kept: &mut Matlink,
        event: (u32, u32),
        supply: &[u16],
        record: &mut [u16],
        counts: &mut CountNumbers,
    ) -> u8 {
        // no kind is 0
        let kind = if event.0.max(event.1) > 255 { 0 } else { event.0 as u8 };
        let done = StandIn::on(kept, |link| match self.0 {
            Some(_) if link.sound() => step(self.0, link, kind, event.1 as u8, supply, record),
            _ => link.step(kind, event.1 as u8, supply, record),
        });
        give(done, counts)
    }

    fn run(&self, kept: &mut Matlink, lent: Lent) -> u8 {
        let done = StandIn::on(kept, |link| link.run(lent.events, lent.supply, lent.record, lent.answers));
        give(done, lent.counts)
    }

    fn ride(&self, asked: Asked, lent: Lent) -> u8 {
        let (opened, mut link) = Link::open(limits_of(asked));
        let done = opened.and_then(|_| link.run(lent.events, lent.supply, lent.record, lent.answers));
        give(done, lent.counts)
    }
}

const MISTAKES: [Mistake; 5] =
    [Mistake::EveryHeldRow, Mistake::FirstArrivalOnly, Mistake::FirstSendingOnly, Mistake::Backwards, Mistake::OldestFirst];

#[test]
fn a_kept_link_gives_the_link_back() {
    let mut random = Random::new(3);
    for _ in 0..200 {
        let link = drawn_link(&mut random);
        let kept = Matlink::from(&link);
        let numbers = kept.numbers();
        assert_eq!((numbers.len(), NUMBERS), (1834, 1834));
        assert_eq!(Matlink::of_numbers(&numbers), kept);
        assert_eq!(Link::from(&kept), link);
    }
}

#[test]
fn nothing_differs_from_the_right_link() {
    let right = StandIn(None);
    for seed in 0..300 {
        let case = random_case(seed);
        assert_eq!(difference(&right, &case), None);
        let events = event_bytes(&flat(&case.calls));
        assert_eq!(ride_difference(&right, &case, &events, events.len() / 2), None);
    }
    for short in all_short(2) {
        let compared = short.compare(&right).expect("nothing differs");
        assert_eq!(compared.lists, 23 * 23);
    }
    let (replay, amount) = (&replay(), |events| Amount { seed: 0, events });
    let checks = [
        openings(&right, replay, amount(1)),
        random_lists(&right, replay, amount(100_000)),
        made_up_links(&right, replay, amount(100_000)),
        damaged_links(&right, replay, amount(1)),
        wide_numbers(&right),
    ];
    assert_eq!(checks.into_iter().find_map(Result::err), None);
}

pub fn replay() -> Replay {
    Replay { command: "differential trial".into() }
}

/// Calls on made-up links find each mistake, too, and the report is short.
#[test]
fn each_mistake_is_found_by_made_up_links() {
    for mistake in MISTAKES {
        let wrong = StandIn(Some(mistake));
        let report = made_up_links(&wrong, &replay(), Amount { seed: 0, events: 100_000 }).expect_err("it is found");
        assert!(report.lines().count() < 40, "{mistake:?}: {report}");
    }
}

/// Whether a run of these events is wrong.
type WrongRun = fn(&[u8]) -> bool;

/// A library in which wrong runs answer 99.
struct WrongRuns(WrongRun);

impl Library for WrongRuns {
    fn open(&self, kept: &mut Matlink, asked: Asked) -> u8 {
        StandIn(None).open(kept, asked)
    }

    fn step(
        &self,
        kept: &mut Matlink,
        event: (u32, u32),
        supply: &[u16],
        record: &mut [u16],
        counts: &mut CountNumbers,
    ) -> u8 {
        StandIn(None).step(kept, event, supply, record, counts)
    }

    fn run(&self, kept: &mut Matlink, lent: Lent) -> u8 {
        let wrong = self.0(lent.events);
        let answer = StandIn(None).run(kept, lent);
        if wrong {
            99
        } else {
            answer
        }
    }

    fn ride(&self, asked: Asked, lent: Lent) -> u8 {
        StandIn(None).ride(asked, lent)
    }
}

/// Of two runs in a row one is left that is wrong, without events that it does not take.
#[test]
fn runs_on_made_up_links_are_cut() {
    let wrong_runs: [(WrongRun, &str); 3] = [
        (|events| events.len() % 2 == 0 && events.chunks(2).any(|event| event[0] == 8), "a run of tick "),
        (|events| events.len() % 2 == 1, "a run of half an event"),
        (|_| true, "a run of no event"),
    ];
    for (wrong, cut) in wrong_runs {
        let found = made_up_links(&WrongRuns(wrong), &replay(), Amount { seed: 0, events: 100_000 });
        let report = found.expect_err("it is found");
        let calls = report.lines().find_map(|line| line.strip_prefix("# calls: ")).expect("the calls");
        let calls = calls.split("; ").next().expect("words");
        assert!(calls.starts_with(cut) && !calls.contains(','), "{report}");
    }
}

/// An answer that never comes, in calls enough, and one that cannot come.
#[test]
fn answers_left_out_are_found_out() {
    let (mut few, mut many, mut wrong) = (Met::default(), Met::default(), Met::default());
    few.answer(1, 0);
    (0..60_000).for_each(|_| many.answer(1, 0));
    wrong.answer(6, 20);
    assert_eq!(few.all_there(), Ok(()));
    assert_eq!(many.all_there(), Err("made-up links: kind 0 never answered 4".into()));
    assert_eq!(wrong.all_there(), Err("made-up links: kind 6 answers 20".into()));
}

/// A report has the seed, the command that finds the same again, and a ride.
#[test]
fn a_report_can_be_replayed() {
    let wrong = StandIn(Some(Mistake::FirstArrivalOnly));
    let report = random_lists(&wrong, &replay(), Amount { seed: 0, events: 100_000 }).expect_err("it is found");
    let line = report.lines().find_map(|line| line.strip_prefix("# replay: ")).expect("a command");
    let words: Vec<&str> = line.split(' ').collect();
    let ["differential", "trial", "--part", "lists", "--seed", seed, "--events", "1"] = words[..] else {
        panic!("{report}");
    };
    let again = Amount { seed: seed.parse().expect("a number"), events: 1 };
    assert_eq!(random_lists(&wrong, &replay(), again), Err(report.clone()));
    let ride: Vec<&str> = report.lines().filter(|line| !line.starts_with('#')).collect();
    let expected = "window 1, data life 1, reply life 1, reply wait 1, rows 1, \
        send, data 0 arrives, tick 1, resend 0, data 0 arrives";
    assert_eq!(ride.join(", "), expected);
}

#[test]
fn each_mistake_is_found_by_random_lists() {
    for mistake in MISTAKES {
        let wrong = StandIn(Some(mistake));
        let fails = |case: &Case| case.limits.accept().is_ok() && difference(&wrong, case).is_some();
        let case = (0..3000).map(random_case).find(|case| fails(case)).expect("the mistake is found");
        assert!(shortest(case, &fails).calls.len() <= 24, "{mistake:?}");
    }
}

#[test]
fn mistakes_are_found_by_short_lists() {
    for mistake in MISTAKES {
        let short = Short { limits: limits(2, 1, 1, 1, 1), rounds: 3, space: 6, length: 7 };
        assert!(short.compare(&StandIn(Some(mistake))).is_err(), "{mistake:?}");
    }
}

/// A byte that nothing must write.
#[test]
fn a_changed_number_is_found() {
    let (mut pair, _, found) = Pair::open(&StandIn(None), limits(2, 1, 1, 1, 0), &record(2));
    assert_eq!(found, None);
    pair.kept.link.mat_mark[0] = 1;
    let call = second::compare::Call::One { kind: 8, argument: 1 };
    assert!(pair.call(&StandIn(None), &call, &supply(1)).1.is_some());
}
