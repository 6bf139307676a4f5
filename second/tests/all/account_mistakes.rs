//! Wrong accounts of the air: each is found by the comparison with a library, by that with the unbounded ends and by the audit.
//!
//! A variant makes the right call and then counts it in a wrong way, so that the code that is tested has no switch.

use super::differ::{limits_of, replay, StandIn};
use super::lists::{found_by_random_lists, found_by_short_lists};
use super::{limits, list, record, supply};
use second::audit::{law_difference, Audit};
use second::built::{Account, Counts, Link};
use second::checks::random_lists;
use second::compare::{compare_with, event_bytes, ones, Call, Case, Step};
use second::differ::{difference, ride_difference};
use second::library::{count_numbers, Asked, CountNumbers, Lent, Library};
use second::limits::{number, Refusal};
use second::links::made_up_links;
use second::matlink::Matlink;
use second::ride_text::text;
use second::short::Short;
use second::threads::Amount;
use WrongAccount::*;

/// What is wrong.
#[derive(Clone, Copy, Debug, PartialEq)]
enum WrongAccount {
    /// The reply that is put for an old row is not counted.
    OldRow,
    /// What neither arrived nor was lost is counted as dropped, though it may still be in the air.
    StillInTheAir,
    /// Dropped is the remainder of the law, but for messages at the start.
    NoneAtStart,
    /// Dropped is the remainder of the law, and as with OldRow the reply for an old row is not counted.
    HiddenByTheLaw,
    /// The two accounts are swapped.
    Swapped,
    /// A lost message is counted as one that arrived.
    LostArrived,
    /// A refused event of this kind is counted.
    Refused(u8),
}

/// A list for a window, times and a resend wait of 1, on which a mistake shows.
struct Shown {
    mistake: WrongAccount,
    list: &'static str,
    /// What differs from a library, and after which call.
    found: (usize, &'static str),
    /// Whether one run of the list shows it, too.
    in_a_run: bool,
    /// Whether the law by itself shows it in that run.
    by_the_law: bool,
}

const fn shown(mistake: WrongAccount, list: &'static str, found: (usize, &'static str)) -> Shown {
    Shown { mistake, list, found, in_a_run: true, by_the_law: true }
}

/// Row 0 is recorded, its reply is lost, it is sent again, and its second reply is dropped.
const OLD_ROW: &str = "1 0, 3 0, 4 0, 7 0, 8 1, 2 0, 3 0, 8 1";

const MISTAKES: [Shown; 13] = [
    shown(OldRow, OLD_ROW, (7, "reply_put: library 0, expected 1")),
    shown(StillInTheAir, "1 0", (1, "data_dropped: library 1, expected 0")),
    Shown {
        in_a_run: false,
        by_the_law: false,
        ..shown(NoneAtStart, "1 0, 8 1", (2, "data_dropped: library 0, expected 1"))
    },
    Shown { by_the_law: false, ..shown(HiddenByTheLaw, OLD_ROW, (7, "reply_put: library 0, expected 1")) },
    shown(Swapped, "1 0", (1, "data_put: library 0, expected 1\nreply_put: library 1, expected 0")),
    Shown {
        by_the_law: false,
        ..shown(LostArrived, "1 0, 6 0", (2, "data_arrived: library 1, expected 0\ndata_lost: library 0, expected 1"))
    },
    shown(Refused(1), "1 0, 1 0", (2, "data_put: library 1, expected 0")),
    shown(Refused(2), "2 0", (1, "data_put: library 1, expected 0")),
    shown(Refused(3), "3 0", (1, "data_arrived: library 1, expected 0")),
    shown(Refused(4), "4 0", (1, "reply_put: library 1, expected 0")),
    shown(Refused(5), "5 0", (1, "reply_arrived: library 1, expected 0")),
    shown(Refused(6), "6 0", (1, "data_lost: library 1, expected 0")),
    shown(Refused(7), "7 0", (1, "reply_lost: library 1, expected 0")),
];

/// A call: the links before and after it, its events and their answers.
struct Made<'a> {
    before: &'a Link,
    after: &'a Link,
    events: &'a [u8],
    answers: &'a [u8],
}

impl Made<'_> {
    /// How many events of this kind have such an answer.
    fn count(&self, kind: u8, answered: impl Fn(u8) -> bool) -> usize {
        let events = self.events.as_chunks::<2>().0.iter().zip(self.answers);
        events.filter(|(event, answer)| event[0] == kind && answered(**answer)).count()
    }
}

/// The account with dropped as the remainder of the law.
fn remainder(start: usize, account: Account, left: usize) -> Account {
    let Account { put, arrived, lost, .. } = account;
    Account { dropped: (start + put).saturating_sub(arrived + lost + left), ..account }
}

/// So many refused events of a kind counted as if they were done.
fn with_refused(kind: u8, times: usize, [mut data, mut replies]: [Account; 2]) -> [Account; 2] {
    *match kind {
        1 | 2 => &mut data.put,
        3 => &mut data.arrived,
        4 => &mut replies.put,
        5 => &mut replies.arrived,
        6 => &mut data.lost,
        _ => &mut replies.lost,
    } += times;
    [data, replies]
}

impl WrongAccount {
    /// What is counted for a call whose counts are `right`.
    fn counted(self, made: &Made, right: Counts) -> Counts {
        let Made { before, after, .. } = made;
        let Counts { data, replies, .. } = right;
        let no_old_rows = Account { put: made.count(4, |answer| answer == 0), ..replies };
        let [data, replies] = match self {
            OldRow => [data, no_old_rows],
            StillInTheAir => [remainder(0, data, 0), remainder(0, replies, 0)],
            NoneAtStart => [remainder(0, data, after.data.count), remainder(0, replies, after.replies.count)],
            HiddenByTheLaw => [
                remainder(before.data.count, data, after.data.count),
                remainder(before.replies.count, no_old_rows, after.replies.count),
            ],
            Swapped => [replies, data],
            LostArrived => [data, replies].map(|all| Account { arrived: all.arrived + all.lost, lost: 0, ..all }),
            // an event's own questions have numbers from 8 on
            Refused(kind) => with_refused(kind, made.count(kind, |answer| answer >= 8), [data, replies]),
        };
        Counts { data, replies, ..right }
    }
}

/// A library with this mistake.
struct Miscounts(WrongAccount);

impl Miscounts {
    /// The number of a call, and its counts with the mistake, which a refused one has, too.
    fn give(&self, made: &Made, done: Result<Counts, Refusal>, counts: &mut CountNumbers) -> u8 {
        *counts = count_numbers(self.0.counted(made, done.unwrap_or_default()));
        number(&done)
    }

    /// A run's number and counts. A refused run has no events.
    fn ran(&self, link: &mut Link, lent: Lent) -> u8 {
        let Lent { events, supply, record, answers, counts } = lent;
        let before = link.clone();
        let done = link.run(events, supply, record, answers);
        let made = Made { before: &before, after: link, events: if done.is_ok() { events } else { &[] }, answers };
        self.give(&made, done, counts)
    }
}

impl Library for Miscounts {
    fn open(&self, link: &mut Matlink, asked: Asked) -> u8 {
        StandIn(None).open(link, asked)
    }

    fn step(
        &self,
        kept: &mut Matlink,
        event: (u32, u32),
        supply: &[u16],
        record: &mut [u16],
        counts: &mut CountNumbers,
    ) -> u8 {
        let before = Link::from(&*kept);
        let event = [event.0 as u8, event.1 as u8];
        let done = StandIn::on(kept, |link| link.step(event[0], event[1], supply, record));
        let made = Made { before: &before, after: &Link::from(&*kept), events: &event, answers: &[number(&done)] };
        self.give(&made, done, counts)
    }

    fn run(&self, kept: &mut Matlink, lent: Lent) -> u8 {
        let mut link = Link::from(&*kept);
        let answer = self.ran(&mut link, lent);
        if answer == 0 {
            *kept = Matlink::from(&link);
        }
        answer
    }

    fn ride(&self, asked: Asked, lent: Lent) -> u8 {
        let (opened, mut link) = Link::open(limits_of(asked));
        if opened.is_err() {
            return StandIn(None).ride(asked, lent);
        }
        self.ran(&mut link, lent)
    }
}

/// A call for one event with the mistake at this place.
fn step<const AT: usize>(
    link: &mut Link,
    kind: u8,
    argument: u8,
    supply: &[u16],
    record: &mut [u16],
) -> Result<Counts, Refusal> {
    let before = link.clone();
    let right = link.step(kind, argument, supply, record)?;
    let made = Made { before: &before, after: link, events: &[kind, argument], answers: &[0] };
    Ok(MISTAKES[AT].mistake.counted(&made, right))
}

/// The mistakes that show in a call for one event that is done.
const STEPS: [Step; 6] = [step::<0>, step::<1>, step::<2>, step::<3>, step::<4>, step::<5>];

/// The list with a call for each event, or in one run.
fn case(shown: &Shown, one_run: bool) -> Case {
    let events = list(shown.list);
    let run = || vec![Call::Run { events: event_bytes(&events), answers: events.len() }];
    let calls = if one_run { run() } else { ones(&events) };
    Case { limits: limits(1, 1, 1, 1, 1), supply: supply(8), record: record(8), calls }
}

#[test]
fn a_library_with_each_mistake_is_found() {
    for shown in &MISTAKES {
        let (library, mistake) = (Miscounts(shown.mistake), shown.mistake);
        let (ones, run, (call, found)) = (case(shown, false), case(shown, true), shown.found);
        assert_eq!(difference(&library, &ones), Some(format!("after call {call}: {found}")), "{mistake:?}");
        assert_eq!(difference(&library, &run).is_some(), shown.in_a_run, "{mistake:?}");
        let ride = ride_difference(&library, &run, &event_bytes(&list(shown.list)), list(shown.list).len());
        assert_eq!(ride.is_some(), shown.in_a_run, "{mistake:?}");
        for case in [ones, run] {
            assert_eq!(difference(&StandIn(None), &case), None);
        }
    }
}

/// The recount finds in a run all that is wrong there, the law by itself does not.
#[test]
fn the_audit_finds_each_mistake() {
    for Shown { mistake, list: text, in_a_run, by_the_law, .. } in &MISTAKES {
        let (_, before) = Link::open(limits(1, 1, 1, 1, 1));
        let (events, mut after) = (event_bytes(&list(text)), before.clone());
        let mut answers = vec![99; events.len() / 2];
        let right = after.run(&events, &supply(8), &mut record(8), &mut answers).expect("a run");
        let wrong = mistake.counted(&Made { before: &before, after: &after, events: &events, answers: &answers }, right);
        let audited = |counts| Audit::of(&before).events(&events, &answers, counts, &after);
        assert_eq!((audited(right), law_difference([0, 0], &right, &after)), (None, None), "{mistake:?}");
        let found = audited(wrong).map(|text| text.starts_with("accounts, by the recount: "));
        assert_eq!(found, in_a_run.then_some(true), "{mistake:?}");
        assert_eq!(law_difference([0, 0], &wrong, &after).is_some(), *by_the_law, "{mistake:?}");
    }
}

/// Each is found on its list, by the random lists, which are cut to a short one, and by all short lists.
#[test]
fn each_mistake_is_found_beside_the_unbounded_ends() {
    for (wrong, shown) in STEPS.into_iter().zip(&MISTAKES) {
        let case = case(shown, false);
        let found = compare_with(&case, wrong).expect("the wrong link is found");
        let expected = format!("after call {}: accounts, by the recount: ", shown.found.0);
        assert!(found.starts_with(&expected), "{:?}: {found}", shown.mistake);
        assert_eq!(compare_with(&case, Link::step), None);
        let (seed, shortest) = found_by_random_lists(wrong).expect("the wrong link is found");
        assert!(shortest.calls.len() <= case.calls.len(), "seed {seed}: {}", text(&shortest));
        assert_eq!(compare_with(&shortest, Link::step), None);
        assert!(found_by_short_lists(wrong));
    }
}

/// How many of the mistakes are put to made-up links: without optimization, where cutting these is slow, one kind of refused
/// event.
const ON_LINKS: usize = if cfg!(debug_assertions) { 7 } else { MISTAKES.len() };

#[test]
fn each_mistake_is_found_by_lists_and_links() {
    let many = Amount { seed: 0, events: 100_000 };
    let short = Short { limits: limits(1, 1, 1, 1, 1), rounds: 1, space: 2, length: 7 };
    for Shown { mistake, .. } in &MISTAKES {
        let library = Miscounts(*mistake);
        let report = random_lists(&library, &replay(), many).expect_err("it is found");
        assert!(report.starts_with("# lists, seed ") && report.lines().count() < 24, "{mistake:?}: {report}");
        assert!(short.compare(&library).is_err(), "{mistake:?}");
    }
    for Shown { mistake, .. } in &MISTAKES[..ON_LINKS] {
        let report = made_up_links(&Miscounts(*mistake), &replay(), many).expect_err("it is found");
        assert!(report.starts_with("# links, seed ") && report.lines().count() < 50, "{mistake:?}: {report}");
    }
}
