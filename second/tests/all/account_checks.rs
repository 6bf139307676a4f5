//! What looks at accounts leaves nothing out: all calls of a list, all eleven counts, the numbers behind them, refused calls.

use super::account::all_counts;
use super::differ::{replay, StandIn};
use super::{limits, list, record, supply};
use second::audit::law_difference;
use second::built::Link;
use second::checks::wide_numbers;
use second::compare::{ones, rows, Call, Case};
use second::differ::{difference, ride_difference, AuditedPair, LentCounts, Pair};
use second::draw::random_case;
use second::library::{count_numbers, Asked, CountNumbers, Lent, Library, COUNT_NAMES};
use second::limits::Refusal;
use second::links::made_up_links;
use second::matlink::Matlink;
use second::met::Lists;
use second::threads::Amount;
use std::cell::RefCell;
use std::sync::atomic::{AtomicU64, Ordering::Relaxed};

/// Where both links lose a message between two calls, the account of the list shows it: the recount where a later tick should
/// have dropped it, the law in any case.
#[test]
fn the_account_goes_over_all_calls_of_a_list() {
    let shown = [("1 0, 8 1", "accounts, by the recount: "), ("1 0, 1 0", "data: the law fails ")];
    for (text, found) in shown {
        for forgotten in [false, true] {
            let (pair, _, opened) = Pair::open(&StandIn(None), limits(2, 1, 1, 1, 1), &record(2));
            let (mut audited, calls) = (AuditedPair::of(pair), ones(&list(text)));
            let first = audited.call(&StandIn(None), &calls[0], &supply(2)).1;
            assert_eq!((opened, first), (None, None));
            if forgotten {
                (audited.pair.kept.link.data_count, audited.pair.link.data.count) = (0, 0);
            }
            let second = audited.call(&StandIn(None), &calls[1], &supply(2)).1;
            assert_eq!(second.map(|text| text.starts_with(found)), forgotten.then_some(true), "{text}");
        }
    }
}

/// Lists that lead to the same links go on together in a search, whatever became of the message.
#[test]
fn pairs_are_the_same_with_different_accounts() {
    let after = |text: &str| {
        let (mut pair, ..) = Pair::open(&StandIn(None), limits(1, 1, 1, 1, 1), &record(1));
        for call in ones(&list(text)) {
            assert_eq!(pair.call(&StandIn(None), &call, &supply(1)).1, None);
        }
        pair
    };
    assert!(after("1 0, 6 0, 8 1") == after("1 0, 8 1"));
    assert!(after("1 0, 6 0, 8 1") != after("1 0, 6 0"));
}

/// A library that leaves the counts of a refused call as they were given: in its rides or in its other calls.
struct Leaves {
    rides: bool,
}

impl Leaves {
    fn of(leaves: bool, call: impl FnOnce(&mut CountNumbers) -> u8, counts: &mut CountNumbers) -> u8 {
        let mut written = *counts;
        let answer = call(&mut written);
        if answer == 0 || !leaves {
            *counts = written;
        }
        answer
    }
}

impl Library for Leaves {
    fn open(&self, link: &mut Matlink, asked: Asked) -> u8 {
        StandIn(None).open(link, asked)
    }

    fn step(
        &self,
        link: &mut Matlink,
        event: (u32, u32),
        supply: &[u16],
        record: &mut [u16],
        counts: &mut CountNumbers,
    ) -> u8 {
        Leaves::of(!self.rides, |counts| StandIn(None).step(link, event, supply, record, counts), counts)
    }

    fn run(&self, link: &mut Matlink, lent: Lent) -> u8 {
        let Lent { events, supply, record, answers, counts } = lent;
        let run = |counts: &mut CountNumbers| StandIn(None).run(link, Lent { events, supply, record, answers, counts });
        Leaves::of(!self.rides, run, counts)
    }

    fn ride(&self, asked: Asked, lent: Lent) -> u8 {
        let Lent { events, supply, record, answers, counts } = lent;
        let ride = |counts: &mut CountNumbers| StandIn(None).ride(asked, Lent { events, supply, record, answers, counts });
        Leaves::of(self.rides, ride, counts)
    }
}

#[test]
fn counts_left_by_a_refused_call_are_found() {
    let limits = limits(1, 1, 1, 1, 1);
    let case = |calls| Case { limits, supply: supply(1), record: record(1), calls };
    let odd = || vec![Call::Run { events: vec![1], answers: 1 }];
    let [rides, calls] = [true, false].map(|rides| Leaves { rides });
    // all eleven, the first of them sent
    let left = |found: Option<String>, before: &str| {
        let text = found.expect("it is found");
        let first = format!("{before}: sent: library {}, expected 0\n", u64::MAX);
        assert!(text.starts_with(&first) && text.lines().count() == COUNT_NAMES.len(), "{text}");
    };
    left(difference(&calls, &case(ones(&[(3, 0)]))), "after call 1");
    left(difference(&calls, &case(odd())), "after call 1");
    left(ride_difference(&rides, &case(odd()), &[1], 1), "in one ride");
    left(wide_numbers(&calls).err(), "wide numbers: event (256, 0)");
    left(wide_numbers(&rides).err(), "wide numbers: limits [65536, 1, 1, 1, 4]");
    assert_eq!(difference(&rides, &case(odd())), None);
    assert_eq!(ride_difference(&calls, &case(odd()), &[1], 1), None);
}

/// A library that counts the runs on a link that its last run gave, and is right.
#[derive(Default)]
struct InARow(AtomicU64);

thread_local! {
    /// What the last run in this thread gave.
    static LAST: RefCell<Matlink> = RefCell::new(Matlink::filled(0));
}

impl Library for InARow {
    fn open(&self, link: &mut Matlink, asked: Asked) -> u8 {
        StandIn(None).open(link, asked)
    }

    fn step(
        &self,
        link: &mut Matlink,
        event: (u32, u32),
        supply: &[u16],
        record: &mut [u16],
        counts: &mut CountNumbers,
    ) -> u8 {
        StandIn(None).step(link, event, supply, record, counts)
    }

    fn run(&self, link: &mut Matlink, lent: Lent) -> u8 {
        let before = link.clone();
        let answer = StandIn(None).run(link, lent);
        // a run that changes nothing, or that of a link drawn twice, is none in a row
        let last = LAST.with(|last| last.replace(link.clone()));
        self.0.fetch_add(u64::from(last == before && before != *link), Relaxed);
        answer
    }

    fn ride(&self, asked: Asked, lent: Lent) -> u8 {
        StandIn(None).ride(asked, lent)
    }
}

/// Lists from made-up links are more than one call long, as those from fresh links are.
#[test]
fn made_up_links_have_calls_in_a_row() {
    let library = InARow::default();
    assert_eq!(made_up_links(&library, &replay(), Amount { seed: 0, events: 10_000 }).err(), None);
    assert!(library.0.into_inner() > 100);
}

/// Each of the eleven numbers, and those behind them, which a call for C must leave as they are.
#[test]
fn a_wrong_number_is_named() {
    let here = all_counts([1, 2, 3], [4, 5, 6, 7], [8, 9, 10, 11]);
    let mut lent = LentCounts::blank();
    *lent.counts() = count_numbers(here);
    assert_eq!(lent.difference(&Ok(here)), None);
    assert_eq!(lent.all[..COUNT_NAMES.len()], [1, 2, 3, 4, 5, 6, 7, 8, 9, 10, 11]);
    for at in 0..lent.all.len() {
        let right = std::mem::replace(&mut lent.all[at], 99);
        let name = COUNT_NAMES.get(at).unwrap_or(&"number behind the counts");
        assert_eq!(lent.difference(&Ok(here)), Some(format!("{name}: library 99, expected {right}")));
        lent.all[at] = right;
    }
    let refused = lent.difference(&Err(Refusal::OddEvents)).expect("counts of a refused call are found");
    assert_eq!(refused.lines().count(), COUNT_NAMES.len());
}

/// Each number of the law, one too many.
#[test]
fn the_law_has_all_its_numbers() {
    let (_, link) = Link::open(limits(1, 1, 1, 1, 1));
    let right = all_counts([0; 3], [3, 4, 2, 1], [4, 3, 5, 6]);
    assert_eq!(law_difference([4, 10], &right, &link), None);
    for at in 0..4 {
        let one_more = |mut account: [usize; 4]| {
            account[at] += 1;
            account
        };
        let data = all_counts([0; 3], one_more([3, 4, 2, 1]), [4, 3, 5, 6]);
        assert!(law_difference([4, 10], &data, &link).is_some_and(|text| text.starts_with("data: ")));
        let replies = all_counts([0; 3], [3, 4, 2, 1], one_more([4, 3, 5, 6]));
        assert!(law_difference([4, 10], &replies, &link).is_some_and(|text| text.starts_with("replies: ")));
    }
    let (mut data, mut replies) = (link.clone(), link.clone());
    (data.data.count, replies.replies.count) = (1, 1);
    for (start, link) in [([5, 10], &link), ([4, 11], &link), ([4, 10], &data), ([4, 10], &replies)] {
        assert!(law_difference(start, &right, link).is_some());
    }
}

/// Lists on which one of the counts stays at 0.
#[test]
fn counts_that_never_rise_are_found_out() {
    let cases: Vec<Case> = (0..1000).map(random_case).collect();
    let met = |without: usize| {
        let mut met = Lists::default();
        for case in &cases {
            let mut all = [1; COUNT_NAMES.len()];
            all[0] = rows(&case.supply).len();
            all.iter_mut().skip(without).take(1).for_each(|count| *count = 0);
            let [sent, acknowledged, recorded, a, b, c, d, e, f, g, h] = all;
            met.add(case, all_counts([sent, acknowledged, recorded], [a, b, c, d], [e, f, g, h]));
        }
        met.all_there()
    };
    assert_eq!(met(COUNT_NAMES.len()), Ok(()));
    for (at, name) in COUNT_NAMES.iter().enumerate() {
        assert_eq!(met(at), Err(format!("lists: no {name}")));
    }
}
