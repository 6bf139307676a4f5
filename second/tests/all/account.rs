//! The account of the air: lists worked out by hand from the papers, from fresh links and from links with messages in the air.

use super::differ::StandIn;
use super::{counts, limits, list, ran, record, supply};
use second::audit::Audit;
use second::built::{Account, Counts, Data, Link, Reply};
use second::compare::{event_bytes, Call};
use second::differ::{AuditedPair, Pair};
use second::draw::random_case;
use second::draw_link::{random_kind, sound_link};
use second::library::count_numbers;
use second::limits::{number, Limits, CELLS};
use second::matlink::Matlink;
use second::random::Random;
use second::shrink::flat;

/// Put, arrived, lost and dropped.
fn account([put, arrived, lost, dropped]: [usize; 4]) -> Account {
    Account { put, arrived, lost, dropped }
}

/// Rows sent, acknowledged and recorded, and the accounts of data and replies.
type Added = ([usize; 3], [usize; 4], [usize; 4]);

/// The same as counts.
pub fn all_counts([sent, acknowledged, recorded]: [usize; 3], data: [usize; 4], replies: [usize; 4]) -> Counts {
    Counts { data: account(data), replies: account(replies), ..counts(sent, acknowledged, recorded) }
}

/// Calls for one event each, from any link: their counts, none for one that is refused.
fn stepped(link: &mut Link, events: &[(u8, u8)], supply: &[u16], record: &mut [u16]) -> Vec<Counts> {
    let mut total = Counts::default();
    let mut each = vec![];
    for &(kind, argument) in events {
        let (rest, space) = (&supply[total.sent * CELLS..], &mut record[total.recorded * CELLS..]);
        each.push(link.step(kind, argument, rest, space).unwrap_or_default());
        total.add(each[each.len() - 1]);
    }
    each
}

fn sum(each: &[Counts]) -> Counts {
    let mut total = Counts::default();
    each.iter().for_each(|counts| total.add(*counts));
    total
}

fn fresh(limits: Limits) -> Link {
    let (opened, link) = Link::open(limits);
    assert_eq!(opened, Ok(()));
    link
}

/// Lists for w 2 and times and resend wait of 1, with what the last event adds.
const LAST_EVENT: [(&str, Added); 14] = [
    ("1 0", ([1, 0, 0], [1, 0, 0, 0], [0; 4])),
    ("1 0, 8 1, 2 0", ([0; 3], [1, 0, 0, 0], [0; 4])),
    ("1 0, 3 0", ([0; 3], [0, 1, 0, 0], [0; 4])),
    // held again
    ("1 0, 3 0, 8 1, 2 0, 3 0", ([0; 3], [0, 1, 0, 0], [0; 4])),
    // an old row is replied to at once
    ("1 0, 3 0, 4 0, 7 0, 8 1, 2 0, 3 0", ([0; 3], [0, 1, 0, 0], [1, 0, 0, 0])),
    ("1 0, 3 0, 4 0", ([0, 0, 1], [0; 4], [1, 0, 0, 0])),
    // one reply for two rows is one message
    ("1 0, 1 0, 3 0, 3 0, 4 0", ([0, 0, 2], [0; 4], [1, 0, 0, 0])),
    ("1 0, 1 0, 3 0, 3 0, 4 0, 5 0", ([0, 2, 0], [0; 4], [0, 1, 0, 0])),
    // a reply that acknowledges no row yet has arrived, too
    ("1 0, 1 0, 3 0, 4 0, 3 0, 4 0, 5 1", ([0; 3], [0; 4], [0, 1, 0, 0])),
    ("1 0, 6 0", ([0; 3], [0, 0, 1, 0], [0; 4])),
    ("1 0, 3 0, 4 0, 7 0", ([0; 3], [0; 4], [0, 0, 1, 0])),
    ("1 0, 1 0, 8 1", ([0; 3], [0, 0, 0, 2], [0; 4])),
    ("1 0, 1 0, 3 0, 4 0, 8 1", ([0; 3], [0, 0, 0, 1], [0, 0, 0, 1])),
    // nothing is in the air
    ("1 0, 3 0, 8 1", ([0; 3], [0; 4], [0; 4])),
];

#[test]
fn what_each_kind_adds() {
    let limits = limits(2, 1, 1, 1, 1);
    for (text, (rows, data, replies)) in LAST_EVENT {
        let events = list(text);
        assert_eq!(ran(limits, &events).answers, vec![0; events.len()], "{text}");
        let each = stepped(&mut fresh(limits), &events, &supply(8), &mut record(8));
        assert_eq!(each.last(), Some(&all_counts(rows, data, replies)), "{text}");
    }
}

/// Case E of document 01. The tick of 4 meets empty tables; the last reply is still in the air.
#[test]
fn case_e() {
    let events = list("1 0, 1 0, 3 0, 4 0, 3 0, 4 0, 5 0, 5 0, 1 0, 6 0, 1 0, 3 0, 8 4, 2 0, 3 0, 4 0");
    let e = ran(limits(2, 1, 1, 1, 4), &events);
    assert_eq!(e.counts, all_counts([4, 2, 3], [5, 4, 1, 0], [3, 2, 0, 0]));
    assert_eq!((e.link.data.count, e.link.replies.count), (0, 1));
}

/// The lives that are left in each table.
fn lives(link: &Link) -> [Vec<u16>; 2] {
    let data = link.data.all().iter().map(|message| message.life);
    [data.collect(), link.replies.all().iter().map(|reply| reply.life).collect()]
}

/// A message with a life of d goes, one with d + 1 stays with 1.
#[test]
fn ticks_drop_some_and_keep_some() {
    let limits = limits(3, 5, 5, 5, 13);
    let expected = |rows, data, replies, left: [&[u16]; 2]| (all_counts(rows, data, replies), left.map(<[u16]>::to_vec));
    let after = |text: &str| {
        let done = ran(limits, &list(text));
        (done.counts, lives(&done.link))
    };
    let data = "1 0, 8 1, 1 0, 8 1, 1 0";
    assert_eq!(after(data), expected([3, 0, 0], [3, 0, 0, 0], [0; 4], [&[3, 4, 5], &[]]));
    assert_eq!(after(&format!("{data}, 8 3")), expected([3, 0, 0], [3, 0, 0, 1], [0; 4], [&[1, 2], &[]]));
    assert_eq!(after(&format!("{data}, 8 3, 8 1")), expected([3, 0, 0], [3, 0, 0, 2], [0; 4], [&[1], &[]]));
    assert_eq!(after(&format!("{data}, 8 4")), expected([3, 0, 0], [3, 0, 0, 2], [0; 4], [&[1], &[]]));
    assert_eq!(after(&format!("{data}, 8 255")), expected([3, 0, 0], [3, 0, 0, 3], [0; 4], [&[], &[]]));
    let replies = "1 0, 1 0, 1 0, 3 0, 4 0, 8 1, 3 0, 4 0, 8 1, 3 0, 4 0";
    let rows = [3, 0, 3];
    assert_eq!(after(replies), expected(rows, [3, 3, 0, 0], [3, 0, 0, 0], [&[], &[3, 4, 5]]));
    assert_eq!(after(&format!("{replies}, 8 3")), expected(rows, [3, 3, 0, 0], [3, 0, 0, 1], [&[], &[1, 2]]));
    assert_eq!(after(&format!("{replies}, 8 3, 8 1")), expected(rows, [3, 3, 0, 0], [3, 0, 0, 2], [&[], &[1]]));
}

/// The longest lives there are.
#[test]
fn the_longest_tick() {
    let limits = limits(1, 250, 250, 250, 748);
    for (text, dropped, left) in [("1 0, 8 249", 0, 1), ("1 0, 8 250", 1, 0), ("1 0, 8 249, 8 1", 1, 0)] {
        let done = ran(limits, &list(text));
        assert_eq!(done.counts, all_counts([1, 0, 0], [1, 0, 0, dropped], [0; 4]), "{text}");
        assert_eq!(done.link.data.count, left, "{text}");
    }
}

/// A link for w 2 with messages of these numbers and lives: row 2 or 3 is old for the pad, and rows 0 and 1 are outstanding.
fn made_up(data: &[(u8, u16)], replies: &[(u8, u8, u16)]) -> Link {
    let mut link = fresh(limits(2, 4, 4, 4, 10));
    link.mat.next = 2;
    (link.data.count, link.replies.count) = (data.len(), replies.len());
    for (message, &(number, life)) in link.data.messages.iter_mut().zip(data) {
        *message = Data { number, life, row: [7; CELLS] };
    }
    for (message, &(first, last, life)) in link.replies.messages.iter_mut().zip(replies) {
        *message = Reply { first, last, life };
    }
    assert!(link.sound());
    link
}

/// Both tables drop in one tick, each its own number.
#[test]
fn a_tick_of_both_tables() {
    let mut link = made_up(&[(0, 2), (1, 3), (2, 1), (3, 3)], &[(0, 0, 2), (1, 1, 2), (0, 1, 3), (1, 2, 4), (0, 0, 1)]);
    assert_eq!(link.step(8, 2, &[], &mut []), Ok(all_counts([0; 3], [0, 0, 0, 2], [0, 0, 0, 3])));
    assert_eq!(lives(&link), [vec![1, 1], vec![1, 2]]);
}

/// A list from a link with four data messages and two replies in the air, and what each event adds.
const FROM_THE_AIR: [((u8, u8), Added); 7] = [
    ((3, 1), ([0; 3], [0, 1, 0, 0], [1, 0, 0, 0])), // number 2 is an old row
    ((8, 1), ([0; 3], [0, 0, 0, 2], [0, 0, 0, 1])), // numbers 1 and 3, and the first reply
    ((3, 0), ([0; 3], [0, 1, 0, 0], [0; 4])),
    ((4, 0), ([0, 0, 1], [0; 4], [1, 0, 0, 0])),
    ((5, 0), ([0, 2, 0], [0; 4], [0, 1, 0, 0])), // rows 0 and 1
    ((7, 0), ([0; 3], [0; 4], [0, 0, 1, 0])),    // the old row's
    ((1, 0), ([1, 0, 0], [1, 0, 0, 0], [0; 4])),
];

/// The law is here 4 + 1 = 2 + 0 + 2 + 1 for data and 2 + 2 = 1 + 1 + 1 + 1 for replies. The calls are one for each event, one run,
/// and two runs in a row.
#[test]
fn messages_at_the_start() {
    let start = made_up(&[(0, 2), (2, 2), (1, 1), (3, 1)], &[(0, 0, 1), (0, 1, 2)]);
    let events = FROM_THE_AIR.map(|(event, _)| event);
    let expected = FROM_THE_AIR.map(|(_, (rows, data, replies))| all_counts(rows, data, replies));
    let total = all_counts([1, 2, 1], [1, 2, 0, 2], [2, 1, 1, 1]);
    let mut link = start.clone();
    assert_eq!(stepped(&mut link, &events, &supply(1), &mut record(1)), expected);
    assert_eq!((link.data.count, link.replies.count), (1, 1));
    for first in 0..=events.len() {
        let mut again = start.clone();
        let mut audit = Audit::of(&start);
        for part in [&events[..first], &events[first..]] {
            let (events, mut answers) = (event_bytes(part), vec![99; part.len()]);
            let space = &mut record(1)[audit.total.recorded * CELLS..];
            let done = again.run(&events, &supply(1)[audit.total.sent * CELLS..], space, &mut answers);
            assert_eq!(answers, vec![0; part.len()]);
            assert_eq!(audit.events(&events, &answers, done.expect("a run"), &again), None);
        }
        assert_eq!((audit.total, &again), (total, &link));
    }
    assert_eq!(sum(&expected), total);
}

/// Events that the link refuses, with their answers, and the rows of the supply and the record.
type Refused = (Link, &'static [((u8, u8), u8)], Vec<u16>, usize);

/// Every kind with every answer there is to it but 0.
fn refused() -> Vec<Refused> {
    let full = |next: u8, marked: bool| {
        // tables that are full: the data of an old row, replies for rows that are not outstanding
        let mut link = made_up(&[(2, 4); 32], &[(2, 2, 4); 32]);
        (link.mat.next, link.mat.marked[1], link.pad.held[0], link.pad.timers[0]) = (next, marked, true, 1);
        link
    };
    let mut runs = made_up(&[], &[]);
    runs.mat.timers[1] = 1;
    let fresh = fresh(limits(2, 1, 1, 1, 1));
    vec![
        (fresh.clone(), &[((0, 0), 8), ((9, 0), 8), ((255, 7), 8), ((1, 1), 9), ((4, 1), 9), ((8, 0), 9)], supply(1), 1),
        (fresh.clone(), &[((2, 0), 14), ((3, 0), 17), ((4, 0), 20), ((5, 0), 17), ((6, 0), 17), ((7, 0), 17)], supply(1), 1),
        (fresh.clone(), &[((1, 0), 11)], vec![], 1),
        (fresh, &[((1, 0), 12)], vec![4096; CELLS], 1),
        (runs, &[((1, 0), 10), ((2, 1), 16), ((2, 2), 14)], supply(1), 1),
        (full(2, true), &[((2, 0), 13), ((2, 1), 15), ((3, 0), 18), ((3, 32), 17), ((4, 0), 18)], supply(1), 1),
        (full(1, false), &[((1, 0), 13), ((5, 0), 19), ((5, 32), 17), ((6, 32), 17), ((7, 32), 17)], supply(1), 1),
        (full(1, false), &[((4, 0), 21)], supply(1), 0),
    ]
}

/// By a call for each alone, and in a run of all of them.
#[test]
fn refused_events_add_nothing() {
    for (link, refused, supply, rows) in refused() {
        let (events, expected): (Vec<_>, Vec<_>) = refused.iter().copied().unzip();
        for (&(kind, argument), answer) in events.iter().zip(&expected) {
            let mut again = link.clone();
            assert_eq!(number(&again.step(kind, argument, &supply, &mut record(rows))), *answer, "{kind} {argument}");
        }
        let (mut again, mut answers) = (link.clone(), vec![99; events.len()]);
        let ran = again.run(&event_bytes(&events), &supply, &mut record(rows), &mut answers);
        assert_eq!((ran, answers, again), (Ok(Counts::default()), expected, link), "{events:?}");
    }
}

/// Between events that are done, too.
#[test]
fn refused_events_in_a_list_add_nothing() {
    let done = "1 0, 1 0, 6 1, 3 0, 4 0, 5 0, 8 1";
    let with_refused = "3 0, 1 0, 2 0, 1 0, 1 0, 6 1, 6 1, 3 0, 3 0, 5 0, 4 0, 4 0, 5 0, 7 0, 8 1, 8 0";
    let [done, with_refused] = [done, with_refused].map(|text| ran(limits(2, 1, 1, 1, 1), &list(text)));
    assert_eq!(with_refused.answers, [17, 0, 16, 0, 10, 0, 17, 0, 17, 17, 0, 20, 0, 17, 0, 9]);
    assert_eq!((with_refused.counts, with_refused.link), (done.counts, done.link));
    assert_eq!(done.counts, all_counts([2, 1, 1], [2, 1, 1, 0], [1, 1, 0, 0]));
}

/// The number of a call that is refused behind one that acknowledges two rows, where the link is sound. The links, the record and
/// the totals of the list stay.
fn refused_in_a_list(link: &Link, call: &Call, supply: &[u16]) -> u8 {
    let mut audited = AuditedPair::of(Pair::made_up(Matlink::from(link), &record(1)));
    let (first, _) = audited.call(&StandIn(None), &Call::One { kind: 5, argument: 0 }, &[]);
    let added = if link.sound() { all_counts([0, 2, 0], [0; 4], [0, 1, 0, 0]) } else { Counts::default() };
    assert_eq!((audited.total(), first.done.is_ok()), (added, link.sound()));
    let before = audited.pair.clone();
    let (called, found) = audited.call(&StandIn(None), call, supply);
    assert_eq!((found, audited.total()), (None, added));
    assert!(audited.pair == before, "{call:?}");
    number(&called.done)
}

/// Calls for one event.
#[test]
fn refused_calls_leave_link_and_totals() {
    let given = made_up(&[(0, 2)], &[(0, 1, 2)]);
    let refused = [((8, 1), 15, 6), ((0, 0), 16, 8), ((8, 0), 16, 9), ((3, 1), 0, 17), ((5, 0), 0, 17)];
    let refused = refused.map(|(event, cells, answer)| (&given, event, cells, answer));
    for (link, (kind, argument), cells, answer) in refused.into_iter().chain([(&Link::default(), (8, 1), 16, 4)]) {
        let call = Call::One { kind, argument };
        assert_eq!(refused_in_a_list(link, &call, &supply(1)[..cells]), answer, "{kind} {argument}");
    }
}

#[test]
fn refused_runs_leave_link_and_totals() {
    let given = made_up(&[(0, 2)], &[(0, 1, 2)]);
    for (link, events, cells, answers, answer) in [
        (&Link::default(), [8, 1, 1, 0].as_slice(), 16, 2, 4),
        (&given, &[8, 1, 1], 16, 2, 5),
        (&given, &[8, 1, 1, 0], 15, 2, 6),
        (&given, &[8, 1, 1, 0], 16, 1, 7),
    ] {
        let call = Call::Run { events: events.to_vec(), answers };
        assert_eq!(refused_in_a_list(link, &call, &supply(1)[..cells]), answer, "{call:?}");
    }
}

/// On drawn lists: all events in one run, and each by a call of its own.
#[test]
fn a_run_counts_what_its_events_count() {
    let mut total = Counts::default();
    for case in (0..500).map(random_case).filter(|case| case.supply.len().is_multiple_of(CELLS)) {
        let events = flat(&case.calls);
        let mut link = fresh(case.limits);
        let each = stepped(&mut link, &events, &case.supply, &mut case.record.clone());
        let (mut again, mut answers) = (fresh(case.limits), vec![0; events.len()]);
        let ran = again.run(&event_bytes(&events), &case.supply, &mut case.record.clone(), &mut answers);
        assert_eq!((ran, &again), (Ok(sum(&each)), &link));
        total.add(sum(&each));
    }
    assert!(count_numbers(total).iter().all(|count| *count > 0), "{total:?}");
}

/// Drawn lists of several runs from drawn links. The recount and the law agree after each run.
#[test]
fn lists_from_made_up_links() {
    let mut random = Random::new(11);
    let mut total = Counts::default();
    for round in 0..if cfg!(debug_assertions) { 300 } else { 3_000 } {
        let mut link = sound_link(&mut random);
        let mut audit = Audit::of(&link);
        let (rows, mut space) = (supply(64), record(400));
        for _ in 0..6 {
            let event = |random: &mut Random| match random_kind(random) {
                kind @ (1 | 4) => [kind, 0],
                8 => [8, random.one_of(&[1, 1, 2, 100])],
                kind => [kind, random.one_of(&[0, 0, 1, 5, 31])],
            };
            let events: Vec<u8> = (0..random.below(12)).flat_map(|_| event(&mut random)).collect();
            let mut answers = vec![0; events.len() / 2];
            let (rest, space) = (&rows[audit.total.sent * CELLS..], &mut space[audit.total.recorded * CELLS..]);
            let counts = link.run(&events, rest, space, &mut answers).expect("a run");
            assert_eq!(audit.events(&events, &answers, counts, &link), None, "round {round}: {events:?}");
        }
        total.add(audit.total);
    }
    assert!(count_numbers(total).iter().all(|count| *count > 0), "{total:?}");
}
