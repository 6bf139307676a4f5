//! The resend wait: question 3 at every wait, the waits that are drawn, and a library with another range is found.

use super::differ::{replay, StandIn};
use super::limits;
use super::torn_checks::{met, Change};
use second::built::Link;
use second::checks::openings;
use second::compare::rows;
use second::draw::{random_case_of, random_limits};
use second::draw_link::drawn_link;
use second::library::{Asked, CountNumbers, Lent, Library, ZERO_COUNTS};
use second::limits::{number, Limits, Refusal};
use second::links::made_up_links;
use second::matlink::Matlink;
use second::random::Random;
use second::short::{all_short, After, Compared, Event, Short};
use second::short_wait::Unasked;
use second::shrink::flat;
use second::threads::Amount;
use second::unbounded::Ends;
use second::wait_checks::waits as put_waits;

#[test]
fn every_wait() {
    for at in 0..125 {
        let times = [at / 25, at / 5 % 5, at % 5].map(|k| [1, 2, 9, 249, 250][k]);
        let sum: u16 = times.iter().sum();
        for wait in (0..=1100).chain([65_535]) {
            let asked = limits(7, times[0], times[1], times[2], wait);
            let expected = match wait {
                0 => Ok(Limits { resend_wait: sum - 2, ..asked }),
                _ if wait > 1000 || wait + 2 < sum => Err(Refusal::ResendWait),
                _ => Ok(asked),
            };
            assert_eq!(asked.accept(), expected);
            assert_eq!(asked.sound(), wait > 0 && expected.is_ok());
        }
    }
}

/// How many of the limits have a wait of 0, of the sum less 2, less 1, less 0 and plus 1, and how many a longer one.
fn drawn_waits(all: impl Iterator<Item = Limits>) -> [usize; 6] {
    let mut counted = [0; 6];
    for limits in all.filter(|limits| limits.accept().is_ok()) {
        let above_least = limits.resend_wait.checked_sub(limits.least_wait());
        counted[above_least.map_or(0, |above| 1 + usize::from(above.min(4)))] += 1;
    }
    counted
}

/// Lists have a wait of 0 and each of the four shortest that can be written out often, made-up links each of the four.
#[test]
fn short_waits_are_drawn() {
    let mut random = Random::new(5);
    let lists = drawn_waits((0..2000).map(|_| random_limits(&mut random)));
    let made_up = drawn_waits((0..2000).map(|_| drawn_link(&mut random).limits));
    println!("of 2000 limits for lists {lists:?}, for links {made_up:?}");
    assert!(lists.iter().chain(&made_up[1..]).all(|times| *times > 120));
}

/// Whether the ends answer differently on a list with a wait of the sum less 3.
fn ends_differ(seed: u64) -> bool {
    let mut random = Random::new(seed);
    let mut limits = random_limits(&mut random);
    limits.resend_wait = limits.sum() - 3;
    let case = random_case_of(&mut random, limits);
    let (supply, space) = (rows(&case.supply), case.record.len());
    let (mut built, mut ends) = (Unasked::fresh(limits), Ends::fresh(limits));
    built.record = case.record;
    let differs = |(kind, argument)| {
        let answer = number(&built.put((kind, argument), supply.as_flattened()));
        answer != number(&ends.event(kind, argument, &supply, space))
    };
    limits.resend_wait > 0 && flat(&case.calls).into_iter().any(differs)
}

/// The lists that are drawn reach the edge: with one tick less some of them show that the built ends are wrong.
#[test]
fn random_lists_find_a_wait_that_is_too_short() {
    let lists = if cfg!(debug_assertions) { 1000 } else { 5000 };
    let found = (0..lists).filter(|seed| ends_differ(*seed)).count();
    println!("{found} of {lists} lists find a wait of the sum less 3");
    assert!(found > 0);
}

/// Both ends after some list.
#[derive(Clone, PartialEq, Eq, Hash)]
struct Both {
    built: Unasked,
    ends: Ends,
}

/// A list of at most so many events on which the ends answer differently.
fn short_difference(short: &Short) -> Result<Compared, Vec<Event>> {
    let case = short.empty_case();
    let (supply, space) = (rows(&case.supply), case.record.len());
    let fresh = Unasked { record: case.record, ..Unasked::fresh(short.limits) };
    let fresh = Both { built: fresh, ends: Ends::fresh(short.limits) };
    short.search(fresh, |before, event| {
        let mut both = before.clone();
        let answer = number(&both.built.put(event, &case.supply));
        let expected = number(&both.ends.event(event.0, event.1, &supply, space));
        match answer {
            _ if answer != expected => After::Differs,
            0 => After::Done(both),
            _ => After::Refused,
        }
    })
}

/// All short lists reach the edge, too: with one tick less there is a difference for each window and all times. The longest has
/// ten events.
#[test]
fn short_lists_find_a_wait_that_is_too_short() {
    let longest = if cfg!(debug_assertions) { 4 } else { 6 };
    let mut lengths = vec![];
    for mut short in all_short(10).into_iter().filter(|short| short.rounds == 0 && short.space > 1) {
        if (4..=longest).contains(&short.limits.sum()) {
            short.limits.resend_wait -= 1;
            lengths.push(short_difference(&short).expect_err("a difference").len());
        }
    }
    println!("{lengths:?}");
    assert_eq!(lengths.len(), if cfg!(debug_assertions) { 6 } else { 14 });
}

/// A library that lets waits pass from another one on.
struct LeastWait {
    /// How much that wait is above the sum less 3.
    more: u32,
    /// Whether question 4 lets a wait of 0 pass, too.
    zero: bool,
}

impl LeastWait {
    /// Question 3 by this library's rule, for limits that pass the first two.
    fn waits(&self, [_, data_life, reply_life, reply_wait, resend_wait]: Asked) -> bool {
        let least = data_life + reply_life + reply_wait + self.more - 3;
        (least.max(1)..=1000).contains(&resend_wait)
    }

    /// Question 4 by this library's rule.
    fn sound(&self, link: &Matlink) -> bool {
        let asked = link.head().map(u32::from).first_chunk().copied().expect("five limits");
        // with the longest wait all but the wait is asked about
        let mut longest = Link::from(link);
        longest.limits.resend_wait = 1000;
        let timers = &longest.mat.timers[..usize::from(link.window).min(32)];
        let passes = || self.waits(asked) || self.zero && link.resend_wait == 0;
        longest.sound() && timers.iter().all(|timer| *timer <= link.resend_wait) && passes()
    }
}

impl Library for LeastWait {
    fn open(&self, link: &mut Matlink, asked: Asked) -> u8 {
        let [window, data_life, reply_life, reply_wait, wait] = asked;
        let answer = StandIn(None).open(link, [window, data_life, reply_life, reply_wait, 1000]);
        if answer != 0 || wait == 0 {
            return StandIn(None).open(link, asked);
        }
        if !self.waits(asked) {
            *link = Matlink::filled(0);
            return 3;
        }
        link.resend_wait = wait as u16;
        0
    }

    fn step(
        &self,
        link: &mut Matlink,
        event: (u32, u32),
        supply: &[u16],
        record: &mut [u16],
        counts: &mut CountNumbers,
    ) -> u8 {
        if !self.sound(link) {
            *counts = ZERO_COUNTS;
            return 4;
        }
        // a link that is sound by this rule alone is at least not refused by 4
        let answer = StandIn(None).step(link, event, supply, record, counts);
        answer * u8::from(answer != 4)
    }

    fn run(&self, link: &mut Matlink, lent: Lent) -> u8 {
        StandIn(None).run(link, lent)
    }

    fn ride(&self, asked: Asked, lent: Lent) -> u8 {
        StandIn(None).ride(asked, lent)
    }
}

/// The sum less 3, less 1 and plus 1 as the least wait; the sum less 2 is right.
#[test]
fn another_least_wait_is_found() {
    let (replay, few) = (replay(), Amount { seed: 0, events: 1 });
    let many = Amount { seed: 0, events: 100_000 };
    for more in [0, 2, 4] {
        let library = LeastWait { more, zero: false };
        let found = openings(&library, &replay, few).expect_err("it is found");
        assert!(found.starts_with("# openings, seed 0: opening with "), "{found}");
        let found = put_waits(&library, &replay, few, 0).expect_err("it is found");
        assert!(found.starts_with("# waits, seed 0: opening with "), "{found}");
        let found = made_up_links(&library, &replay, many).expect_err("it is found");
        assert!(found.starts_with("# links, seed ") && found.contains("resend_wait = "), "{found}");
    }
    let right = LeastWait { more: 1, zero: false };
    assert_eq!(openings(&right, &replay, few).err(), None);
    assert_eq!(put_waits(&right, &replay, few, 0).err(), None);
    assert_eq!(made_up_links(&right, &replay, many).err(), None);
}

/// In question 4 a 0 stands for no other wait.
#[test]
fn a_wait_of_0_in_question_4_is_found() {
    let (library, many) = (LeastWait { more: 1, zero: true }, Amount { seed: 0, events: 100_000 });
    let found = made_up_links(&library, &replay(), many).expect_err("it is found");
    assert!(found.starts_with("# links, seed ") && !found.contains("resend_wait = "), "{found}");
}

/// Links that never have a wait of 0 or one of the two waits at the edge of question 3.
#[test]
fn links_without_an_edge_are_found_out() {
    let changes: [Change; 3] = [
        (|link| link.limits.resend_wait = link.limits.resend_wait.max(1), "0"),
        (|link| link.limits.resend_wait += u16::from(link.limits.resend_wait + 2 == link.limits.sum()), "of the sum less 2"),
        (|link| link.limits.resend_wait += u16::from(link.limits.resend_wait + 3 == link.limits.sum()), "of the sum less 3"),
    ];
    for (change, wait) in changes {
        let expected = format!("made-up links: none with resend wait {wait}");
        assert_eq!(met(change).all_there(), Err(expected));
    }
}
