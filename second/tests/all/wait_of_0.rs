//! A resend wait of 0: it goes as the least wait does, and a library in which it stands for another one is found.

use super::differ::{limits_of, replay, StandIn};
use super::{limits, list, ran};
use second::built::{Account, Counts, Link};
use second::checks::{openings, random_lists};
use second::compare::rows;
use second::draw::random_case;
use second::library::{count_numbers, Asked, CountNumbers, Lent, Library};
use second::limits::{number, Limits};
use second::matlink::Matlink;
use second::met::Lists;
use second::short_wait::Unasked;
use second::threads::Amount;
use second::wait_checks::waits;

/// Times with this sum that question 2 lets pass.
fn times(sum: u16) -> [u16; 3] {
    let first = (sum - 2).min(250);
    let second = (sum - first - 1).min(250);
    [first, second, sum - first - second]
}

/// An opened link never has a wait of 0, so that question 4 tells it from one that has no wait.
#[test]
fn every_sum() {
    for sum in 3..=750 {
        let [first, second, third] = times(sum);
        for [a, b, c] in [[first, second, third], [second, third, first], [third, first, second]] {
            let (answer, mut link) = Link::open(limits(9, a, b, c, 0));
            assert_eq!((answer, link.limits), (Ok(()), limits(9, a, b, c, sum - 2)));
            assert_eq!(Link::open(limits(9, a, b, c, sum - 2)), (Ok(()), link.clone()));
            assert!(link.limits.resend_wait > 0 && link.sound());
            link.limits.resend_wait = 0;
            assert!(!link.sound());
        }
    }
}

/// With times of 2 the resend timer starts at 4.
#[test]
fn the_resend_timer() {
    let asked = |wait| limits(1, 2, 2, 2, wait);
    assert_eq!(ran(asked(0), &list("1 0")).link.mat.timers[0], 4);
    let events = list("1 0, 8 3, 2 0, 8 1, 2 0");
    let (zero, least) = (ran(asked(0), &events), ran(asked(4), &events));
    assert_eq!(zero.answers, [0, 0, 16, 0, 0]);
    assert_eq!((zero.answers, zero.counts, zero.link), (least.answers, least.counts, least.link));
    assert_eq!(ran(asked(7), &events).answers, [0, 0, 16, 0, 16]);
}

/// What a wait of 0 stands for, given the three times' sum.
type Meaning = fn(u16) -> u16;

/// The sum plus 1, less 1 and less 3, and 0 itself; the sum less 2 is right.
const WRONG: [Meaning; 4] = [|sum| sum + 1, |sum| sum - 1, |sum| sum - 3, |_| 0];

/// A library in which a wait of 0 stands for this, in the links that it opens or in its rides.
struct Zero {
    stands_for: Meaning,
    rides: bool,
}

impl Zero {
    /// The limits of a link here, for limits that the questions let pass.
    fn limits(&self, asked: Asked) -> Limits {
        let asked = limits_of(asked);
        match asked.resend_wait {
            0 => Limits { resend_wait: (self.stands_for)(asked.sum()), ..asked },
            _ => asked,
        }
    }
}

impl Library for Zero {
    fn open(&self, link: &mut Matlink, asked: Asked) -> u8 {
        let answer = StandIn(None).open(link, asked);
        if answer == 0 && !self.rides {
            link.resend_wait = self.limits(asked).resend_wait;
        }
        answer
    }

    fn step(
        &self,
        link: &mut Matlink,
        event: (u32, u32),
        supply: &[u16],
        record: &mut [u16],
        counts: &mut CountNumbers,
    ) -> u8 {
        StandIn(None).step(link, event, supply, record, counts)
    }

    fn run(&self, link: &mut Matlink, lent: Lent) -> u8 {
        StandIn(None).run(link, lent)
    }

    fn ride(&self, asked: Asked, lent: Lent) -> u8 {
        if !self.rides {
            return StandIn(None).ride(asked, lent);
        }
        let Lent { events, supply, record, answers, counts } = lent;
        // whether it is refused does not depend on what a 0 stands for
        let (mut written, mut bytes) = (record.to_vec(), answers.to_vec());
        let right = Lent { events, supply, record: &mut written, answers: &mut bytes, counts: &mut *counts };
        let number_of_ride = StandIn(None).ride(asked, right);
        if number_of_ride == 0 {
            let mut ends = Unasked { record: record.to_vec(), ..Unasked::fresh(self.limits(asked)) };
            let mut total = Counts::default();
            for (event, answer) in events.chunks_exact(2).zip(answers) {
                let done = ends.put((event[0], event[1]), supply);
                *answer = number(&done);
                total.add(done.unwrap_or_default());
            }
            record.copy_from_slice(&ends.record);
            *counts = count_numbers(total);
        }
        number_of_ride
    }
}

const FEW: Amount = Amount { seed: 0, events: 1 };

const MANY: Amount = Amount { seed: 0, events: 100_000 };

/// By the link itself. Of the openings the first that is done shows it.
#[test]
fn openings_with_another_meaning_are_found() {
    let first = format!("# openings, seed 0: opening with {:?} is not that with the least wait", limits(1, 1, 1, 1, 0));
    for stands_for in WRONG {
        let library = Zero { stands_for, rides: false };
        let report = openings(&library, &replay(), FEW).expect_err("it is found");
        assert!(report.starts_with(&format!("{first}\n# resend_wait: library ")), "{report}");
        let report = random_lists(&library, &replay(), MANY).expect_err("it is found");
        assert!(report.starts_with("# lists, seed ") && report.contains("\n# resend_wait: library "), "{report}");
        let report = waits(&library, &replay(), FEW, 0).expect_err("it is found");
        assert!(report.starts_with("# waits, seed 0: opened link\n# resend_wait: library "), "{report}");
    }
}

/// With the longest times alone, which hardly any limits but those at the edges have.
#[test]
fn another_meaning_at_an_edge_is_found() {
    let library = Zero { stands_for: |sum| if sum < 750 { sum - 2 } else { sum + 1 }, rides: false };
    let report = openings(&library, &replay(), FEW).expect_err("it is found");
    assert!(report.contains(" with the least wait\n# resend_wait: library 751, expected 748\n"), "{report}");
}

/// By the answers to resends, as a ride gives no link.
#[test]
fn rides_with_another_meaning_are_found() {
    for stands_for in WRONG {
        let library = Zero { stands_for, rides: true };
        let report = random_lists(&library, &replay(), MANY).expect_err("it is found");
        assert!(report.starts_with("# lists, seed ") && report.contains(": in one ride: answer "), "{report}");
        assert!(report.contains("to `resend 0`: ") && !report.contains("\nresend wait "), "{report}");
        let report = waits(&library, &replay(), FEW, 0).expect_err("it is found");
        assert!(report.starts_with("# waits, seed 0: in one ride: answer "), "{report}");
    }
}

#[test]
fn the_right_meaning_differs_nowhere() {
    for rides in [false, true] {
        let library = Zero { stands_for: |sum| sum - 2, rides };
        let checks = [
            openings(&library, &replay(), FEW),
            random_lists(&library, &replay(), MANY),
            waits(&library, &replay(), FEW, 0),
        ];
        assert_eq!(checks.into_iter().find_map(Result::err), None);
    }
}

/// Counts of a list on which all that is counted happened once.
const ONE_OF_EACH: Counts = {
    let one = Account { put: 1, arrived: 1, lost: 1, dropped: 1 };
    Counts { sent: 1, acknowledged: 1, recorded: 1, data: one, replies: one }
};

/// Drawn lists, many and few, with each wait written out.
#[test]
fn lists_without_a_wait_of_0_are_found_out() {
    let met = |lists: u64, limits: fn(Limits) -> Limits| {
        let mut met = Lists::default();
        for mut case in (0..lists).map(random_case) {
            case.limits = limits(case.limits);
            met.add(&case, Counts { sent: rows(&case.supply).len(), ..ONE_OF_EACH });
        }
        met.all_there()
    };
    let written_out = |limits: Limits| limits.accept().expect("good limits");
    assert_eq!(met(2000, |limits| limits), Ok(()));
    assert_eq!(met(2000, written_out), Err("lists: none with resend wait 0".into()));
    assert_eq!(met(10, written_out), Ok(()));
}
