//! The comparison at the edge of question 3 finds rides that go by another edge, and what it leaves out is found out.

use super::differ::{replay, StandIn};
use super::limits;
use second::library::{Asked, CountNumbers, Lent, Library};
use second::matlink::Matlink;
use second::threads::Amount;
use second::wait_checks::{edges, waits, Edge, Shows, Waits};

/// What is wrong with the rides of a library.
#[derive(Clone, Copy, Debug)]
enum Wrong {
    /// The sum less 3 passes.
    Shorter,
    /// The sum less 2 does not.
    Longer,
    /// The resend timer starts a tick lower where that wait passes.
    TickLess,
    /// It starts a tick higher.
    TickMore,
    /// A ride that is refused writes a cell.
    Writes,
}

struct Rides(Wrong);

impl Library for Rides {
    fn open(&self, link: &mut Matlink, asked: Asked) -> u8 {
        StandIn(None).open(link, asked)
    }

    fn step(
        &self,
        link: &mut Matlink,
        event: (u32, u32),
        supply: &[u16],
        record: &mut [u16],
        counts: &mut CountNumbers,
    ) -> u8 {
        StandIn(None).step(link, event, supply, record, counts)
    }

    fn run(&self, link: &mut Matlink, lent: Lent) -> u8 {
        StandIn(None).run(link, lent)
    }

    fn ride(&self, asked: Asked, lent: Lent) -> u8 {
        let [window, data_life, reply_life, reply_wait, wait] = asked;
        if wait == 0 {
            return StandIn(None).ride(asked, lent);
        }
        let above = (wait + 3).checked_sub(data_life + reply_life + reply_wait);
        let taken = match (self.0, above) {
            (Wrong::Shorter, Some(0)) | (Wrong::TickMore, Some(1..)) => wait + 1,
            (Wrong::TickLess, Some(2..)) => wait - 1,
            (Wrong::Longer, Some(1)) => 1001,
            _ => wait,
        };
        if let (Wrong::Writes, None | Some(0), [.., last]) = (self.0, above, &mut *lent.record) {
            *last = 0;
        }
        StandIn(None).ride([window, data_life, reply_life, reply_wait, taken], lent)
    }
}

const FEW: Amount = Amount { seed: 7, events: 1 };

/// Each with a report that is short and can be replayed.
#[test]
fn rides_by_another_edge_are_found() {
    for wrong in [Wrong::Shorter, Wrong::Longer, Wrong::TickLess, Wrong::TickMore, Wrong::Writes] {
        let report = waits(&Rides(wrong), &replay(), FEW, 1).expect_err("it is found");
        assert!(report.starts_with("# waits, seed 7: in one ride: "), "{wrong:?}: {report}");
        assert!(report.contains("differential trial --part waits --seed 7 --events 1"), "{wrong:?}: {report}");
        assert!(report.lines().count() < 20, "{wrong:?}: {report}");
    }
}

/// Each window has 33 times that are not random; with 32 of them there are waits that are too short. A list has 8w + 6 events, and
/// one more where more ticks than the least wait pass before the resend.
#[test]
fn what_was_compared() {
    let expected =
        "1056 windows with times, 20288 lists in 188928 calls and 20288 rides, 2806080 events; 281264 rows recorded\n\
        \x20 lists with the resend refused and done, by wait  shorter: 2528 and 0, sum less 3: 1024 and 0, \
        sum less 2: 1024 and 1056, sum less 1: 2080 and 1056, sum: 3136 and 1056, sum plus 1: 4192 and 1056, \
        0: 1024 and 1056";
    assert_eq!(waits(&StandIn(None), &replay(), FEW, 0), Ok(expected.into()));
}

/// All lists for one window and times, with waits of 0 to 6. The sum less 3 is 2.
fn lists() -> Vec<Edge> {
    edges(limits(3, 2, 2, 1, 0))
}

#[test]
fn a_list_that_does_not_show_its_edge() {
    for edge in lists() {
        for shows in [Shows::TooShort, Shows::TimerRuns, Shows::SentAgain] {
            let other = Edge { shows, ..edge.clone() };
            let recorded = other.recorded(&StandIn(None), &other.case());
            assert_eq!(recorded.is_ok(), shows == edge.shows, "{other:?}: {recorded:?}");
        }
    }
}

/// All lists but those of one wait that show the same.
#[test]
fn lists_left_out_are_found_out() {
    let met = |with: &dyn Fn(&Edge) -> bool| {
        let mut met = Waits::default();
        for edge in lists().iter().filter(|edge| with(edge)) {
            (0..32).for_each(|_| met.list(edge, 1, 0));
        }
        met.all_there(3)
    };
    assert_eq!(met(&|_| true), Ok(()));
    for out in lists() {
        let found = met(&|edge| (edge.limits, edge.shows) != (out.limits, out.shows)).expect_err("it is found out");
        let names = ["0", "shorter", "sum less 3", "sum less 2", "sum less 1", "sum", "sum plus 1"];
        let name = names[usize::from(out.limits.resend_wait)];
        assert!(found.starts_with(&format!("waits: window 3, {name}: ")), "{out:?}: {found}");
    }
}
