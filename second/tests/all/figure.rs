//! The run of Figure 1 in source document 001, section 4.1.
//!
//! The figure has w = 2, numbers modulo 4, lives mds = mdr = 1 and a retransmission timeout tp = 3, and shows the protocol
//! before its correction: an arriving row is answered at once with everything held. How it is read in whole ticks:
//! - Messages are received a whole unit after they were sent (acknowledgment (1,1) at time 1, (2,3) at 5, (0,0) at 6), so a
//!   life of 1 unit outlasts a step of 1 unit. The source's own action Time deletes a message at life 0, as the paper does.
//!   So a unit is u ticks and a life is u + 1 ticks, the least that outlasts it.
//! - The timeout is 3u ticks exactly, as both retransmissions happen 3 units after the sending. The paper asks (request S-3)
//!   3u >= 2(u + 1) + reply wait - 2, so with a reply wait of 1 the least unit is u = 1: lives 2, and 3 is the least resend
//!   wait. With u = 4 it is more than the three times' sum, as document 01 asked: lives 5, resend wait 12. The source says of
//!   this run that mrt must be below 1 unit; with a reply wait of 1 no tick passes before the reply.
//! - "rcv v" at R is the arrival and at once a reply event, which answers 20 where the figure's R sends nothing.

use super::mistakes::{step, Mistake};
use super::{counts, limits, ran, record, supply};
use second::built::{Link, Reply};
use second::compare::{compare_with, ones, Case};
use second::limits::{number, Limits};

/// The least unit, and the least with which the resend wait is more than the three times' sum.
const UNITS: [u8; 2] = [1, 4];

/// The limits with this unit.
fn figure_limits(unit: u8) -> Limits {
    let life = u16::from(unit) + 1;
    limits(2, life, life, 1, 3 * u16::from(unit))
}

/// The figure, line by line, with time in units.
const FIGURE: [(u8, u8); 34] = [
    (1, 0), // time 0: send 0
    (3, 0), // rcv 0
    (4, 0), // nr 1
    (1, 0), // send 1
    (3, 0), // rcv 1
    (4, 0), // nr 2
    (5, 0), // rcv (0,0): na 1
    (8, 1),
    (1, 0), // time 1: send 2
    (6, 0), // lost
    (5, 0), // rcv (1,1): na 2
    (8, 1),
    (1, 0), // time 2: send 3
    (3, 0), // rcv 3
    (4, 0), // nr stays 2
    (8, 2),
    (2, 0), // time 4: send 2 again
    (3, 0), // rcv 2
    (4, 0), // nr 4 in the figure
    (8, 1),
    (2, 1), // time 5: send 3 again
    (5, 0), // rcv (2,3): na 4 in the figure
    (1, 0), // send 0 (= 4)
    (3, 1), // rcv 0 (= 4)
    (4, 0), // nr 5 in the figure
    (1, 0), // send 1 (= 5)
    (3, 1), // rcv 1 (= 5)
    (4, 0), // nr 6 in the figure
    (3, 0), // rcv 3, which the figure's R takes for 7
    (4, 0), // nr stays 6 in the figure
    (8, 1),
    (5, 0), // time 6: rcv (0,0): na 5 in the figure
    (8, 1),
    (4, 0),
];

/// The figure with time in ticks.
fn figure(unit: u8) -> [(u8, u8); 34] {
    FIGURE.map(|(kind, argument)| (kind, if kind == 8 { argument * unit } else { argument }))
}

/// In the correct protocol the reply at time 4 covers row 2 alone, so row 3 stays outstanding: row 5 is not sent, and the late
/// row 3 is row 3.
#[test]
fn the_corrected_protocol() {
    for unit in UNITS {
        let (limits, events, life) = (figure_limits(unit), figure(unit), u16::from(unit) + 1);
        let all = ran(limits, &events);
        let mut expected = [0; 34];
        expected[14] = 20; // row 2 is missing
        expected[24] = 20; // row 3 is held with its reply timer at 0, so row 4 waits
        expected[25] = 10; // rows 3 and 4 are outstanding
        expected[26] = 17; // so only row 3 is in the air
        expected[27] = 20;
        expected[33] = 20;
        assert_eq!(all.answers, expected);
        assert_eq!(all.counts.rows(), counts(5, 5, 5));

        let until = ran(limits, &events[..19]);
        assert_eq!(until.link.replies.all(), [Reply { first: 2, last: 2, life }], "not (2,3)");
        let late = ran(limits, &events[..30]);
        assert_eq!(late.link.replies.all(), [Reply { first: 3, last: 0, life }], "rows 3 and 4");
    }
}

/// With the mistake of the uncorrected protocol the list is the figure: every line happens as it is drawn, nr and na take the
/// figure's values, and the late row 3 is held as row 7.
#[test]
fn the_figure_itself() {
    for unit in UNITS {
        drawn_as_it_is(figure_limits(unit), &figure(unit));
    }
}

fn drawn_as_it_is(limits: Limits, events: &[(u8, u8)]) {
    let (_, mut link) = Link::open(limits);
    let (rows, mut buffer) = (supply(8), record(8));
    let mut total = counts(0, 0, 0);
    let mut drawn = vec![];
    for (kind, argument) in &events[..32] {
        let (rest, space) = (&rows[total.sent * 16..], &mut buffer[total.recorded * 16..]);
        let answer = step(Some(Mistake::EveryHeldRow), &mut link, *kind, *argument, rest, space);
        total.add(answer.unwrap_or_default());
        drawn.push((number(&answer), total.acknowledged, total.recorded));
    }
    let refused: Vec<usize> = (0..32).filter(|at| drawn[*at].0 != 0).collect();
    assert_eq!(refused, [14, 29], "where R sends nothing");
    let nr: Vec<usize> = [2, 5, 14, 18, 24, 27, 29].iter().map(|at| drawn[*at].2).collect();
    assert_eq!(nr, [1, 2, 2, 4, 5, 6, 6]);
    let na: Vec<usize> = [6, 10, 16, 21, 31].iter().map(|at| drawn[*at].1).collect();
    assert_eq!(na, [1, 2, 2, 4, 5]);
    assert!(link.pad.held[7 % 2] && link.pad.rows[7 % 2] == rows[3 * 16..4 * 16], "row 3 is taken for row 7");

    let case = Case { limits, supply: rows, record: record(8), calls: ones(events) };
    let found = compare_with(&case, |link, kind, argument, rest, space| {
        step(Some(Mistake::EveryHeldRow), link, kind, argument, rest, space)
    });
    let found = found.expect("the wrong link differs");
    assert!(found.starts_with("after call 19: counts"), "{found}");
}
