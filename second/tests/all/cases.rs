//! Bench cases A to J of the paper.

use super::{counts, limits, list, ran, record, supply, Ran};
use second::built::{Counts, Link, Reply};
use second::frames::{read, Frame};
use second::limits::{number, Limits};

/// The answer and the resend wait of an opening.
fn opening(asked: Limits) -> (u8, u16) {
    let (answer, link) = Link::open(asked);
    assert_eq!(link.sound(), answer.is_ok());
    if answer.is_err() {
        assert_eq!(link, Link::default(), "a refused opening returns a link of zeros");
    }
    (number(&answer), link.limits.resend_wait)
}

/// E to I: times 1, 1, 1, wait 4.
fn short(window: usize, events: &[(u8, u8)]) -> Ran {
    ran(limits(window, 1, 1, 1, 4), events)
}

fn outstanding(link: &Link) -> usize {
    let ring = 2 * link.limits.window;
    (usize::from(link.mat.next) + ring - usize::from(link.mat.oldest)) % ring
}

#[test]
fn a_wait_0_becomes_the_sum_less_2() {
    assert_eq!(opening(limits(1, 1, 1, 1, 0)), (0, 1));
}

#[test]
fn b_waits_from_the_sum_less_2_are_opened() {
    for wait in 1..=4 {
        assert_eq!(opening(limits(1, 1, 1, 1, wait)), (0, wait));
    }
    assert_eq!(opening(limits(1, 2, 1, 1, 1)), (3, 0));
    assert_eq!(opening(limits(1, 2, 1, 1, 2)), (0, 2));
}

#[test]
fn c_windows() {
    assert_eq!(opening(limits(0, 1, 1, 1, 0)).0, 1);
    assert_eq!(opening(limits(33, 1, 1, 1, 0)).0, 1);
    assert_eq!(opening(limits(32, 1, 1, 1, 0)).0, 0);
}

/// The pad alone, with wanted 6 = 2 mod 4, and then the same rows in a list that reaches wanted 6.
#[test]
fn d_numbers_around_wanted() {
    for (arriving, row) in [(2, Some(6)), (3, Some(7)), (0, None), (1, None)] {
        let (_, mut link) = Link::open(limits(2, 1, 1, 1, 4));
        link.pad.wanted = 6 % 4;
        link.data.count = 1;
        link.data.messages[0].number = arriving;
        link.data.messages[0].life = 1;
        link.data.messages[0].row = [9; 16];
        assert_eq!(number(&link.step(3, 0, &[], &mut [])), 0);
        match row {
            Some(row) => {
                assert!(link.pad.held[row % 2] && link.pad.rows[row % 2] == [9; 16] && link.pad.timers[row % 2] == 1);
                assert_eq!(link.replies.count, 0);
            }
            None => {
                assert_eq!(link.pad.held, [false; 32]);
                assert_eq!(link.replies.all(), [Reply { first: arriving, last: arriving, life: 1 }]);
            }
        }
    }

    let mut events = [(1, 0), (3, 0), (4, 0), (5, 0)].repeat(4);
    events.extend([(1, 0), (3, 0), (4, 0), (1, 0), (3, 0), (4, 0), (7, 0), (7, 0)]);
    let six = short(2, &events);
    assert_eq!((six.counts.rows(), six.link.pad.wanted), (counts(6, 4, 6), 6 % 4));
    events.extend([(8, 4), (2, 0), (2, 1)]);
    let again = short(2, &events);
    assert_eq!(again.link.data.all().iter().map(|m| m.number).collect::<Vec<_>>(), [0, 1]);
    events.extend([(3, 0), (3, 0)]);
    let old = short(2, &events);
    assert_eq!(old.link.replies.all(), [Reply { first: 0, last: 0, life: 1 }, Reply { first: 1, last: 1, life: 1 }]);
    events.extend([(5, 0), (5, 0), (1, 0), (1, 0), (3, 1), (3, 0)]);
    let new = short(2, &events);
    assert_eq!((new.counts.rows(), &new.link.pad.held[..2]), (counts(8, 6, 6), &[true, true][..]));
    assert_eq!(new.link.pad.rows[..2].as_flattened(), &supply(8)[6 * 16..], "rows 6 and 7");
    assert!(new.answers.iter().all(|answer| *answer == 0));
}

#[test]
fn e_a_reply_covers_the_live_row_alone() {
    let text = "1 0, 1 0, 3 0, 4 0, 3 0, 4 0, 5 0, 5 0, 1 0, 6 0, 1 0, 3 0, 8 4, 2 0, 3 0, 4 0";
    let e = short(2, &list(text));
    assert_eq!(e.answers, [0; 16]);
    assert_eq!(e.counts.rows(), counts(4, 2, 3));
    assert_eq!(e.link.replies.all(), [Reply { first: 2, last: 2, life: 1 }]);
    assert!(e.link.pad.held[3 % 2], "row 3 is held");
    assert_eq!(e.link.pad.timers[3 % 2], 0);
}

#[test]
fn f_resend_waits_for_its_timer() {
    assert_eq!(short(2, &[(1, 0), (8, 3), (2, 0), (8, 1), (2, 0)]).answers, [0, 0, 16, 0, 0]);
}

#[test]
fn g_a_full_window() {
    assert_eq!(short(1, &[(1, 0), (1, 0)]).answers, [0, 10]);
}

#[test]
fn h_a_dead_message() {
    for w in 1..=32 {
        assert_eq!(short(w, &[(1, 0), (8, 1), (3, 0)]).answers, [0, 0, 17]);
    }
}

#[test]
fn i_a_later_row_is_marked_first() {
    let mut events = vec![(1, 0), (1, 0), (3, 0), (4, 0), (3, 0), (4, 0), (5, 1)];
    let later = short(2, &events);
    assert_eq!((later.answers, outstanding(&later.link)), (vec![0; 7], 2));
    events.push((2, 1));
    let marked = short(2, &events);
    assert_eq!((marked.answers[7], outstanding(&marked.link)), (15, 2));
    events.push((5, 0));
    let both = short(2, &events);
    assert_eq!((both.answers[8], outstanding(&both.link)), (0, 0));
    assert_eq!(both.counts.rows(), counts(2, 2, 2));
}

#[test]
fn j_reply_frames() {
    let Ok(Frame::Reply { life: 1, window: 2, first, last }) = read(&[0x02, 0x01, 0x02, 0x03, 0x00]) else {
        panic!("a reply with life 1 and w 2");
    };
    assert_eq!((last + 4 - first) % 4 + 1, 2, "its span");
    assert_eq!(number(&read(&[0x02, 0x01, 0x02, 0x03, 0x01])), 27);
}

/// Beside the cases: questions 5 to 7 of a run and 6 of a call for one event, whose buffers stay untouched.
#[test]
fn refused_runs_touch_nothing() {
    let (_, fresh) = Link::open(limits(2, 1, 1, 1, 0));
    for (events, cells, answers, expected) in [
        (&[1u8, 0, 3][..], 16, 8, 5),
        (&[1, 0], 15, 8, 6),
        (&[1, 0, 3, 0], 16, 1, 7),
        (&[1, 0, 3], 15, 0, 5),
        (&[1, 0], 17, 0, 6),
    ] {
        let (mut link, mut buffer, mut bytes) = (fresh.clone(), record(2), vec![77; answers]);
        let answer = link.run(events, &supply(2)[..cells], &mut buffer, &mut bytes);
        assert_eq!(number(&answer), expected);
        assert_eq!((link, buffer, bytes), (fresh.clone(), record(2), vec![77; answers]));
    }
    let mut link = fresh.clone();
    assert_eq!(number(&link.step(1, 0, &[0; 15], &mut [])), 6);
    assert_eq!(number(&link.step(0, 0, &[0; 15], &mut [])), 6, "6 is put before 8");
    assert_eq!(link, fresh);
    assert_eq!(number(&Link::default().run(&[1], &[0], &mut [], &mut [])), 4, "4 is put before 5");
}

/// Questions 8 to 12, 14, 17, 20 and 21 from a fresh link.
#[test]
fn refused_events() {
    let (_, mut link) = Link::open(limits(2, 1, 1, 1, 0));
    let mut rows = supply(2);
    rows[16 + 15] = 4096;
    let events = [0, 0, 9, 0, 255, 7, 1, 1, 4, 1, 8, 0, 2, 0, 3, 0, 5, 0, 6, 255, 7, 0, 4, 0, 1, 0, 1, 0, 3, 0, 4, 0];
    let mut answers = [99; 18];
    let mut buffer = vec![7; 15];
    let counted = link.run(&events, &rows, &mut buffer, &mut answers);
    assert_eq!(answers, [8, 8, 8, 9, 9, 9, 14, 17, 17, 17, 17, 20, 0, 12, 0, 21, 99, 99]);
    assert_eq!((counted.map(Counts::rows), buffer), (Ok(counts(1, 0, 0)), vec![7; 15]));
    assert_eq!(number(&link.step(1, 0, &[], &mut [])), 11);
}
