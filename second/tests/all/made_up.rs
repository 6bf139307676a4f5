//! Links that a caller made up: question 4 clause by clause, and what every event keeps.

use super::{counts, limits, supply};
use second::built::{Link, Reply};
use second::draw_link::sound_link;
use second::limits::{number, Refusal, CELLS, TORN_CELL};
use second::random::Random;

/// After each event the link is sound; a refused one changes nothing; the counts of rows are the rises; a run of one is the
/// same. Questions 13, 18 and 19 arise here, and only here.
#[test]
fn every_event_on_made_up_links() {
    let mut random = Random::new(7);
    let mut met = [false; 256];
    for round in 0..if cfg!(debug_assertions) { 1_000 } else { 10_000 } {
        let given = sound_link(&mut random);
        assert!(given.sound(), "round {round}: {given:?}");
        let rise =
            |from: u8, to: u8| (usize::from(to) + 2 * given.limits.window - usize::from(from)) % (2 * given.limits.window);
        for kind in 0..=9 {
            for argument in [0, 1, random.below(40) as u8, random.byte()] {
                let rows = supply(random.below(3));
                let blank = vec![9; random.below(40) * 16];
                let (mut link, mut record) = (given.clone(), blank.clone());
                let answer = link.step(kind, argument, &rows, &mut record);
                met[usize::from(number(&answer))] = true;
                assert!(link.sound(), "round {round}: {kind} {argument}");
                let added = answer.unwrap_or_default();
                if answer.is_err() {
                    assert!(link == given && record == blank, "round {round}: {kind} {argument}");
                } else {
                    let sent = rise(given.mat.next, link.mat.next);
                    let acknowledged = rise(given.mat.oldest, link.mat.oldest);
                    let recorded = rise(given.pad.wanted, link.pad.wanted);
                    assert_eq!(added.rows(), counts(sent, acknowledged, recorded));
                    assert_eq!(record[added.recorded * 16..], blank[added.recorded * 16..]);
                }
                let (mut again, mut space, mut answers) = (given.clone(), blank.clone(), [77, 77]);
                let ran = again.run(&[kind, argument], &rows, &mut space, &mut answers);
                assert!(again == link && space == record);
                assert_eq!((ran, answers), (Ok(added), [number(&answer), 77]));
            }
        }
    }
    for expected in [0, 8, 9, 10, 11, 13, 14, 15, 16, 17, 18, 19, 20, 21] {
        assert!(met[expected], "answer {expected} never came");
    }
}

/// Changes of the link below, each of which breaks one clause of question 4.
const BROKEN: [fn(&mut Link); 32] = [
    |link| link.limits.window = 0,
    |link| link.limits.window = 33,
    |link| link.limits.data_life = 0,
    |link| link.limits.reply_life = 251,
    |link| link.limits.reply_wait = 0,
    |link| link.limits.resend_wait = 0,
    |link| link.limits.resend_wait = 15, // the sum less 3
    |link| link.limits.resend_wait = 1001,
    |link| link.mat.oldest = 6,
    |link| link.mat.next = 6,
    |link| link.mat.next = 255,
    |link| link.pad.wanted = 6,
    |link| link.mat.next = 2,         // 4 outstanding
    |link| link.mat.marked[1] = true, // the oldest
    |link| link.mat.next = 5,         // the mark of row 5 stays
    |link| link.mat.timers[0] = 20,
    |link| link.pad.timers[2] = 8,
    |link| link.data.count = 33,
    |link| link.replies.count = 33,
    |link| link.data.messages[1].life = 6,
    |link| link.data.messages[0].life = 0,
    |link| link.replies.messages[1].life = 0,
    |link| link.replies.messages[0].life = 7,
    |link| link.data.messages[1].number = 6,
    |link| link.replies.messages[1].last = 6,
    |link| link.replies.messages[0].last = 2, // span 4
    |link| link.data.messages[1].row[15] = 4096,
    |link| link.data.messages[0].row[0] = 65_534,
    |link| link.mat.rows[0][0] = 4096,
    |link| link.mat.rows[2][15] = 65_534, // marked
    |link| link.pad.rows[1][7] = 4096,
    |link| link.pad.rows[1][8] = 65_534,
];

/// Changes of what question 4 does not look at, or lets pass.
const FREE: [fn(&mut Link); 15] = [
    |link| link.limits.resend_wait = 16, // the sum less 2
    |link| link.mat.marked[3] = true,
    |link| link.mat.timers[3] = 65535,
    |link| link.pad.timers[31] = 65535,
    |link| link.mat.rows[3][0] = 4096,
    |link| link.mat.rows[3][0] = 65_534,
    |link| link.pad.rows[0][0] = 4096,
    |link| link.pad.rows[0][0] = 65_534,
    |link| link.data.messages[2].row[0] = 65_534,
    |link| link.mat.rows[0] = [TORN_CELL; CELLS],
    |link| link.pad.rows[1][7] = TORN_CELL,
    |link| link.data.messages[1].row[15] = TORN_CELL,
    |link| link.data.messages[2].life = 65535,
    |link| link.replies.messages[2].first = 255,
    |link| link.pad.wanted = 5,
];

/// One clause of question 4 broken at a time: both calls answer 4 and change nothing.
#[test]
fn question_4_clause_by_clause() {
    let (_, mut good) = Link::open(limits(3, 5, 6, 7, 19));
    (good.mat.oldest, good.mat.next, good.pad.wanted) = (4, 1, 2); // rows 4, 5, 0 outstanding, places 1, 2, 0
    good.mat.marked[2] = true;
    good.pad.held[1] = true;
    good.data.count = 2;
    good.data.messages[1].life = 5;
    good.data.messages[0].life = 1;
    good.replies.count = 2;
    good.replies.messages[0] = Reply { first: 5, last: 1, life: 6 };
    good.replies.messages[1] = Reply { first: 0, last: 0, life: 1 };
    assert!(good.sound());
    for (at, change) in BROKEN.iter().enumerate() {
        let mut link = good.clone();
        change(&mut link);
        let given = link.clone();
        let (mut record, mut answers) = ([3; 16], [3; 1]);
        assert_eq!(link.step(8, 1, &[], &mut record), Err(Refusal::Unsound), "clause {at}");
        assert_eq!(link.run(&[8, 1], &[], &mut record, &mut answers), Err(Refusal::Unsound), "clause {at}");
        assert!(link == given && record == [3; 16] && answers == [3], "clause {at}");
    }
    for (at, change) in FREE.iter().enumerate() {
        let mut link = good.clone();
        change(&mut link);
        assert!(link.sound(), "free value {at}");
    }
}
