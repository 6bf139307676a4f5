//! Random links such as a caller can make up, the same for the same seed.

use crate::built::{Data, Link, Reply};
use crate::draw::random_wait;
use crate::draw_cells::{random_row, ILLEGAL_EDGES};
use crate::limits::{Limits, CELLS, LARGEST_WINDOW, TABLE_PLACES};
use crate::random::Random;

/// Kinds of events, now and then one that there is not.
pub fn random_kind(random: &mut Random) -> u8 {
    if random.once_in(40) {
        random.one_of(&[0, 9, 255])
    } else {
        1 + random.below(8) as u8
    }
}

/// Limits that pass questions 1 to 3, with long times as often as short ones.
fn good_limits(random: &mut Random) -> Limits {
    let most = random.one_of(&[1, 2, 4, LARGEST_WINDOW]);
    let window = if random.once_in(4) { most } else { 1 + random.below(most) };
    let mut time = || match random.below(6) {
        0 => 1,
        1 => 250,
        2 => random.one_of(&[2, 3, 249]),
        _ => 1 + random.below(250) as u16,
    };
    let limits = Limits { window, data_life: time(), reply_life: time(), reply_wait: time(), resend_wait: 0 };
    Limits { resend_wait: random_wait(random, &limits), ..limits }
}

/// Any sound link: each field is drawn from all that question 4 lets pass, with anything at all where it does not look.
pub fn sound_link(random: &mut Random) -> Link {
    let limits = good_limits(random);
    link_of(random, limits)
}

/// A sound link, or now and then one with an illegal cell, or with a limit just beyond its edge that the rest of the link agrees
/// with: timers and lives are at most what that limit says, so that nothing else need be wrong.
pub fn drawn_link(random: &mut Random) -> Link {
    let mut limits = good_limits(random);
    match random.below(36) {
        0 => limits.window = random.one_of(&[0, 33]),
        1 => limits.data_life = random.one_of(&[0, 251]),
        2 => limits.reply_life = random.one_of(&[0, 251]),
        3 => limits.reply_wait = random.one_of(&[0, 251]),
        4 => limits.resend_wait = random.one_of(&[0, 1001]),
        5 => limits.resend_wait = limits.least_wait() - 1,
        _ => {}
    }
    if [limits.data_life, limits.reply_life, limits.reply_wait].contains(&251) {
        // enough for 251, 250 and 250
        limits.resend_wait = random.one_of(&[749, 1000]);
    }
    let mut link = link_of(random, limits);
    if random.once_in(24) {
        draw_illegal(random, &mut link);
    }
    link
}

/// The rest of a link with these limits.
fn link_of(random: &mut Random, limits: Limits) -> Link {
    let mut link = Link { limits, ..Link::default() };
    for place in 0..LARGEST_WINDOW {
        draw_place(random, &mut link, place);
    }
    draw_numbers(random, &mut link);
    let most = random.one_of(&[3, 33]);
    link.data.count = TABLE_PLACES - random.below(most);
    link.replies.count = TABLE_PLACES - random.below(most);
    // no message has a life of at most 0
    link.data.count *= usize::from(limits.data_life > 0);
    link.replies.count *= usize::from(limits.reply_life > 0);
    for place in 0..TABLE_PLACES {
        draw_messages(random, &mut link, place);
    }
    link
}

/// A timer: out, at its edge or in between.
fn timer(random: &mut Random, wait: u16) -> u16 {
    match random.below(4) {
        0 => 0,
        1 => wait.min(1),
        2 => wait,
        _ => random.below(usize::from(wait) + 1) as u16,
    }
}

/// One place of the mat and of the pad, with illegal cells where the pad holds no row.
fn draw_place(random: &mut Random, link: &mut Link, place: usize) {
    let Link { limits, mat, pad, .. } = link;
    let row = random_row(random);
    (mat.rows[place], pad.rows[place]) = (row, row);
    mat.timers[place] = timer(random, limits.resend_wait);
    pad.timers[place] = timer(random, limits.reply_wait);
    pad.held[place] = !random.once_in(3);
    if place >= limits.window {
        mat.marked[place] = random.once_in(2);
        mat.timers[place] = random.next() as u16;
        pad.timers[place] = random.next() as u16;
        mat.rows[place] = [ILLEGAL_EDGES[1]; CELLS];
    } else if !pad.held[place] {
        pad.rows[place] = [ILLEGAL_EDGES[1]; CELLS];
    }
}

/// A window for which a ring can be drawn.
fn window_of(link: &Link) -> usize {
    link.limits.window.clamp(1, LARGEST_WINDOW)
}

/// The numbers, marks on outstanding rows but the oldest, and illegal cells in rows that are not outstanding.
fn draw_numbers(random: &mut Random, link: &mut Link) {
    let w = window_of(link);
    let (oldest, outstanding) = (random.below(2 * w), random.below(w + 1));
    link.mat.oldest = oldest as u8;
    link.mat.next = ((oldest + outstanding) % (2 * w)) as u8;
    link.pad.wanted = random.below(2 * w) as u8;
    for k in 1..outstanding {
        link.mat.marked[(oldest + k) % w] = random.once_in(2);
    }
    for k in outstanding..w {
        link.mat.rows[(oldest + k) % w] = [ILLEGAL_EDGES[0]; CELLS];
    }
}

/// One place of each table: a message that passes question 4, or behind the count one that does not.
fn draw_messages(random: &mut Random, link: &mut Link, place: usize) {
    let (w, oldest) = (window_of(link), usize::from(link.mat.oldest));
    let mut life = |most: u16| 1 + timer(random, most.saturating_sub(1));
    let (data_life, reply_life) = (life(link.limits.data_life), life(link.limits.reply_life));
    let row = random_row(random);
    let number = random.below(2 * w) as u8;
    let none = Data { number: 255, life: 0, row: [ILLEGAL_EDGES[1]; CELLS] };
    link.data.messages[place] = if place < link.data.count { Data { number, life: data_life, row } } else { none };
    let first = if random.once_in(2) { random.below(2 * w) } else { oldest };
    let last = ((first + random.below(w)) % (2 * w)) as u8;
    let none = Reply { first: 255, last: 0, life: 0 };
    let reply = Reply { first: first as u8, last, life: reply_life };
    link.replies.messages[place] = if place < link.replies.count { reply } else { none };
}

/// An illegal cell in a row of the mat, of the pad or in the air. Question 4 looks at it where the row is outstanding, held or
/// that of a message.
fn draw_illegal(random: &mut Random, link: &mut Link) {
    let place = random.below(window_of(link));
    let message = random.below(link.data.count.max(1));
    let row = match random.below(3) {
        0 => &mut link.mat.rows[place],
        1 => &mut link.pad.rows[place],
        _ => &mut link.data.messages[message].row,
    };
    row[random.below(CELLS)] = random.one_of(&ILLEGAL_EDGES);
}
