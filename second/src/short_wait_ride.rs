//! The list of `short_wait` as a ride in words, with what each event does on ends that question 3 was not put to.

use crate::built::{Data, Link};
use crate::compare::Case;
use crate::limits::{Limits, CELLS};
use crate::ride_text::{text, words};
use crate::short::Event;
use crate::short_wait::{events, premises, Unasked};

/// Where the comments begin.
const COLUMN: usize = 20;

/// The text of a .ride file, or what is wrong with the limits. Its opening is refused, so what it does stands in comments.
pub fn ride(limits: Limits) -> Result<String, String> {
    premises(&limits)?;
    let supply: Vec<u16> = (0..2 * limits.window * CELLS).map(|at| (at / CELLS) as u16).collect();
    let head = Case { limits, record: supply.clone(), supply, calls: vec![] };
    let mut lines = vec![about(&limits), text(&head), String::new()];
    let mut ends = Unasked::fresh(limits);
    for event in events(&limits) {
        let before = ends.clone();
        let comment = match ends.put(event, &head.supply) {
            Ok(_) => comment(event, &before, &ends),
            Err(refusal) => format!("refused {}", refusal as u8),
        };
        lines.push(format!("{:COLUMN$}# {comment}", words(event.0, event.1)));
    }
    Ok(lines.join("\n") + "\n")
}

/// What the ride is.
fn about(limits: &Limits) -> String {
    let (end, sum, wait) = (2 * limits.window, limits.sum(), limits.resend_wait);
    format!(
        "# A resend wait that is too short: row 0 is sent again while its reply is in the air, and recorded again, as row {end}.\n\
         # The opening refuses it with 3: the three times add up to {sum}, and the resend wait is {wait}, the sum less {}.\n\
         # The comments say what each event would do on ends that did not ask question 3.",
        sum - wait
    )
}

/// What an event of the list did. The cells of row m are m, so each message and each recorded row shows which row it is.
fn comment((kind, argument): Event, before: &Unasked, after: &Unasked) -> String {
    match kind {
        1 => sent(after),
        2 => sent_again(before, after),
        3 => held(before, usize::from(argument)),
        4 => recorded(before, after),
        5 => acknowledged(before, after),
        _ => passed(after),
    }
}

/// The data message that was put last.
fn newest(ends: &Unasked) -> &Data {
    ends.link.data.all().last().expect("a message was put")
}

/// The resend timer of the row with this number.
fn resend_timer(link: &Link, number: usize) -> u16 {
    link.mat.timers[number % link.limits.window]
}

fn sent(after: &Unasked) -> String {
    let Data { number, row, .. } = newest(after);
    let timer = resend_timer(&after.link, usize::from(*number));
    format!("row {} goes out as number {number}; its resend timer is {timer}", row[0])
}

/// Each reply of the list is for one row.
fn sent_again(before: &Unasked, after: &Unasked) -> String {
    let Data { number, row, .. } = newest(after);
    let replied = before.link.replies.all().iter().any(|reply| reply.first == *number);
    format!("row {} goes out again{}", row[0], if replied { ", although its reply is in the air" } else { "" })
}

/// Each arrival of the list is held, as the row that its number stands for at the pad.
fn held(before: &Unasked, place: usize) -> String {
    let Data { number, row, .. } = before.link.data.all()[place];
    let (ring, wanted) = (2 * before.link.limits.window, usize::from(before.link.pad.wanted));
    let taken_for = before.total.recorded + (usize::from(number) + ring - wanted) % ring;
    if taken_for == usize::from(row[0]) {
        format!("row {taken_for} is held")
    } else {
        format!("number {number} is row {}, and is held as row {taken_for}", row[0])
    }
}

fn recorded(before: &Unasked, after: &Unasked) -> String {
    let (at, wanted, sent) = (before.total.recorded, after.total.recorded, after.total.sent);
    let row = after.record[at * CELLS];
    if usize::from(row) == at {
        format!("row {row} is recorded; the pad wants row {wanted}")
    } else {
        format!("row {row} is recorded as row {at}: {wanted} rows recorded, {sent} sent")
    }
}

fn acknowledged(before: &Unasked, after: &Unasked) -> String {
    let row = before.total.acknowledged;
    let in_the_air = after.link.data.all().iter().any(|message| usize::from(message.row[0]) == row);
    format!("row {row} is acknowledged{}", if in_the_air { "; a message of it is still in the air" } else { "" })
}

/// Time passes while the oldest row is the only one that was sent: in the air, as a reply in the air or held at the pad.
fn passed(after: &Unasked) -> String {
    let Unasked { link, total, .. } = after;
    let row = total.acknowledged;
    let timer = resend_timer(link, row);
    match (link.data.all(), link.replies.all()) {
        ([data], _) => format!("row {row} is still in the air with a life of {}; its resend timer is {timer}", data.life),
        (_, [reply]) => format!(
            "the reply for row {row} is still in the air with a life of {}; the resend timer of row {row} is {timer}",
            reply.life
        ),
        _ => {
            let reply_timer = link.pad.timers[row % link.limits.window];
            format!("row {row} is still held with a reply timer of {reply_timer}; its resend timer is {timer}")
        }
    }
}
