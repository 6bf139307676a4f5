//! A run as a message sequence chart: the mat on the left, the pad on the right, one step downward for each event.
//!
//! Words stand outside the two lines of mat and pad, where no message passes, and each event has its own height, so that no
//! text meets another.

use crate::run::{End, Fact, Kind, Message, Run, Step};
use crate::story::{carried, count, pair, refusal, short};
use crate::svg::{Anchor, Picture, BLACK, GREEN, GREY, LIGHT};
use crate::text;

const WIDTH: usize = 960;
const MAT: usize = 316;
const PAD: usize = 556;
/// Where the numbers of lines end and the events begin.
const EVENT: usize = 46;
/// Between a line and its words.
const GAP: usize = 12;
/// Between a line and the head of an arrow, which leaves room for a mark on the line.
const HEAD: usize = 6;
/// The height of the names of mat and pad, of the first event, and from one event to the next.
const NAMES: usize = 128;
const TOP: usize = 160;
const STEP: usize = 22;

const TEXT: usize = 12;
/// The longest reasons fit into the space beside the pad in this size.
const REASON: usize = 11;

fn height_of(step: usize) -> usize {
    TOP + step * STEP
}

/// `5 (1)`, `4-6 (0-2)`: rows, and in brackets their numbers modulo 2w
fn named(run: &Run, message: usize) -> String {
    let (first, last) = carried(run, message);
    format!("{} ({})", pair(run.messages[message].first, run.messages[message].last), pair(first, last))
}

fn side(kind: Kind) -> usize {
    match kind {
        Kind::Data => MAT,
        Kind::Reply => PAD,
    }
}

/// Where the lines of `count` messages from one side end: the older one has gone further, so that they do not cross, and a single
/// one more than half of the way, so that the line of the next message passes by its cross.
fn ends(count: usize, from: usize, to: usize) -> Vec<usize> {
    let part = |n: usize| count + 1 - n;
    (0..count).map(|n| (from * (count + 2 - part(n)) + to * part(n)) / (count + 2)).collect()
}

/// The messages that end, other than by arriving, at the same step. Each gets a place of its own between mat and pad.
fn stopped(run: &Run, picture: &mut Picture, step: Option<usize>, y: usize) {
    let stops = |m: &&Message| match m.end {
        Some((_, End::Arrived)) => false,
        Some((at, _)) => step == Some(at),
        None => step.is_none(),
    };
    let (data, replies): (Vec<&Message>, Vec<&Message>) =
        run.messages.iter().filter(stops).partition(|m| m.kind == Kind::Data);
    // where there are both, each kind has its share of the width, so that no mark touches another
    let all = (data.len() + replies.len()).max(1);
    let border = MAT + (PAD - MAT) * data.len() / all;
    let places = ends(data.len(), MAT, border).into_iter().chain(ends(replies.len(), PAD, border));
    for (message, x) in data.into_iter().chain(replies).zip(places) {
        picture.message((side(message.kind), height_of(message.sent)), (x, y), message.kind == Kind::Reply, false);
        match message.end {
            Some(_) => picture.cross((x, y)),
            None => picture.circle((x, y), 3, "white", BLACK),
        }
    }
}

fn arrived(run: &Run, picture: &mut Picture) {
    for message in &run.messages {
        let Some((step, End::Arrived)) = message.end else { continue };
        let from = (side(message.kind), height_of(message.sent));
        let to = match message.kind {
            Kind::Data => PAD - HEAD,
            Kind::Reply => MAT + HEAD,
        };
        picture.message(from, (to, height_of(step)), message.kind == Kind::Reply, true);
    }
}

/// The words of a tick: the time since the opening, and what died.
fn ticked(run: &Run, time: usize, died: &[usize]) -> String {
    let of = |kind: Kind| died.iter().filter(|m| run.messages[**m].kind == kind).count();
    let mut parts = vec![format!("time {time}")];
    if of(Kind::Data) > 0 {
        parts.push(format!("{} died", count(of(Kind::Data), "data message", "data messages")));
    }
    if of(Kind::Reply) > 0 {
        parts.push(format!("{} died", count(of(Kind::Reply), "reply", "replies")));
    }
    parts.join(", ")
}

/// The mark of an event and its words, beside the end at which it happens.
fn happened(run: &Run, picture: &mut Picture, step: &Step, y: usize, time: usize) {
    let (mut left, mut right) = (None, None);
    match &step.fact {
        Fact::Refused(answer) => {
            return picture.text((PAD + GAP, y), Anchor::Start, REASON, GREY, &refusal(*answer));
        }
        Fact::Sent { message, again: false } => left = Some(format!("row {}", named(run, *message))),
        Fact::Sent { message, again: true } => left = Some(format!("row {} again", named(run, *message))),
        Fact::Held { message, again } => {
            picture.square((PAD, y), "white");
            right = Some(format!("row {} held{}", named(run, *message), if *again { " again" } else { "" }));
        }
        Fact::Old { reply, .. } => right = Some(format!("reply {}: an old row", named(run, *reply))),
        Fact::Recorded { reply } => {
            picture.square((PAD, y), GREEN);
            right = Some(format!("reply {}: recorded", named(run, *reply)));
        }
        Fact::Acknowledged { rows, .. } => {
            picture.circle((MAT, y), 4, GREEN, GREEN);
            let rows: Vec<(usize, bool)> = rows.iter().map(|row| (*row, false)).collect();
            left = Some(format!("acknowledged {}", short(&rows, "")));
        }
        Fact::Lost { message } if run.messages[*message].kind == Kind::Data => {
            left = Some(format!("row {} lost", named(run, *message)));
        }
        Fact::Lost { message } => right = Some(format!("reply {} lost", named(run, *message))),
        Fact::Ticked { died, .. } => {
            picture.line((MAT, y), (PAD, y), LIGHT, " stroke-dasharray=\"2 4\"");
            right = Some(ticked(run, time, died));
        }
    }
    if let Some(words) = left {
        picture.text((MAT - GAP, y), Anchor::End, TEXT, BLACK, &words);
    }
    if let Some(words) = right {
        picture.text((PAD + GAP, y), Anchor::Start, TEXT, BLACK, &words);
    }
}

/// A sample of each shape with its meaning, in two lines.
fn legend(picture: &mut Picture) {
    let [a, b, c, d] = [20, 250, 480, 710];
    let (upper, lower) = (66, 90);
    picture.message((a, upper), (a + 30, upper), false, true);
    picture.message((b, upper), (b + 30, upper), true, true);
    picture.cross((c + 6, upper));
    picture.circle((d + 6, upper), 3, "white", BLACK);
    picture.circle((a + 15, lower), 4, GREEN, GREEN);
    picture.square((b + 15, lower), "white");
    picture.square((c + 6, lower), GREEN);
    for (x, y, words) in [
        (a + 40, upper, "data message"),
        (b + 40, upper, "reply"),
        (c + 20, upper, "lost, or died at a tick"),
        (d + 20, upper, "in the air at the end"),
        (a + 40, lower, "rows acknowledged"),
        (b + 40, lower, "row held"),
        (c + 20, lower, "rows recorded"),
        (d, lower, "5 (1): row 5 under number 1"),
    ] {
        picture.text((x, y), Anchor::Start, TEXT, BLACK, words);
    }
    picture.text((d, NAMES), Anchor::Start, TEXT, GREY, "grey: a refused event");
}

fn heading(picture: &mut Picture, name: &str, limits: &[u16; 5]) {
    let [window, data_life, reply_life, reply_wait, resend_wait] = limits;
    let lives = format!("data life {data_life}, reply life {reply_life}");
    let said = format!("window {window}, {lives}, reply wait {reply_wait}, resend wait {resend_wait}");
    picture.text((20, 18), Anchor::Start, 16, BLACK, name);
    picture.text((20, 40), Anchor::Start, TEXT, BLACK, &said);
}

/// The chart of a run. The name is that of the ride.
pub fn drawn(name: &str, run: &Run) -> String {
    let mut picture = Picture::default();
    let bottom = height_of(run.steps.len());
    heading(&mut picture, name, &run.limits());
    legend(&mut picture);
    picture.text((EVENT, NAMES), Anchor::Start, TEXT, BLACK, "event, after its line");
    for (x, end) in [(MAT, "mat"), (PAD, "pad")] {
        picture.text((x, NAMES), Anchor::Middle, 14, BLACK, end);
        picture.line((x, NAMES + 12), (x, bottom + 8), BLACK, "");
    }
    arrived(run, &mut picture);
    let mut time = 0;
    for (n, step) in run.steps.iter().enumerate() {
        let y = height_of(n);
        if let Fact::Ticked { ticks, .. } = step.fact {
            time += usize::from(ticks);
        }
        let colour = if matches!(step.fact, Fact::Refused(_)) { GREY } else { BLACK };
        picture.text((EVENT - 8, y), Anchor::End, REASON, GREY, &step.event.line.to_string());
        picture.text((EVENT, y), Anchor::Start, TEXT, colour, &text::name(step.event.kind, step.event.argument));
        stopped(run, &mut picture, Some(n), y);
        happened(run, &mut picture, step, y, time);
    }
    stopped(run, &mut picture, None, bottom);
    picture.file(WIDTH, bottom + 24, name)
}

/// The chart of a ride whose opening was refused.
pub fn drawn_refused(name: &str, limits: &[u16; 5], answer: u8) -> String {
    let mut picture = Picture::default();
    heading(&mut picture, name, limits);
    let reason = format!("the opening is {}", refusal(answer));
    picture.text((20, 66), Anchor::Start, TEXT, GREY, &reason);
    picture.file(WIDTH, 84, name)
}
