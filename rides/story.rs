//! A run in words: for each event what it did, then the counts, the messages in the air, the outstanding and the held rows.

use crate::link::Account;
use crate::numbers;
use crate::run::{Fact, Kind, Run, State, Step};
use crate::text;

/// `row 5`, `rows 4 to 6`: numbers that follow each other on a ring or without end.
pub fn span(noun: &str, first: usize, last: usize) -> String {
    if first == last {
        format!("{noun} {first}")
    } else {
        format!("{noun}s {first} to {last}")
    }
}

/// The parts of a list in which each number is the next one, first and last.
fn runs(rows: &[usize]) -> Vec<(usize, usize)> {
    let mut runs: Vec<(usize, usize)> = vec![];
    for row in rows {
        match runs.last_mut() {
            Some((_, last)) if *last + 1 == *row => *last = *row,
            _ => runs.push((*row, *row)),
        }
    }
    runs
}

/// `row 5`, `rows 4 to 6`, `row 1, rows 3 to 4`
pub fn rows(rows: &[usize]) -> String {
    runs(rows).iter().map(|(first, last)| span("row", *first, *last)).collect::<Vec<String>>().join(", ")
}

/// `1 reply`, `2 replies`
pub fn count(n: usize, one: &str, more: &str) -> String {
    format!("{n} {}", if n == 1 { one } else { more })
}

/// The numbers modulo 2w that a message carries.
pub fn carried(run: &Run, message: usize) -> (usize, usize) {
    let message = &run.messages[message];
    (message.first % run.ring(), message.last % run.ring())
}

fn numbers_of(run: &Run, message: usize) -> String {
    let (first, last) = carried(run, message);
    span("number", first, last)
}

fn rows_of(run: &Run, message: usize) -> String {
    span("row", run.messages[message].first, run.messages[message].last)
}

fn oldest(state: &State) -> String {
    match state.outstanding.first() {
        Some((row, _)) => format!("the oldest outstanding row is row {row}"),
        None => "no row is outstanding".to_string(),
    }
}

/// What a tick did, beside the time that passed.
fn ticked(run: &Run, died: &[usize], may_resend: &[usize], too_late: &[usize]) -> Vec<String> {
    let of = |kind: Kind| -> Vec<usize> { died.iter().copied().filter(|m| run.messages[*m].kind == kind).collect() };
    let (data, replies) = (of(Kind::Data), of(Kind::Reply));
    let mut lines = vec![];
    if !data.is_empty() {
        let carried: Vec<usize> = data.iter().map(|m| run.messages[*m].first).collect();
        lines.push(format!("{} died: {}", count(data.len(), "data message", "data messages"), rows(&carried)));
    }
    if !replies.is_empty() {
        let covered: Vec<String> = replies.iter().map(|m| rows_of(run, *m)).collect();
        lines.push(format!("{} died: for {}", count(replies.len(), "reply", "replies"), covered.join(", ")));
    }
    if !may_resend.is_empty() {
        lines.push(format!("{} may be sent again", rows(may_resend)));
    }
    if !too_late.is_empty() {
        lines.push(format!("reply timer run out: {}", rows(too_late)));
    }
    lines
}

pub fn refusal(answer: u8) -> String {
    format!("refused {answer}: {}", numbers::meaning(answer))
}

/// What the event did: a line, and further ones where it did several things.
fn words(run: &Run, step: &Step) -> Vec<String> {
    let row = |m: &usize| rows_of(run, *m);
    let number = |m: &usize| numbers_of(run, *m);
    match &step.fact {
        Fact::Refused(answer) => vec![refusal(*answer)],
        Fact::Sent { message, again: false } => vec![format!("{} goes out as {}", row(message), number(message))],
        Fact::Sent { message, again: true } => vec![format!("{} goes out again as {}", row(message), number(message))],
        Fact::Held { message, again: false } => vec![format!("{} arrives and is held", row(message))],
        Fact::Held { message, again: true } => vec![format!("{} arrives, held already; reply timer restarts", row(message))],
        Fact::Old { message, reply } => vec![format!("{} arrives and is old; reply for {}", row(message), number(reply))],
        Fact::Recorded { reply } => vec![format!("{} recorded; reply for {}", row(reply), number(reply))],
        Fact::Acknowledged { reply, rows: new } => {
            let new = if new.is_empty() { "nothing new".to_string() } else { rows(new) };
            vec![format!("reply for {}: {new} acknowledged", number(reply)), oldest(&step.state)]
        }
        Fact::Lost { message } if run.messages[*message].kind == Kind::Data => {
            vec![format!("{} is lost in the air", row(message))]
        }
        Fact::Lost { message } => vec![format!("the reply for {} is lost in the air", number(message))],
        Fact::Ticked { ticks, died, may_resend, too_late } => {
            let mut lines = vec![count((*ticks).into(), "tick passes", "ticks pass")];
            lines.extend(ticked(run, died, may_resend, too_late));
            lines
        }
    }
}

/// Numbers as one word: `0-2,5`. Each with its mark, if it has one; only equal marks come together.
pub fn short(rows: &[(usize, bool)], mark: &str) -> String {
    let mut parts = vec![];
    for part in rows.chunk_by(|a, b| a.0 + 1 == b.0 && a.1 == b.1) {
        let mark = if part[0].1 { mark } else { "" };
        parts.push(pair(part[0].0, part[part.len() - 1].0) + mark);
    }
    if parts.is_empty() {
        "-".to_string()
    } else {
        parts.join(",")
    }
}

/// `5`, `4-6`
pub fn pair(first: usize, last: usize) -> String {
    if first == last {
        first.to_string()
    } else {
        format!("{first}-{last}")
    }
}

const ACKNOWLEDGED: &str = "+";
const TOO_LATE: &str = "*";

fn columns(state: &State) -> Vec<String> {
    let data: Vec<(usize, bool)> = state.data.iter().map(|row| (*row, false)).collect();
    let replies: Vec<String> = state.replies.iter().map(|(first, last)| pair(*first, *last)).collect();
    let mut columns: Vec<String> = state.counts.iter().map(usize::to_string).collect();
    columns.push(short(&data, ""));
    columns.push(if replies.is_empty() { "-".to_string() } else { replies.join(",") });
    columns.push(short(&state.outstanding, ACKNOWLEDGED));
    columns.push(short(&state.held, TOO_LATE));
    columns
}

/// The lines with each column but the last as wide as its widest entry. A refusal is one long entry and widens nothing.
fn aligned(lines: &[Vec<String>]) -> String {
    let longest = lines.iter().map(Vec::len).max().unwrap_or(0);
    let whole = |line: &&Vec<String>, at: usize| at + 1 < line.len();
    let width = |at: usize| lines.iter().filter(|l| whole(l, at)).map(|l| l[at].chars().count()).max().unwrap_or(0);
    let widths: Vec<usize> = (0..longest).map(width).collect();
    let mut text = String::new();
    for line in lines {
        let padded: Vec<String> = line.iter().zip(&widths).map(|(entry, width)| format!("{entry:<width$}")).collect();
        text.push_str(padded.join("  ").trim_end());
        text.push('\n');
    }
    text
}

const HEAD: [&str; 10] =
    ["line", "event", "what happened", "sent", "ack", "rec", "air: data", "replies", "outstanding", "held"];

/// The whole run.
pub fn told(run: &Run) -> String {
    let mut lines = vec![HEAD.map(str::to_string).to_vec()];
    for step in &run.steps {
        let mut words = words(run, step).into_iter();
        let event = text::name(step.event.kind, step.event.argument);
        let mut line = vec![format!("{:>4}", step.event.line), event];
        line.extend(words.next());
        if !matches!(step.fact, Fact::Refused(_)) {
            line.extend(columns(&step.state));
        }
        lines.push(line);
        lines.extend(words.map(|more| vec![String::new(), String::new(), more]));
    }
    let [sent, acknowledged, recorded] = run.counts();
    let counts = format!("sent {sent} acknowledged {acknowledged} recorded {recorded}\n");
    aligned(&lines) + &counts + &account(run) + &marks(run)
}

/// What became of the messages of each kind.
fn account(run: &Run) -> String {
    let of = |kind: Kind| {
        let (account, left) = run.account(kind);
        let Account { put, arrived, lost, dropped } = account;
        format!("{put} put in the air, {arrived} arrived, {lost} lost, {dropped} dropped by age, {left} left")
    };
    format!("data messages: {}; replies: {}\n", of(Kind::Data), of(Kind::Reply))
}

/// What the marks mean, where there are any.
fn marks(run: &Run) -> String {
    let mut text = String::new();
    if run.steps.iter().any(|step| step.state.outstanding.iter().any(|(_, acknowledged)| *acknowledged)) {
        text.push_str("+ acknowledged, and an older row is not\n");
    }
    if run.steps.iter().any(|step| step.state.held.iter().any(|(_, late)| *late)) {
        text.push_str("* held, and its reply timer has run out\n");
    }
    text
}
