//! A run as a table of events and answers, as the library or a trial program gives them.

use crate::numbers;
use crate::run::{Fact, Run};
use crate::text::{self, Event, Ride};
use std::io::Write;
use std::process::{Command, Stdio};

/// The answers to the events, and the counts of rows sent, acknowledged and recorded.
pub struct Answers {
    pub list: Vec<u8>,
    pub counts: [usize; 3],
}

impl Answers {
    pub fn of(run: &Run) -> Answers {
        let answer = |fact: &Fact| if let Fact::Refused(answer) = fact { *answer } else { 0 };
        Answers { list: run.steps.iter().map(|step| answer(&step.fact)).collect(), counts: run.counts() }
    }
}

pub fn refused(answer: u8) -> String {
    format!("refused {answer}  {}\n", numbers::meaning(answer))
}

pub fn table(events: &[Event], answers: &Answers) -> String {
    let mut table = String::from("line  event                answer\n");
    for (event, answer) in events.iter().zip(&answers.list) {
        let meaning = if *answer == 0 { String::new() } else { format!("  {}", numbers::meaning(*answer)) };
        let event = format!("{:>4}  {:<20}", event.line, text::name(event.kind, event.argument));
        table.push_str(&format!("{event} {answer}{meaning}\n"));
    }
    let [sent, acknowledged, recorded] = answers.counts;
    table + &format!("sent {sent} acknowledged {acknowledged} recorded {recorded}\n")
}

/// What a trial program prints. It reads all of its input before it prints, so the input can be written first.
fn printed(program: &str, input: &[u8]) -> std::io::Result<String> {
    let mut child = Command::new(program).stdin(Stdio::piped()).stdout(Stdio::piped()).spawn()?;
    if let Some(mut stdin) = child.stdin.take() {
        stdin.write_all(input)?;
    }
    let output = child.wait_with_output()?;
    if !output.status.success() {
        return Err(std::io::Error::other(output.status.to_string()));
    }
    Ok(String::from_utf8_lossy(&output.stdout).into_owned())
}

/// The trial's last line: `sent 1 acknowledged 1 recorded 1`.
fn counts(line: &str) -> Option<[usize; 3]> {
    match line.split(' ').collect::<Vec<&str>>()[..] {
        ["sent", s, "acknowledged", a, "recorded", r] => Some([s.parse().ok()?, a.parse().ok()?, r.parse().ok()?]),
        _ => None,
    }
}

/// The trial's lines, or nothing if they do not fit the events. An `Err` is the number of a refusal.
fn answered(events: &[Event], output: &str) -> Option<Result<Answers, u8>> {
    let lines: Vec<&str> = output.lines().collect();
    let (last, lines) = lines.split_last()?;
    if let (Some(number), []) = (last.strip_prefix("refused "), lines) {
        return Some(Err(number.parse().ok()?));
    }
    let counts = counts(last)?;
    if lines.len() != events.len() {
        return None;
    }
    let answer = |(event, line): (&Event, &&str)| -> Option<u8> {
        line.strip_prefix(&format!("{} {} ", event.kind, event.argument))?.parse().ok()
    };
    let list = events.iter().zip(lines).map(answer).collect::<Option<Vec<u8>>>()?;
    Some(Ok(Answers { list, counts }))
}

/// The table by a trial program, or why there is none.
pub fn by_program(program: &str, ride: &Ride) -> Result<String, String> {
    let output = printed(program, &ride.bytes()).map_err(|e| format!("{program}: {e}"))?;
    match answered(&ride.events, &output) {
        Some(Ok(answers)) => Ok(table(&ride.events, &answers)),
        Some(Err(answer)) => Ok(refused(answer)),
        None => Err(format!("{program} printed something else than answers:\n{output}")),
    }
}
