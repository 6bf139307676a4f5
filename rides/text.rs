//! Reads the text of a ride. docs/RIDES.md describes it.

use crate::link::CELLS;
use crate::nearest;

/// What a torn cell reads.
const TORN: u16 = 65_535;

/// The trial counts its rows in one byte.
const MOST_ROWS: usize = 255;

/// The longest input that the trial takes.
const MOST_BYTES: usize = 40_960;

/// Bytes before the first row.
const HEADER: usize = 7;

/// The lines that set a limit, in the order of the trial's input, with the greatest number that fits there. The capital letter
/// stands for a number. Whether the number is allowed is for the trial to say.
const LIMITS: [(&str, u16); 5] =
    [("window N", 255), ("data life N", 255), ("reply life N", 255), ("reply wait N", 255), ("resend wait N", 65_535)];

/// The one limit that may be left out, which is a 0: the trial takes the shortest wait for it.
const RESEND_WAIT: usize = 4;

/// The lines that are events, with their kinds. An event without a number has argument 0.
pub const EVENTS: [(&str, u8); 8] = [
    ("send", 1),
    ("resend K", 2),
    ("data P arrives", 3),
    ("reply", 4),
    ("reply P arrives", 5),
    ("lose data P", 6),
    ("lose reply P", 7),
    ("tick D", 8),
];

/// The other lines.
const OTHERS: [&str; 4] = ["event N A", "rows N", "row C", "row C C .. C"];

/// Every line that a ride can have. Events come first: where a line is as near to one as to a limit, the event is named.
pub fn forms() -> Vec<&'static str> {
    let events = EVENTS.iter().map(|(form, _)| *form);
    events.chain(LIMITS.iter().map(|(form, _)| *form)).chain(OTHERS).collect()
}

#[derive(Clone, Copy)]
pub struct Event {
    pub line: usize,
    pub kind: u8,
    pub argument: u8,
}

/// What is wrong with a line.
pub struct Fault {
    pub line: usize,
    pub text: String,
}

/// All that is wrong with a text, and whether a line has no form that there is.
pub struct Faults {
    pub list: Vec<Fault>,
    pub unknown: bool,
}

#[derive(Default)]
pub struct Ride {
    limits: [Option<u16>; 5],
    pub cells: Vec<u16>,
    pub events: Vec<Event>,
    /// The line of the first event, which may have a fault of its own.
    begun: Option<usize>,
    unknown: bool,
}

/// Whether a word of a form stands for a number.
pub fn is_blank(word: &str) -> bool {
    word.bytes().all(|b| b.is_ascii_uppercase())
}

/// The event as a ride says it. A kind and an argument that no word says are given as numbers.
pub fn name(kind: u8, argument: u8) -> String {
    for (form, k) in EVENTS {
        let mut words: Vec<String> = form.split(' ').map(str::to_string).collect();
        let blank = words.iter().position(|word| is_blank(word));
        if k == kind && (blank.is_some() || argument == 0) {
            if let Some(at) = blank {
                words[at] = argument.to_string();
            }
            return words.join(" ");
        }
    }
    format!("event {kind} {argument}")
}

/// Whether the words have this form, and the word in the place of its capital letter, if it has one.
fn matched<'a>(form: &str, words: &[&'a str]) -> Option<Option<&'a str>> {
    let parts: Vec<&str> = form.split(' ').collect();
    let same = |(part, word): (&&str, &&str)| is_blank(part) || part == word;
    if parts.len() != words.len() || !parts.iter().zip(words).all(same) {
        return None;
    }
    Some(parts.iter().position(|part| is_blank(part)).map(|at| words[at]))
}

fn number(word: &str, most: u16) -> Result<u16, String> {
    let digits = word.bytes().all(|b| b.is_ascii_digit());
    match word.parse::<u16>() {
        Ok(n) if digits && n <= most => Ok(n),
        _ => Err(format!("`{word}` is not a whole number from 0 to {most}")),
    }
}

/// A cell: a number, or `torn`.
fn cell(word: &str) -> Result<u16, String> {
    if word == "torn" {
        return Ok(TORN);
    }
    number(word, u16::MAX).map_err(|_| format!("`{word}` is neither a whole number from 0 to {} nor `torn`", u16::MAX))
}

/// The line is one of these forms without its number.
fn lacks_number(words: &[&str]) -> Option<String> {
    let limits = LIMITS.iter().copied();
    let events = EVENTS.iter().map(|(form, _)| (*form, 255)).filter(|(form, _)| form.split(' ').any(is_blank));
    for (form, most) in limits.chain(events).chain([("rows N", 255)]) {
        if form.split(' ').filter(|word| !is_blank(word)).eq(words.iter().copied()) {
            return Some(format!("`{form}` lacks its number, which is a whole one from 0 to {most}"));
        }
    }
    None
}

fn byte(word: &str) -> Result<u8, String> {
    // `number` has held it to 255
    number(word, 255).map(|n| n as u8)
}

impl Ride {
    fn length(&self) -> usize {
        HEADER + 2 * self.cells.len() + 2 * self.events.len()
    }

    fn before_events(&self) -> Result<(), String> {
        match self.begun {
            None => Ok(()),
            Some(line) => Err(format!("limits and rows stand before the first event, which is in line {line}")),
        }
    }

    fn set_limit(&mut self, at: usize, word: &str) -> Result<(), String> {
        self.before_events()?;
        let (form, most) = LIMITS[at];
        if self.limits[at].is_some() {
            return Err(format!("a second line `{form}`"));
        }
        // a number that is refused counts as given, so that it is reported once
        self.limits[at] = Some(0);
        self.limits[at] = Some(number(word, most)?);
        Ok(())
    }

    fn add_rows(&mut self, rows: &[[u16; CELLS]]) -> Result<(), String> {
        self.before_events()?;
        let count = self.cells.len() / CELLS + rows.len();
        if count > MOST_ROWS {
            return Err(format!("the trial takes at most {MOST_ROWS} rows, and with this line there are {count}"));
        }
        self.cells.extend(rows.as_flattened());
        Ok(())
    }

    /// The row with number m gets sixteen cells of m.
    fn add_numbered(&mut self, word: &str) -> Result<(), String> {
        let from = (self.cells.len() / CELLS) as u16;
        let rows: Vec<[u16; CELLS]> = (0..number(word, 65_535)?).map(|i| [from.saturating_add(i); CELLS]).collect();
        self.add_rows(&rows)
    }

    fn add_row(&mut self, words: &[&str]) -> Result<(), String> {
        let cells = words.iter().map(|word| cell(word)).collect::<Result<Vec<u16>, String>>()?;
        match cells[..] {
            [cell] => self.add_rows(&[[cell; CELLS]]),
            _ => match <[u16; CELLS]>::try_from(cells) {
                Ok(row) => self.add_rows(&[row]),
                Err(cells) => Err(format!("a row has 16 cells, or one that stands for all 16; here are {}", cells.len())),
            },
        }
    }

    /// The first event ends the limits, even where it has a fault.
    fn add_event(&mut self, line: usize, event: Result<(u8, u8), String>) -> Result<(), String> {
        self.begun = self.begun.or(Some(line));
        let (kind, argument) = event?;
        self.events.push(Event { line, kind, argument });
        self.check_limits()?;
        let (before, now) = (self.length() - 2, self.length());
        if before <= MOST_BYTES && MOST_BYTES < now {
            return Err(format!("the trial takes at most {MOST_BYTES} bytes, and with this event there are {now}"));
        }
        Ok(())
    }

    /// All limits that have no default are there. Those that are missing are set, so that they are reported once.
    fn check_limits(&mut self) -> Result<(), String> {
        let missing: Vec<usize> = (0..RESEND_WAIT).filter(|at| self.limits[*at].is_none()).collect();
        let forms: Vec<String> = missing.iter().map(|at| format!("`{}`", LIMITS[*at].0)).collect();
        missing.iter().for_each(|at| self.limits[*at] = Some(0));
        if forms.is_empty() {
            Ok(())
        } else {
            Err(format!("before the events there is no line {}", forms.join(", ")))
        }
    }

    fn take(&mut self, line: usize, words: &[&str]) -> Result<(), String> {
        // first, since `resend wait` also has the form `resend K`
        if let Some(fault) = lacks_number(words) {
            return Err(fault);
        }
        for (at, (form, _)) in LIMITS.iter().enumerate() {
            if let Some(Some(word)) = matched(form, words) {
                return self.set_limit(at, word);
            }
        }
        for (form, kind) in EVENTS {
            if let Some(word) = matched(form, words) {
                return self.add_event(line, word.map_or(Ok(0), byte).map(|argument| (kind, argument)));
            }
        }
        match words {
            ["rows", n] => self.add_numbered(n),
            ["row", cells @ ..] => self.add_row(cells),
            ["event", kind, argument] => self.add_event(line, byte(kind).and_then(|kind| Ok((kind, byte(argument)?)))),
            _ => Err(self.no_line(words)),
        }
    }

    fn no_line(&mut self, words: &[&str]) -> String {
        self.unknown = true;
        let near = nearest::form(words, &forms()).map_or(String::new(), |form| format!("; the nearest is `{form}`"));
        format!("no line of a ride: `{}`{near}", words.join(" "))
    }

    /// Window, data life, reply life, reply wait, resend wait.
    pub fn limits(&self) -> [u16; 5] {
        self.limits.map(|limit| limit.unwrap_or(0))
    }

    /// The input of the trial.
    pub fn bytes(&self) -> Vec<u8> {
        let limit = |at: usize| self.limits()[at].to_le_bytes();
        let mut bytes: Vec<u8> = (0..RESEND_WAIT).map(|at| limit(at)[0]).collect();
        bytes.extend(limit(RESEND_WAIT));
        bytes.push((self.cells.len() / CELLS) as u8);
        bytes.extend(self.cells.iter().flat_map(|cell| cell.to_le_bytes()));
        bytes.extend(self.events.iter().flat_map(|event| [event.kind, event.argument]));
        bytes
    }
}

/// The ride, or all that is wrong with its text. A byte order mark in front is passed over.
pub fn read(text: &str) -> Result<Ride, Faults> {
    let mut ride = Ride::default();
    let mut list = vec![];
    let mut last = 1;
    for (at, line) in text.strip_prefix('\u{feff}').unwrap_or(text).lines().enumerate() {
        last = at + 1;
        let said = line.split('#').next().unwrap_or("");
        let words: Vec<&str> = said.split_whitespace().collect();
        if !words.is_empty() {
            list.extend(ride.take(last, &words).err().map(|text| Fault { line: last, text }));
        }
    }
    list.extend(ride.check_limits().err().map(|text| Fault { line: last, text }));
    if list.is_empty() {
        Ok(ride)
    } else {
        Err(Faults { list, unknown: ride.unknown })
    }
}
