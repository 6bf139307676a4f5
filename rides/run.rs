//! Puts the events of a ride to the link one by one and finds out from the link what each of them did.
//!
//! The link has numbers modulo 2w alone. Here rows have their true numbers, counted from what was sent, acknowledged and
//! recorded, and for each message in the air there is one in a list of the program's own. After each event the lists are
//! compared with the link's tables.

use crate::link::{Account, Counts, Link, CELLS};
use crate::text::{Event, Ride};

#[derive(Clone, Copy, PartialEq)]
pub enum Kind {
    Data,
    Reply,
}

#[derive(Clone, Copy, PartialEq)]
pub enum End {
    Arrived,
    Lost,
    Died,
}

/// A message about the rows from `first` to `last`, with the step that sent it and the one that ended it.
pub struct Message {
    pub kind: Kind,
    pub first: usize,
    pub last: usize,
    pub sent: usize,
    pub end: Option<(usize, End)>,
}

/// What an event did. A message is meant by its place in `Run::messages`, a row by its true number.
pub enum Fact {
    Refused(u8),
    Sent { message: usize, again: bool },
    Held { message: usize, again: bool },
    Old { message: usize, reply: usize },
    Recorded { reply: usize },
    Acknowledged { reply: usize, rows: Vec<usize> },
    Lost { message: usize },
    Ticked { ticks: u8, died: Vec<usize>, may_resend: Vec<usize>, too_late: Vec<usize> },
}

/// What stands after an event: the counts of rows sent, acknowledged and recorded; the rows and spans of rows in the air, oldest
/// first; the outstanding rows, and whether each is acknowledged; the held rows, and whether the reply timer of each has run out.
pub struct State {
    pub counts: [usize; 3],
    pub data: Vec<usize>,
    pub replies: Vec<(usize, usize)>,
    pub outstanding: Vec<(usize, bool)>,
    pub held: Vec<(usize, bool)>,
}

pub struct Step {
    pub event: Event,
    pub fact: Fact,
    pub state: State,
}

pub struct Run {
    link: Link,
    supply: Vec<u16>,
    record: Vec<u16>,
    counts: Counts,
    data: Vec<usize>,
    replies: Vec<usize>,
    pub messages: Vec<Message>,
    pub steps: Vec<Step>,
}

/// The run of the whole ride, or the number with which the opening was refused. The outer error says where the link shows
/// something else than the events amount to.
pub fn run(ride: &Ride) -> Result<Result<Run, u8>, String> {
    let link = match Link::open(ride.limits()) {
        Ok(link) => link,
        Err(answer) => return Ok(Err(answer)),
    };
    let supply = ride.cells.clone();
    let record = vec![0; supply.len()];
    let (counts, data, replies, messages, steps) = (Counts::default(), vec![], vec![], vec![], vec![]);
    let mut run = Run { link, supply, record, counts, data, replies, messages, steps };
    for event in &ride.events {
        run.put(event).map_err(|why| format!("line {}: {why}", event.line))?;
    }
    Ok(Ok(run))
}

impl Run {
    pub fn limits(&self) -> [u16; 5] {
        self.link.limits()
    }

    pub fn ring(&self) -> usize {
        2 * self.link.window()
    }

    /// The counts of rows sent, acknowledged and recorded.
    pub fn counts(&self) -> [usize; 3] {
        self.counts.rows
    }

    /// The account of a table, and how many of its messages are left in the air.
    pub fn account(&self, kind: Kind) -> (Account, usize) {
        match kind {
            Kind::Data => (self.counts.data, self.data.len()),
            Kind::Reply => (self.counts.replies, self.replies.len()),
        }
    }

    /// The rows recorded.
    pub fn recorded(&self) -> &[u16] {
        &self.record[..self.counts.rows[2] * CELLS]
    }

    fn put(&mut self, event: &Event) -> Result<(), String> {
        let (before, counts) = (self.link.clone(), self.counts.rows);
        let [sent, _, recorded] = counts.map(|count| count * CELLS);
        let (answer, more) = self.link.step(event.kind, event.argument, &self.supply[sent..], &mut self.record[recorded..]);
        self.counts.add(more);
        let fact = if answer == 0 { self.fact(event, &before, counts)? } else { Fact::Refused(answer) };
        self.check()?;
        let state = self.state();
        self.steps.push(Step { event: *event, fact, state });
        Ok(())
    }

    fn fact(&mut self, event: &Event, before: &Link, counts: [usize; 3]) -> Result<Fact, String> {
        let [sent, acknowledged, recorded] = counts;
        let place = usize::from(event.argument);
        match event.kind {
            1 => Ok(Fact::Sent { message: self.add(Kind::Data, sent, sent), again: false }),
            2 => Ok(Fact::Sent { message: self.add(Kind::Data, acknowledged + place, acknowledged + place), again: true }),
            3 => self.arrival(place, before),
            4 if self.counts.rows[2] == recorded => Err("a reply is answered with 0, and no row is recorded".to_string()),
            4 => Ok(Fact::Recorded { reply: self.add(Kind::Reply, recorded, self.counts.rows[2] - 1) }),
            5 => self.acknowledgment(place, before, counts),
            6 => Ok(Fact::Lost { message: self.leave(Kind::Data, place, End::Lost)? }),
            7 => Ok(Fact::Lost { message: self.leave(Kind::Reply, place, End::Lost)? }),
            8 => self.tick(event.argument, before),
            kind => Err(format!("an event of kind {kind} is answered with 0")),
        }
    }

    fn list(&mut self, kind: Kind) -> &mut Vec<usize> {
        match kind {
            Kind::Data => &mut self.data,
            Kind::Reply => &mut self.replies,
        }
    }

    fn add(&mut self, kind: Kind, first: usize, last: usize) -> usize {
        let (message, sent) = (self.messages.len(), self.steps.len());
        self.messages.push(Message { kind, first, last, sent, end: None });
        self.list(kind).push(message);
        message
    }

    fn leave(&mut self, kind: Kind, place: usize, end: End) -> Result<usize, String> {
        let list = self.list(kind);
        if place >= list.len() {
            return Err(format!("a message leaves place {place}, and by the events there are {}", list.len()));
        }
        let message = list.remove(place);
        self.messages[message].end = Some((self.steps.len(), end));
        Ok(message)
    }

    /// The cells of a row of the supply.
    fn row(&self, row: usize) -> Option<&[u16]> {
        self.supply.chunks(CELLS).nth(row)
    }

    /// An old row is answered at once, so that there is one reply more. Any other row is held.
    fn arrival(&mut self, place: usize, before: &Link) -> Result<Fact, String> {
        let message = self.leave(Kind::Data, place, End::Arrived)?;
        let row = self.messages[message].first;
        if self.link.replies().len() > before.replies().len() {
            return Ok(Fact::Old { message, reply: self.add(Kind::Reply, row, row) });
        }
        let (held, timer, cells) = self.link.held(row);
        let (recorded, reply_wait) = (self.counts.rows[2], self.limits()[3]);
        let awaited = (recorded..recorded + self.link.window()).contains(&row);
        if !held || !awaited || timer != reply_wait || self.row(row) != Some(cells) {
            return Err(format!("row {row} arrives, and the link neither answers it nor holds it as that row"));
        }
        Ok(Fact::Held { message, again: before.held(row).0 })
    }

    /// The rows that were outstanding without an acknowledgment and now have one, or are no longer outstanding.
    fn acknowledgment(&mut self, place: usize, before: &Link, counts: [usize; 3]) -> Result<Fact, String> {
        let reply = self.leave(Kind::Reply, place, End::Arrived)?;
        let now = |row: usize| row < self.counts.rows[1] || self.link.kept(row).0;
        let rows = (counts[1]..counts[0]).filter(|row| !before.kept(*row).0 && now(*row)).collect();
        Ok(Fact::Acknowledged { reply, rows })
    }

    fn tick(&mut self, ticks: u8, before: &Link) -> Result<Fact, String> {
        let mut died = vec![];
        for (kind, table) in [(Kind::Data, before.data()), (Kind::Reply, before.replies())] {
            // from the end, so that the places before stay what they are
            for place in (0..table.len()).rev().filter(|place| table[*place][0] <= ticks.into()) {
                died.push(self.leave(kind, place, End::Died)?);
            }
        }
        died.sort();
        let [sent, acknowledged, recorded] = self.counts.rows;
        let ran_out = |row: &usize| !before.kept(*row).0 && before.kept(*row).1 > 0 && self.link.kept(*row).1 == 0;
        let late = |row: &usize| before.held(*row).0 && before.held(*row).1 > 0 && self.link.held(*row).1 == 0;
        let may_resend = (acknowledged..sent).filter(ran_out).collect();
        let too_late = (recorded..recorded + self.link.window()).filter(late).collect();
        Ok(Fact::Ticked { ticks, died, may_resend, too_late })
    }

    /// Lists and counts of the program are those of the link, and the record is the front of the supply.
    fn check(&self) -> Result<(), String> {
        let (data, replies, ring) = (self.link.data(), self.link.replies(), self.ring());
        if data.len() != self.data.len() || replies.len() != self.replies.len() {
            let (d, r) = (self.data.len(), self.replies.len());
            let shown = format!("the link shows {} data messages and {} replies", data.len(), replies.len());
            return Err(format!("{shown}, and by the events there are {d} and {r}"));
        }
        let numbers = |m: &usize| [self.messages[*m].first % ring, self.messages[*m].last % ring];
        let row = |m: &usize| self.row(self.messages[*m].first);
        let same_data =
            |(m, shown): (&usize, &&[u16])| usize::from(shown[1]) == numbers(m)[0] && Some(&shown[2..]) == row(m);
        let same_reply = |(m, shown): (&usize, &&[u16])| [shown[1], shown[2]].map(usize::from) == numbers(m);
        if !self.data.iter().zip(&data).all(same_data) || !self.replies.iter().zip(&replies).all(same_reply) {
            return Err("the link shows other messages in the air than the events amount to".to_string());
        }
        let [sent, acknowledged, recorded] = self.counts.rows;
        if self.link.numbers() != [acknowledged, sent, recorded].map(|count| count % ring) {
            return Err("the link's numbers are not its counts modulo 2w".to_string());
        }
        for kind in [Kind::Data, Kind::Reply] {
            if self.account(kind).0 != self.own_account(kind) {
                return Err("the link's account of the air is not that of the events".to_string());
            }
        }
        let (all, part) = (self.supply.len(), recorded * CELLS);
        if sent * CELLS > all || part > all || self.record[..part] != self.supply[..part] {
            return Err("the record is not the front of the supply".to_string());
        }
        Ok(())
    }

    /// The account by the program's own messages.
    fn own_account(&self, kind: Kind) -> Account {
        let all: Vec<&Message> = self.messages.iter().filter(|message| message.kind == kind).collect();
        let by = |end: End| all.iter().filter(|message| message.end.is_some_and(|(_, how)| how == end)).count();
        Account { put: all.len(), arrived: by(End::Arrived), lost: by(End::Lost), dropped: by(End::Died) }
    }

    fn state(&self) -> State {
        let [sent, acknowledged, recorded] = self.counts.rows;
        let span = |m: &usize| (self.messages[*m].first, self.messages[*m].last);
        let held = |row: usize| self.link.held(row).0.then(|| (row, self.link.held(row).1 == 0));
        State {
            counts: self.counts.rows,
            data: self.data.iter().map(|m| span(m).0).collect(),
            replies: self.replies.iter().map(span).collect(),
            outstanding: (acknowledged..sent).map(|row| (row, self.link.kept(row).0)).collect(),
            held: (recorded..recorded + self.link.window()).filter_map(held).collect(),
        }
    }
}
