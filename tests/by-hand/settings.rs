//! Prints the figures of docs/TIMERS.md that are marked "measured", in the words that stand there.
//!
//! From a setting a schedule of events is made, with the answer that the link should give to each. The trial, whose path is the
//! only argument, must print these answers and the counts, or nothing is printed here. Times are in microseconds.

use std::cmp::Reverse;
use std::collections::BinaryHeap;
use std::io::Write;
use std::ops::Range;
use std::process::{Command, Stdio};

const MS: u64 = 1000;
const SECOND: u64 = 1000 * MS;
/// The trial takes at most 255.
const ROWS: usize = 250;
/// The row that is lost where one is: late enough that as many rows are outstanding as ever are without a loss.
const LOST: usize = 60;
/// The clock stops here, for rides in which some row is never acknowledged.
const END: u64 = 10 * SECOND;
/// The two tables of messages. Delays and lives are in the same order.
const DATA: usize = 0;
const REPLIES: usize = 1;

#[derive(Clone, Default)]
struct Setting {
    tick: u64,
    delay: [u64; 2],
    /// The interval of the pad's replies, the first after half of it; 0: it replies at each arrival.
    hold: u64,
    /// The interval of the rows.
    interval: u64,
    window: usize,
    life: [u64; 2],
    reply_wait: u64,
    resend_wait: u64,
    /// When row 0 is there.
    first: u64,
    /// At equal times the tick comes last instead of first.
    tick_last: bool,
    /// The rows whose first sending is lost.
    lost: Vec<usize>,
    /// All messages sent in this interval are lost.
    away: Range<u64>,
    /// After a resend the mat sends no new row until none is outstanding.
    pauses: bool,
}

impl Setting {
    /// 50 rows per second, and the limits that docs/TIMERS.md says for them.
    fn new(tick: u64, delay: u64, hold: u64) -> Self {
        let ticks = |time: u64| time.div_ceil(tick) + 1;
        let (interval, delay, life, reply_wait) = (SECOND / 50, [delay; 2], [ticks(delay); 2], ticks(hold));
        let resend_wait = life[DATA] + life[REPLIES] + reply_wait - 2;
        let new = Setting { tick, delay, hold, interval, life, reply_wait, resend_wait, ..Setting::default() };
        Setting { window: (resend_wait * tick + 2 * new.round_trip()).div_ceil(interval) as usize, ..new }
    }

    /// When a row is there to be sent.
    fn there(&self, row: usize) -> u64 {
        self.first + row as u64 * self.interval
    }

    /// A row is recorded within this time if nothing is lost.
    fn usual(&self) -> u64 {
        self.delay[DATA] + self.hold
    }

    fn round_trip(&self) -> u64 {
        self.usual() + self.delay[REPLIES]
    }
}

/// The events of docs/RULES.md.
#[derive(Clone, Copy)]
enum Kind { Send = 1, Resend, DataArrives, Reply, ReplyArrives, LoseData, LoseReply, Tick }

/// What the schedule waits for, in the order in which it comes at equal times.
#[derive(Clone, Copy, PartialEq, Eq, PartialOrd, Ord)]
enum Wait { FirstTick, Data, Reply, ReplyArrival, Row, LastTick }

#[derive(Default)]
struct Schedule {
    setting: Setting,
    queue: BinaryHeap<Reverse<(u64, Wait, usize)>>,
    queued: usize,
    now: u64,
    ticks: u64,
    /// Kind, argument, expected answer.
    events: Vec<[u8; 3]>,
    sent: usize,
    oldest: usize,
    acknowledged: Vec<bool>,
    /// For each row the tick at which its resend timer, or its reply timer, is 0.
    resend: Vec<u64>,
    held: Vec<u64>,
    pausing: bool,
    /// For each message its id, its rows and the tick that ends its life.
    air: [Vec<(usize, Range<usize>, u64)>; 2],
    /// For each recorded row how long it took from being there.
    taken: Vec<u64>,
    /// How many messages were dropped by age.
    dropped: usize,
}

impl Schedule {
    fn new(setting: Setting) -> Self {
        let (tick, hold, rows) = (setting.tick, setting.hold, vec![0; ROWS]);
        let mut new = Schedule { acknowledged: vec![false; ROWS], resend: rows.clone(), held: rows, ..Schedule::default() };
        let order = if setting.tick_last { Wait::LastTick } else { Wait::FirstTick };
        (1..END / tick).for_each(|n| new.wait(n * tick, order));
        (0..ROWS).for_each(|row| new.wait(setting.there(row), Wait::Row));
        (0..END.checked_div(hold).unwrap_or(0)).for_each(|n| new.wait(n * hold + hold / 2, Wait::Reply));
        new.setting = setting;
        while let Some(Reverse((now, what, id))) = new.queue.pop().filter(|Reverse((now, ..))| *now < END && new.oldest < ROWS) {
            new.now = now;
            match what {
                Wait::FirstTick | Wait::LastTick => new.tick(),
                Wait::Data => new.arrive(DATA, id),
                Wait::Reply => new.reply(),
                Wait::ReplyArrival => new.arrive(REPLIES, id),
                Wait::Row => new.send(),
            }
        }
        new
    }

    fn wait(&mut self, time: u64, what: Wait) {
        self.queued += 1;
        self.queue.push(Reverse((self.now + time, what, self.queued)));
    }

    fn event(&mut self, kind: Kind, argument: usize, answer: u8) {
        self.events.push([kind as u8, argument as u8, answer]);
    }

    fn tick(&mut self) {
        self.ticks += 1;
        self.event(Kind::Tick, 1, 0);
        for table in &mut self.air {
            self.dropped += table.len();
            table.retain(|(_, _, end)| *end > self.ticks);
            self.dropped -= table.len();
        }
        for row in self.oldest..self.sent {
            if !self.acknowledged[row] && self.resend[row] <= self.ticks {
                self.event(Kind::Resend, row - self.oldest, 0);
                self.put(DATA, row..row + 1, false);
                self.pausing = self.setting.pauses;
            }
        }
    }

    fn send(&mut self) {
        self.pausing &= self.oldest < self.sent;
        while !self.pausing && self.sent < ROWS && self.setting.there(self.sent) <= self.now {
            if self.sent - self.oldest == self.setting.window {
                return self.event(Kind::Send, 0, 10);
            }
            self.event(Kind::Send, 0, 0);
            self.put(DATA, self.sent..self.sent + 1, self.setting.lost.contains(&self.sent));
            self.sent += 1;
        }
    }

    fn put(&mut self, table: usize, rows: Range<usize>, lost: bool) {
        if table == DATA {
            self.resend[rows.start] = self.ticks + self.setting.resend_wait;
        }
        if lost || self.setting.away.contains(&self.now) {
            return self.event([Kind::LoseData, Kind::LoseReply][table], self.air[table].len(), 0);
        }
        self.wait(self.setting.delay[table], [Wait::Data, Wait::ReplyArrival][table]);
        self.air[table].push((self.queued, rows, self.ticks + self.setting.life[table]));
    }

    fn arrive(&mut self, table: usize, id: usize) {
        // A message that is not there was dropped.
        let Some(place) = self.air[table].iter().position(|message| message.0 == id) else { return };
        let (_, rows, _) = self.air[table].remove(place);
        self.event([Kind::DataArrives, Kind::ReplyArrives][table], place, 0);
        if table == REPLIES {
            self.acknowledged[rows].fill(true);
            self.oldest += self.acknowledged[self.oldest..].iter().take_while(|marked| **marked).count();
            return self.send();
        }
        if rows.start < self.taken.len() {
            return self.put(REPLIES, rows, false);
        }
        self.held[rows.start] = self.ticks + self.setting.reply_wait;
        if self.setting.hold == 0 {
            self.reply();
        }
    }

    fn reply(&mut self) {
        let wanted = self.taken.len();
        let end = wanted + self.held[wanted..].iter().take_while(|end| **end > self.ticks).count();
        if end > wanted {
            self.event(Kind::Reply, 0, 0);
            self.taken.extend((wanted..end).map(|row| self.now - self.setting.there(row)));
            self.put(REPLIES, wanted..end, false);
        }
    }

    /// Runs the events on the trial, which must print what is expected.
    fn checked(self) -> Self {
        let (s, count) = (&self.setting, ROWS as u64);
        let bytes = [s.window as u64, s.life[DATA], s.life[REPLIES], s.reply_wait, s.resend_wait % 256, s.resend_wait / 256, count];
        let mut input = bytes.map(|byte| byte as u8).to_vec();
        (0..ROWS).for_each(|row| input.extend([row as u8, 0].repeat(16)));
        let mut expected = String::new();
        for [kind, argument, answer] in &self.events {
            input.extend([kind, argument]);
            expected += &format!("{kind} {argument} {answer}\n");
        }
        expected += &format!("sent {} acknowledged {} recorded {}\n", self.sent, self.oldest, self.taken.len());
        let trial = std::env::args().nth(1).expect("the path of the trial as argument");
        let mut child = Command::new(trial).stdin(Stdio::piped()).stdout(Stdio::piped()).spawn().expect("the trial starts");
        child.stdin.take().expect("piped").write_all(&input).expect("the trial reads");
        let output = String::from_utf8(child.wait_with_output().expect("the trial ends").stdout).expect("text");
        let different = output.lines().zip(expected.lines()).find(|(printed, expected)| printed != expected);
        assert!(output == expected, "the trial printed and should have: {different:?}");
        self
    }

    /// The rows that took longer than usual.
    fn late(&self) -> Vec<usize> {
        (0..self.taken.len()).filter(|row| self.taken[*row] > self.setting.usual()).collect()
    }
}

/// Ten places of the rows between two ticks, each with the tick first and last. `lost` gives the lost rows of a ride.
fn twenty(setting: &Setting, lost: impl Fn(u64) -> Vec<usize>) -> Vec<Schedule> {
    let ride = |n| Setting { first: n / 2 * setting.tick / 10, tick_last: n % 2 == 1, lost: lost(n), ..setting.clone() };
    let rides: Vec<_> = (0..20).map(|n| Schedule::new(ride(n)).checked()).collect();
    assert!(rides.iter().all(|ride| ride.oldest == ROWS && ride.dropped == 0), "a row not acknowledged or a message dropped");
    rides
}

fn worst(rides: &[Schedule], figure: impl Fn(&Schedule) -> u64) -> u64 {
    rides.iter().map(figure).max().expect("rides")
}

/// The mean time until a row is recorded, in milliseconds, if the first sending of one row in `odds` is lost by chance.
fn mean(setting: &Setting, odds: u64, pauses: bool) -> u64 {
    let next = |state: u64| state.wrapping_mul(6_364_136_223_846_793_005).wrapping_add(1_442_695_040_888_963_407);
    let draws = |seed| std::iter::successors(Some(next(seed)), |state| Some(next(*state))).map(|state| (state >> 33) % odds);
    let lost = |seed| draws(seed).take(ROWS).enumerate().filter(|(_, drawn)| *drawn == 0).map(|(row, _)| row).collect();
    let rides = twenty(&Setting { pauses, ..setting.clone() }, lost);
    (rides.iter().flat_map(|ride| &ride.taken).sum::<u64>() as f64 / (rides.len() * ROWS) as f64 / MS as f64).round() as u64
}

/// With a life of one tick less, and rows just before a tick, no message of the table arrives.
fn shorter(setting: &Setting, table: usize) -> bool {
    let mut short = Setting { first: setting.tick - 1, ..setting.clone() };
    short.life[table] -= 1;
    let arrives = [Kind::DataArrives, Kind::ReplyArrives][table] as u8;
    Schedule::new(short).checked().events.iter().all(|event| event[0] != arrives)
}

fn main() {
    let [bench, riding] = [Setting::new(5 * MS, 10 * MS, 5 * MS), Setting::new(10 * MS, 40 * MS, 20 * MS)];
    let lungeing = Setting { window: 32, ..Setting::new(10 * MS, 80 * MS, 0) };
    let settings = [&bench, &riding, &lungeing];
    let one_lost = |s: &Setting, window, pauses| twenty(&Setting { window, pauses, ..s.clone() }, |_| vec![LOST]);
    let none = settings.map(|s| twenty(s, |_| vec![]));
    let [on, paused] = [false, true].map(|pauses| settings.map(|s| one_lost(s, s.window, pauses)));
    let narrow = settings.map(|s| one_lost(s, s.round_trip().div_ceil(s.interval) as usize, false));
    let away = settings.map(|s| twenty(&Setting { away: SECOND..2 * SECOND, pauses: true, ..s.clone() }, |_| vec![]));
    let refused = |ride: &Schedule| ride.events.iter().any(|event| event[2] > 0);
    assert!(![&none, &on, &paused].into_iter().flatten().flatten().any(refused), "a send was refused");
    assert!(settings.iter().all(|s| shorter(s, DATA) && shorter(s, REPLIES)), "a message arrived after its life");

    let line = |text: &str, figures: [String; 3]| println!("| {text} | {} |", figures.join(" | "));
    let latest = |rides: &Vec<_>| format!("{} ms", worst(rides, |ride| *ride.taken.iter().max().unwrap()).div_ceil(MS));
    let lost = |rides: &Vec<_>| format!("{} ms", worst(rides, |ride| ride.taken[LOST]).div_ceil(MS));
    let late = |rides: &Vec<_>| format!("{}, {}", worst(rides, |ride| ride.late().len() as u64), latest(rides));
    let last = |ride: &Schedule| ride.setting.there(*ride.late().last().unwrap()) - ride.setting.away.end;
    let after = |rides: &Vec<_>| format!("{:.1} s", worst(rides, last).div_ceil(SECOND / 10) as f64 / 10.0);
    line("measured, nothing lost: latest row", none.each_ref().map(latest));
    line("measured, one row lost: that row", on.each_ref().map(lost));
    line("measured, one row lost, then a pause (below): rows later than usual, the latest", paused.each_ref().map(late));
    line("measured, out of range for 1 s, then a pause: all as usual again after", away.each_ref().map(after));
    for odds in [100, 20, 5] {
        let means = settings.map(|s| [false, true].map(|pauses| mean(s, odds, pauses)));
        line(&format!("1 in {odds}"), means.map(|[on, paused]| format!("{on} / {paused} ms")));
    }
    let apart = |ride: &Schedule| riding.interval + (ride.taken[ROWS - 1] - ride.taken[LOST]) / (ROWS - 1 - LOST) as u64;
    let rate = SECOND as f64 / worst(&one_lost(&riding, 8, false), apart) as f64;
    let every = worst(&narrow[2], |ride| *ride.taken[LOST..].iter().min().unwrap()) - lungeing.usual();
    let sending = |event: &&[u8; 3]| event[0] <= Kind::Resend as u8 && event[2] == 0;
    let messages = |rides: Vec<_>| worst(&rides, |ride| ride.events.iter().filter(sending).count() as u64);
    let [on, few, paused] = [on, narrow, paused].map(|all| all.map(messages));
    assert!(on[0] == on[1] && on[1] == on[2], "not the same in each setting");
    println!("(measured: {} messages for {ROWS} rows in each setting)\n8 / 0.21 = 38 rows/s. (measured: {rate:.0})", on[0]);
    println!("(measured: {}, {} and {} messages)", few[0], few[1], few[2]);
    println!("in lungeing every later row was {} ms late. (measured)", every / MS);
    println!("(measured: {}, {} and {} messages for {ROWS} rows)", paused[0], paused[1], paused[2]);
}
