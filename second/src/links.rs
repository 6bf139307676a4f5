//! Calls on links that a caller made up, sound or not: the call for one event is then a single call of the mat, the pad or a
//! table, and the whole link is compared after it.

use crate::compare::{Call, UNWRITTEN};
use crate::differ::{AuditedPair, Pair};
use crate::draw_cells::{random_cells, EDGES};
use crate::draw_link::{drawn_link, random_kind};
use crate::library::Library;
use crate::limits::{number, CELLS, TABLE_PLACES};
use crate::matlink::{Matlink, DATA_WORDS, NUMBERS, REPLY_WORDS};
use crate::members::{name, not_zero};
use crate::met::Met;
use crate::random::Random;
use crate::report::{Outcome, Replay};
use crate::ride_text::words;
use crate::shrink::flat;
use crate::threads::{seeds, sums, Amount};

/// Calls on a made-up link, with the buffers that are lent to them.
#[derive(Clone)]
struct Try {
    link: Matlink,
    calls: Vec<Call>,
    supply: Vec<u16>,
    record: Vec<u16>,
}

impl Try {
    /// The number of the last call, or what differs after the first call that shows it.
    fn put(&self, library: &dyn Library) -> Result<u8, String> {
        let mut audited = AuditedPair::of(Pair::made_up(self.link.clone(), &self.record));
        let mut answer = 0;
        for call in &self.calls {
            let (called, found) = audited.call(library, call, &self.supply);
            found.map_or(Ok(()), Err)?;
            answer = number(&called.done);
        }
        Ok(answer)
    }

    fn differs(&self, library: &dyn Library) -> bool {
        self.put(library).is_err()
    }

    /// Where one event differs by itself, that event on the link before it.
    fn first_event(&self, library: &dyn Library) -> Option<Try> {
        let mut pair = Pair::made_up(self.link.clone(), &self.record);
        for (kind, argument) in flat(&self.calls) {
            let (sent, recorded) = (pair.total.sent * CELLS, pair.total.recorded * CELLS);
            let (link, record) = (pair.kept.link.clone(), pair.record[recorded..].to_vec());
            let call = Call::One { kind, argument };
            let one = Try { link, calls: vec![call.clone()], supply: self.supply[sent..].to_vec(), record };
            if one.differs(library) {
                return Some(one);
            }
            pair.call(library, &call, &self.supply);
        }
        None
    }

    /// The same on a link with fewer messages, and with 0 or 1 for each number of which the difference needs no other.
    fn smallest(self, library: &dyn Library) -> Try {
        let mut now = self.first_event(library).unwrap_or(self);
        now.fewer_events(library);
        for message in (0..TABLE_PLACES).rev() {
            for (reply, moved) in [(false, 0), (false, 1), (true, 0), (true, 1)] {
                now.attempt(library, |less| less.without(reply, message, moved));
            }
        }
        for at in (0..NUMBERS).rev() {
            for small in [0, 1] {
                now.attempt(library, |less| {
                    let mut numbers = less.link.numbers();
                    numbers[at] = numbers[at].min(small);
                    less.link = Matlink::of_numbers(&numbers);
                });
            }
        }
        now
    }

    /// Takes events out of runs, and then a run, left empty or not, out of the calls.
    fn fewer_events(&mut self, library: &dyn Library) {
        for call in (0..self.calls.len()).rev() {
            let Call::Run { events, .. } = &self.calls[call] else { continue };
            for at in (0..events.len() / 2).rev() {
                self.attempt(library, |less| {
                    if let Call::Run { events, .. } = &mut less.calls[call] {
                        events.drain(2 * at..2 * at + 2);
                    }
                });
            }
            self.attempt(library, |less| {
                less.calls.remove(call);
            });
        }
    }

    /// Takes over a change after which there still is a difference.
    fn attempt(&mut self, library: &dyn Library, change: impl FnOnce(&mut Try)) {
        let mut changed = self.clone();
        change(&mut changed);
        if changed.differs(library) {
            *self = changed;
        }
    }

    /// Takes a message out of a table, if it has so many, and lowers the call's place by so much.
    fn without(&mut self, reply: bool, message: usize, moved: u8) {
        let Matlink { data, data_count, reply: replies, reply_count, .. } = &mut self.link;
        let (words, count, table): (_, _, &mut [u16]) =
            if reply { (REPLY_WORDS, reply_count, replies) } else { (DATA_WORDS, data_count, data) };
        if message < usize::from(*count) {
            *count -= 1;
            table[message * words..].rotate_left(words);
        }
        if let [Call::One { kind: 3 | 5 | 6 | 7, argument }] = &mut self.calls[..] {
            *argument = argument.saturating_sub(moved);
        }
    }

    /// What differs, and the calls and the link it differs on.
    fn report(self, library: &dyn Library, given: String) -> String {
        let small = self.smallest(library);
        let calls: Vec<String> = small.calls.iter().map(in_words).collect();
        let (calls, supply, record) = (calls.join(", then "), small.supply.len(), small.record.len());
        let found = small.put(library).err().unwrap_or_default();
        let link = not_zero(&small.link);
        format!(
            "{given}\nThe same on the smallest link: {found}\n\
             calls: {calls}; supply of {supply} cells, record of {record} cells\nlink, numbers that are not 0:\n{link}"
        )
    }
}

/// A call in words.
fn in_words(call: &Call) -> String {
    match call {
        Call::One { kind, argument } => words(*kind, *argument),
        Call::Run { events, .. } => {
            let (events, half) = events.as_chunks();
            let mut all: Vec<String> = events.iter().map(|[k, a]| words(*k, *a)).collect();
            all.extend((!half.is_empty()).then(|| "half an event".into()));
            format!("a run of {}", if all.is_empty() { "no event".into() } else { all.join(", ") })
        }
    }
}

/// An event of this kind, or any for a kind that there is not.
fn argument(random: &mut Random, kind: u8) -> u8 {
    match kind {
        1 | 4 if !random.once_in(20) => 0,
        8 => random.one_of(&[0, 1, 2, 200, 249, 250, 251, 255]),
        _ => random.one_of(&[0, 0, 1, 2, 3, 31, 32, 255]),
    }
}

/// Rows for one or more sends, now and then one that is not legal or not whole.
fn supply(random: &mut Random) -> Vec<u16> {
    let rows = random.below(4);
    let mut cells = random_cells(random, rows * CELLS);
    if !cells.is_empty() && random.once_in(8) {
        cells[random.below(CELLS)] = random.one_of(&EDGES);
    }
    if random.once_in(40) {
        cells.push(1);
    }
    cells
}

/// A space of no, some or many rows, or one cell less or more than that.
fn record(random: &mut Random) -> Vec<u16> {
    let rows = random.one_of(&[0, 1, 2, 3, 33]) * CELLS;
    vec![UNWRITTEN; (rows + random.below(3)).saturating_sub(1)]
}

/// A call for an event of this kind.
fn one(random: &mut Random, link: &Matlink, kind: u8) -> Try {
    let calls = vec![Call::One { kind, argument: argument(random, kind) }];
    Try { link: link.clone(), calls, supply: supply(random), record: record(random) }
}

/// Two runs of so many events together, now and then with ticks enough for the longest wait. The second one has, now and then,
/// half an event or too few answers.
fn runs(random: &mut Random, link: &Matlink, length: usize) -> Try {
    let mut events = vec![];
    let long = random.once_in(3);
    for _ in 0..length {
        let kind = random_kind(random);
        let tick = long && random.once_in(3);
        events.extend(if tick { [8, 255 - random.below(8) as u8] } else { [kind, argument(random, kind)] });
    }
    if random.once_in(30) {
        events.pop();
    }
    let short = usize::from(random.once_in(30));
    let first = random.below(length);
    let rest = Call::Run { events: events.split_off(2 * first), answers: length - first - short };
    let calls = vec![Call::Run { events, answers: first }, rest];
    Try { link: link.clone(), calls, supply: supply(random), record: record(random) }
}

/// Drawn links, each with a call for an event of every kind and with two runs in a row. Questions 13, 18 and 19 arise here.
pub fn made_up_links(library: &dyn Library, replay: &Replay, amount: Amount) -> Outcome {
    let met = seeds(amount, |seed, met: &mut Met| {
        let mut random = Random::new(seed);
        let link = Matlink::from(&drawn_link(&mut random));
        met.link(&link);
        let failed = |tried: Try, found| replay.failed("links", seed, &tried.report(library, found));
        let put = |tried: Try| tried.put(library).map_err(|found| failed(tried, found));
        let mut events = 0;
        for kind in (0..=9).chain([1, 2, 3, 4, 5, 255]) {
            met.answer(kind, put(one(&mut random, &link, kind))?);
            events += 1;
        }
        let length = 1 + random.below(24);
        met.run(put(runs(&mut random, &link, length))?);
        Ok(events + length as u64)
    })?;
    let met = met.into_iter().reduce(Met::and).unwrap_or_default();
    met.all_there()?;
    Ok(met.to_string())
}

/// Numbers at and beyond the edges of a link with these limits.
fn edges(link: &Matlink) -> Vec<u16> {
    let [window, data_life, reply_life, reply_wait, resend_wait, ..] = link.head();
    let mut all = vec![0, 1, 2, 32, 33, 249, 250, 251, 255, 256, 257, 999, 1000, 1001];
    all.extend(EDGES);
    let sum = data_life + reply_life + reply_wait;
    all.extend([3, 2].map(|less| sum.saturating_sub(less)));
    for edge in [window, 2 * window, data_life, reply_life, reply_wait, resend_wait] {
        all.extend([edge.saturating_sub(1), edge, edge.saturating_add(1)]);
    }
    all.sort_unstable();
    all.dedup();
    all
}

/// Links with each number replaced by others: question 4 of every number there is, and marks other than 0 and 1.
pub fn damaged_links(library: &dyn Library, replay: &Replay, amount: Amount) -> Outcome {
    let counted = seeds(amount, |seed, counted: &mut [u64; 2]| {
        let mut random = Random::new(seed);
        let good = Matlink::from(&drawn_link(&mut random));
        let (edges, mut numbers) = (edges(&good), good.numbers());
        for at in 0..NUMBERS {
            let was = numbers[at];
            for value in edges.iter().copied().chain([was.wrapping_add(1), was.wrapping_sub(1)]) {
                numbers[at] = value;
                let kind = random_kind(&mut random);
                let tried = one(&mut random, &Matlink::of_numbers(&numbers), kind);
                let answer = tried.put(library).map_err(|found| {
                    let what = format!("{} replaced by {value}: {}", name(at), tried.report(library, found));
                    replay.failed("damaged", seed, &what)
                })?;
                counted[0] += 1;
                counted[1] += u64::from(answer == 4);
            }
            numbers[at] = was;
        }
        Ok((NUMBERS * edges.len()) as u64)
    })?;
    let [links, unsound] = sums(counted);
    Ok(format!("{links} links with one number replaced, {unsound} of them not sound"))
}
