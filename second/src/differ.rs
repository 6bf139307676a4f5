//! The proved library compared with the built ends here, call by call on one list.

use crate::audit::Audit;
use crate::built::{Counts, Link};
use crate::compare::{different, Call, Called, Case};
use crate::library::{asked, count_numbers, CountNumbers, Lent, Library, COUNT_NAMES};
use crate::limits::{number, Limits, Refusal, CELLS};
use crate::matlink::{head_of, without_free, Matlink};
use crate::members::{members, name, named};
use crate::ride_text::words;
use crate::written::NO_COUNT;

/// What stands in a lent buffer that nothing must write.
const BLANK: u16 = 0xAAAA;

/// Numbers behind the kept link and behind the counts, which must stay.
const BEHIND: usize = 2;

/// A link as the library's caller keeps it, and what stands behind it.
#[derive(Clone, Debug, PartialEq, Eq, Hash)]
#[repr(C)]
pub struct Kept {
    /// The link.
    pub link: Matlink,
    behind: [u16; BEHIND],
}

/// Both links with their records after some calls.
#[derive(Clone, PartialEq, Eq, Hash)]
pub struct Pair {
    /// The proved link.
    pub kept: Kept,
    /// The link here.
    pub link: Link,
    /// The record that the proved link wrote.
    pub record: Vec<u16>,
    /// The record that the link here wrote.
    pub expected: Vec<u16>,
    /// The counts of rows so far. Without the accounts, so that lists that lead to the same links are the same pair.
    pub total: Counts,
}

/// A first difference, in words.
pub type Difference = Option<String>;

impl Pair {
    /// Both opened, and what differs then. A refused opening gives zeros.
    pub fn open(library: &dyn Library, limits: Limits, record: &[u16]) -> (Pair, u8, Difference) {
        let mut pair = Pair::made_up(Matlink::filled(BLANK), record);
        let answer = library.open(&mut pair.kept.link, asked(limits));
        let (opened, link) = Link::open(limits);
        let fresh = Matlink::from(&link);
        pair.link = link;
        let found = answer_difference(answer, &opened, || format!("opening with {limits:?}"))
            .or_else(|| members(&pair.kept.link, &fresh).map(|text| format!("opened link\n{text}")))
            .or_else(|| pair.behind());
        (pair, answer, found)
    }

    /// A link that a caller made up.
    pub fn made_up(link: Matlink, record: &[u16]) -> Pair {
        let (record, expected) = (record.to_vec(), record.to_vec());
        let here = Link::from(&link);
        let kept = Kept { link, behind: [BLANK; BEHIND] };
        Pair { kept, link: here, record, expected, total: Counts::default() }
    }

    fn behind(&self) -> Difference {
        different(self.kept.behind, [BLANK; BEHIND], || "numbers behind the link".into())
    }

    /// One call on both, with the supply and the record from behind the rows so far: what the call here gave, and what differs
    /// after it.
    pub fn call(&mut self, library: &dyn Library, call: &Call, supply: &[u16]) -> (Called, Difference) {
        let rest = &supply[self.total.sent * CELLS..];
        let at = self.total.recorded * CELLS;
        let before = self.kept.clone();
        let (record, expected) = (&mut self.record[at..], &mut self.expected[at..]);
        let mut lent = LentCounts::blank();
        let (answer, done, answers, found) = match call {
            Call::One { kind, argument } => {
                let event = (u32::from(*kind), u32::from(*argument));
                let answer = library.step(&mut self.kept.link, event, rest, record, lent.counts());
                (answer, self.link.step(*kind, *argument, rest, expected), vec![], None)
            }
            Call::Run { events, answers } => {
                let (mut proved, mut here) = (vec![0xAA; *answers], vec![0xAA; *answers]);
                let lent = Lent { events, supply: rest, record, answers: &mut proved, counts: lent.counts() };
                let answer = library.run(&mut self.kept.link, lent);
                let done = self.link.run(events, rest, expected, &mut here);
                let found = answers_difference(&proved, &here, events);
                (answer, done, here, found)
            }
        };
        let found = answer_difference(answer, &done, || call_words(call))
            .or(found)
            .or_else(|| lent.difference(&done))
            .or_else(|| record_difference(&self.record, &self.expected))
            .or_else(|| self.behind())
            .or_else(|| match done {
                Ok(_) => self.link_difference(),
                Err(_) if self.kept == before => None,
                Err(_) => members(&self.kept.link, &before.link).map(|text| format!("link of a refused call\n{text}")),
            });
        self.total.add(done.unwrap_or_default().rows());
        (Called { done, answers }, found)
    }

    /// Both links, but for what is free. The single numbers come first, as they say what is free.
    fn link_difference(&self) -> Difference {
        let kept = &self.kept.link;
        if let Some(text) = named(&kept.head(), &head_of(&self.link), name) {
            return Some(text);
        }
        let proved = Link::from(kept);
        let (p, e) = (without_free(&proved), without_free(&self.link));
        if p != e {
            return members(&Matlink::from(&p), &Matlink::from(&e));
        }
        let marks = [("mat_mark", &kept.mat_mark), ("pad_mark", &kept.pad_mark)];
        for (name, marks) in marks {
            if let Some(at) = marks.iter().position(|mark| *mark > 1) {
                return Some(format!("{name}[{at}]: library {}, expected 0 or 1", marks[at]));
            }
        }
        // of what is free, question 4 asks about these alone
        let long = (0..p.limits.window).find(|place| proved.pad.timers[*place] > p.limits.reply_wait);
        let long = long.map(|place| format!("pad_timer[{place}] of a row not held is above the reply wait"));
        long.or_else(|| (!proved.sound()).then(|| "the library's link is not sound".into()))
    }
}

/// The call in words.
fn call_words(call: &Call) -> String {
    match call {
        Call::One { kind, argument } => format!("event `{}`", words(*kind, *argument)),
        Call::Run { events, answers } => format!("run of {} bytes with {answers} answers", events.len()),
    }
}

/// The number of a call.
fn answer_difference<T>(answer: u8, expected: &Result<T, Refusal>, what: impl Fn() -> String) -> Difference {
    let expected = number(expected);
    (answer != expected).then(|| format!("{}: library answers {answer}, expected {expected}", what()))
}

/// The answers of a run's events.
fn answers_difference(library: &[u8], expected: &[u8], events: &[u8]) -> Difference {
    let name = |at: usize| match events.get(2 * at..2 * at + 2) {
        Some(event) => format!("answer {at}, to `{}`", words(event[0], event[1])),
        None => format!("answer buffer [{at}]"),
    };
    named(library, expected, name)
}

/// The whole record buffer.
fn record_difference(library: &[u16], expected: &[u16]) -> Difference {
    if library == expected {
        return None;
    }
    named(library, expected, |at| format!("record[{at}] (row {}, cell {})", at / CELLS, at % CELLS))
}

/// Counts that are lent to a call, and numbers behind them.
pub struct LentCounts {
    /// The counts, and the numbers behind them.
    pub all: [u64; COUNT_NAMES.len() + BEHIND],
}

impl LentCounts {
    /// As they are before a call.
    pub fn blank() -> LentCounts {
        LentCounts { all: [NO_COUNT; _] }
    }

    /// What a call may write.
    pub fn counts(&mut self) -> &mut CountNumbers {
        self.all.first_chunk_mut().expect("more than the counts")
    }

    /// The counts are those of the call here, and 0 where it is refused; the numbers behind them stay.
    pub fn difference(&self, here: &Result<Counts, Refusal>) -> Difference {
        let mut expected = LentCounts::blank();
        *expected.counts() = count_numbers(here.unwrap_or_default());
        let name = |at: usize| COUNT_NAMES.get(at).copied().unwrap_or("number behind the counts").into();
        named(&self.all, &expected.all, name)
    }
}

/// Both links after some calls of a list, with an audit of the list's account.
pub struct AuditedPair {
    /// Both links.
    pub pair: Pair,
    start: Link,
    /// None before a call is done, as none is on a link that is not sound.
    audit: Option<Audit>,
}

impl AuditedPair {
    /// A list that starts from these links.
    pub fn of(pair: Pair) -> AuditedPair {
        AuditedPair { start: pair.link.clone(), pair, audit: None }
    }

    /// One call on both, and what differs or is wrong in the account after it.
    pub fn call(&mut self, library: &dyn Library, call: &Call, supply: &[u16]) -> (Called, Difference) {
        let (called, found) = self.pair.call(library, call, supply);
        if found.is_some() || called.done.is_err() {
            return (called, found);
        }
        let audit = self.audit.get_or_insert_with(|| Audit::of(&self.start));
        let found = audit.call(call, &called, &self.pair.link);
        (called, found)
    }

    /// The counts of all calls, added up.
    pub fn total(&self) -> Counts {
        self.audit.as_ref().map_or(Counts::default(), |audit| audit.total)
    }
}

/// The counts of a case, or the first difference on it. Its opening may be refused: its calls then meet question 4.
pub fn counts(library: &dyn Library, case: &Case) -> Result<Counts, String> {
    let (pair, _, found) = Pair::open(library, case.limits, &case.record);
    let mut audited = AuditedPair::of(pair);
    let found = found.or_else(|| {
        case.calls.iter().enumerate().find_map(|(at, call)| {
            let (_, found) = audited.call(library, call, &case.supply);
            found.map(|text| format!("after call {}: {text}", at + 1))
        })
    });
    found.map_or(Ok(audited.total()), Err)
}

/// The first difference on a case.
pub fn difference(library: &dyn Library, case: &Case) -> Difference {
    counts(library, case).err()
}

/// The first difference of a ride: an opening and a run of these events, without a kept link.
pub fn ride_difference(library: &dyn Library, case: &Case, events: &[u8], answers: usize) -> Difference {
    let (mut record, mut expected) = (case.record.clone(), case.record.clone());
    let (mut proved, mut here) = (vec![0xAA; answers], vec![0xAA; answers]);
    let mut lent = LentCounts::blank();
    let ride = Lent { events, supply: &case.supply, record: &mut record, answers: &mut proved, counts: lent.counts() };
    let answer = library.ride(asked(case.limits), ride);
    let (opened, mut link) = Link::open(case.limits);
    let done = opened.and_then(|_| link.run(events, &case.supply, &mut expected, &mut here));
    answer_difference(answer, &done, || "ride".into())
        .or_else(|| answers_difference(&proved, &here, events))
        .or_else(|| record_difference(&record, &expected))
        .or_else(|| lent.difference(&done))
        .map(|text| format!("in one ride: {text}"))
}
