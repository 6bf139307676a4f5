//! Whether the account of a list is right: a recount gives the same, and the law holds.

use crate::built::{Account, Counts, Link};
use crate::compare::{different, Call, Called};
use crate::recount::Recount;

/// A list so far.
pub struct Audit {
    /// The messages at the start, data first.
    at_start: [usize; 2],
    recount: Recount,
    /// The counts of its calls, added up.
    pub total: Counts,
}

impl Audit {
    /// A list that starts from this link, which is sound.
    pub fn of(start: &Link) -> Audit {
        let at_start = [start.data.count, start.replies.count];
        Audit { at_start, recount: Recount::of(start), total: Counts::default() }
    }

    /// What is wrong after a call that led to this link. A refused one adds nothing to the list.
    pub fn call(&mut self, call: &Call, called: &Called, link: &Link) -> Option<String> {
        let counts = called.done.ok()?;
        match call {
            Call::One { kind, argument } => self.events(&[*kind, *argument], &[0], counts, link),
            Call::Run { events, .. } => self.events(events, &called.answers, counts, link),
        }
    }

    /// What is wrong after events with these answers, which were counted so and led to this link.
    pub fn events(&mut self, events: &[u8], answers: &[u8], counts: Counts, link: &Link) -> Option<String> {
        self.total.add(counts);
        for ([kind, argument], answer) in events.as_chunks().0.iter().zip(answers) {
            if *answer == 0 && self.recount.event(*kind, *argument).is_none() {
                return Some(format!("by the recount {kind} {argument} cannot have been done"));
            }
        }
        different([self.total.data, self.total.replies], self.recount.accounts(), || "accounts, by the recount".into())
            .or_else(|| law_difference(self.at_start, &self.total, link))
    }
}

/// The table for which the law fails, after a list with these counts that led to this link: messages at the start + put =
/// arrived + lost + dropped + messages left.
pub fn law_difference(at_start: [usize; 2], total: &Counts, link: &Link) -> Option<String> {
    let tables = [("data", total.data, link.data.count), ("replies", total.replies, link.replies.count)];
    tables.into_iter().zip(at_start).find_map(|((name, account, left), start)| {
        let Account { put, arrived, lost, dropped } = account;
        let holds = start + put == arrived + lost + dropped + left;
        (!holds).then(|| format!("{name}: the law fails for {start} at the start, {left} left and {account:?}"))
    })
}
