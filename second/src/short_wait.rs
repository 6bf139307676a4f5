//! Why the resend wait cannot be shorter than question 3 lets it be: for every window, all times with a sum of 4 or more and
//! every wait from 1 to the sum less 3, a list of events after which the built ends have recorded more rows than were sent.
//!
//! Row 0 stays as long as it can: in the air, then held at the pad, then as a reply in the air. When the wait is over its reply
//! is still there, so row 0 is sent again and then acknowledged. The 2w - 1 rows behind it go through while its second message
//! stays in the air. The pad then wants row 2w, whose number modulo 2w is that of row 0, and takes the message for it.

use crate::built::{Counts, Link};
use crate::compare::UNWRITTEN;
use crate::limits::{Limits, Refusal, CELLS};
use crate::short::Event;

/// Whether there is a list for these limits, or what is wrong with them.
pub fn premises(limits: &Limits) -> Result<(), String> {
    match limits.accept() {
        Err(Refusal::Window) => Err("the window is not 1 to 32".into()),
        Err(Refusal::Times) => Err("a life or the reply wait is not 1 to 250".into()),
        Err(_) if limits.resend_wait < limits.least_wait() => Ok(()),
        _ => Err(format!("the resend wait is not from 1 to the three times' sum less 3, which is {}", limits.sum() - 3)),
    }
}

/// The list. There is one for the sum less 2, too, in which the reply for row 0 is gone before row 0 is sent again. It is not
/// meant for a longer wait, whose third part is longer than the reply life.
pub fn events(limits: &Limits) -> Vec<Event> {
    let wait = limits.resend_wait;
    let in_the_air = wait.min(limits.data_life - 1);
    let held = (wait - in_the_air).min(limits.reply_wait - 1);
    let as_a_reply = wait - in_the_air - held;
    let tick = |ticks: u16| (8, u8::try_from(ticks).expect("at most the reply life"));
    let mut list = vec![(1, 0), tick(in_the_air), (3, 0), tick(held), (4, 0), tick(as_a_reply), (2, 0), (5, 0)];
    list.extend([(1, 0), (3, 1), (4, 0), (5, 0)].repeat(2 * limits.window - 1));
    list.extend([(3, 0), (4, 0)]);
    list
}

/// Built ends with limits that question 3 was not put to, and all that went through them since they were fresh.
#[derive(Clone, PartialEq, Eq, Hash)]
pub struct Unasked {
    /// Both ends.
    pub link: Link,
    /// The rows sent, acknowledged and recorded, without the accounts.
    pub total: Counts,
    /// The whole record.
    pub record: Vec<u16>,
}

impl Unasked {
    /// Fresh ends with a record for one row more than the list sends.
    pub fn fresh(limits: Limits) -> Unasked {
        let record = vec![UNWRITTEN; (2 * limits.window + 1) * CELLS];
        Unasked { link: Link::unasked(limits), total: Counts::default(), record }
    }

    /// Puts one event to the ends and gives its counts. The supply is that of the whole list: the event gets the part behind the
    /// rows sent so far. The questions of the event are put, but not 4, which question 3 is a part of, and not 6.
    pub fn put(&mut self, (kind, argument): Event, supply: &[u16]) -> Result<Counts, Refusal> {
        let (rest, space) = (&supply[self.total.sent * CELLS..], &mut self.record[self.total.recorded * CELLS..]);
        let mut counts = Counts::default();
        self.link.event(kind, argument, rest, space, &mut counts)?;
        self.total.add(counts.rows());
        Ok(counts)
    }
}
