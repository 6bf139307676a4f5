//! What was met in comparing calls of devices, so that a comparison that leaves something out is found out.

use crate::device_calls::{Call, Gave};
use crate::met::{counts, reached, Answers, ENOUGH};
use std::fmt;

/// The calls that devices have: the name, and the answers that they can give, beside 4.
const CALLS: [(&str, &[u8]); 7] = [
    ("mat send", &[0, 6, 10, 11, 12, 28]),
    ("mat resend", &[0, 14, 15, 16, 28]),
    ("mat receive", &[0, 12, 19, 22, 23, 24, 25, 26, 27]),
    ("mat tick", &[0, 9]),
    ("pad receive", &[0, 12, 22, 23, 24, 25, 26, 27, 28]),
    ("pad reply", &[0, 20, 21, 28]),
    ("pad tick", &[0, 9]),
];

/// Which of them a call is, of a mat or of a pad.
fn which(mat: bool, call: &Call) -> usize {
    match (mat, call) {
        (_, Call::Send(_)) => 0,
        (_, Call::Resend(_)) => 1,
        (true, Call::Receive(_)) => 2,
        (true, _) => 3,
        (false, Call::Receive(_)) => 4,
        (_, Call::Reply) => 5,
        (false, Call::Tick(_)) => 6,
    }
}

/// What a call that was done can be: the name, and whether it is.
type Special = (&'static str, fn(which: usize, gave: &Gave) -> bool);

const SPECIAL: [Special; 6] = [
    ("a reply that raises oldest by 1", |which, gave| which == 2 && gave.counts[0] == 1),
    ("by more", |which, gave| which == 2 && gave.counts[0] > 1),
    ("by 0", |which, gave| which == 2 && gave.counts[0] == 0),
    ("a row held", |which, gave| which == 4 && gave.counts[0] == 0),
    ("an old row", |which, gave| which == 4 && gave.counts[0] == 5),
    ("a run of more rows than one", |which, gave| which == 5 && gave.counts[0] > 1),
];

/// How often each call had each answer, and what was done in them.
#[derive(Clone, Default)]
pub struct Met {
    answers: [Answers; CALLS.len()],
    special: [u64; SPECIAL.len()],
}

impl Met {
    /// A call of a mat, or of a pad.
    pub fn call(&mut self, mat: bool, call: &Call, gave: &Gave) {
        let which = which(mat, call);
        self.answers[which][usize::from(gave.answer.min(31))] += 1;
        if gave.answer == 0 {
            for (times, (_, is)) in self.special.iter_mut().zip(SPECIAL) {
                *times += u64::from(is(which, gave));
            }
        }
    }

    /// Both together.
    pub fn and(mut self, other: Met) -> Met {
        let mine = self.answers.as_flattened_mut().iter_mut().chain(&mut self.special);
        mine.zip(other.answers.as_flattened().iter().chain(&other.special)).for_each(|(mine, more)| *mine += more);
        self
    }

    /// All calls.
    pub fn calls(&self) -> u64 {
        self.answers.as_flattened().iter().sum()
    }

    /// Whether every answer came that can come, and all else, in calls enough; and none that cannot come.
    pub fn all_there(&self, what: &str) -> Result<(), String> {
        let enough = self.calls() >= ENOUGH;
        for (answers, (name, can)) in self.answers.iter().zip(CALLS) {
            let put = answers.iter().any(|times| *times > 0);
            reached(answers, &[&[4], can].concat(), enough && put).map_err(|text| format!("{what}: {name} {text}"))?;
        }
        let missing = self.special().find(|(_, times)| *times == 0 && enough);
        missing.map_or(Ok(()), |(name, _)| Err(format!("{what}: none with {name}")))
    }

    /// What the calls could be: where no reply was put, no run of rows, which is the last.
    fn special(&self) -> impl Iterator<Item = (&'static str, u64)> + '_ {
        let replies = self.answers[5].iter().any(|times| *times > 0);
        let count = if replies { SPECIAL.len() } else { SPECIAL.len() - 1 };
        SPECIAL.iter().zip(self.special).take(count).map(|((name, _), times)| (*name, times))
    }
}

impl fmt::Display for Met {
    fn fmt(&self, out: &mut fmt::Formatter) -> fmt::Result {
        write!(out, "{} calls", self.calls())?;
        for (answers, (name, _)) in self.answers.iter().zip(CALLS) {
            if answers.iter().any(|times| *times > 0) {
                write!(out, "\n  answers to {name}  {}", counts(answers))?;
            }
        }
        let special: Vec<String> = self.special().map(|(name, times)| format!("{name}: {times}")).collect();
        write!(out, "\n  done with  {}", special.join(", "))
    }
}
