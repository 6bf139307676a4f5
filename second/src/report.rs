//! What a comparison gives: a line about what was compared, or a report from which a failure can be replayed.

use crate::compare::Case;
use crate::ride_text::text;

/// What was compared, or the first difference.
pub type Outcome = Result<String, String>;

/// How this program was called, so that a report can say how to call it again.
pub struct Replay {
    /// The program and the trial's path.
    pub command: String,
}

impl Replay {
    /// The report of a part's failure: its seed, how to replay it, and what was found. All of it is comments of a ride.
    pub fn failed(&self, part: &str, seed: u64, found: &str) -> String {
        let command = &self.command;
        let all = format!("{part}, seed {seed}: {found}\nreplay: {command} --part {part} --seed {seed} --events 1");
        let lines: Vec<String> = all.lines().map(|line| format!("# {line}")).collect();
        lines.join("\n")
    }

    /// The same with the list as a ride.
    pub fn failed_ride(&self, part: &str, seed: u64, found: &str, case: &Case) -> String {
        let (report, ride) = (self.failed(part, seed, found), text(case));
        format!("{report}\n# the shortest list, as a .ride file:\n{ride}")
    }
}
