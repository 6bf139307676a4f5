//! The proved code compared with the second implementation: the trial program and the static library.
//!
//! `differential TRIAL [--seed N] [--events N] [--part NAME]`: the trial's path; the seed of the first random case, 0 if it is
//! left out; how many events random cases have in all; the only part to run. The same numbers give the same cases. Prints what
//! was compared, or a difference with its seed, how to replay it and the shortest list or the smallest link that shows it, and
//! then ends with status 1.

use second::proved::Proved;
use second::report::{Outcome, Replay};
use second::threads::Amount;
use second::trials::{random_trials, short_trials};
use second::{
    checks, device_bytes, device_checks, device_openings, device_rides, file_checks, frame_checks, links, page_checks,
    wait_checks,
};
use std::process::exit;
use std::time::Instant;

/// How many events there are where the caller does not say.
const EVENTS: u64 = 10_000_000;

/// What the caller asked for.
struct Asked {
    trial: String,
    amount: Amount,
    part: Option<String>,
    replay: Replay,
    /// How many parts there were of that name.
    ran: usize,
}

fn usage() -> ! {
    eprintln!("usage: differential TRIAL [--seed N] [--events N] [--part NAME]");
    exit(2)
}

impl Asked {
    fn read() -> Asked {
        let mut words = std::env::args();
        let (Some(program), Some(trial)) = (words.next(), words.next()) else { usage() };
        let replay = Replay { command: format!("{program} {trial}") };
        let mut asked = Asked { trial, amount: Amount { seed: 0, events: EVENTS }, part: None, replay, ran: 0 };
        while let Some(word) = words.next() {
            let Some(value) = words.next() else { usage() };
            let number = || value.parse().unwrap_or_else(|_| usage());
            match word.as_str() {
                "--seed" => asked.amount.seed = number(),
                "--events" => asked.amount.events = number(),
                "--part" => asked.part = Some(value),
                _ => usage(),
            }
        }
        asked
    }

    /// Runs a part, if it is asked for. A difference ends the program.
    fn part(&mut self, name: &str, compare: impl Fn(&Asked) -> Outcome) {
        if self.part.as_ref().is_some_and(|only| only != name) {
            return;
        }
        self.ran += 1;
        let start = Instant::now();
        match compare(self) {
            Ok(text) => println!("{name}, {:.1} s: {text}", start.elapsed().as_secs_f64()),
            Err(text) => {
                println!("{text}");
                exit(1);
            }
        }
    }
}

fn main() {
    let mut asked = Asked::read();
    asked.part("trials", |a| random_trials(&a.trial, &a.replay, a.amount.percent(10)));
    asked.part("short-trials", |a| short_trials(&a.trial, &a.replay, 3));
    asked.part("lists", |a| checks::random_lists(&Proved, &a.replay, a.amount.percent(75)));
    asked.part("links", |a| links::made_up_links(&Proved, &a.replay, a.amount.percent(10)));
    asked.part("damaged", |a| links::damaged_links(&Proved, &a.replay, a.amount.percent(5)));
    asked.part("short-lists", |a| checks::short_lists(&Proved, &a.replay, 8));
    asked.part("openings", |a| checks::openings(&Proved, &a.replay, a.amount));
    asked.part("waits", |a| wait_checks::waits(&Proved, &a.replay, a.amount, 20));
    asked.part("wide", |_| checks::wide_numbers(&Proved));
    asked.part("readings", |a| frame_checks::readings(&Proved, &a.replay, a.amount));
    asked.part("writings", |a| frame_checks::writings(&Proved, &a.replay, a.amount, 200_000));
    asked.part("pages", |a| page_checks::pages(&Proved, &a.replay, a.amount, 10_000));
    asked.part("files", |a| file_checks::files(&Proved, &a.replay, a.amount, 5_000));
    asked.part("device-calls", |a| device_checks::made_up_devices(&Proved, &a.replay, a.amount.percent(5)));
    asked.part("device-damage", |a| device_checks::damaged_devices(&Proved, &a.replay, a.amount.percent(4)));
    asked.part("device-openings", |a| device_openings::device_openings(&Proved, &a.replay, a.amount));
    asked.part("device-bytes", |a| device_bytes::any_bytes(&Proved, &a.replay, a.amount.percent(10)));
    asked.part("device-lists", |a| device_rides::device_lists(&Proved, &a.replay, a.amount.percent(6)));
    if asked.ran == 0 {
        usage();
    }
}
