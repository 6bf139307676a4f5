//! Runs rides that are written in words. usage.txt says how it is called, docs/RIDES.md what a ride is and what is printed.

mod brief;
mod chart;
mod link;
mod nearest;
mod numbers;
mod run;
mod story;
mod svg;
mod text;

use std::io::{ErrorKind, Write};
use std::process::exit;
use text::Ride;

const USAGE: &str = include_str!("usage.txt");

/// The exit statuses: the text or the command line has a fault; something cannot be run or written.
const FAULT: i32 = 1;
const NO_RUN: i32 = 2;

/// Why a ride is not printed.
struct Failure {
    status: i32,
    why: String,
}

fn fault(why: String) -> Failure {
    Failure { status: FAULT, why }
}

fn no_run(why: String) -> Failure {
    Failure { status: NO_RUN, why }
}

/// What is asked for in the command line.
#[derive(Default)]
struct Asked<'a> {
    brief: bool,
    bytes: bool,
    chart: Option<&'a str>,
    page: Option<u64>,
    trial: Option<&'a str>,
    files: Vec<&'a str>,
}

/// A reader of the output may stop early, as `head` does; that is no fault.
fn print(bytes: &[u8], status: i32) {
    let mut stdout = std::io::stdout();
    match stdout.write_all(bytes).and_then(|()| stdout.flush()) {
        Err(e) if e.kind() == ErrorKind::BrokenPipe => exit(status),
        Err(e) => {
            eprintln!("standard output: {e}");
            exit(NO_RUN)
        }
        Ok(()) => (),
    }
}

fn ride_of(file: &str) -> Result<Ride, Failure> {
    let bytes = std::fs::read(file).map_err(|e| fault(format!("{file}: {e}")))?;
    if bytes.starts_with(b"\xff\xfe") || bytes.starts_with(b"\xfe\xff") {
        return Err(fault(format!("{file}:1: the text is UTF-16; a ride is UTF-8")));
    }
    text::read(&String::from_utf8_lossy(&bytes)).map_err(|faults| {
        let mut lines: Vec<String> = faults.list.iter().map(|f| format!("{file}:{}: {}", f.line, f.text)).collect();
        if faults.unknown {
            let forms: Vec<String> = text::forms().iter().map(|form| format!("`{form}`")).collect();
            lines.push(format!("{file}: the lines of a ride are {}", forms.join(", ")));
        }
        fault(lines.join("\n"))
    })
}

/// The last part of a path, so that a chart does not depend on where it is made.
fn name(file: &str) -> &str {
    file.rsplit('/').next().unwrap_or(file)
}

fn by_library(asked: &Asked, file: &str, ride: &Ride) -> Result<String, Failure> {
    let run = run::run(ride).map_err(|why| no_run(format!("{file}: {why}")))?;
    if let Some(path) = asked.chart {
        let drawn = match &run {
            Ok(run) => chart::drawn(name(file), run),
            Err(answer) => chart::drawn_refused(name(file), &ride.limits(), *answer),
        };
        std::fs::write(path, drawn).map_err(|e| no_run(format!("{path}: {e}")))?;
    }
    Ok(match (run, asked.page) {
        (Ok(run), Some(page)) => link::page(run.recorded(), page).unwrap_or_else(brief::refused),
        (Ok(run), None) if asked.brief => brief::table(&ride.events, &brief::Answers::of(&run)),
        (Ok(run), None) => story::told(&run),
        (Err(answer), _) => brief::refused(answer),
    })
}

fn printed(asked: &Asked, file: &str) -> Result<Vec<u8>, Failure> {
    let ride = ride_of(file)?;
    match asked.trial {
        _ if asked.bytes => Ok(ride.bytes()),
        Some(program) => brief::by_program(program, &ride).map(String::into_bytes).map_err(no_run),
        None => by_library(asked, file, &ride).map(String::into_bytes),
    }
}

/// Each file gets its turn, whatever the others have in them.
fn run_all(asked: &Asked) -> i32 {
    let mut status = 0;
    for (n, file) in asked.files.iter().enumerate() {
        if asked.files.len() > 1 {
            let space = if n == 0 { "" } else { "\n" };
            print(format!("{space}{file}\n").as_bytes(), status);
        }
        match printed(asked, file) {
            Ok(bytes) => print(&bytes, status),
            Err(failure) => {
                eprintln!("{}", failure.why);
                status = status.max(failure.status);
            }
        }
    }
    status
}

fn tables() -> String {
    let mut lines = vec![];
    for (form, kind) in text::EVENTS {
        let argument = form.split(' ').find(|word| word.len() == 1).unwrap_or("0");
        lines.push(format!("| `{form}` | {kind} | {argument} |"));
    }
    for (n, (name, words)) in numbers::NUMBERS.iter().enumerate() {
        lines.push(format!("| {n} | `{name}` | {words} |"));
    }
    lines.join("\n") + "\n"
}

fn asked<'a>(words: &[&'a str]) -> Result<Asked<'a>, String> {
    let mut asked = Asked::default();
    let mut words = words.iter();
    while let Some(word) = words.next() {
        match *word {
            "--brief" => asked.brief = true,
            "--bytes" => asked.bytes = true,
            // the ending, so that a ride that stands in the chart's place is not overwritten
            "--chart" => match words.next() {
                Some(path) if path.ends_with(".svg") => asked.chart = Some(path),
                _ => return Err("--chart is followed by a file whose name ends with .svg".to_string()),
            },
            "--page" => {
                let number = words.next().and_then(|word| word.parse().ok());
                asked.page = Some(number.ok_or("--page is followed by the number of a page, counted from 0")?);
            }
            "--trial" => asked.trial = Some(words.next().ok_or("--trial is followed by a program")?),
            option if option.starts_with('-') => return Err(format!("there is no option {option}")),
            file => asked.files.push(file),
        }
    }
    let single = asked.chart.is_some() || asked.bytes;
    let others = [asked.bytes, asked.trial.is_some(), asked.chart.is_some()].iter().filter(|on| **on).count();
    match asked.files.len() {
        0 => Err("no ride is named".to_string()),
        2.. if single => Err("--chart and --bytes take one ride".to_string()),
        _ if asked.page.is_some() && (others > 0 || asked.brief) => Err("--page goes with no other option".to_string()),
        _ if others > 1 => Err("--chart, --trial and --bytes exclude each other".to_string()),
        _ => Ok(asked),
    }
}

fn main() {
    let words: Vec<String> = std::env::args().skip(1).collect();
    let words: Vec<&str> = words.iter().map(String::as_str).collect();
    if words.iter().any(|word| ["--help", "-h"].contains(word)) {
        return print(USAGE.as_bytes(), 0);
    }
    if words.contains(&"--tables") {
        return print(tables().as_bytes(), 0);
    }
    match asked(&words) {
        Ok(asked) => exit(run_all(&asked)),
        Err(why) => {
            eprintln!("{why}; rides/ride --help says how it is called");
            exit(FAULT)
        }
    }
}
