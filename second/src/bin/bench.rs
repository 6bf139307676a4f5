//! Events per second of the proved run and of the run here, and single runs for callgrind to count.
//!
//! `bench time` prints a line for each ride: name, window, events, how many are refused, and events per second of both. `bench proved N` and
//! `bench second N` do ride N once; their work stands in matlink_lent_run and in second_run. `bench page ROWS P` writes page P of
//! a record of so many rows by both; their work stands in matlink_page and in second_page. `bench file N ROWS` writes a file of
//! N entries of so many rows each by both, and looks up the last of them; their work stands in matlink_file_write and second_write, in
//! matlink_file_lookup and second_lookup.

use second::built::{Counts, Link};
use second::draw_cells::random_cells;
use second::file::{current_of_numbers, first_body, write_from_bytes, Entry, ROW_LENGTH};
use second::library::{asked, count_numbers, CountNumbers, FileLibrary, Lent, Library, PageLibrary, ZERO_COUNTS};
use second::limits::{Refusal, CELLS};
use second::matlink::Matlink;
use second::page::page;
use second::proved::Proved;
use second::random::Random;
use second::rides::{all_rides, Ride};
use std::hint::black_box;
use std::ops::Range;
use std::time::Instant;

/// How many events each ride has.
const LENGTH: usize = 20_000;

/// How often a ride is timed; the fastest counts.
const TIMES: usize = 30;

/// Buffers that the caller lends, the same for both.
struct Buffers {
    kept: Matlink,
    link: Link,
    record: Vec<u16>,
    answers: Vec<u8>,
    counts: CountNumbers,
}

impl Buffers {
    fn new(ride: &Ride) -> Buffers {
        let mut kept = Matlink::filled(0);
        assert_eq!(Proved.open(&mut kept, asked(ride.limits)), 0);
        let (opened, link) = Link::open(ride.limits);
        assert_eq!(opened, Ok(()));
        let (record, answers) = (vec![0; ride.supply.len()], vec![0; ride.events.len() / 2]);
        Buffers { kept, link, record, answers, counts: ZERO_COUNTS }
    }

    fn proved(&mut self, ride: &Ride) -> u8 {
        let Buffers { kept, record, answers, counts, .. } = self;
        Proved.run(kept, Lent { events: &ride.events, supply: &ride.supply, record, answers, counts })
    }

    fn second(&mut self, ride: &Ride) -> bool {
        let done = second_run(&mut self.link, &ride.events, &ride.supply, &mut self.record, &mut self.answers);
        self.counts = count_numbers(done.unwrap_or_default());
        done.is_ok()
    }
}

/// A name that callgrind finds. It gives the counts, so that counting them is not optimized away.
#[inline(never)]
#[no_mangle]
pub fn second_run(
    link: &mut Link,
    events: &[u8],
    supply: &[u16],
    record: &mut [u16],
    answers: &mut [u8],
) -> Result<Counts, Refusal> {
    link.run(events, supply, record, answers)
}

/// Events per second, the best of some runs, each on a fresh link and in buffers that an earlier run wrote.
fn rate(ride: &Ride, run: impl Fn(&mut Buffers)) -> f64 {
    let mut lent = Buffers::new(ride);
    let mut best = f64::MAX;
    for _ in 0..TIMES {
        let fresh = Buffers::new(ride);
        (lent.kept, lent.link) = (fresh.kept, fresh.link);
        let start = Instant::now();
        run(black_box(&mut lent));
        best = best.min(start.elapsed().as_secs_f64());
    }
    (ride.events.len() / 2) as f64 / best
}

/// How many events of the ride are refused, which both must agree on.
fn refused(ride: &Ride) -> usize {
    let (mut proved, mut second) = (Buffers::new(ride), Buffers::new(ride));
    proved.proved(ride);
    second.second(ride);
    assert!(proved.answers == second.answers && proved.record == second.record, "both runs are the same");
    assert_eq!(proved.counts, second.counts, "both count the same");
    proved.answers.iter().filter(|answer| **answer != 0).count()
}

fn times(rides: &[Ride]) {
    for ride in rides {
        let proved = rate(ride, |lent| assert_eq!(lent.proved(ride), 0));
        let second = rate(ride, |lent| assert!(lent.second(ride)));
        let (events, refused) = (ride.events.len() / 2, refused(ride));
        println!("{}\t{}\t{events}\t{refused}\t{proved:.0}\t{second:.0}", ride.name, ride.limits.window);
    }
}

/// A name that callgrind finds.
#[inline(never)]
#[no_mangle]
pub fn second_page(record: &[u16], p: u64, buffer: &mut [u8]) -> Result<usize, Refusal> {
    page(record, p, buffer)
}

/// Both pages, and how many rows they have.
fn pages(rows: usize, p: u64) {
    let record = random_cells(&mut Random::new(0), rows * CELLS);
    let (mut proved, mut second) = ([0; 60 * 23], [0; 60 * 23]);
    let mut count = 0;
    Proved.write_page(&record, p, &mut proved, &mut count);
    assert_eq!(second_page(&record, p, &mut second).unwrap_or(0) as u64, count);
    assert_eq!(proved, second, "both pages are the same");
    println!("{}", count / 23);
}

/// A name that callgrind finds.
#[inline(never)]
#[no_mangle]
pub fn second_write(entries: &[u8], rows: &[u16], buffer: &mut [u8]) -> Result<usize, Refusal> {
    write_from_bytes(entries, rows, buffer)
}

/// A name that callgrind finds.
#[inline(never)]
#[no_mangle]
pub fn second_lookup(file: &[u8], horse: u32, leg: u32) -> Result<Range<usize>, Refusal> {
    current_of_numbers(file, horse, leg)
}

/// Both files, and the last entry looked up in them: how many bytes the file has. Each horse has one save of each leg.
fn files(count: usize, rows: u16) {
    let entry = |i: usize| Entry { horse: (i / 6) as u16, leg: 1 + (i % 6) as u8, save: 1, rows };
    let entries: Vec<u8> = (0..count).flat_map(|i| entry(i).to_bytes()).collect();
    let cells = random_cells(&mut Random::new(0), count * usize::from(rows) * CELLS);
    let length = first_body(count) + count * usize::from(rows) * ROW_LENGTH;
    let (mut proved, mut second, mut written) = (vec![0; length], vec![0; length], 0);
    assert_eq!(Proved.write_file(&entries, &cells, &mut proved, &mut written), 0);
    assert_eq!(second_write(&entries, &cells, &mut second), Ok(length));
    assert!(proved == second && written as usize == length, "both files are the same");
    let last = entry(count.saturating_sub(1));
    let (horse, leg, mut start, mut size) = (last.horse.into(), last.leg.into(), 0, 0);
    Proved.look_up(&proved, horse, leg, &mut start, &mut size);
    let place = second_lookup(&second, horse, leg).unwrap_or(0..0);
    assert_eq!((place.start, place.len()), (start as usize, size as usize), "both found the same");
    println!("{length}");
}

fn main() {
    let words: Vec<String> = std::env::args().skip(1).collect();
    if let [how, first, then] = &words[..] {
        let number = |word: &String| word.parse().expect("a number");
        return match how.as_str() {
            "page" => pages(number(first), number(then) as u64),
            "file" => files(number(first), number(then) as u16),
            _ => panic!("page or file"),
        };
    }
    let rides = all_rides(LENGTH);
    let ride = words.get(1).map(|n| &rides[n.parse::<usize>().expect("a ride's place")]);
    match (words.first().map(String::as_str), ride) {
        (Some("proved"), Some(ride)) => assert_eq!(Buffers::new(ride).proved(ride), 0),
        (Some("second"), Some(ride)) => assert!(Buffers::new(ride).second(ride)),
        _ => times(&rides),
    }
}
