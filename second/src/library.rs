//! The calls of the proved library on the structs of its header, as a trait, so that a test can put a wrong one in its place.

use crate::built::Counts;
use crate::limits::Limits;
use crate::matlink::{Matlink, MatlinkFrame};

/// Limits as numbers that a caller may pass wrong: window, data life, reply life, reply wait and resend wait.
pub type Asked = [u32; 5];

/// Limits as a caller passes them. A window that 32 bits do not hold becomes the largest number: question 1 refuses both.
pub fn asked(limits: Limits) -> Asked {
    let Limits { window, data_life, reply_life, reply_wait, resend_wait } = limits;
    let [a, b, c, d] = [data_life, reply_life, reply_wait, resend_wait].map(u32::from);
    [u32::try_from(window).unwrap_or(u32::MAX), a, b, c, d]
}

/// The counts of a call by name, in the order in which the library writes them.
pub const COUNT_NAMES: [&str; 11] = [
    "sent",
    "acknowledged",
    "recorded",
    "data_put",
    "data_arrived",
    "data_lost",
    "data_dropped",
    "reply_put",
    "reply_arrived",
    "reply_lost",
    "reply_dropped",
];

/// The counts of a call as the library writes them.
pub type CountNumbers = [u64; COUNT_NAMES.len()];

/// The counts of a call that is refused, or that nothing was added to.
pub const ZERO_COUNTS: CountNumbers = [0; COUNT_NAMES.len()];

/// What a caller lends to a run.
pub struct Lent<'a> {
    /// Kinds and arguments, two bytes an event.
    pub events: &'a [u8],
    /// The rows to send.
    pub supply: &'a [u16],
    /// Where rows are recorded.
    pub record: &'a mut [u16],
    /// One byte for each event.
    pub answers: &'a mut [u8],
    /// The counts.
    pub counts: &'a mut CountNumbers,
}

/// The calls for a link that the caller keeps. Each gives the number of its answer.
pub trait Library: Sync {
    /// Opens a link.
    fn open(&self, link: &mut Matlink, asked: Asked) -> u8;

    /// A call for one event: kind and argument, which need not be bytes.
    fn step(
        &self,
        link: &mut Matlink,
        event: (u32, u32),
        supply: &[u16],
        record: &mut [u16],
        counts: &mut CountNumbers,
    ) -> u8;

    /// A run.
    fn run(&self, link: &mut Matlink, lent: Lent) -> u8;

    /// An opening and one run, without a link of the caller's.
    fn ride(&self, asked: Asked, lent: Lent) -> u8;
}

/// The calls for frames. Each gives the number of its answer; the writer also gives the count of bytes.
pub trait FrameLibrary: Sync {
    /// Reads a frame.
    fn read_frame(&self, bytes: &[u8], out: &mut MatlinkFrame) -> u8;

    /// Writes a frame.
    fn write_frame(&self, frame: &MatlinkFrame, buffer: &mut [u8], count: &mut usize) -> u8;
}

/// The call for pages. It gives the number of its answer and the count of bytes.
pub trait PageLibrary: Sync {
    /// Writes a page of a record.
    fn write_page(&self, record: &[u16], page: u64, buffer: &mut [u8], count: &mut u64) -> u8;
}

/// The calls for a horse's file. Each gives the number of its answer.
pub trait FileLibrary: Sync {
    /// Looks up the current body of a horse's leg, and gives its start and its length in bytes.
    fn look_up(&self, file: &[u8], horse: u32, leg: u32, start: &mut u64, length: &mut u64) -> u8;

    /// Writes a file of entries, 6 bytes each, and of the cells of their rows, and gives the count of bytes.
    fn write_file(&self, entries: &[u8], rows: &[u16], buffer: &mut [u8], count: &mut u64) -> u8;
}

/// The counts as the library writes them.
pub fn count_numbers(counts: Counts) -> CountNumbers {
    let Counts { sent, acknowledged, recorded, data: d, replies: r } = counts;
    [sent, acknowledged, recorded, d.put, d.arrived, d.lost, d.dropped, r.put, r.arrived, r.lost, r.dropped]
        .map(|count| count as u64)
}
