//! The proved static library (feature `proved`). An array is passed as a pointer, a slice as a pointer and a length; `counts` is
//! a pointer to the first of eleven numbers, each as wide as a length.
//!
//! The functions of the C header but those for pages and files are `static inline` and not in the library, so each call here
//! lends as they do. What it lends it takes back whatever the answer is, so that a refused call that wrote something is found out.

use crate::library::{Asked, CountNumbers, FileLibrary, FrameLibrary, Lent, Library, PageLibrary};
use crate::matlink::{Matlink, MatlinkFrame};

#[link(name = "exports", kind = "static")]
unsafe extern "C" {
    fn matlink_lent_open(
        head: *mut u16,
        mat_mark: *mut u16,
        mat_timer: *mut u16,
        mat_cell: *mut u16,
        pad_mark: *mut u16,
        pad_timer: *mut u16,
        pad_cell: *mut u16,
        data: *mut u16,
        reply: *mut u16,
        window: u32,
        data_life: u32,
        reply_life: u32,
        reply_wait: u32,
        resend_wait: u32,
    ) -> u8;

    fn matlink_lent_step(
        head: *mut u16,
        mat_mark: *mut u16,
        mat_timer: *mut u16,
        mat_cell: *mut u16,
        pad_mark: *mut u16,
        pad_timer: *mut u16,
        pad_cell: *mut u16,
        data: *mut u16,
        reply: *mut u16,
        kind: u32,
        argument: u32,
        supply: *const u16,
        supply_length: usize,
        record: *mut u16,
        record_length: usize,
        counts: *mut usize,
    ) -> u8;

    fn matlink_lent_run(
        head: *mut u16,
        mat_mark: *mut u16,
        mat_timer: *mut u16,
        mat_cell: *mut u16,
        pad_mark: *mut u16,
        pad_timer: *mut u16,
        pad_cell: *mut u16,
        data: *mut u16,
        reply: *mut u16,
        events: *const u8,
        events_length: usize,
        supply: *const u16,
        supply_length: usize,
        record: *mut u16,
        record_length: usize,
        answers: *mut u8,
        answers_length: usize,
        counts: *mut usize,
    ) -> u8;

    fn matlink_lent_ride(
        window: u32,
        data_life: u32,
        reply_life: u32,
        reply_wait: u32,
        resend_wait: u32,
        events: *const u8,
        events_length: usize,
        supply: *const u16,
        supply_length: usize,
        record: *mut u16,
        record_length: usize,
        answers: *mut u8,
        answers_length: usize,
        counts: *mut usize,
    ) -> u8;

    fn matlink_lent_read_frame(frame: *const u8, frame_length: usize, head: *mut u16, cells: *mut u16) -> u8;

    fn matlink_lent_write_frame(
        head: *const u16,
        cells: *const u16,
        buffer: *mut u8,
        buffer_length: usize,
        count: *mut usize,
    ) -> u8;

    fn matlink_page(
        record: *const u16,
        record_count: usize,
        page: u64,
        buffer: *mut u8,
        buffer_count: usize,
        count: *mut u64,
    ) -> u8;

    fn matlink_file_lookup(
        file: *const u8,
        file_count: usize,
        horse: u32,
        leg: u32,
        start: *mut u64,
        length: *mut u64,
    ) -> u8;

    fn matlink_file_write(
        entries: *const u8,
        entries_count: usize,
        rows: *const u16,
        rows_count: usize,
        buffer: *mut u8,
        buffer_count: usize,
        count: *mut u64,
    ) -> u8;
}

/// Counts as the library takes them. They are lent and not copied, so that a call that writes behind them is found out; this
/// compiles only where both kinds of number are as wide.
fn as_lengths(counts: &mut CountNumbers) -> *mut usize {
    const { assert!(size_of::<usize>() == size_of::<u64>() && align_of::<usize>() == align_of::<u64>()) };
    counts.as_mut_ptr().cast()
}

/// The library's calls. Each is handed arrays and slices that are whole and do not overlap, as it asks.
pub struct Proved;

impl Library for Proved {
    fn open(&self, link: &mut Matlink, asked: Asked) -> u8 {
        let [window, data_life, reply_life, reply_wait, resend_wait] = asked;
        let mut head = link.head();
        let answer = unsafe {
            matlink_lent_open(
                head.as_mut_ptr(),
                link.mat_mark.as_mut_ptr(),
                link.mat_timer.as_mut_ptr(),
                link.mat_cell.as_mut_ptr(),
                link.pad_mark.as_mut_ptr(),
                link.pad_timer.as_mut_ptr(),
                link.pad_cell.as_mut_ptr(),
                link.data.as_mut_ptr(),
                link.reply.as_mut_ptr(),
                window,
                data_life,
                reply_life,
                reply_wait,
                resend_wait,
            )
        };
        link.set_head(head);
        answer
    }

    fn step(
        &self,
        link: &mut Matlink,
        event: (u32, u32),
        supply: &[u16],
        record: &mut [u16],
        counts: &mut CountNumbers,
    ) -> u8 {
        let mut head = link.head();
        let answer = unsafe {
            matlink_lent_step(
                head.as_mut_ptr(),
                link.mat_mark.as_mut_ptr(),
                link.mat_timer.as_mut_ptr(),
                link.mat_cell.as_mut_ptr(),
                link.pad_mark.as_mut_ptr(),
                link.pad_timer.as_mut_ptr(),
                link.pad_cell.as_mut_ptr(),
                link.data.as_mut_ptr(),
                link.reply.as_mut_ptr(),
                event.0,
                event.1,
                supply.as_ptr(),
                supply.len(),
                record.as_mut_ptr(),
                record.len(),
                as_lengths(counts),
            )
        };
        link.set_head(head);
        answer
    }

    fn run(&self, link: &mut Matlink, lent: Lent) -> u8 {
        let Lent { events, supply, record, answers, counts } = lent;
        let mut head = link.head();
        let answer = unsafe {
            matlink_lent_run(
                head.as_mut_ptr(),
                link.mat_mark.as_mut_ptr(),
                link.mat_timer.as_mut_ptr(),
                link.mat_cell.as_mut_ptr(),
                link.pad_mark.as_mut_ptr(),
                link.pad_timer.as_mut_ptr(),
                link.pad_cell.as_mut_ptr(),
                link.data.as_mut_ptr(),
                link.reply.as_mut_ptr(),
                events.as_ptr(),
                events.len(),
                supply.as_ptr(),
                supply.len(),
                record.as_mut_ptr(),
                record.len(),
                answers.as_mut_ptr(),
                answers.len(),
                as_lengths(counts),
            )
        };
        link.set_head(head);
        answer
    }

    fn ride(&self, asked: Asked, lent: Lent) -> u8 {
        let Lent { events, supply, record, answers, counts } = lent;
        let [window, data_life, reply_life, reply_wait, resend_wait] = asked;
        unsafe {
            matlink_lent_ride(
                window,
                data_life,
                reply_life,
                reply_wait,
                resend_wait,
                events.as_ptr(),
                events.len(),
                supply.as_ptr(),
                supply.len(),
                record.as_mut_ptr(),
                record.len(),
                answers.as_mut_ptr(),
                answers.len(),
                as_lengths(counts),
            )
        }
    }
}

impl FrameLibrary for Proved {
    fn read_frame(&self, bytes: &[u8], out: &mut MatlinkFrame) -> u8 {
        let mut head = out.head();
        let answer =
            unsafe { matlink_lent_read_frame(bytes.as_ptr(), bytes.len(), head.as_mut_ptr(), out.cell.as_mut_ptr()) };
        out.set_head(head);
        answer
    }

    fn write_frame(&self, frame: &MatlinkFrame, buffer: &mut [u8], count: &mut usize) -> u8 {
        let head = frame.head();
        unsafe { matlink_lent_write_frame(head.as_ptr(), frame.cell.as_ptr(), buffer.as_mut_ptr(), buffer.len(), count) }
    }
}

impl PageLibrary for Proved {
    fn write_page(&self, record: &[u16], page: u64, buffer: &mut [u8], count: &mut u64) -> u8 {
        unsafe { matlink_page(record.as_ptr(), record.len(), page, buffer.as_mut_ptr(), buffer.len(), count) }
    }
}

impl FileLibrary for Proved {
    fn look_up(&self, file: &[u8], horse: u32, leg: u32, start: &mut u64, length: &mut u64) -> u8 {
        unsafe { matlink_file_lookup(file.as_ptr(), file.len(), horse, leg, start, length) }
    }

    fn write_file(&self, entries: &[u8], rows: &[u16], buffer: &mut [u8], count: &mut u64) -> u8 {
        unsafe {
            matlink_file_write(
                entries.as_ptr(),
                entries.len(),
                rows.as_ptr(),
                rows.len(),
                buffer.as_mut_ptr(),
                buffer.len(),
                count,
            )
        }
    }
}
