//! The mat and the pad of the proved static library (feature `proved`), called as the functions of the C header call them.
//!
//! Limits are lent to be read alone, except at an opening; a caller's struct gets all back, so a call that changes them is
//! found out.

use crate::device_library::DeviceLibrary;
use crate::kept_devices::{KeptMat, KeptPad};
use crate::library::Asked;
use crate::proved::Proved;

#[link(name = "exports", kind = "static")]
unsafe extern "C" {
    fn matlink_lent_mat_open(
        limits: *mut u16,
        numbers: *mut u16,
        mark: *mut u16,
        timer: *mut u16,
        cell: *mut u16,
        window: u32,
        data_life: u32,
        reply_life: u32,
        reply_wait: u32,
        resend_wait: u32,
    ) -> u8;

    fn matlink_lent_mat_send(
        limits: *const u16,
        numbers: *mut u16,
        mark: *mut u16,
        timer: *mut u16,
        cell: *mut u16,
        supply: *const u16,
        supply_count: usize,
        frame: *mut u8,
        frame_count: usize,
        written: *mut usize,
    ) -> u8;

    fn matlink_lent_mat_resend(
        limits: *const u16,
        numbers: *mut u16,
        mark: *mut u16,
        timer: *mut u16,
        cell: *mut u16,
        k: u32,
        frame: *mut u8,
        frame_count: usize,
        written: *mut usize,
    ) -> u8;

    fn matlink_lent_mat_receive(
        limits: *const u16,
        numbers: *mut u16,
        mark: *mut u16,
        timer: *mut u16,
        cell: *mut u16,
        frame: *const u8,
        frame_count: usize,
        acknowledged: *mut usize,
    ) -> u8;

    fn matlink_lent_mat_tick(
        limits: *const u16,
        numbers: *mut u16,
        mark: *mut u16,
        timer: *mut u16,
        cell: *mut u16,
        d: u32,
    ) -> u8;

    fn matlink_lent_pad_open(
        limits: *mut u16,
        numbers: *mut u16,
        mark: *mut u16,
        timer: *mut u16,
        cell: *mut u16,
        window: u32,
        data_life: u32,
        reply_life: u32,
        reply_wait: u32,
        resend_wait: u32,
    ) -> u8;

    fn matlink_lent_pad_receive(
        limits: *const u16,
        numbers: *mut u16,
        mark: *mut u16,
        timer: *mut u16,
        cell: *mut u16,
        frame: *const u8,
        frame_count: usize,
        reply: *mut u8,
        reply_count: usize,
        written: *mut usize,
    ) -> u8;

    fn matlink_lent_pad_reply(
        limits: *const u16,
        numbers: *mut u16,
        mark: *mut u16,
        timer: *mut u16,
        cell: *mut u16,
        record: *mut u16,
        record_count: usize,
        reply: *mut u8,
        reply_count: usize,
        rows: *mut usize,
        written: *mut usize,
    ) -> u8;

    fn matlink_lent_pad_tick(
        limits: *const u16,
        numbers: *mut u16,
        mark: *mut u16,
        timer: *mut u16,
        cell: *mut u16,
        d: u32,
    ) -> u8;
}

/// A call that is lent the five arrays of a device, its limits as this pointer has them, and then what else it takes.
macro_rules! lend {
    ($function:ident, $device:expr, $limits:ident $(, $argument:expr)* $(,)?) => {
        unsafe {
            $function(
                $device.limits.$limits(),
                $device.numbers.as_mut_ptr(),
                $device.mark.as_mut_ptr(),
                $device.timer.as_mut_ptr(),
                $device.cell.as_mut_ptr(),
                $($argument),*
            )
        }
    };
}

impl DeviceLibrary for Proved {
    fn mat_open(&self, mat: &mut KeptMat, asked: Asked) -> u8 {
        let [window, data_life, reply_life, reply_wait, resend_wait] = asked;
        lend!(matlink_lent_mat_open, mat, as_mut_ptr, window, data_life, reply_life, reply_wait, resend_wait)
    }

    fn mat_send(&self, mat: &mut KeptMat, supply: &[u16], frame: &mut [u8], written: &mut usize) -> u8 {
        let (cells, bytes) = (supply.len(), frame.len());
        lend!(matlink_lent_mat_send, mat, as_ptr, supply.as_ptr(), cells, frame.as_mut_ptr(), bytes, written)
    }

    fn mat_resend(&self, mat: &mut KeptMat, k: u32, frame: &mut [u8], written: &mut usize) -> u8 {
        lend!(matlink_lent_mat_resend, mat, as_ptr, k, frame.as_mut_ptr(), frame.len(), written)
    }

    fn mat_receive(&self, mat: &mut KeptMat, frame: &[u8], acknowledged: &mut usize) -> u8 {
        lend!(matlink_lent_mat_receive, mat, as_ptr, frame.as_ptr(), frame.len(), acknowledged)
    }

    fn mat_tick(&self, mat: &mut KeptMat, d: u32) -> u8 {
        lend!(matlink_lent_mat_tick, mat, as_ptr, d)
    }

    fn pad_open(&self, pad: &mut KeptPad, asked: Asked) -> u8 {
        let [window, data_life, reply_life, reply_wait, resend_wait] = asked;
        lend!(matlink_lent_pad_open, pad, as_mut_ptr, window, data_life, reply_life, reply_wait, resend_wait)
    }

    fn pad_receive(&self, pad: &mut KeptPad, frame: &[u8], reply: &mut [u8], written: &mut usize) -> u8 {
        let (bytes, space) = (frame.len(), reply.len());
        lend!(matlink_lent_pad_receive, pad, as_ptr, frame.as_ptr(), bytes, reply.as_mut_ptr(), space, written)
    }

    fn pad_reply(
        &self,
        pad: &mut KeptPad,
        record: &mut [u16],
        reply: &mut [u8],
        rows: &mut usize,
        written: &mut usize,
    ) -> u8 {
        let (cells, bytes) = (record.len(), reply.len());
        lend!(matlink_lent_pad_reply, pad, as_ptr, record.as_mut_ptr(), cells, reply.as_mut_ptr(), bytes, rows, written)
    }

    fn pad_tick(&self, pad: &mut KeptPad, d: u32) -> u8 {
        lend!(matlink_lent_pad_tick, pad, as_ptr, d)
    }
}
