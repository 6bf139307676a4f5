//! The calls of the proved devices on the structs of their header, as a trait, so that a test can put a wrong one in its
//! place.

use crate::kept_devices::{KeptMat, KeptPad};
use crate::library::Asked;

/// The calls for a mat and a pad that the caller keeps. Each gives the number of its answer.
pub trait DeviceLibrary: Sync {
    /// Opens a mat.
    fn mat_open(&self, mat: &mut KeptMat, asked: Asked) -> u8;

    /// Sends the supply's first row: the frame and its length.
    fn mat_send(&self, mat: &mut KeptMat, supply: &[u16], frame: &mut [u8], written: &mut usize) -> u8;

    /// Sends row oldest + k again: the frame and its length.
    fn mat_resend(&self, mat: &mut KeptMat, k: u32, frame: &mut [u8], written: &mut usize) -> u8;

    /// Takes any bytes: how many rows are newly acknowledged.
    fn mat_receive(&self, mat: &mut KeptMat, frame: &[u8], acknowledged: &mut usize) -> u8;

    /// Time passes at the mat.
    fn mat_tick(&self, mat: &mut KeptMat, d: u32) -> u8;

    /// Opens a pad.
    fn pad_open(&self, pad: &mut KeptPad, asked: Asked) -> u8;

    /// Takes any bytes: for an old row the reply frame and its length.
    fn pad_receive(&self, pad: &mut KeptPad, frame: &[u8], reply: &mut [u8], written: &mut usize) -> u8;

    /// Records a run of rows: how many, and the reply frame and its length.
    fn pad_reply(
        &self,
        pad: &mut KeptPad,
        record: &mut [u16],
        reply: &mut [u8],
        rows: &mut usize,
        written: &mut usize,
    ) -> u8;

    /// Time passes at the pad.
    fn pad_tick(&self, pad: &mut KeptPad, d: u32) -> u8;
}
