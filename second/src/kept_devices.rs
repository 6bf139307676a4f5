//! A mat and a pad as a program in C keeps them: the structs of c/include/matlink_devices.h.

use crate::devices::{MatDevice, PadDevice};
use crate::limits::{Limits, CELLS, LARGEST_WINDOW};
use crate::mat::Mat;
use crate::matlink::{flat, ring, rows};
use crate::pad::Pad;

/// A device, array by array as the header has its members: five limits, and N sequence numbers. A mark is off for 0 and on
/// for anything else.
#[derive(Clone, Debug, PartialEq, Eq)]
#[repr(C)]
pub struct Kept<const N: usize> {
    /// Window, data life, reply life, reply wait, resend wait.
    pub limits: [u16; 5],
    /// Oldest and next, or wanted.
    pub numbers: [u16; N],
    /// Acknowledged or held marks.
    pub mark: [u16; LARGEST_WINDOW],
    /// Resend or reply timers.
    pub timer: [u16; LARGEST_WINDOW],
    /// The rows' cells.
    pub cell: [u16; LARGEST_WINDOW * CELLS],
}

/// `struct matlink_mat`.
pub type KeptMat = Kept<2>;

/// `struct matlink_pad`.
pub type KeptPad = Kept<1>;

const LIMITS: [&str; 5] = ["window", "data_life", "reply_life", "reply_wait", "resend_wait"];

impl<const N: usize> Kept<N> {
    /// How many numbers there are.
    pub const COUNT: usize = size_of::<Kept<N>>() / 2;

    /// The same number everywhere.
    pub fn filled(number: u16) -> Kept<N> {
        let n = number;
        Kept { limits: [n; _], numbers: [n; _], mark: [n; _], timer: [n; _], cell: [n; _] }
    }

    /// The arrays, in their order.
    fn arrays(&self) -> [&[u16]; 5] {
        [&self.limits, &self.numbers, &self.mark, &self.timer, &self.cell]
    }

    /// All numbers, in their order.
    pub fn all(&self) -> Vec<u16> {
        self.arrays().concat()
    }

    /// One number by its place among all.
    pub fn at(&mut self, mut place: usize) -> &mut u16 {
        let arrays: [&mut [u16]; 5] = [&mut self.limits, &mut self.numbers, &mut self.mark, &mut self.timer, &mut self.cell];
        for array in arrays {
            if place < array.len() {
                return &mut array[place];
            }
            place -= array.len();
        }
        panic!("a place among all numbers")
    }

    /// The name of a number by its place among all.
    pub fn name(place: usize) -> String {
        let numbers: &[&str] = if N == 1 { &["wanted"] } else { &["oldest", "next"] };
        if let Some(name) = LIMITS.iter().chain(numbers).nth(place) {
            return (*name).into();
        }
        let index = place - LIMITS.len() - N;
        match (index / LARGEST_WINDOW, index % LARGEST_WINDOW) {
            (0, at) => format!("mark[{at}]"),
            (1, at) => format!("timer[{at}]"),
            _ => {
                let cell = index - 2 * LARGEST_WINDOW;
                format!("cell[{cell}] (place {}, cell {})", cell / CELLS, cell % CELLS)
            }
        }
    }
}

fn limits_of(limits: [u16; 5]) -> Limits {
    let [window, data_life, reply_life, reply_wait, resend_wait] = limits;
    Limits { window: window.into(), data_life, reply_life, reply_wait, resend_wait }
}

fn limit_numbers(limits: &Limits) -> [u16; 5] {
    let Limits { window, data_life, reply_life, reply_wait, resend_wait } = *limits;
    [window as u16, data_life, reply_life, reply_wait, resend_wait]
}

impl From<&MatDevice> for KeptMat {
    fn from(device: &MatDevice) -> KeptMat {
        let MatDevice { limits, mat } = device;
        Kept {
            limits: limit_numbers(limits),
            numbers: [mat.oldest.into(), mat.next.into()],
            mark: mat.marked.map(u16::from),
            timer: mat.timers,
            cell: flat(mat.rows.into_iter().flatten()),
        }
    }
}

impl From<&KeptMat> for MatDevice {
    fn from(kept: &KeptMat) -> MatDevice {
        let [oldest, next] = kept.numbers.map(ring);
        let marked = kept.mark.map(|mark| mark != 0);
        MatDevice {
            limits: limits_of(kept.limits),
            mat: Mat { oldest, next, rows: rows(&kept.cell), marked, timers: kept.timer },
        }
    }
}

impl From<&PadDevice> for KeptPad {
    fn from(device: &PadDevice) -> KeptPad {
        let PadDevice { limits, pad } = device;
        Kept {
            limits: limit_numbers(limits),
            numbers: [pad.wanted.into()],
            mark: pad.held.map(u16::from),
            timer: pad.timers,
            cell: flat(pad.rows.into_iter().flatten()),
        }
    }
}

impl From<&KeptPad> for PadDevice {
    fn from(kept: &KeptPad) -> PadDevice {
        let [wanted] = kept.numbers.map(ring);
        let held = kept.mark.map(|mark| mark != 0);
        PadDevice { limits: limits_of(kept.limits), pad: Pad { wanted, rows: rows(&kept.cell), held, timers: kept.timer } }
    }
}
