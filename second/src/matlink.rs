//! A link and a frame as a program in C keeps them: the structs of c/include/matlink.h.

use crate::built::{Data, Link, Mat, Pad, Reply, Table};
use crate::frames::Frame;
use crate::limits::{Limits, Row, CELLS, LARGEST_WINDOW, TABLE_PLACES};

/// Words of a data message: life, number, cells.
pub const DATA_WORDS: usize = 2 + CELLS;

/// Words of a reply: life, first, last.
pub const REPLY_WORDS: usize = 3;

/// A link, member by member as the header has it. A mark is off for 0 and on for anything else.
#[derive(Clone, Debug, PartialEq, Eq, Hash)]
#[repr(C)]
#[allow(missing_docs)]
pub struct Matlink {
    pub window: u16,
    pub data_life: u16,
    pub reply_life: u16,
    pub reply_wait: u16,
    pub resend_wait: u16,
    pub oldest: u16,
    pub next: u16,
    pub wanted: u16,
    pub data_count: u16,
    pub reply_count: u16,
    pub mat_mark: [u16; LARGEST_WINDOW],
    pub mat_timer: [u16; LARGEST_WINDOW],
    pub mat_cell: [u16; LARGEST_WINDOW * CELLS],
    pub pad_mark: [u16; LARGEST_WINDOW],
    pub pad_timer: [u16; LARGEST_WINDOW],
    pub pad_cell: [u16; LARGEST_WINDOW * CELLS],
    pub data: [u16; TABLE_PLACES * DATA_WORDS],
    pub reply: [u16; TABLE_PLACES * REPLY_WORDS],
}

/// How many numbers a link has.
pub const NUMBERS: usize = size_of::<Matlink>() / 2;

impl Matlink {
    /// The same number everywhere.
    pub fn filled(number: u16) -> Matlink {
        let n = number;
        Matlink {
            window: n,
            data_life: n,
            reply_life: n,
            reply_wait: n,
            resend_wait: n,
            oldest: n,
            next: n,
            wanted: n,
            data_count: n,
            reply_count: n,
            mat_mark: [n; _],
            mat_timer: [n; _],
            mat_cell: [n; _],
            pad_mark: [n; _],
            pad_timer: [n; _],
            pad_cell: [n; _],
            data: [n; _],
            reply: [n; _],
        }
    }

    /// The single numbers, in their order.
    pub fn head(&self) -> [u16; 10] {
        [
            self.window,
            self.data_life,
            self.reply_life,
            self.reply_wait,
            self.resend_wait,
            self.oldest,
            self.next,
            self.wanted,
            self.data_count,
            self.reply_count,
        ]
    }

    /// Puts the single numbers back.
    pub fn set_head(&mut self, head: [u16; 10]) {
        [
            self.window,
            self.data_life,
            self.reply_life,
            self.reply_wait,
            self.resend_wait,
            self.oldest,
            self.next,
            self.wanted,
            self.data_count,
            self.reply_count,
        ] = head;
    }

    /// All numbers, in their order.
    pub fn numbers(&self) -> Vec<u16> {
        let arrays: [&[u16]; 8] = [
            &self.mat_mark,
            &self.mat_timer,
            &self.mat_cell,
            &self.pad_mark,
            &self.pad_timer,
            &self.pad_cell,
            &self.data,
            &self.reply,
        ];
        [&self.head()[..], &arrays.concat()].concat()
    }

    /// The link with these numbers.
    pub fn of_numbers(numbers: &[u16]) -> Matlink {
        let mut link = Matlink::filled(0);
        let (head, mut rest) = numbers.split_first_chunk().expect("ten numbers");
        link.set_head(*head);
        let arrays: [&mut [u16]; 8] = [
            &mut link.mat_mark,
            &mut link.mat_timer,
            &mut link.mat_cell,
            &mut link.pad_mark,
            &mut link.pad_timer,
            &mut link.pad_cell,
            &mut link.data,
            &mut link.reply,
        ];
        for array in arrays {
            let (front, later) = rest.split_at(array.len());
            array.copy_from_slice(front);
            rest = later;
        }
        link
    }
}

/// Arrays laid out one behind the other, each cell or number widened.
pub(crate) fn flat<const N: usize>(words: impl Iterator<Item = u16>) -> [u16; N] {
    let words: Vec<u16> = words.collect();
    words.try_into().expect("as many as there are")
}

/// The single numbers of a link, in their order.
pub fn head_of(link: &Link) -> [u16; 10] {
    let Link { limits, mat, pad, data, replies } = link;
    [
        limits.window as u16,
        limits.data_life,
        limits.reply_life,
        limits.reply_wait,
        limits.resend_wait,
        mat.oldest.into(),
        mat.next.into(),
        pad.wanted.into(),
        data.count as u16,
        replies.count as u16,
    ]
}

impl From<&Link> for Matlink {
    fn from(link: &Link) -> Matlink {
        let Link { mat, pad, data, replies, .. } = link;
        let reply_words = |m: &Reply| [m.life, u16::from(m.first), u16::from(m.last)];
        let mut out = Matlink {
            mat_mark: mat.marked.map(u16::from),
            mat_timer: mat.timers,
            mat_cell: flat(mat.rows.into_iter().flatten()),
            pad_mark: pad.held.map(u16::from),
            pad_timer: pad.timers,
            pad_cell: flat(pad.rows.into_iter().flatten()),
            data: flat(data.messages.iter().flat_map(|m| [m.life, m.number.into()].into_iter().chain(m.row))),
            reply: flat(replies.messages.iter().flat_map(reply_words)),
            ..Matlink::filled(0)
        };
        out.set_head(head_of(link));
        out
    }
}

/// A sequence number. A byte holds every number that question 4 lets pass, and 255 stands for the others.
#[inline]
pub(crate) fn ring(number: u16) -> u8 {
    number.min(255) as u8
}

/// The rows of an array of cells.
pub(crate) fn rows(cells: &[u16; LARGEST_WINDOW * CELLS]) -> [Row; LARGEST_WINDOW] {
    std::array::from_fn(|place| cells.as_chunks().0[place])
}

impl From<&Matlink> for Link {
    fn from(link: &Matlink) -> Link {
        let limits = Limits {
            window: link.window.into(),
            data_life: link.data_life,
            reply_life: link.reply_life,
            reply_wait: link.reply_wait,
            resend_wait: link.resend_wait,
        };
        let mat = Mat {
            oldest: ring(link.oldest),
            next: ring(link.next),
            rows: rows(&link.mat_cell),
            marked: link.mat_mark.map(|mark| mark != 0),
            timers: link.mat_timer,
        };
        let pad = Pad {
            wanted: ring(link.wanted),
            rows: rows(&link.pad_cell),
            held: link.pad_mark.map(|mark| mark != 0),
            timers: link.pad_timer,
        };
        let data = std::array::from_fn(|p| {
            let [life, number, ref cells @ ..] = link.data.as_chunks::<DATA_WORDS>().0[p];
            Data { number: ring(number), life, row: *cells }
        });
        let replies = std::array::from_fn(|p| {
            let [life, first, last] = link.reply.as_chunks::<REPLY_WORDS>().0[p];
            Reply { first: ring(first), last: ring(last), life }
        });
        Link {
            limits,
            mat,
            pad,
            data: Table { count: link.data_count.into(), messages: data },
            replies: Table { count: link.reply_count.into(), messages: replies },
        }
    }
}

/// Zeros in place of what is free in a mat: what stands beyond w, and the cells of rows not outstanding.
pub fn mat_without_free(limits: &Limits, mat: &mut Mat) {
    let (w, oldest) = (limits.window, usize::from(mat.oldest));
    let outstanding = (usize::from(mat.next) + 2 * w - oldest) % (2 * w);
    for place in 0..LARGEST_WINDOW {
        let step = (place + 2 * w - oldest) % w;
        if place >= w {
            (mat.marked[place], mat.timers[place]) = (false, 0);
        }
        if place >= w || step >= outstanding {
            mat.rows[place] = [0; CELLS];
        }
    }
}

/// Zeros in place of what is free in a pad: what stands beyond w, and the cells and timers of rows not held.
pub fn pad_without_free(limits: &Limits, pad: &mut Pad) {
    for place in 0..LARGEST_WINDOW {
        if place >= limits.window || !pad.held[place] {
            (pad.held[place], pad.timers[place], pad.rows[place]) = (false, 0, [0; CELLS]);
        }
    }
}

/// A sound link with zeros in place of what is free: in the mat, in the pad, and what stands beyond a table's count.
pub fn without_free(link: &Link) -> Link {
    let mut link = link.clone();
    mat_without_free(&link.limits, &mut link.mat);
    pad_without_free(&link.limits, &mut link.pad);
    let (data, replies) = (link.data.count, link.replies.count);
    link.data.messages[data..].fill(Data::default());
    link.replies.messages[replies..].fill(Reply::default());
    link
}

/// A frame, member by member as the header has it. Of kind 1 it is a data frame; of kind 2 a reply frame, whose first number is
/// `number`.
#[derive(Clone, Debug, PartialEq, Eq)]
#[repr(C)]
#[allow(missing_docs)]
pub struct MatlinkFrame {
    pub kind: u16,
    pub life: u16,
    pub window: u16,
    pub number: u16,
    pub last: u16,
    pub cell: Row,
}

impl MatlinkFrame {
    /// The same number everywhere.
    pub fn filled(number: u16) -> MatlinkFrame {
        let n = number;
        MatlinkFrame { kind: n, life: n, window: n, number: n, last: n, cell: [n; CELLS] }
    }

    /// The single numbers, in their order.
    pub fn head(&self) -> [u16; 5] {
        [self.kind, self.life, self.window, self.number, self.last]
    }

    /// Puts the single numbers back.
    pub fn set_head(&mut self, head: [u16; 5]) {
        [self.kind, self.life, self.window, self.number, self.last] = head;
    }

    /// The frame, if the kind is one. A number that a byte does not hold becomes 255: every question refuses both.
    pub fn frame(&self) -> Option<Frame> {
        let [life, window, number, last] = [self.life, self.window, self.number, self.last].map(ring);
        match self.kind {
            1 => Some(Frame::Data { life, window, number, row: self.cell }),
            2 => Some(Frame::Reply { life, window, first: number, last }),
            _ => None,
        }
    }
}

/// What a kind does not have is 0.
impl From<&Frame> for MatlinkFrame {
    fn from(frame: &Frame) -> MatlinkFrame {
        let (numbers, cell) = match *frame {
            Frame::Data { life, window, number, row } => ([1, life, window, number, 0], row),
            Frame::Reply { life, window, first, last } => ([2, life, window, first, last], [0; CELLS]),
        };
        let mut out = MatlinkFrame { cell, ..MatlinkFrame::filled(0) };
        out.set_head(numbers.map(u16::from));
        out
    }
}
