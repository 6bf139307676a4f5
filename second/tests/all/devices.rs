//! The mat and the pad as devices: the paper's cases by frames, and what each call writes.

use super::{limits, list, record, supply};
use second::devices::{MatDevice, PadDevice, Received};
use second::limits::{number, Refusal, CELLS};

/// Two devices with frames between them, each with the ticks that it has left.
struct Two {
    mat: MatDevice,
    pad: PadDevice,
    data: Vec<(Vec<u8>, u16)>,
    replies: Vec<(Vec<u8>, u16)>,
    record: Vec<u16>,
    /// Rows sent, acknowledged and recorded.
    rows: [usize; 3],
}

/// A frame of so many bytes, with its life.
fn frame(done: Result<usize, Refusal>, buffer: &[u8], life: u16) -> Result<(Vec<u8>, u16), Refusal> {
    done.map(|length| (buffer[..length].to_vec(), life))
}

impl Two {
    fn open(window: usize, times: u16, wait: u16) -> Two {
        let asked = limits(window, times, times, times, wait);
        let ((of_mat, mat), (of_pad, pad)) = (MatDevice::open(asked), PadDevice::open(asked));
        assert_eq!((of_mat, of_pad), (Ok(()), Ok(())));
        Two { mat, pad, data: vec![], replies: vec![], record: record(8), rows: [0; 3] }
    }

    fn send(&mut self, again: Option<u8>) -> Result<(), Refusal> {
        let mut buffer = [0; 36];
        let done = match again {
            Some(k) => self.mat.resend(k.into(), &mut buffer),
            None => self.mat.send(&supply(8)[self.rows[0] * CELLS..], &mut buffer),
        };
        self.data.push(frame(done, &buffer, self.mat.limits.data_life)?);
        self.rows[0] += usize::from(again.is_none());
        Ok(())
    }

    fn reply(&mut self, old: Option<usize>) -> Result<(), Refusal> {
        let mut buffer = [0; 5];
        let done = match old {
            Some(p) => self.pad.receive(&self.data.remove(p).0, &mut buffer).map(|received| match received {
                Received::Held => 0,
                Received::Old(bytes) => bytes,
            })?,
            None => {
                let (rows, bytes) = self.pad.reply(&mut self.record[self.rows[2] * CELLS..], &mut buffer)?;
                self.rows[2] += rows;
                bytes
            }
        };
        if done > 0 {
            self.replies.push(frame(Ok(done), &buffer, self.pad.limits.reply_life)?);
        }
        Ok(())
    }

    fn event(&mut self, kind: u8, argument: u8) -> Result<(), Refusal> {
        let p = usize::from(argument);
        match kind {
            1 => self.send(None),
            2 => self.send(Some(argument)),
            3 => self.reply(Some(p)),
            4 => self.reply(None),
            5 => {
                self.rows[1] += self.mat.receive(&self.replies.remove(p).0)?;
                Ok(())
            }
            6 => {
                self.data.remove(p);
                Ok(())
            }
            7 => {
                self.replies.remove(p);
                Ok(())
            }
            _ => {
                let d = u16::from(argument);
                for frames in [&mut self.data, &mut self.replies] {
                    frames.retain(|frame| frame.1 > d);
                    frames.iter_mut().for_each(|frame| frame.1 -= d);
                }
                self.mat.tick(d).and(self.pad.tick(d))
            }
        }
    }

    /// The answers to a list.
    fn answers(&mut self, events: &str) -> Vec<u8> {
        list(events).into_iter().map(|(kind, argument)| number(&self.event(kind, argument))).collect()
    }
}

#[test]
fn a_to_c_openings() {
    for (window, wait, answer, opened) in
        [(1, 0, 0, 1), (1, 3, 0, 3), (1, 4, 0, 4), (0, 0, 1, 0), (33, 0, 1, 0), (32, 0, 0, 1)]
    {
        let asked = limits(window, 1, 1, 1, wait);
        let ((of_mat, mat), (of_pad, pad)) = (MatDevice::open(asked), PadDevice::open(asked));
        assert_eq!([number(&of_mat), number(&of_pad)], [answer; 2]);
        assert_eq!([mat.limits.resend_wait, pad.limits.resend_wait], [opened; 2]);
        assert_eq!([mat.sound(), pad.sound()], [answer == 0; 2]);
        assert_eq!((mat == MatDevice::default(), pad == PadDevice::default()), (answer > 0, answer > 0));
    }
    assert_eq!(number(&MatDevice::open(limits(1, 251, 1, 1, 0)).0), 2);
    assert_eq!(number(&PadDevice::open(limits(1, 2, 1, 1, 1)).0), 3);
}

/// Wanted 6 = 2 mod 4: numbers 2 and 3 are held; 0 and 1 are the old rows 4 and 5, each answered with its own number.
#[test]
fn d_numbers_around_wanted() {
    for (arriving, reply) in [(2, None), (3, None), (0, Some([2, 1, 2, 0, 0])), (1, Some([2, 1, 2, 1, 1]))] {
        let mut pad = Two::open(2, 1, 4).pad;
        pad.pad.wanted = 2;
        let given = pad.clone();
        let mut bytes = vec![1, 1, 2, arriving];
        bytes.extend([9, 0].repeat(16));
        let mut buffer = [0xEE; 7];
        let done = pad.receive(&bytes, &mut buffer);
        match reply {
            Some(reply) => {
                assert_eq!((done, &buffer[..5], &buffer[5..]), (Ok(Received::Old(5)), &reply[..], &[0xEE; 2][..]));
                assert_eq!(pad, given);
            }
            None => {
                let place = usize::from(arriving) % 2;
                assert_eq!((done, buffer), (Ok(Received::Held), [0xEE; 7]));
                assert_eq!((pad.pad.held[place], pad.pad.timers[place], pad.pad.rows[place]), (true, 1, [9; 16]));
            }
        }
    }
}

#[test]
fn e_a_reply_covers_the_live_row_alone() {
    let mut two = Two::open(2, 1, 4);
    let text = "1 0, 1 0, 3 0, 4 0, 3 0, 4 0, 5 0, 5 0, 1 0, 6 0, 1 0, 3 0, 8 4, 2 0, 3 0, 4 0";
    assert_eq!(two.answers(text), [0; 16]);
    assert_eq!(two.rows, [4, 2, 3]);
    assert_eq!(two.replies, [(vec![2, 1, 2, 2, 2], 1)]);
    assert_eq!((two.pad.pad.held[3 % 2], two.pad.pad.timers[3 % 2]), (true, 0));
    assert_eq!(two.record[..3 * CELLS], supply(8)[..3 * CELLS]);
    assert_eq!(two.record[3 * CELLS..], record(5));
}

#[test]
fn f_resend_waits_for_its_timer() {
    assert_eq!(Two::open(2, 1, 4).answers("1 0, 8 3, 2 0, 8 1, 2 0"), [0, 0, 16, 0, 0]);
}

#[test]
fn g_a_full_window() {
    assert_eq!(Two::open(1, 1, 4).answers("1 0, 1 0"), [0, 10]);
}

/// A frame that is not handed in: its life is over.
#[test]
fn h_a_dead_message() {
    let mut two = Two::open(1, 1, 4);
    assert_eq!((two.answers("1 0, 8 1"), two.data), (vec![0, 0], vec![]));
}

#[test]
fn i_a_later_row_is_marked_first() {
    let mut two = Two::open(2, 1, 4);
    assert_eq!(two.answers("1 0, 1 0, 3 0, 4 0, 3 0, 4 0, 5 1"), [0; 7]);
    assert_eq!((two.rows, two.mat.mat.marked[1]), ([2, 0, 2], true));
    assert_eq!(two.answers("2 1"), [15]);
    assert_eq!(two.answers("5 0"), [0]);
    assert_eq!((two.rows, two.mat.mat.marked), ([2, 2, 2], [false; 32]));
}

/// Rows 3 and 4 = 0 mod 4 are acknowledged by one reply over the ring's end. A longer span is refused by both devices.
#[test]
fn j_reply_frames() {
    let mut two = Two::open(2, 1, 4);
    (two.mat.mat.oldest, two.mat.mat.next) = (3, 1);
    let given = (two.mat.clone(), two.pad.clone());
    assert_eq!(number(&two.mat.receive(&[2, 1, 2, 3, 1])), 27);
    assert_eq!(number(&two.pad.receive(&[2, 1, 2, 3, 1], &mut [])), 27);
    assert_eq!((&two.mat, &two.pad), (&given.0, &given.1));
    assert_eq!(two.mat.receive(&[2, 1, 2, 3, 0]), Ok(2));
    assert_eq!((two.mat.mat.oldest, two.mat.mat.next), (1, 1));
}

/// The published example by frames, whose bytes are those of the paper's frames.
#[test]
fn the_published_example() {
    let asked = limits(1, 2, 3, 2, 7);
    let ((_, mut mat), (_, mut pad)) = (MatDevice::open(asked), PadDevice::open(asked));
    let (mut data, mut reply) = ([0xEE; 38], [0xEE; 6]);
    assert_eq!(mat.send(&[5; CELLS], &mut data), Ok(36));
    let mut expected = vec![1, 2, 1, 0];
    expected.extend([5, 0].repeat(CELLS));
    expected.extend([0xEE; 2]);
    assert_eq!(data[..], expected);
    assert_eq!(pad.receive(&data[..36], &mut []), Ok(Received::Held));
    let mut space = record(2);
    assert_eq!(pad.reply(&mut space, &mut reply), Ok((1, 5)));
    assert_eq!(reply, [2, 3, 1, 0, 0, 0xEE]);
    assert_eq!((&space[..CELLS], &space[CELLS..]), (&[5; CELLS][..], &record(1)[..]));
    assert_eq!(mat.receive(&reply[..5]), Ok(1));

    // the row is old now, and is answered with the whole reply life, whatever is left of its own
    (data[1], reply) = (1, [0xEE; 6]);
    let before = pad.clone();
    assert_eq!(pad.receive(&data[..36], &mut reply), Ok(Received::Old(5)));
    assert_eq!((reply, pad), ([2, 3, 1, 0, 0, 0xEE], before));
    assert_eq!(number(&mat.receive(&reply[..5])), 19);
}

/// A row comes again before it is replied to: its content and its timer are those of the last arrival.
#[test]
fn a_held_row_is_held_again() {
    let mut two = Two::open(2, 3, 7);
    assert_eq!(two.answers("1 0, 3 0, 8 2"), [0; 3]);
    assert_eq!(two.pad.pad.timers[0], 1);
    assert_eq!(two.answers("8 5, 2 0, 3 0, 4 0"), [0; 4]);
    assert_eq!((two.pad.pad.timers[0], two.rows), (3, [1, 0, 1]));
}
