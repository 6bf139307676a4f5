//! The questions of each call of a device: each by itself, and of two that both fail the first in the papers' order.

use super::limits;
use second::devices::{MatDevice, PadDevice};
use second::limits::{number, CELLS, TORN_CELL};

/// A mat of w 2 with rows 3 and 0 outstanding, where both may be resent.
fn mat() -> MatDevice {
    let (_, mut mat) = MatDevice::open(limits(2, 5, 6, 7, 0));
    (mat.mat.oldest, mat.mat.next) = (3, 1);
    mat
}

/// A pad of w 2 that wants row 3 and holds it and the next one.
fn pad() -> PadDevice {
    let (_, mut pad) = PadDevice::open(limits(2, 5, 6, 7, 0));
    pad.pad.wanted = 3;
    (pad.pad.held[0], pad.pad.held[1]) = (true, true);
    (pad.pad.timers[0], pad.pad.timers[1]) = (1, 7);
    pad
}

type OfMat = fn(&mut MatDevice);
type OfPad = fn(&mut PadDevice);

const NOTHING: OfMat = |_| {};
const UNSOUND: OfMat = |mat| mat.mat.oldest = 4;
const SPACE: OfMat = |mat| mat.mat.next = 0;
const ILLEGAL: u16 = 4096;

#[test]
fn send() {
    let calls: [(u8, OfMat, usize, u16, usize); 20] = [
        (0, SPACE, 16, 7, 36),
        (0, SPACE, 48, TORN_CELL, 40),
        (4, UNSOUND, 16, 7, 36),
        (6, SPACE, 17, 7, 36),
        (10, NOTHING, 16, 7, 36),
        (11, SPACE, 0, 7, 36),
        (12, SPACE, 16, ILLEGAL, 36),
        (28, SPACE, 16, 7, 35),
        (28, SPACE, 16, 7, 0),
        // two that fail
        (4, UNSOUND, 15, 7, 36),
        (4, UNSOUND, 0, 7, 36),
        (4, UNSOUND, 16, ILLEGAL, 36),
        (4, UNSOUND, 16, 7, 35),
        (6, NOTHING, 17, 7, 36),
        (6, SPACE, 15, 7, 36),
        (6, SPACE, 17, ILLEGAL, 35),
        (10, NOTHING, 0, 7, 36),
        (10, NOTHING, 16, ILLEGAL, 35),
        (11, SPACE, 0, 7, 35),
        (12, SPACE, 16, ILLEGAL, 35),
    ];
    for (at, (answer, change, cells, cell, space)) in calls.into_iter().enumerate() {
        let mut device = mat();
        change(&mut device);
        let (given, mut buffer) = (device.clone(), vec![0xEE; space]);
        let done = device.send(&vec![cell; cells], &mut buffer);
        assert_eq!(number(&done), answer, "call {at}");
        if answer > 0 {
            assert_eq!((device, buffer), (given, vec![0xEE; space]), "call {at}");
        } else {
            assert_eq!((buffer[0], buffer[3], done), (1, 0, Ok(36)), "call {at}");
            assert_eq!((device.mat.next, device.mat.timers[0], device.mat.rows[0]), (1, 16, [cell; CELLS]));
        }
    }
}

#[test]
fn resend() {
    const MARKED: OfMat = |mat| mat.mat.marked[0] = true;
    const RUNS: OfMat = |mat| mat.mat.timers[..2].fill(1);
    const BOTH: OfMat = |mat| (mat.mat.marked[0], mat.mat.timers[0], mat.mat.timers[1]) = (true, 1, 1);
    let calls: [(u8, OfMat, usize, usize); 18] = [
        (0, NOTHING, 0, 36),
        (0, NOTHING, 1, 36),
        (0, MARKED, 0, 36),
        (4, UNSOUND, 0, 36),
        (14, NOTHING, 2, 36),
        (14, NOTHING, 256, 36),
        (14, NOTHING, usize::MAX, 36),
        (15, MARKED, 1, 36),
        (16, RUNS, 0, 36),
        (28, NOTHING, 0, 35),
        // two that fail
        (4, UNSOUND, 9, 36),
        (4, UNSOUND, 0, 0),
        (14, RUNS, 2, 36),
        (14, NOTHING, 2, 35),
        (15, BOTH, 1, 36),
        (15, MARKED, 1, 0),
        (16, RUNS, 1, 35),
        (16, BOTH, 0, 35),
    ];
    for (at, (answer, change, k, space)) in calls.into_iter().enumerate() {
        let mut device = mat();
        change(&mut device);
        let (given, mut buffer) = (device.clone(), vec![0xEE; space]);
        assert_eq!(number(&device.resend(k, &mut buffer)), answer, "call {at}");
        if answer > 0 {
            assert_eq!((device, buffer), (given, vec![0xEE; space]), "call {at}");
        } else {
            assert_eq!(buffer[..4], [1, 5, 2, [3, 0][k]], "call {at}");
            assert_eq!(device.mat.timers[[1, 0][k]], 16, "call {at}");
        }
    }
}

/// A data frame with this window, number and first cell.
fn data(window: u8, number: u8, cell: u16) -> Vec<u8> {
    let mut bytes = vec![1, 9, window, number];
    bytes.extend([7, 0].repeat(CELLS));
    bytes[4..6].copy_from_slice(&cell.to_le_bytes());
    bytes
}

/// Bytes that both devices' reader refuses.
fn unread() -> Vec<(u8, Vec<u8>)> {
    vec![
        (22, vec![]),
        (22, vec![0; 36]),
        (22, vec![3, 1, 2, 3, 3]),
        (23, data(2, 3, 7)[..35].to_vec()),
        (23, vec![2, 1, 2, 3]),
        (23, vec![2, 1, 2, 3, 3, 0]),
        (24, data(0, 3, 7)),
        (24, vec![2, 1, 33, 3, 3]),
        (25, data(2, 4, 7)),
        (25, vec![2, 1, 2, 3, 4]),
        (26, vec![2, 0, 2, 3, 3]),
        (26, vec![2, 251, 2, 3, 3]),
        (27, vec![2, 1, 2, 3, 1]),
        (12, data(2, 3, ILLEGAL)),
        // of two that fail the reader's comes first: of the other window, and of either kind
        (27, vec![2, 1, 3, 0, 4]),
        (25, vec![2, 1, 1, 2, 0]),
        (12, data(3, 3, ILLEGAL)),
        (26, [vec![1, 0, 3, 5], vec![0; 32]].concat()),
    ]
}

#[test]
fn receive_at_the_mat() {
    let mut calls: Vec<(u8, OfMat, Vec<u8>)> = vec![
        (0, NOTHING, vec![2, 250, 2, 3, 0]),
        (22, NOTHING, data(2, 3, 7)),
        (24, NOTHING, vec![2, 1, 1, 0, 0]),
        (24, NOTHING, vec![2, 1, 3, 3, 4]),
        (19, NOTHING, vec![2, 1, 2, 0, 1]),
        (19, NOTHING, vec![2, 1, 2, 1, 1]),
        (19, NOTHING, vec![2, 1, 2, 2, 3]),
        // two that fail
        (22, NOTHING, data(3, 3, 7)),
        (24, NOTHING, vec![2, 1, 32, 50, 51]),
        (4, UNSOUND, vec![2, 1, 2, 0, 1]),
        (4, UNSOUND, vec![2, 1, 3, 0, 1]),
        (4, UNSOUND, data(2, 3, 7)),
        (4, |mat| mat.limits.resend_wait = 15, vec![2, 1, 2, 3, 3]),
    ];
    for (answer, bytes) in unread() {
        calls.push((answer, NOTHING, bytes.clone()));
        calls.push((4, UNSOUND, bytes));
    }
    for (answer, change, bytes) in calls {
        let mut device = mat();
        change(&mut device);
        let given = device.clone();
        assert_eq!(number(&device.receive(&bytes)), answer, "{bytes:?}");
        assert_eq!(device == given, answer > 0, "{bytes:?}");
    }
}

#[test]
fn receive_at_the_pad() {
    const NOTHING: OfPad = |_| {};
    const UNSOUND: OfPad = |pad| pad.pad.wanted = 4;
    let mut calls: Vec<(u8, OfPad, Vec<u8>, usize)> = vec![
        (0, NOTHING, data(2, 3, TORN_CELL), 0),
        (0, NOTHING, data(2, 0, 7), 4),
        (22, NOTHING, vec![2, 1, 2, 3, 3], 5),
        (24, NOTHING, data(3, 3, 7), 5),
        (28, NOTHING, data(2, 1, 7), 4),
        (28, NOTHING, data(2, 2, 7), 0),
        // two that fail
        (22, NOTHING, vec![2, 1, 3, 3, 3], 5),
        (24, NOTHING, data(3, 1, 7), 0),
        (4, UNSOUND, vec![2, 1, 2, 3, 3], 5),
        (4, UNSOUND, data(3, 3, 7), 5),
        (4, UNSOUND, data(2, 1, 7), 0),
    ];
    for (answer, bytes) in unread() {
        calls.push((answer, NOTHING, bytes.clone(), 0));
        calls.push((4, UNSOUND, bytes, 0));
    }
    for (answer, change, bytes, space) in calls {
        let mut device = pad();
        change(&mut device);
        let (given, mut buffer) = (device.clone(), vec![0xEE; space]);
        assert_eq!(number(&device.receive(&bytes, &mut buffer)), answer, "{bytes:?}");
        assert_eq!(buffer, vec![0xEE; space], "{bytes:?}");
        assert_eq!(device == given, answer > 0, "{bytes:?}");
    }
}

#[test]
fn reply() {
    const NOTHING: OfPad = |_| {};
    const UNSOUND: OfPad = |pad| pad.pad.timers[1] = 8;
    const NOT_HELD: OfPad = |pad| pad.pad.held[1] = false;
    const TOO_LATE: OfPad = |pad| pad.pad.timers[1] = 0;
    let calls: [(u8, OfPad, usize, usize); 14] = [
        (0, NOTHING, 32, 5),
        (0, NOTHING, 40, 9),
        (4, UNSOUND, 32, 5),
        (20, NOT_HELD, 32, 5),
        (20, TOO_LATE, 32, 5),
        (21, NOTHING, 31, 5),
        (21, NOTHING, 16, 5),
        (28, NOTHING, 32, 4),
        // two that fail
        (4, UNSOUND, 0, 5),
        (4, UNSOUND, 32, 0),
        (20, NOT_HELD, 0, 5),
        (20, TOO_LATE, 32, 4),
        (21, NOTHING, 31, 0),
        (4, |pad| pad.limits.window = 0, 0, 0),
    ];
    for (at, (answer, change, cells, space)) in calls.into_iter().enumerate() {
        let mut device = pad();
        change(&mut device);
        let (given, mut record, mut buffer) = (device.clone(), vec![9; cells], vec![0xEE; space]);
        let done = device.reply(&mut record, &mut buffer);
        assert_eq!(number(&done), answer, "call {at}");
        if answer > 0 {
            assert_eq!((device, record, buffer), (given, vec![9; cells], vec![0xEE; space]), "call {at}");
        } else {
            assert_eq!((done, &buffer[..5], device.pad.wanted), (Ok((2, 5)), &[2, 6, 2, 3, 0][..], 1));
            assert!(buffer[5..].iter().all(|byte| *byte == 0xEE) && record[32..].iter().all(|cell| *cell == 9));
        }
    }
}

#[test]
fn tick() {
    let (mut mat, mut pad) = (mat(), pad());
    let given = (mat.clone(), pad.clone());
    assert_eq!([number(&mat.tick(0)), number(&pad.tick(0))], [9; 2]);
    assert_eq!((&mat, &pad), (&given.0, &given.1));
    mat.mat.timers[0] = 16;
    assert_eq!([number(&mat.tick(2)), number(&pad.tick(2))], [0; 2]);
    assert_eq!((mat.mat.timers[..2].to_vec(), pad.pad.timers[..2].to_vec()), (vec![14, 0], vec![0, 5]));
    assert_eq!([number(&mat.tick(65_535)), number(&pad.tick(65_535))], [0; 2]);
    assert_eq!((mat.mat.timers, pad.pad.timers), ([0; 32], [0; 32]));
    (mat.mat.next, pad.limits.reply_life) = (0, 0);
    mat.mat.marked[1] = true;
    for d in [0, 1] {
        assert_eq!([number(&mat.tick(d)), number(&pad.tick(d))], [4; 2], "4 is put before 9");
    }
}
