//! Frames: the two ways undo each other, and each question's edge.

use second::draw_cells::random_row;
use second::frames::{read, write, Frame, DATA_LENGTH};
use second::limits::number;
use second::random::Random;

fn data(life: u8, window: u8, number: u8) -> Vec<u8> {
    let mut bytes = vec![1, life, window, number];
    bytes.extend([7; 32]);
    bytes
}

#[test]
fn first_question_answered_no() {
    assert_eq!(number(&read(&[])), 22);
    for kind in 0..=255u8 {
        for length in 1..=40 {
            let mut bytes = vec![1; length];
            bytes[0] = kind;
            let expected = match (kind, length) {
                (1, 36) | (2, 5) => 0,
                (1 | 2, _) => 23,
                _ => 22,
            };
            assert_eq!(number(&read(&bytes)), expected);
        }
    }
    for (bytes, expected) in [
        (data(0, 0, 255), 24),
        (data(0, 33, 0), 24),
        (data(0, 32, 64), 25),
        (data(0, 32, 63), 26),
        (data(251, 32, 63), 26),
        (data(250, 32, 63), 12),
        (vec![2, 0, 0, 9, 9], 24),
        (vec![2, 0, 2, 0, 4], 25),
        (vec![2, 0, 2, 4, 0], 25),
        (vec![2, 0, 2, 0, 2], 26),
        (vec![2, 1, 2, 0, 2], 27),
        (vec![2, 1, 2, 0, 1], 0),
    ] {
        let mut bytes = bytes;
        if bytes.len() == DATA_LENGTH {
            bytes[35] = 0x10; // the last cell is 4096 + 7
        }
        assert_eq!(number(&read(&bytes)), expected, "{bytes:?}");
    }
}

#[test]
fn reading_and_writing_undo_each_other() {
    let mut random = Random::new(1);
    for _ in 0..20_000 {
        let window = 1 + random.below(32) as u8;
        let (life, first) = (1 + random.below(250) as u8, random.below(2 * usize::from(window)) as u8);
        let frame = if random.once_in(2) {
            let last = (first + random.below(usize::from(window)) as u8) % (2 * window);
            Frame::Reply { life, window, first, last }
        } else {
            Frame::Data { life, window, number: first, row: random_row(&mut random) }
        };
        let mut buffer = [0xEE; 40];
        let length = write(&frame, &mut buffer).expect("a good frame");
        assert_eq!(read(&buffer[..length]), Ok(frame));
        assert!(buffer[length..].iter().all(|byte| *byte == 0xEE));
        let mut short = vec![0xEE; length - 1];
        assert_eq!(number(&write(&frame, &mut short)), 28);
        assert!(short.iter().all(|byte| *byte == 0xEE));

        // a damaged frame is refused, or is another frame that is written as the damaged bytes
        let mut damaged = buffer[..length].to_vec();
        damaged[random.below(length)] = random.byte();
        if let Ok(other) = read(&damaged) {
            let mut again = vec![0; length];
            assert_eq!(write(&other, &mut again), Ok(length));
            assert_eq!(again, damaged);
        }
    }
}

#[test]
fn writing_asks_as_reading_does() {
    for (life, window, first, last) in
        [(0, 33, 0, 0), (0, 1, 2, 0), (0, 1, 0, 2), (251, 1, 0, 0), (1, 1, 0, 1), (1, 2, 3, 1)]
    {
        let mut none = [];
        let read = read(&[2, life, window, first, last]);
        assert_ne!(number(&read), 0);
        assert_eq!(number(&write(&Frame::Reply { life, window, first, last }, &mut none)), number(&read));
    }
    let mut row = [0; 16];
    row[15] = 4096;
    assert_eq!(number(&write(&Frame::Data { life: 1, window: 1, number: 0, row }, &mut [])), 12);
}
