//! Frames to be read: at every edge, good ones, damaged ones, and all small ones.

use crate::draw_cells::{random_cell, EDGES};
use crate::limits::CELLS;
use crate::random::Random;

/// A good frame.
pub fn good(r: &mut Random) -> Vec<u8> {
    let w = 1 + r.below(32);
    let first = r.below(2 * w);
    let life = 1 + r.below(250);
    if r.below(2) == 0 {
        let last = (first + r.below(w)) % (2 * w);
        return vec![2, life as u8, w as u8, first as u8, last as u8];
    }
    let mut b = vec![1, life as u8, w as u8, first as u8];
    for _ in 0..CELLS {
        b.extend(random_cell(r).to_le_bytes());
    }
    b
}

/// All lengths with every first byte; every w with numbers and lives at their edges; every span; every cell at its edges, beside
/// whole cells and beside torn ones.
pub fn edges() -> Vec<Vec<u8>> {
    let mut all = vec![vec![]];
    for length in 1..=40usize {
        for first in 0..=255u8 {
            let mut b = vec![1u8; length];
            b[0] = first;
            all.push(b);
        }
    }
    for w in 0..=255u32 {
        for number in [0, 1, (2 * w).saturating_sub(1), 2 * w, 255] {
            for life in [0u8, 1, 250, 251, 255] {
                if number < 256 {
                    let mut b = vec![1, life, w as u8, number as u8];
                    b.extend([0; 32]);
                    all.push(b);
                    all.push(vec![2, life, w as u8, number as u8, number as u8]);
                }
            }
        }
    }
    for w in [1u8, 2, 3, 31, 32] {
        for first in 0..=2 * w {
            for last in 0..=2 * w {
                all.push(vec![2, 1, w, first, last]);
            }
        }
    }
    for place in 0..CELLS {
        for cell in EDGES {
            for beside in [0, 0xFF] {
                let mut b = vec![1, 1, 2, 3];
                b.extend([beside; 2 * CELLS]);
                b[4 + 2 * place..6 + 2 * place].copy_from_slice(&cell.to_le_bytes());
                all.push(b);
            }
        }
    }
    all
}

/// Good frames, each also with one byte damaged and with one byte more or less.
pub fn damaged(r: &mut Random) -> Vec<Vec<u8>> {
    let mut all = vec![];
    for _ in 0..5000 {
        let b = good(r);
        let mut d = b.clone();
        let k = r.below(d.len());
        d[k] = r.below(256) as u8;
        let mut e = b.clone();
        if r.below(2) == 0 {
            e.push(0);
        } else {
            e.pop();
        }
        all.extend([b, d, e]);
    }
    all
}

/// All frames of at most two bytes, and reply frames with all numbers up to 66 for windows and lives at their edges.
pub fn small() -> Vec<Vec<u8>> {
    let mut all = vec![vec![]];
    all.extend((0..=255).map(|byte| vec![byte]));
    all.extend((0..=65_535u16).map(|bytes| bytes.to_le_bytes().to_vec()));
    for window in [0, 1, 2, 3, 4, 31, 32, 33] {
        for life in [0, 1, 250, 251] {
            for numbers in 0..67 * 67u16 {
                all.push(vec![2, life, window, (numbers / 67) as u8, (numbers % 67) as u8]);
            }
        }
    }
    all
}
