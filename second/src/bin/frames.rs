//! The proved frame reader and writer against the ones here.
//!
//! framecheck reads frames from standard input, each behind a byte with its length, and prints what it makes of each. Compared
//! are all lengths 0 to 40 with every first byte, each question's first failing byte, and seeded random and damaged frames. Among
//! those that are accepted there must be torn cells.

use second::frame_lists::{damaged, edges};
use second::frames::{read, write, Frame};
use second::limits::number;
use second::met::Accepted;
use second::random::Random;
use std::io::Write;
use std::process::{exit, Command, Stdio};

/// What framecheck prints for a frame: the number, the kind (0 where refused) with the values, and for an accepted frame the
/// number, the length and the whole buffer of zeros after writing these values.
fn expected(bytes: &[u8]) -> Vec<u32> {
    let frame = read(bytes);
    let mut line = vec![u32::from(number(&frame))];
    let Ok(frame) = frame else {
        line.push(0);
        return line;
    };
    let mut buffer = match &frame {
        Frame::Data { life, window, number, row } => {
            line.extend([1, *life, *window, *number].map(u32::from));
            line.extend(row.map(u32::from));
            vec![0; 40]
        }
        Frame::Reply { life, window, first, last } => {
            line.extend([2, *life, *window, *first, *last].map(u32::from));
            vec![0; 8]
        }
    };
    let written = write(&frame, &mut buffer);
    line.extend([u32::from(number(&written)), written.unwrap_or(0) as u32]);
    line.extend(buffer.iter().map(|byte| u32::from(*byte)));
    line
}

/// What the program prints for these frames, a line each.
fn printed(program: &str, frames: &[Vec<u8>]) -> Vec<Vec<u32>> {
    let input: Vec<u8> = frames.iter().flat_map(|b| std::iter::once(b.len() as u8).chain(b.iter().copied())).collect();
    let mut child = Command::new(program).stdin(Stdio::piped()).stdout(Stdio::piped()).spawn().expect("framecheck starts");
    let mut pipe = child.stdin.take().expect("a pipe");
    let writer = std::thread::spawn(move || pipe.write_all(&input).expect("input is taken"));
    let out = child.wait_with_output().expect("framecheck ends");
    writer.join().expect("input is written");
    let text = String::from_utf8(out.stdout).expect("text");
    text.lines().map(|l| l.split_whitespace().map(|x| x.parse().expect("a number")).collect()).collect()
}

fn main() {
    let program = std::env::args().nth(1).expect("the program's path");
    let mut frames = edges();
    frames.extend(damaged(&mut Random::new(1)));
    let mut accepted = Accepted::default();
    // framecheck takes 65,536 bytes at a time
    for batch in frames.chunks(1500) {
        let lines = printed(&program, batch);
        if lines.len() != batch.len() {
            println!("{} frames in, {} lines out", batch.len(), lines.len());
            exit(1);
        }
        for (frame, line) in batch.iter().zip(&lines) {
            let want = expected(frame);
            if *line != want {
                println!("frame {frame:?}\n  printed  {line:?}\n  expected {want:?}");
                exit(1);
            }
            if let Ok(frame) = read(frame) {
                accepted.add(frame.cells());
            }
        }
    }
    if let Err(text) = accepted.all_there("frames", true) {
        println!("{text}");
        exit(1);
    }
    println!("{} frames compared, accepted {accepted}", frames.len());
}
