//! The trial program itself, on the published example and on an input that is too long.

use std::io::Write;
use std::process::{Command, Stdio};

fn printed(input: &[u8]) -> Vec<u8> {
    let mut command = Command::new(env!("CARGO_BIN_EXE_trial"));
    let mut child = command.stdin(Stdio::piped()).stdout(Stdio::piped()).spawn().expect("trial starts");
    let mut pipe = child.stdin.take().expect("a pipe");
    // the program may end before it has read all
    let _ = pipe.write_all(input);
    drop(pipe);
    let output = child.wait_with_output().expect("trial ends");
    assert!(output.status.success());
    output.stdout
}

#[test]
fn published_example() {
    let mut input = vec![1, 2, 2, 2, 7, 0, 1];
    input.extend([5, 0].repeat(16));
    input.extend([1, 0, 3, 0, 4, 0, 5, 0]);
    assert_eq!(printed(&input), b"1 0 0\n3 0 0\n4 0 0\n5 0 0\nsent 1 acknowledged 1 recorded 1\n");
}

#[test]
fn input_too_long() {
    assert_eq!(printed(&[1; 40_961]), b"refused 29\n");
    assert_eq!(printed(&[1; 40_960]), b"refused 5\n", "an odd count of event bytes");
}
