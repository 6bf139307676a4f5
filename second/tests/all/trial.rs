//! The trial's input and output.

use second::trial::{output, read, LONGEST_INPUT};

/// The published input, with the resend wait written out: 1 2 2 2 7 0 1, one row of sixteen 5s, and events 1 0, 3 0, 4 0, 5 0.
fn published() -> Vec<u8> {
    let mut input = vec![1, 2, 2, 2, 7, 0, 1];
    input.extend([5, 0].repeat(16));
    input.extend([1, 0, 3, 0, 4, 0, 5, 0]);
    input
}

#[test]
fn the_published_example() {
    let expected = b"1 0 0\n3 0 0\n4 0 0\n5 0 0\nsent 1 acknowledged 1 recorded 1\n";
    assert_eq!(output(&published()), expected);
    let input = published();
    let input = read(&input).expect("a good input");
    assert_eq!((input.supply, input.events.len()), (vec![5; 16], 8));
}

/// The published input with a wait of 0, and with events that show where the resend timer starts: at 4, the sum of 2, 2 and 2
/// less 2. A wait of 7 refuses both resends.
#[test]
fn a_wait_of_0() {
    let mut input = published();
    input.truncate(7 + 32);
    input.extend([1, 0, 8, 3, 2, 0, 8, 1, 2, 0]);
    for (wait, last) in [(0, 0), (4, 0), (7, 16)] {
        input[4] = wait;
        let expected = format!("1 0 0\n8 3 0\n2 0 16\n8 1 0\n2 0 {last}\nsent 1 acknowledged 0 recorded 0\n");
        assert_eq!(output(&input), expected.into_bytes(), "wait {wait}");
    }
}

/// The record is as long as the supply, so 21 does not come from a trial; 11 does.
#[test]
fn refused_events_are_printed() {
    let mut input = published();
    input.extend([1, 0, 255, 254, 8, 0]);
    let text = String::from_utf8(output(&input)).expect("text");
    assert!(text.ends_with("5 0 0\n1 0 11\n255 254 8\n8 0 9\nsent 1 acknowledged 1 recorded 1\n"));
}

#[test]
fn no_rows_and_no_events() {
    assert_eq!(output(&[1, 1, 1, 1, 0, 0, 0]), b"sent 0 acknowledged 0 recorded 0\n");
}

#[test]
fn refusals() {
    for length in 0..39 {
        assert_eq!(output(&published()[..length]), b"refused 29\n");
    }
    let mut long = published();
    long.resize(LONGEST_INPUT, 0);
    assert_eq!(output(&long), b"refused 5\n", "odd event bytes: {}", LONGEST_INPUT - 39);
    long.push(0);
    assert_eq!(output(&long), b"refused 29\n");
    for (place, byte, expected) in [(0, 0, "1"), (0, 33, "1"), (1, 0, "2"), (3, 251, "2"), (4, 3, "3"), (5, 4, "3")] {
        let mut input = published();
        input[place] = byte;
        input.push(0);
        assert_eq!(output(&input), format!("refused {expected}\n").into_bytes());
    }
    let mut input = published();
    input[4] = 4;
    input.push(0);
    assert_eq!(output(&input), b"refused 5\n");
}
