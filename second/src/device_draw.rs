//! Random devices such as a caller can make up, with calls for them, the same for the same seed.

use crate::device_calls::Call;
use crate::devices::{MatDevice, PadDevice};
use crate::draw_cells::{random_cells, random_illegal, random_row, EDGES};
use crate::frames::{write, Frame, DATA_LENGTH};
use crate::kept_devices::{Kept, KeptMat};
use crate::limits::{Limits, CELLS, LARGEST_WINDOW};
use crate::random::Random;

/// What breaks one clause of question 4 in a sound device, and nothing else. False where the device has no room for it.
pub type Break<const N: usize> = (&'static str, fn(&mut Random, &mut Kept<N>) -> bool);

/// The clauses of the limits. The resend wait is long enough for a time that is too long.
fn break_limit<const N: usize>(random: &mut Random, kept: &mut Kept<N>, at: usize) -> bool {
    kept.limits[at] = random.one_of(&[0, 251, 256, 257, 65_535]);
    kept.limits[4] = kept.limits[4].max(751);
    true
}

fn window<const N: usize>(random: &mut Random, kept: &mut Kept<N>) -> bool {
    kept.limits[0] = random.one_of(&[0, 33, 256, 257, 288, 65_535]);
    true
}

fn resend_wait<const N: usize>(random: &mut Random, kept: &mut Kept<N>) -> bool {
    let [_, times @ .., wait] = &mut kept.limits;
    *wait = random.one_of(&[0, times.iter().sum::<u16>().saturating_sub(3), 1001, 65_535]);
    true
}

/// A number that is not below 2w, now and then one whose low byte is.
fn number<const N: usize>(random: &mut Random, kept: &mut Kept<N>, at: usize) -> bool {
    let twice = 2 * kept.limits[0];
    kept.numbers[at] = random.one_of(&[twice, twice + 1, 255, 256 + kept.numbers[at], 65_535]);
    true
}

fn place<const N: usize>(random: &mut Random, kept: &Kept<N>) -> usize {
    random.below(usize::from(kept.limits[0]))
}

fn timer<const N: usize>(random: &mut Random, kept: &mut Kept<N>, most: usize) -> bool {
    let at = place(random, kept);
    kept.timer[at] = random.one_of(&[kept.limits[most] + 1, 256 + kept.limits[most], 65_535]);
    true
}

fn illegal_cell<const N: usize>(random: &mut Random, kept: &mut Kept<N>, place: usize) -> bool {
    let edges = [EDGES[1], EDGES[2], random_illegal(random)];
    kept.cell[place * CELLS + random.below(CELLS)] = random.one_of(&edges);
    true
}

/// The window and how many rows are outstanding, for a sound mat.
fn outstanding(kept: &KeptMat) -> (usize, usize) {
    let (w, [oldest, next]) = (usize::from(kept.limits[0]), kept.numbers.map(usize::from));
    (w, (next + 2 * w - oldest) % (2 * w))
}

/// The place of row oldest + k.
fn place_of(kept: &KeptMat, k: usize) -> usize {
    (usize::from(kept.numbers[0]) + k) % usize::from(kept.limits[0])
}

/// The clauses of a mat.
pub const BREAK_MAT: [Break<2>; 12] = [
    ("window", window),
    ("data life", |random, kept| break_limit(random, kept, 1)),
    ("reply life", |random, kept| break_limit(random, kept, 2)),
    ("reply wait", |random, kept| break_limit(random, kept, 3)),
    ("resend wait", |random, kept| {
        kept.timer = [0; _];
        resend_wait(random, kept)
    }),
    ("oldest", |random, kept| number(random, kept, 0)),
    ("next", |random, kept| number(random, kept, 1)),
    ("outstanding", |random, kept| {
        let (w, _) = outstanding(kept);
        // the first w places are then those of outstanding rows
        kept.cell = [0; _];
        let more = w + 1 + random.below((w - 1).max(1));
        kept.numbers[1] = ((usize::from(kept.numbers[0]) + more) % (2 * w)) as u16;
        w > 1
    }),
    ("mark of oldest", |random, kept| {
        let (_, outstanding) = outstanding(kept);
        kept.mark[place_of(kept, 0)] = random.one_of(&[1, 2, 256, 65_535]);
        outstanding > 0
    }),
    ("mark of a row not outstanding", |random, kept| {
        let (w, outstanding) = outstanding(kept);
        if outstanding == w {
            return false;
        }
        let k = outstanding + random.below(w - outstanding);
        kept.mark[place_of(kept, k)] = random.one_of(&[1, 2, 256, 65_535]);
        true
    }),
    ("resend timer", |random, kept| timer(random, kept, 4)),
    ("cell of an outstanding row", |random, kept| {
        let (_, outstanding) = outstanding(kept);
        let at = place_of(kept, random.below(outstanding.max(1)));
        outstanding > 0 && illegal_cell(random, kept, at)
    }),
];

/// The clauses of a pad.
pub const BREAK_PAD: [Break<1>; 8] = [
    ("window", window),
    ("data life", |random, kept| break_limit(random, kept, 1)),
    ("reply life", |random, kept| break_limit(random, kept, 2)),
    ("reply wait", |random, kept| {
        kept.timer = [0; _];
        break_limit(random, kept, 3)
    }),
    ("resend wait", resend_wait),
    ("wanted", |random, kept| number(random, kept, 0)),
    ("reply timer", |random, kept| timer(random, kept, 3)),
    ("cell of a held row", |random, kept| {
        let at = place(random, kept);
        kept.mark[at] = random.one_of(&[1, 2, 256, 65_535]);
        illegal_cell(random, kept, at)
    }),
];

/// Marks that are on become numbers other than 1, now and then.
pub fn draw_marks<const N: usize>(random: &mut Random, kept: &mut Kept<N>) {
    if random.once_in(3) {
        let on = random.one_of(&[2, 256, 65_535]);
        kept.mark.iter_mut().filter(|mark| **mark != 0).for_each(|mark| *mark = on);
    }
}

/// Rows for one or more sends, now and then an illegal cell or not whole rows.
fn supply(random: &mut Random) -> Vec<u16> {
    let rows = random.one_of(&[0, 1, 1, 2, 3]);
    let mut cells = random_cells(random, rows * CELLS);
    // in a later row it is not asked for
    if !cells.is_empty() && random.once_in(6) {
        let at = random.below(cells.len());
        cells[at] = random.one_of(&EDGES);
    }
    if random.once_in(12) {
        cells.resize(random.below(3 * CELLS), 7);
    }
    cells
}

/// Ticks: few, about the times there are, and more than 16 bits hold.
fn ticks(random: &mut Random, limits: &Limits) -> u32 {
    let Limits { reply_wait, resend_wait, .. } = *limits;
    let waits = [reply_wait.saturating_sub(1), reply_wait, resend_wait.saturating_sub(1), resend_wait];
    match random.below(4) {
        0 => random.one_of(&[0, 0, 1, 255, 256, 257, 65_535, 65_536, 65_537, 1 << 24, u32::MAX]),
        1 => u32::from(random.one_of(&waits)),
        _ => 1 + random.below(4) as u32,
    }
}

/// How long a buffer for a frame of this length is.
pub fn space(random: &mut Random, frame: usize) -> usize {
    match random.below(6) {
        0 => random.one_of(&[0, 4, 5, 6, 35, 36, 37]),
        1 => random.below(40),
        2 => frame - 1,
        _ => frame,
    }
}

/// Calls of a mat, one of each kind: the call, and how long its frame buffer is.
pub fn mat_calls(random: &mut Random, mat: &MatDevice) -> Vec<(Call<'static>, usize)> {
    let w = mat.limits.window;
    let edge = random.one_of(&[0, 1, w.saturating_sub(1), w, 31, 32, 255, 256, 257, 65_536, 1 << 31, (1 << 31) + 1]);
    let k = if random.once_in(2) { edge } else { random.below(outstanding_of(mat).max(1)) } as u32;
    let bytes = if random.once_in(4) { any_frame(random, w) } else { reply_frame(random, mat) };
    let calls = [
        Call::Send(supply(random).into()),
        Call::Resend(k),
        Call::Receive(bytes.into()),
        Call::Tick(ticks(random, &mat.limits)),
    ];
    calls.into_iter().map(|call| (call, space(random, DATA_LENGTH))).collect()
}

/// Calls of a pad, one of each kind: the call, and how long its frame buffer and its record are.
pub fn pad_calls(random: &mut Random, pad: &PadDevice) -> Vec<(Call<'static>, usize, usize)> {
    let w = pad.limits.window;
    let bytes = if random.once_in(4) { any_frame(random, w) } else { data_frame(random, pad) };
    let calls = [Call::Receive(bytes.into()), Call::Reply, Call::Reply, Call::Tick(ticks(random, &pad.limits))];
    let spaced = |call| {
        let rows = random.one_of(&[0, 1, 2, 3, w, LARGEST_WINDOW + 1]);
        (call, space(random, 5), (rows * CELLS + random.below(3)).saturating_sub(1))
    };
    calls.into_iter().map(spaced).collect()
}

/// A window for a frame: this one, where a frame can have it.
fn frame_window(w: usize) -> usize {
    w.clamp(1, LARGEST_WINDOW)
}

/// The bytes of a frame that can be written.
fn bytes_of(frame: Frame) -> Vec<u8> {
    let mut bytes = vec![0; DATA_LENGTH];
    let length = write(&frame, &mut bytes).expect("a good frame");
    bytes.truncate(length);
    bytes
}

/// A life, whole or not.
fn life(random: &mut Random) -> u8 {
    random.one_of(&[1, 2, 249, 250, 100])
}

/// A data frame of this window and number.
fn data_of(random: &mut Random, w: usize, number: usize) -> Vec<u8> {
    let row = random_row(random);
    bytes_of(Frame::Data { life: life(random), window: w as u8, number: (number % (2 * w)) as u8, row })
}

/// A reply frame of this window, with this first number and span.
fn reply_of(random: &mut Random, w: usize, first: usize, span: usize) -> Vec<u8> {
    let [first, last] = [first, first + span - 1].map(|number| (number % (2 * w)) as u8);
    bytes_of(Frame::Reply { life: life(random), window: w as u8, first, last })
}

/// How many rows are outstanding, for a mat that need not be sound.
fn outstanding_of(mat: &MatDevice) -> usize {
    let twice = 2 * frame_window(mat.limits.window);
    let [oldest, next] = [mat.mat.oldest, mat.mat.next].map(usize::from);
    (next + twice - oldest % twice) % twice
}

/// A good reply frame of the mat's window, whose span is outstanding more often than not.
pub fn reply_frame(random: &mut Random, mat: &MatDevice) -> Vec<u8> {
    let w = frame_window(mat.limits.window);
    let (oldest, outstanding) = (usize::from(mat.mat.oldest), outstanding_of(mat));
    if outstanding == 0 || outstanding > w || random.once_in(4) {
        let span = 1 + random.below(w);
        let first = random.below(2 * w);
        return reply_of(random, w, first, span);
    }
    let first = if random.once_in(2) { 0 } else { random.below(outstanding) };
    let span = 1 + random.below(outstanding - first);
    reply_of(random, w, oldest + first, span)
}

/// A good data frame of the pad's window: the row wanted, one of the next ones, or an old one.
pub fn data_frame(random: &mut Random, pad: &PadDevice) -> Vec<u8> {
    let w = frame_window(pad.limits.window);
    let wanted = usize::from(pad.pad.wanted);
    let step = random.below(2 * w);
    let step = random.one_of(&[0, w - 1, w, 2 * w - 1, step, step]);
    data_of(random, w, wanted + step)
}

/// A frame of either kind, of this window or another, good or damaged.
pub fn any_frame(random: &mut Random, w: usize) -> Vec<u8> {
    let w = if random.once_in(3) { 1 + random.below(LARGEST_WINDOW) } else { frame_window(w) };
    let number = random.below(2 * w);
    let span = 1 + random.below(w);
    let mut bytes = if random.once_in(2) { data_of(random, w, number) } else { reply_of(random, w, number, span) };
    if random.once_in(2) {
        damage(random, &mut bytes);
    }
    bytes
}

/// One or two bytes are changed, more often than not at the front, or one is too many or missing.
pub fn damage(random: &mut Random, bytes: &mut Vec<u8>) {
    for _ in 0..1 + random.below(2) {
        match random.below(12) {
            0 => bytes.push(random.byte()),
            1 => bytes.truncate(bytes.len().saturating_sub(1)),
            _ if bytes.is_empty() => {}
            _ => {
                let front = if random.once_in(3) { bytes.len() } else { bytes.len().min(5) };
                let at = random.below(front);
                bytes[at] = match random.below(3) {
                    0 => random.byte(),
                    1 => bytes[at] ^ (1 << random.below(8)),
                    _ => random.one_of(&[0, 1, 2, 3, 4, 31, 32, 33, 64, 250, 251, 255]),
                };
            }
        }
    }
}
