//! Random lists of events on two devices and on the link, and a report on the shortest one that shows a difference.

use crate::compare::Case;
use crate::device_lists::{alone, as_events, compare, Found, Libraries, Met};
use crate::draw::random_case;
use crate::met::ENOUGH;
use crate::report::{Outcome, Replay};
use crate::shrink::shortest;
use crate::threads::{seeds, Amount};

/// The case cut to the shortest list, with noise behind it where that shows the difference, and what differs then.
fn cut(library: &dyn Libraries, case: Case, found: Found) -> (String, Case) {
    let last = found.noise.as_ref();
    let front = Case { calls: case.calls[..found.behind].to_vec(), ..case };
    let fails = |case: &Case| case.limits.accept().is_ok() && alone(library, case, last).is_some();
    let cut = if fails(&front) { shortest(front, &fails) } else { front };
    (alone(library, &cut, last).unwrap_or(found.text), cut)
}

/// Both together.
fn and(one: Met, other: Met) -> Met {
    Met {
        events: one.events + other.events,
        done: one.done + other.done,
        rows: std::array::from_fn(|at| one.rows[at] + other.rows[at]),
        old: one.old + other.old,
        frames: one.frames + other.frames,
        noise: one.noise.and(other.noise),
    }
}

/// Seeded lists.
pub fn device_lists(library: &dyn Libraries, replay: &Replay, amount: Amount) -> Outcome {
    let counted = seeds(amount, |seed, (lists, met): &mut (u64, Met)| {
        let case = as_events(random_case(seed));
        let more = compare(library, seed, &case).map_err(|found| {
            let (found, case) = cut(library, case, found);
            replay.failed_ride("device-lists", seed, &found, &case)
        })?;
        *met = and(*met, more);
        *lists += 1;
        Ok(more.events)
    })?;
    let both = |(lists, met): (u64, Met), (more, other)| (lists + more, and(met, other));
    let (lists, met) = counted.into_iter().fold((0, Met::default()), both);
    let Met { events, done, rows: [sent, acknowledged, recorded], old, frames, noise } = met;
    let rows = [("rows sent", sent), ("acknowledged", acknowledged), ("recorded", recorded), ("old rows answered", old)];
    let all = [&rows[..], &noise.named()].concat();
    if let Some((name, _)) = all.iter().find(|(_, times)| *times == 0 && events >= ENOUGH) {
        return Err(format!("device-lists: none of {name}"));
    }
    let named =
        |all: &[(&str, u64)]| all.iter().map(|(name, times)| format!("{name}: {times}")).collect::<Vec<_>>().join(", ");
    let (rows, noise) = (named(&rows), named(&noise.named()));
    Ok(format!(
        "{lists} lists, {events} events, {done} of them done; {rows}\n  {frames} frames read in the air\n  noise  {noise}"
    ))
}
