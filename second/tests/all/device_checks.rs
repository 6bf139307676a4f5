//! The comparison of devices finds what is wrong in a library, which here does one thing wrong.

use super::device_stand_in::{Devices, Mistake, Mistake::*};
use second::device_bytes::any_bytes;
use second::device_checks::{damaged_devices, made_up_devices};
use second::device_openings::device_openings;
use second::device_rides::device_lists;
use second::report::{Outcome, Replay};
use second::threads::Amount;

/// A part of the comparison: its name, and how it is run.
type Part = (&'static str, fn(&Devices, &Replay, Amount) -> Outcome);

const CALLS: Part = ("device-calls", |devices, replay, amount| made_up_devices(devices, replay, amount));
const DAMAGE: Part = ("device-damage", |devices, replay, amount| damaged_devices(devices, replay, amount));
const OPENINGS: Part = ("device-openings", |devices, replay, amount| device_openings(devices, replay, amount));
const BYTES: Part = ("device-bytes", |devices, replay, amount| any_bytes(devices, replay, amount));
const LISTS: Part = ("device-lists", |devices, replay, amount| device_lists(devices, replay, amount));

/// So many calls or events that everything must have been met.
const AMOUNT: Amount = Amount { seed: 0, events: 60_000 };

fn compared((_, part): Part, devices: Devices) -> Outcome {
    part(&devices, &Replay { command: "differential trial".into() }, AMOUNT)
}

/// Each is found by this part, with a report that is short and can be replayed.
fn found(part: Part, mistakes: &[Mistake]) {
    let name = part.0;
    for mistake in mistakes {
        let Err(report) = compared(part, Devices(Some(*mistake))) else { panic!("{name}: {mistake:?} is not found") };
        assert!(report.starts_with(&format!("# {name}, seed ")), "{mistake:?}: {report}");
        assert!(report.contains(&format!("differential trial --part {name} --seed ")), "{mistake:?}: {report}");
        assert!(report.lines().count() < 60 && report.len() < 2_000, "{mistake:?}: {report}");
    }
}

#[test]
fn nothing_differs_from_the_right_devices() {
    for (part, expected) in [
        (CALLS, "\n  question 4 of a mat broken in  window: "),
        (DAMAGE, " devices with one number replaced, "),
        (OPENINGS, " openings of each device, "),
        (BYTES, "\n  every length up to 40 at each device"),
        (LISTS, "\n  noise  bytes no frame reads: "),
    ] {
        let text = compared(part, Devices(None)).unwrap_or_else(|text| panic!("{text}"));
        assert!(text.contains(expected), "{text}");
    }
}

#[test]
fn wrong_openings_are_found() {
    found(OPENINGS, &[WaitOf0IsTheSum, WaitOfTheSumLess3, WideLimitsCut, RefusedOpeningStoresNothing, OpeningLeavesMarks]);
}

/// What is wrong in question 4, and in what a call does whatever it is.
const QUESTION_4: [Mistake; 16] = [
    WaitOfTheSumLess3,
    AnyWait,
    AnyLimits,
    NextBeyondTheRing,
    WantedByItsLowByte,
    AnyCountOutstanding,
    OldestMarked,
    MarkNotOutstanding,
    MarkIs1Alone,
    MarksStayAsTheyAre,
    AnyTimer,
    TimersOfAllPlaces,
    AnyCell,
    CellsOfAllRows,
    TornIsIllegal,
    SoundnessLast,
];

#[test]
fn wrong_questions_4_are_found() {
    found(CALLS, &QUESTION_4);
    found(DAMAGE, &QUESTION_4);
}

const WRITTEN: [Mistake; 13] = [
    OtherLife,
    LifeOf1,
    NumberOfThePlace,
    HighByteFirst,
    TornAs4095,
    LastByteMissing,
    ByteBehind,
    AnyBuffer,
    LongerBuffer,
    BufferFirst,
    CountOf0,
    CountStays,
    WrittenWhereRefused,
];

const READ: [Mistake; 10] = [
    OtherWindow,
    WindowBeforeKind,
    KindBeforeLength,
    OtherKindIs23,
    LengthNotAsked,
    LifeUpTo255,
    LifeOfTheDevice,
    ReplySpanNotAsked,
    TornIsIllegal,
    ChangedByNoise,
];

const MAT: [Mistake; 19] = [
    SupplyNotWhole,
    SupplyAfterWindow,
    CellsOfAllTheSupply,
    CellBeforeWindow,
    SendLeavesTimer,
    ResendLeavesTimer,
    ResendOfOldest,
    ResendOfMarked,
    ResendBeforeItsTime,
    TimerBeforeMark,
    KOfOneByte,
    FirstOutstandingAlone,
    Backwards,
    OldestFirst,
    StopsTheTimer,
    PassedMarkStays,
    CountsTheSpan,
    PassesOneRow,
    PassesTheSpan,
];

const PAD: [Mistake; 20] = [
    WantedInTheOldReply,
    OldRowNotAnswered,
    OldRowHeld,
    OldRowIsWanted,
    NextWindowHeld,
    FirstArrivalOnly,
    FirstContentStays,
    BufferForHeldRow,
    EveryHeldRow,
    OneRowAReply,
    WantedAsLast,
    TimerOf0,
    RecordBeforeHeld,
    BufferBeforeRecord,
    RecordOneMore,
    RecordFilled,
    HeldMarkStays,
    LongTimersLeft,
    WantedRisesBy1,
    CountsExchanged,
];

const TICKS: [Mistake; 5] = [TickOf0, TickOfOneByte, TickOf16Bits, TickBelow0, LastPlaceDoesNotTick];

#[test]
fn wrong_frames_are_found() {
    found(CALLS, &WRITTEN);
    found(CALLS, &READ);
}

#[test]
fn wrong_mats_are_found() {
    found(CALLS, &MAT);
}

#[test]
fn wrong_pads_are_found() {
    found(CALLS, &PAD);
    found(CALLS, &TICKS);
}

#[test]
fn what_is_wrong_in_receiving_is_found_by_any_bytes() {
    found(BYTES, &READ);
    let at_the_mat =
        [FirstOutstandingAlone, Backwards, OldestFirst, StopsTheTimer, PassedMarkStays, CountsTheSpan, PassesOneRow];
    found(BYTES, &at_the_mat);
    found(BYTES, &PAD[..8]);
}

/// What no list shows is left out: a wrong rule for what does not arise there, or for a space that is not short there.
#[test]
fn what_is_wrong_is_found_by_lists() {
    let never = [ByteBehind, KOfOneByte, FirstOutstandingAlone, FirstContentStays, BufferForHeldRow];
    for mistakes in [&WRITTEN[..], &READ[..], &MAT[..], &PAD[..], &[TickOf0, TickBelow0, LastPlaceDoesNotTick]] {
        let shown: Vec<Mistake> = mistakes.iter().copied().filter(|mistake| !never.contains(mistake)).collect();
        found(LISTS, &shown);
    }
}
