//! The comparison of files finds what is wrong in a library, which here does one thing wrong.

use super::file_stand_in::{highest, same, two, Lookup, Rules, StandIn, Writer, LOOKUP, RIGHT, RULES, WRITER};
use second::file::Entry;
use second::file_checks::files;
use second::limits::TORN_CELL;
use second::report::Replay;
use second::threads::Amount;

/// What is wrong, by name.
type Wrong<T> = Vec<(&'static str, T)>;

/// Wrong rules for entries and cells, of a file or of a writer.
fn limits() -> Wrong<Rules> {
    let (most, sound, legal) = (
        |name, most| (name, Rules { most, ..RULES }),
        |name, sound| (name, Rules { sound, ..RULES }),
        |name, legal| (name, Rules { legal, ..RULES }),
    );
    vec![
        most("65 entries", 65),
        most("any count of entries", 255),
        most("at most 63 entries", 63),
        sound("leg 0", |entry| entry.leg <= 6 && entry.save > 0),
        sound("leg 7", |entry| (1..=7).contains(&entry.leg) && entry.save > 0),
        sound("no leg 6", |entry| (1..6).contains(&entry.leg) && entry.save > 0),
        sound("7 bits of a leg", |entry| (1..=6).contains(&(entry.leg & 127)) && entry.save > 0),
        sound("save 0", |entry| (1..=6).contains(&entry.leg)),
        sound("no save 255", |entry| (1..=6).contains(&entry.leg) && (1..255).contains(&entry.save)),
        sound("no save above 127", |entry| (1..=6).contains(&entry.leg) && (1..128).contains(&entry.save)),
        sound("no body without rows", |entry| (RULES.sound)(entry) && entry.rows > 0),
        sound("no horse 0", |entry| (RULES.sound)(entry) && entry.horse > 0),
        legal("no torn cell", |cell| cell < 4096),
        legal("no 4095", |cell| cell < 4095 || cell == TORN_CELL),
        legal("4096", |cell| cell <= 4096 || cell == TORN_CELL),
        legal("65,534", |cell| !(4096..65_534).contains(&cell)),
        legal("30,000", |cell| cell < 4096 || cell == 30_000 || cell == TORN_CELL),
        ("12 for a cell", Rules { illegal: 12, ..RULES }),
    ]
}

/// Wrong rules for what is saved twice, of a file or of a writer.
fn twice() -> Wrong<Rules> {
    let twice = |name, twice| (name, Rules { twice, ..RULES });
    vec![
        twice("never", |_, _| false),
        twice("neighbours", |entries, _| entries.windows(2).any(|pair| same(&pair[0], &pair[1]))),
        twice("the first one", |entries, _| entries.iter().skip(1).any(|entry| same(entry, &entries[0]))),
        twice("equal rows", |entries, _| two(entries, |one, other| one == other)),
        twice("not both without rows", |entries, _| {
            two(entries, |one, other| same(one, other) && one.rows.max(other.rows) > 0)
        }),
        twice("current ones", |entries, _| {
            let current = |entry: &Entry| highest(entries, (entry.horse, entry.leg), |entry| entry.save);
            two(entries, |one, other| same(one, other) && current(one).is_some_and(|at| same(&entries[at], one)))
        }),
        twice("any horse", |entries, _| two(entries, |one, other| (one.leg, one.save) == (other.leg, other.save))),
        twice("any leg", |entries, _| two(entries, |one, other| (one.horse, one.save) == (other.horse, other.save))),
        twice("any save", |entries, _| two(entries, |one, other| (one.horse, one.leg) == (other.horse, other.leg))),
        twice("low bytes of horses", |entries, _| {
            two(entries, |one, other| same(&Entry { horse: one.horse ^ other.horse & 0xFF00, ..*one }, other))
        }),
    ]
}

/// A lookup that reads entries or starts wrong.
fn contents() -> Wrong<Lookup> {
    let said = |name, entry| (name, Lookup { entry, ..LOOKUP });
    // the bodies are where they should be, so that nothing else is wrong
    let start = |name, start| (name, Lookup { start, place: |_, end, _| end, ..LOOKUP });
    vec![
        said("high byte of horse first", |bytes| bytes.swap(0, 1)),
        said("leg and save exchanged", |bytes| bytes.swap(2, 3)),
        said("3 bits of leg", |bytes| bytes[2] &= 7),
        said("7 bits of save", |bytes| bytes[3] &= 127),
        said("high byte of rows first", |bytes| bytes.swap(4, 5)),
        said("low byte of rows", |bytes| bytes[5] = 0),
        said("high byte of start first", |bytes| bytes[6..].reverse()),
        said("2 bytes of start", |bytes| bytes[8..].fill(0)),
        said("3 bytes of start", |bytes| bytes[9] = 0),
        start("any start", |_, _, _| true),
        start("any first start", |start, end, first| start == end || end == first),
        start("a start behind the contents", |start, _, first| start >= first),
        start("a start in the right row", |start, end, _| start / 32 == end / 32),
        start("low 16 bits compared", |start, end, _| start & 0xFFFF == end & 0xFFFF),
        start("low 24 bits compared", |start, end, _| start & 0xFF_FFFF == end & 0xFF_FFFF),
        start("16 bits counted", |start, end, _| start == end & 0xFFFF),
        start("24 bits counted", |start, end, _| start == end & 0xFF_FFFF),
        start("a start below 2^16", |start, end, _| start == end && end < 1 << 16),
        start("counted from the bodies", |start, end, first| start + first == end),
        start("counted from the byte behind c", |start, end, _| start + 1 == end),
        start("counted in rows", |start, end, _| start == end / 32),
        start("counted in cells", |start, end, _| start == end / 2),
        ("a gap", Lookup { start: |start, end, _| start >= end, ..LOOKUP }),
        ("an overlap", Lookup { start: |start, end, _| start <= end, ..LOOKUP }),
    ]
}

/// A lookup that lets the bodies end elsewhere, or looks at some of their cells.
fn bodies() -> Wrong<Lookup> {
    let end = |name, end| (name, Lookup { end, ..LOOKUP });
    let looked = |name, looked| (name, Lookup { looked, ..LOOKUP });
    vec![
        ("an empty file is done", Lookup { empty: 0, ..LOOKUP }),
        ("34 for an empty file", Lookup { empty: 34, ..LOOKUP }),
        ("35 for an empty file", Lookup { empty: 35, ..LOOKUP }),
        end("any end", |_, _| true),
        end("trailing bytes", |end, length| end <= length),
        end("a trailing byte", |end, length| end == length || end + 1 == length),
        end("a trailing row", |end, length| end == length || end + 32 == length),
        end("a part of a row behind the last one", |end, length| end <= length && length < end + 32),
        end("a body cut short", |end, length| end >= length),
        end("a file below 2^16 bytes", |end, length| end == length && length < 1 << 16),
        looked("no cells", |_, _| 0..0),
        looked("cells of the current body", |_, found| found.unwrap_or(0..0)),
        looked("cells before the current body", |all, found| found.map_or(all.clone(), |found| all.start..found.start)),
        looked("cells behind the current body", |all, found| found.map_or(all.clone(), |found| found.end..all.end)),
        looked("the first cell", |all, _| all.start..all.end.min(all.start + 2)),
        looked("the first row", |all, _| all.start..all.end.min(all.start + 32)),
        looked("all but the last cell", |all, _| all.start..all.end.saturating_sub(2).max(all.start)),
        looked("the first 2^16 bytes", |all, _| all.start..all.end.min(1 << 16)),
    ]
}

/// A lookup that takes another body.
fn current() -> Wrong<Lookup> {
    let current = |name, current| (name, Lookup { current, ..LOOKUP });
    let leg = |name, leg| (name, Lookup { leg, ..LOOKUP });
    vec![
        current("the first save", |entries, leg| entries.iter().position(|entry| (entry.horse, entry.leg) == leg)),
        current("the last save", |entries, leg| entries.iter().rposition(|entry| (entry.horse, entry.leg) == leg)),
        current("the lowest save", |entries, leg| highest(entries, leg, |entry| 255 - entry.save)),
        current("saves of 7 bits and a sign", |entries, leg| highest(entries, leg, |entry| entry.save as i8)),
        current("the longest body", |entries, leg| highest(entries, leg, |entry| entry.rows)),
        current("a body with rows", |entries, leg| highest(entries, leg, |entry| (entry.rows > 0, entry.save))),
        current("none without rows", |entries, leg| (LOOKUP.current)(entries, leg).filter(|at| entries[*at].rows > 0)),
        current("any leg", |entries, (horse, _)| {
            (0..entries.len()).filter(|at| entries[*at].horse == horse).max_by_key(|at| entries[*at].save)
        }),
        current("any horse", |entries, (_, leg)| {
            (0..entries.len()).filter(|at| entries[*at].leg == leg).max_by_key(|at| entries[*at].save)
        }),
        current("low byte of the horse", |entries, (horse, leg)| {
            let other = entries.iter().find(|entry| entry.horse as u8 == horse as u8 && entry.leg == leg)?;
            (LOOKUP.current)(entries, (other.horse, leg))
        }),
        leg("16 bits of the horse", |horse, leg| (leg < 256).then_some((horse as u16, leg as u8))),
        leg("8 bits of the leg", |horse, leg| (horse < 1 << 16).then_some((horse as u16, leg as u8))),
    ]
}

/// A lookup that gives other answers, or another start and length.
fn given() -> Wrong<Lookup> {
    let order = |name, order| (name, Lookup { order, ..LOOKUP });
    let none = |name, none| (name, Lookup { none, ..LOOKUP });
    let given = |name, given| (name, Lookup { given, ..LOOKUP });
    let refused = |name, refused| (name, Lookup { refused, ..LOOKUP });
    let leg_twice =
        |entries: &[Entry], leg| two(entries, |one, other| same(one, other) && Some((one.horse, one.leg)) == leg);
    vec![
        ("twice but for other legs", Lookup { rules: Rules { twice: leg_twice, ..RULES }, ..LOOKUP }),
        order("34 first", [34, 33, 35]),
        order("35 before 34", [33, 35, 34]),
        order("35 first", [35, 33, 34]),
        order("35 and 34 first", [35, 34, 33]),
        none("33 for no such leg", |_, leg| if (1..=6).contains(&leg) { 35 } else { 33 }),
        none("33 for no such horse", |horse, _| if horse < 1 << 16 { 35 } else { 33 }),
        none("no leg as a body without rows", |_, _| 0),
        given("the end", |place, _| [place.start, place.end]),
        given("the length first", |place, _| [place.len(), place.start]),
        given("rows", |place, _| [place.start, place.len() / 32]),
        given("cells", |place, _| [place.start, place.len() / 2]),
        given("a start from the bodies", |place, first| [place.start - first, place.len()]),
        given("a start of 0 without rows", |place, _| if place.is_empty() { [0, 0] } else { [place.start, place.len()] }),
        given("16 bits of the start", |place, _| [place.start & 0xFFFF, place.len()]),
        given("16 bits of the length", |place, _| [place.start, place.len() & 0xFFFF]),
        refused("both left", |_, _| {}),
        refused("start left", |given, _| given[1] = 0),
        refused("length left", |given, _| given[0] = 0),
        refused("a start", |given, place| *given = [place.map_or(0, |place| place.start as u64), 0]),
    ]
}

/// A writer that takes other entries, cells or buffers.
fn taken() -> Wrong<Writer> {
    let arrange = |name, arrange| (name, Writer { arrange, ..WRITER });
    let fits = |name, fits| (name, Writer { fits, ..WRITER });
    let space = |name, space| (name, Writer { space, ..WRITER });
    vec![
        ("a part of an entry passed over", Writer { whole: |_| true, ..WRITER }),
        ("an even part passed over", Writer { whole: |bytes| bytes.is_multiple_of(2), ..WRITER }),
        arrange("sorted", |entries| entries.sort_by_key(Entry::key)),
        arrange("the highest save first", |entries| entries.sort_by_key(|entry| 255 - entry.save)),
        arrange("turned round", |entries| entries.reverse()),
        arrange("without the last one", |entries| entries.truncate(entries.len().max(2) - 1)),
        arrange("without those that have no rows", |entries| entries.retain(|entry| entry.rows > 0)),
        fits("more cells", |cells, rows| cells >= 16 * rows),
        fits("a cell more", |cells, rows| cells == 16 * rows || cells == 16 * rows + 1),
        fits("a row more", |cells, rows| cells == 16 * rows || cells == 16 * rows + 16),
        fits("fewer cells", |cells, rows| cells <= 16 * rows),
        fits("a cell less", |cells, rows| cells == 16 * rows || cells + 1 == 16 * rows),
        fits("a row less", |cells, rows| cells == 16 * rows || cells + 16 == 16 * rows),
        fits("whole rows", |cells, _| cells.is_multiple_of(16)),
        space("any buffer", |_, _| true),
        space("a byte too short", |buffer, length| buffer + 1 >= length),
        space("just as long", |buffer, length| buffer == length),
        space("a byte longer", |buffer, length| buffer > length),
        ("28 for a short buffer", Writer { short: 28, ..WRITER }),
        ("34 before the buffer", Writer { order: [1, 34, 2], ..WRITER }),
        ("34 first", Writer { order: [34, 1, 2], ..WRITER }),
    ]
}

/// A writer that writes or counts something else.
fn put() -> Wrong<Writer> {
    let start = |name, start| (name, Writer { start, ..WRITER });
    let entry = |name, entry| (name, Writer { entry, ..WRITER });
    let cell = |name, cell| (name, Writer { cell, ..WRITER });
    let count = |name, count| (name, Writer { count, ..WRITER });
    vec![
        start("counted from the bodies", |start, first| start - first),
        start("counted from the byte behind c", |start, _| start - 1),
        start("counted in rows", |start, _| start / 32),
        start("the first body for each", |_, first| first),
        start("16 bits of the start", |start, _| start & 0xFFFF),
        start("24 bits of the start", |start, _| start & 0xFF_FFFF),
        entry("high byte of horse first", |bytes| bytes.swap(0, 1)),
        entry("leg and save exchanged", |bytes| bytes.swap(2, 3)),
        entry("high byte of rows first", |bytes| bytes.swap(4, 5)),
        entry("high byte of start first", |bytes| bytes[6..].reverse()),
        cell("high byte of cell first", |cell| cell.to_be_bytes()),
        cell("torn as 4095", |cell| cell.min(4095).to_le_bytes()),
        count("nothing counted", |_, _, _| 0),
        count("bytes of bodies", |length, first, _| length - first),
        count("rows", |length, first, _| (length - first) / 32),
        count("the buffer", |_, _, buffer| buffer),
        count("16 bits of the count", |length, _, _| length & 0xFFFF),
    ]
}

/// A writer that writes where it must not, or leaves the count.
fn kept() -> Wrong<Writer> {
    let behind = |name, behind| (name, Writer { behind, ..WRITER });
    let refused = |name, refused| (name, Writer { refused, ..WRITER });
    vec![
        behind("a byte behind", |bytes| bytes.iter_mut().take(1).for_each(|byte| *byte = 0)),
        behind("all bytes behind", |bytes| bytes.fill(0)),
        refused("count left", |_, _, _| {}),
        refused("counted", |_, count, file| *count = file.len() as u64),
        refused("c written", |buffer, count, file| {
            buffer.iter_mut().zip(file).take(1).for_each(|(byte, of_file)| *byte = *of_file);
            *count = 0;
        }),
        refused("what there is space for", |buffer, count, file| {
            buffer.iter_mut().zip(file).for_each(|(byte, of_file)| *byte = *of_file);
            *count = 0;
        }),
    ]
}

/// What the comparison with this library gives.
fn compared(library: StandIn) -> Result<String, String> {
    files(&library, &Replay { command: "differential trial".into() }, Amount { seed: 0, events: 1 }, 300)
}

/// Each is found, with a report that is short and can be replayed.
fn found<T>(wrong: Vec<Wrong<T>>, library: impl Fn(T) -> StandIn) {
    for (name, wrong) in wrong.into_iter().flatten() {
        let Err(report) = compared(library(wrong)) else { panic!("{name} is not found") };
        assert!(report.starts_with("# files, seed 0: "), "{name}: {report}");
        assert!(report.contains("differential trial --part files --seed 0 --events 1"), "{name}: {report}");
        assert!(report.lines().count() < 20 && report.len() < 2000, "{name}: {report}");
    }
}

#[test]
fn nothing_differs_from_the_right_library() {
    let text = compared(RIGHT).expect("nothing differs");
    assert!(text.starts_with("300 random files: "), "{text}");
    for part in ["\n  listed: ", "\n  every number as a cell: 65536 lookups", "\n  long: "] {
        assert!(text.contains(part), "{text}");
    }
}

#[test]
fn wrong_rules_of_a_lookup_are_found() {
    found(vec![limits(), twice()], |rules| StandIn { lookup: Lookup { rules, ..LOOKUP }, ..RIGHT });
}

#[test]
fn wrong_rules_of_a_writer_are_found() {
    found(vec![limits(), twice()], |rules| StandIn { writer: Writer { rules, ..WRITER }, ..RIGHT });
}

#[test]
fn wrong_lookups_are_found() {
    found(vec![contents(), bodies(), current(), given()], |lookup| StandIn { lookup, ..RIGHT });
}

#[test]
fn wrong_writers_are_found() {
    found(vec![taken(), put(), kept()], |writer| StandIn { writer, ..RIGHT });
}
