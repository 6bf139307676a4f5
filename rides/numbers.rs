//! What each answer's number means. `tests/rides.sh` compares the names with crates/limits/src/answer.rt and the whole table
//! with docs/RIDES.md.

/// By number: Done or the refusal's name in crates/limits, and the words.
pub const NUMBERS: [(&str, &str); 36] = [
    ("Done", "the event was carried out"),
    ("BadWindow", "the window is not 1 to 32"),
    ("BadTimes", "the data life, the reply life or the reply wait is not 1 to 250"),
    ("BadWait", "the resend wait is neither 0 nor from the three times' sum less 2 to 1000"),
    ("Unsound", "the link or part handed in is not sound: a limit, number, mark, timer, table or cell breaks question 4"),
    ("OddEvents", "the last event has a kind and no argument"),
    ("PartialRow", "the supply ends inside a row"),
    ("ShortAnswers", "the answer buffer has fewer bytes than there are events"),
    ("UnknownKind", "there is no event of this kind"),
    ("BadArgument", "send and reply have argument 0, a tick is at least 1"),
    ("WindowFull", "a full window of rows is outstanding"),
    ("NoRowLeft", "every row of the supply has been sent"),
    ("IllegalCell", "a cell is neither 0 to 4095 nor 65535, a torn one"),
    ("DataTableFull", "32 data messages are in the air"),
    ("NotOutstanding", "no outstanding row has this place (places count from 0)"),
    ("AlreadyAcknowledged", "this row has been acknowledged"),
    ("TimerRunning", "the resend timer of this row has not run out"),
    ("NoMessage", "no message is at this place of the table"),
    ("ReplyTableFull", "32 replies are in the air"),
    ("SpanNotOutstanding", "the reply names a row that is not outstanding"),
    ("NothingReady", "the wanted row is not held, or its reply timer has run out"),
    ("RecordFull", "the record has no space for all the rows that are ready"),
    ("UnknownFrame", "the frame does not begin with 1 or 2, or it is of the kind that the device itself sends"),
    ("BadFrameLength", "the frame is not 36 bytes (data) or 5 bytes (reply) long"),
    ("BadFrameWindow", "the frame's window is not 1 to 32, or is not that of the device"),
    ("BadFrameNumber", "a number in the frame is twice its window or more"),
    ("BadFrameLife", "the frame's life is not 1 to 250"),
    ("BadFrameSpan", "the reply in the frame covers more rows than its window"),
    ("ShortBuffer", "the buffer is shorter than the frame"),
    ("BadInputLength", "the input ends before its rows do, or is longer than 40,960 bytes"),
    ("BadRecordLength", "the record ends inside a row, or has more than 100,000 rows"),
    ("NoSuchPage", "the record has no row for this page (pages count from 0)"),
    ("ShortPageBuffer", "the buffer is shorter than the page"),
    ("BadFile", "contents, bodies or cells are not those of a horse's file, or the buffer is shorter than the file"),
    ("SavedTwice", "a horse, leg and save stand in the file twice"),
    ("NoSuchLeg", "the file has no such leg of the horse"),
];

/// What a number means.
pub fn meaning(number: u8) -> &'static str {
    NUMBERS.get(usize::from(number)).map_or("(a number without a meaning)", |(_, words)| words)
}
