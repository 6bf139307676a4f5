//! The limits of a link, questions 1 to 3, and the numbers of all answers.

/// Cells in a row.
pub const CELLS: usize = 16;

/// The greatest cell that a mat reads where it is whole.
pub const GREATEST_CELL: u16 = 4095;

/// What a torn cell reads: the one legal cell above the greatest.
pub const TORN_CELL: u16 = 65_535;

/// The largest window, and so the length of every array that is indexed by place.
pub const LARGEST_WINDOW: usize = 32;

/// How many messages each table has places for.
pub const TABLE_PLACES: usize = 32;

/// One row of the mat, the content of a data message.
pub type Row = [u16; CELLS];

/// A question answered no; the discriminant is the paper's number.
#[derive(Clone, Copy, Debug, PartialEq, Eq, Hash)]
#[repr(u8)]
pub enum Refusal {
    /// The window is not 1 to 32.
    Window = 1,
    /// A life or the reply wait is not 1 to 250.
    Times = 2,
    /// The resend wait is neither 0 nor in its range.
    ResendWait = 3,
    /// A link such as no opening and no event gives.
    Unsound = 4,
    /// The last event has no argument.
    OddEvents = 5,
    /// The supply does not divide into rows.
    SupplyLength = 6,
    /// The answer buffer has no byte for some event.
    AnswersShort = 7,
    /// No such kind of event.
    Kind = 8,
    /// The kind has no such argument.
    Argument = 9,
    /// Send: w rows are outstanding.
    WindowFull = 10,
    /// Send: no row is left.
    SupplyEmpty = 11,
    /// A cell that is not legal.
    IllegalCell = 12,
    /// 32 data messages are in the air.
    DataTableFull = 13,
    /// Resend: no such outstanding row.
    NotOutstanding = 14,
    /// Resend: the row is marked.
    Acknowledged = 15,
    /// Resend: its timer is above 0, so something of the row may still be in the air.
    TimerRuns = 16,
    /// The table has no such message.
    NoMessage = 17,
    /// 32 replies are in the air.
    ReplyTableFull = 18,
    /// A reply for rows that are not outstanding.
    SpanNotOutstanding = 19,
    /// Row wanted is not held, or its reply timer is 0.
    NothingToReply = 20,
    /// The record has no space for the whole run of rows.
    RecordShort = 21,
    /// Frame: no first byte, or not 1 or 2.
    FrameKind = 22,
    /// Frame: not 36 or 5 bytes, as its kind asks.
    FrameLength = 23,
    /// Frame: the window is not 1 to 32.
    FrameWindow = 24,
    /// Frame: a number is not below 2w.
    FrameNumber = 25,
    /// Frame: the life is not 1 to 250.
    FrameLife = 26,
    /// Frame: a reply of more than w rows.
    FrameSpan = 27,
    /// Frame: no space to write it.
    FrameBufferShort = 28,
    /// Trial: the input is shorter than it says, or too long.
    InputLength = 29,
    /// Page: the record does not divide into rows, or has more than 100,000.
    PageRecord = 30,
    /// Page: the record has no row of it.
    NoPage = 31,
    /// Page: no space to write it.
    PageBufferShort = 32,
    /// File: its contents, bodies or cells do not fit the rules, or there is no space to write it.
    FileUnsound = 33,
    /// File: a horse, leg and save occur twice.
    SavedTwice = 34,
    /// File: the horse has no such leg.
    NoLeg = 35,
}

/// Puts a question. With `?` behind it the first "no" ends the call, which is the paper's order.
#[inline]
pub fn ask(yes: bool, no: Refusal) -> Result<(), Refusal> {
    if yes {
        Ok(())
    } else {
        Err(no)
    }
}

/// The number that is printed and compared: 0 means done.
#[inline]
pub fn number<T>(answer: &Result<T, Refusal>) -> u8 {
    match answer {
        Ok(_) => 0,
        Err(refusal) => *refusal as u8,
    }
}

/// The rule for a cell, wherever question 12 is put and in the cell clause of question 4.
#[inline]
pub fn legal_cell(cell: u16) -> bool {
    cell <= GREATEST_CELL || cell == TORN_CELL
}

/// Question 12 of a row. All cells are looked at, as a loop of fixed length is the faster one.
#[inline]
pub fn legal(row: &Row) -> bool {
    row.iter().fold(true, |all, cell| all & legal_cell(*cell))
}

/// The limits of a link, as asked for or as opened. All times are in ticks. Zeros stand for a link whose opening was refused.
#[derive(Clone, Copy, Debug, Default, PartialEq, Eq, Hash)]
pub struct Limits {
    /// The window w: how many rows may be outstanding.
    pub window: usize,
    /// How long a data message lives (the source's mds).
    pub data_life: u16,
    /// How long a reply lives (mdr).
    pub reply_life: u16,
    /// How long after its arrival a row may be acknowledged (mrt).
    pub reply_wait: u16,
    /// The retransmission timeout (tp); 0 asks for `least_wait`.
    pub resend_wait: u16,
}

impl Limits {
    /// Questions 1 to 3, and the limits with a resend wait of 0 replaced by the least one, which it stands for.
    pub fn accept(self) -> Result<Limits, Refusal> {
        let times = [self.data_life, self.reply_life, self.reply_wait];
        ask((1..=LARGEST_WINDOW).contains(&self.window), Refusal::Window)?;
        ask(times.iter().all(|time| (1..=250).contains(time)), Refusal::Times)?;
        let range = self.least_wait()..=1000;
        ask(self.resend_wait == 0 || range.contains(&self.resend_wait), Refusal::ResendWait)?;
        Ok(if self.resend_wait == 0 { self.with_least_wait() } else { self })
    }

    /// The three times' sum. It stops at the largest number, as question 2 need not let the times pass.
    pub fn sum(&self) -> u16 {
        self.data_life.saturating_add(self.reply_life).saturating_add(self.reply_wait)
    }

    /// The least resend wait, and what 0 stands for: the sum less 2. A row is in the air for at most data life - 1 ticks, then
    /// held with a reply timer above 0 for at most reply wait - 1, and then its reply is in the air for at most reply life - 1.
    /// After one tick more nothing is left of a sending. `short_wait` shows that a shorter wait will not do.
    ///
    /// It is at least 1 for times that question 2 lets pass, so no opened link has a wait of 0.
    pub fn least_wait(&self) -> u16 {
        self.sum().saturating_sub(2)
    }

    /// The same with the least resend wait.
    pub fn with_least_wait(self) -> Limits {
        Limits { resend_wait: self.least_wait(), ..self }
    }

    /// The part of question 4 about limits: they are such as an opening returns.
    pub fn sound(&self) -> bool {
        self.resend_wait != 0 && self.accept().is_ok()
    }
}
