//! Devices that work on the numbers that C keeps, by rules of their own, so that a test can make one of them wrong.
//!
//! With no mistake they are right: the comparison finds no difference. The code that is tested has no part in them. What a
//! mat and a pad share stands here.

use second::kept_devices::{Kept, KeptMat};
use second::library::Asked;

/// What one wrong device does.
#[derive(Clone, Copy, Debug, PartialEq, Eq)]
pub enum Mistake {
    // openings
    WaitOf0IsTheSum,
    WaitOfTheSumLess3,
    WideLimitsCut,
    RefusedOpeningStoresNothing,
    OpeningLeavesMarks,
    // question 4
    AnyWait,
    AnyLimits,
    NextBeyondTheRing,
    WantedByItsLowByte,
    AnyCountOutstanding,
    OldestMarked,
    MarkNotOutstanding,
    MarkIs1Alone,
    MarksStayAsTheyAre,
    AnyTimer,
    TimersOfAllPlaces,
    AnyCell,
    CellsOfAllRows,
    TornIsIllegal,
    SoundnessLast,
    // frames written
    OtherLife,
    LifeOf1,
    NumberOfThePlace,
    HighByteFirst,
    TornAs4095,
    LastByteMissing,
    ByteBehind,
    AnyBuffer,
    LongerBuffer,
    BufferFirst,
    CountOf0,
    CountStays,
    WrittenWhereRefused,
    // frames read
    OtherWindow,
    WindowBeforeKind,
    KindBeforeLength,
    OtherKindIs23,
    LengthNotAsked,
    LifeUpTo255,
    LifeOfTheDevice,
    ReplySpanNotAsked,
    ChangedByNoise,
    // mat
    SupplyNotWhole,
    SupplyAfterWindow,
    CellsOfAllTheSupply,
    CellBeforeWindow,
    SendLeavesTimer,
    ResendLeavesTimer,
    ResendOfOldest,
    ResendOfMarked,
    ResendBeforeItsTime,
    TimerBeforeMark,
    KOfOneByte,
    FirstOutstandingAlone,
    Backwards,
    OldestFirst,
    StopsTheTimer,
    PassedMarkStays,
    CountsTheSpan,
    PassesOneRow,
    PassesTheSpan,
    // pad
    WantedInTheOldReply,
    OldRowNotAnswered,
    OldRowHeld,
    OldRowIsWanted,
    NextWindowHeld,
    FirstArrivalOnly,
    FirstContentStays,
    BufferForHeldRow,
    EveryHeldRow,
    OneRowAReply,
    WantedAsLast,
    TimerOf0,
    RecordBeforeHeld,
    BufferBeforeRecord,
    RecordOneMore,
    RecordFilled,
    HeldMarkStays,
    LongTimersLeft,
    WantedRisesBy1,
    CountsExchanged,
    // ticks
    TickOf0,
    TickOfOneByte,
    TickOf16Bits,
    TickBelow0,
    LastPlaceDoesNotTick,
}

/// Devices with this mistake, or with none.
pub struct Devices(pub Option<Mistake>);

/// The bytes that a device took.
pub enum Read {
    Data { number: usize, cells: [u16; 16] },
    Reply { first: usize, last: usize },
}

/// The call ends with this number.
pub type Refused = u8;

/// A call that is refused with a number where it must be.
pub fn ask(yes: bool, no: Refused) -> Result<(), Refused> {
    if yes {
        Ok(())
    } else {
        Err(no)
    }
}

/// The number of a call.
pub fn answer(done: Result<(), Refused>) -> u8 {
    done.err().unwrap_or(0)
}

impl Devices {
    pub fn has(&self, mistake: Mistake) -> bool {
        self.0 == Some(mistake)
    }

    pub fn legal(&self, cell: u16) -> bool {
        cell < 4096 || (cell == 65_535 && !self.has(Mistake::TornIsIllegal))
    }

    /// Questions 1 to 3.
    fn limits(&self, [window, times @ .., wait]: [u32; 5]) -> Result<(), Refused> {
        ask(window > 0 && window < 33, 1)?;
        ask(times.iter().all(|time| *time > 0 && *time < 251), 2)?;
        let sum: u32 = times.iter().sum();
        let least = sum - if self.has(Mistake::WaitOfTheSumLess3) { 3 } else { 2 };
        ask(wait == 0 || (wait >= least && wait < 1001), 3)
    }

    /// Question 4 of the limits.
    pub fn sound_limits(&self, limits: [u16; 5]) -> bool {
        let good = self.limits(limits.map(u32::from)).is_ok() && limits[4] > 0;
        let any_wait = self.has(Mistake::AnyWait)
            && self.limits([limits[0], limits[1], limits[2], limits[3], 0].map(u32::from)).is_ok();
        // with any limits at all the rest could not be looked at
        let any = self.has(Mistake::AnyLimits) && limits[0] > 0 && limits[0] < 33;
        good || any_wait || any
    }

    pub fn open<const N: usize>(&self, kept: &mut Kept<N>, asked: Asked) -> u8 {
        let asked = if self.has(Mistake::WideLimitsCut) { asked.map(|limit| limit & 0xFFFF) } else { asked };
        let done = self.limits(asked);
        if done.is_err() && self.has(Mistake::RefusedOpeningStoresNothing) {
            return answer(done);
        }
        let marks = kept.mark;
        *kept = Kept::filled(0);
        if done.is_ok() {
            kept.limits = asked.map(|limit| limit as u16);
            let sum: u16 = kept.limits[1..4].iter().sum();
            if kept.limits[4] == 0 {
                kept.limits[4] = sum - if self.has(Mistake::WaitOf0IsTheSum) { 0 } else { 2 };
            }
            if self.has(Mistake::OpeningLeavesMarks) {
                kept.mark = marks;
            }
        }
        answer(done)
    }

    /// Whether a mark is on.
    pub fn on(&self, mark: u16) -> bool {
        if self.has(Mistake::MarkIs1Alone) {
            mark == 1
        } else {
            mark != 0
        }
    }

    /// Marks as a call that is done leaves them.
    pub fn settle<const N: usize>(&self, kept: &mut Kept<N>) {
        if !self.has(Mistake::MarksStayAsTheyAre) {
            kept.mark.iter_mut().for_each(|mark| *mark = (*mark).min(1));
        }
    }

    /// Question 4 of timers.
    pub fn sound_timers<const N: usize>(&self, kept: &Kept<N>, most: u16) -> bool {
        let w = if self.has(Mistake::TimersOfAllPlaces) { 32 } else { usize::from(kept.limits[0]) };
        self.has(Mistake::AnyTimer) || kept.timer[..w].iter().all(|timer| *timer <= most)
    }

    /// Question 4 of a row's cells.
    pub fn sound_cells(&self, cells: &[u16], asked: bool) -> bool {
        let asked = (asked || self.has(Mistake::CellsOfAllRows)) && !self.has(Mistake::AnyCell);
        !asked || cells.iter().all(|cell| self.legal(*cell))
    }

    pub fn sound_mat(&self, mat: &KeptMat) -> bool {
        if !self.sound_limits(mat.limits) {
            return false;
        }
        let (w, [oldest, mut next]) = (usize::from(mat.limits[0]), mat.numbers.map(usize::from));
        if self.has(Mistake::NextBeyondTheRing) {
            next %= 2 * w;
        }
        if oldest >= 2 * w || next >= 2 * w {
            return false;
        }
        let outstanding = (next + 2 * w - oldest) % (2 * w);
        if outstanding > w && !self.has(Mistake::AnyCountOutstanding) {
            return false;
        }
        let marks = (0..w).all(|k| {
            let on = self.on(mat.mark[(oldest + k) % w]);
            let oldest = k == 0 && outstanding > 0 && !self.has(Mistake::OldestMarked);
            let not_outstanding = k >= outstanding && !self.has(Mistake::MarkNotOutstanding);
            !on || !(oldest || not_outstanding)
        });
        let cells = |k: usize| &mat.cell[(oldest + k) % w * 16..][..16];
        marks && self.sound_timers(mat, mat.limits[4]) && (0..w).all(|k| self.sound_cells(cells(k), k < outstanding))
    }

    /// Writes a frame.
    pub fn write(&self, frame: &mut [u8], bytes: &[u8], written: &mut usize) -> Result<(), Refused> {
        let length = bytes.len() - usize::from(self.has(Mistake::LastByteMissing));
        if frame.len() < length && self.has(Mistake::WrittenWhereRefused) {
            let space = frame.len();
            frame.copy_from_slice(&bytes[..space]);
        }
        let space = frame.len().min(length);
        ask(frame.len() >= length || self.has(Mistake::AnyBuffer), 28)?;
        ask(frame.len() > length || !self.has(Mistake::LongerBuffer), 28)?;
        frame[..space].copy_from_slice(&bytes[..space]);
        if let Some(behind) = frame.get_mut(length).filter(|_| self.has(Mistake::ByteBehind)) {
            *behind = 0;
        }
        *written = if self.has(Mistake::CountOf0) { 0 } else { length };
        Ok(())
    }

    /// The life in a frame of a kind.
    fn life(&self, limits: [u16; 5], kind: usize) -> u8 {
        let kind = if self.has(Mistake::OtherLife) { 3 - kind } else { kind };
        if self.has(Mistake::LifeOf1) {
            1
        } else {
            limits[kind] as u8
        }
    }

    /// The number in a frame.
    fn number(&self, w: u16, number: usize) -> u8 {
        (number % usize::from(if self.has(Mistake::NumberOfThePlace) { w } else { 2 * w })) as u8
    }

    pub fn reply_bytes(&self, limits: [u16; 5], first: usize, last: usize) -> [u8; 5] {
        let w = limits[0];
        [2, self.life(limits, 2), w as u8, self.number(w, first), self.number(w, last)]
    }

    pub fn data_bytes(&self, limits: [u16; 5], number: usize, cells: &[u16]) -> Vec<u8> {
        let w = limits[0];
        let mut bytes = vec![1, self.life(limits, 1), w as u8, self.number(w, number)];
        for cell in cells {
            let cell = if self.has(Mistake::TornAs4095) { (*cell).min(4095) } else { *cell };
            bytes.extend(if self.has(Mistake::HighByteFirst) { cell.to_be_bytes() } else { cell.to_le_bytes() });
        }
        bytes
    }

    /// What every call of a device on bytes asks of them.
    pub fn read(&self, limits: [u16; 5], kind: u8, bytes: &[u8]) -> Result<Read, Refused> {
        let read = self.read_any(limits, kind, bytes)?;
        let other_window = u16::from(bytes[2]) != limits[0] && !self.has(Mistake::OtherWindow);
        ask(!(other_window && self.has(Mistake::WindowBeforeKind)), 24)?;
        ask(bytes[0] == kind, if self.has(Mistake::OtherKindIs23) { 23 } else { 22 })?;
        ask(!other_window, 24)?;
        Ok(read)
    }

    fn read_any(&self, limits: [u16; 5], own: u8, bytes: &[u8]) -> Result<Read, Refused> {
        let kind = bytes.first().copied().unwrap_or(0);
        ask(kind == 1 || kind == 2, 22)?;
        ask(kind == own || !self.has(Mistake::KindBeforeLength), 22)?;
        let length = if kind == 1 { 36 } else { 5 };
        ask(bytes.len() == length || (bytes.len() > length && self.has(Mistake::LengthNotAsked)), 23)?;
        let [life, w, first, last] =
            [bytes[1], bytes[2], bytes[3], if kind == 1 { bytes[3] } else { bytes[4] }].map(usize::from);
        ask(w > 0 && w < 33, 24)?;
        ask(first.max(last) < 2 * w, 25)?;
        let most = if self.has(Mistake::LifeUpTo255) { 255 } else { 250 };
        ask(life > 0 && life <= most, 26)?;
        ask(life <= usize::from(limits[usize::from(kind)]) || !self.has(Mistake::LifeOfTheDevice), 26)?;
        if kind == 2 {
            ask((last + 2 * w - first) % (2 * w) < w || self.has(Mistake::ReplySpanNotAsked), 27)?;
            return Ok(Read::Reply { first, last });
        }
        let cells: [u16; 16] = std::array::from_fn(|at| u16::from(bytes[4 + 2 * at]) + 256 * u16::from(bytes[5 + 2 * at]));
        ask(cells.iter().all(|cell| self.legal(*cell)), 12)?;
        Ok(Read::Data { number: first, cells })
    }

    /// Time passes for timers.
    pub fn tick<const N: usize>(&self, kept: &mut Kept<N>, sound: bool, d: u32) -> u8 {
        if !sound {
            return 4;
        }
        if d == 0 && !self.has(Mistake::TickOf0) {
            return 9;
        }
        let d = if self.has(Mistake::TickOfOneByte) {
            d & 0xFF
        } else if self.has(Mistake::TickOf16Bits) {
            d & 0xFFFF
        } else {
            d.min(65_535)
        } as u16;
        let places = usize::from(kept.limits[0]) - usize::from(self.has(Mistake::LastPlaceDoesNotTick));
        for timer in &mut kept.timer[..places] {
            let left = timer.saturating_sub(d);
            *timer = if self.has(Mistake::TickBelow0) { timer.wrapping_sub(d) } else { left };
        }
        self.settle(kept);
        0
    }
}
