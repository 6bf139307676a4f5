//! The calls of a pad with one mistake, and all nine calls as a library has them.

use super::device_stand_in::{ask, Devices, Mistake, Read, Refused};
use super::differ::StandIn;
use second::device_library::DeviceLibrary;
use second::kept_devices::{KeptMat, KeptPad};
use second::library::{Asked, CountNumbers, Lent, Library};
use second::matlink::Matlink;

impl Devices {
    pub fn sound_pad(&self, pad: &KeptPad) -> bool {
        if !self.sound_limits(pad.limits) {
            return false;
        }
        let (w, mut wanted) = (usize::from(pad.limits[0]), usize::from(pad.numbers[0]));
        if self.has(Mistake::WantedByItsLowByte) {
            wanted &= 0xFF;
        }
        let held = |place: usize| self.on(pad.mark[place]);
        let cells = |place: usize| &pad.cell[16 * place..][..16];
        wanted < 2 * w && self.sound_timers(pad, pad.limits[3]) && (0..w).all(|p| self.sound_cells(cells(p), held(p)))
    }

    fn take(&self, pad: &mut KeptPad, bytes: &[u8], reply: &mut [u8], written: &mut usize) -> Result<(), Refused> {
        let read = self.read(pad.limits, 1, bytes);
        if read.is_err() && self.has(Mistake::ChangedByNoise) {
            pad.timer[0] = 0;
        }
        let Read::Data { number, cells } = read? else { unreachable!("a data frame") };
        let (w, wanted) = (usize::from(pad.limits[0]), usize::from(pad.numbers[0]) % 256);
        let ahead = (number + 2 * w - wanted) % (2 * w);
        let most = w + usize::from(self.has(Mistake::NextWindowHeld)) - usize::from(self.has(Mistake::OldRowIsWanted));
        if ahead >= most {
            return self.old(pad, number, &cells, reply, written);
        }
        ask(reply.len() > 4 || !self.has(Mistake::BufferForHeldRow), 28)?;
        *written = 0;
        self.hold(pad, number % w, &cells);
        Ok(())
    }

    fn hold(&self, pad: &mut KeptPad, place: usize, cells: &[u16; 16]) {
        let again = pad.mark[place] != 0;
        if !(again && self.has(Mistake::FirstContentStays)) {
            pad.cell[16 * place..][..16].copy_from_slice(cells);
        }
        if !(again && self.has(Mistake::FirstArrivalOnly)) {
            pad.timer[place] = pad.limits[3];
        }
        pad.mark[place] = 1;
    }

    fn old(
        &self,
        pad: &mut KeptPad,
        number: usize,
        cells: &[u16; 16],
        reply: &mut [u8],
        written: &mut usize,
    ) -> Result<(), Refused> {
        if self.has(Mistake::OldRowNotAnswered) {
            *written = 0;
            return Ok(());
        }
        let number_told = if self.has(Mistake::WantedInTheOldReply) { usize::from(pad.numbers[0]) } else { number };
        self.write(reply, &self.reply_bytes(pad.limits, number_told, number_told), written)?;
        if self.has(Mistake::OldRowHeld) {
            self.hold(pad, number % usize::from(pad.limits[0]), cells);
        }
        Ok(())
    }

    /// How many rows a reply covers.
    fn run(&self, pad: &KeptPad) -> usize {
        let (w, wanted) = (usize::from(pad.limits[0]), usize::from(pad.numbers[0]) % 256);
        let length = (0..w).take_while(|k| {
            let place = (wanted + k) % w;
            let any_timer = self.has(Mistake::EveryHeldRow) && *k > 0 || self.has(Mistake::TimerOf0) && *k == 0;
            self.on(pad.mark[place]) && (pad.timer[place] > 0 || any_timer)
        });
        let length = length.count();
        if self.has(Mistake::OneRowAReply) {
            length.min(1)
        } else {
            length
        }
    }

    fn record(
        &self,
        pad: &mut KeptPad,
        record: &mut [u16],
        reply: &mut [u8],
        [rows, written]: [&mut usize; 2],
    ) -> Result<(), Refused> {
        let (w, wanted, length) = (usize::from(pad.limits[0]), usize::from(pad.numbers[0]) % 256, self.run(pad));
        let more = usize::from(self.has(Mistake::RecordOneMore));
        ask(record.len() >= 16 || !self.has(Mistake::RecordBeforeHeld), 21)?;
        ask(reply.len() > 4 || !self.has(Mistake::BufferFirst), 28)?;
        ask(length > 0, 20)?;
        ask(reply.len() > 4 || !self.has(Mistake::BufferBeforeRecord), 28)?;
        ask(record.len() >= 16 * length + more, 21)?;
        let last = wanted + length - usize::from(!self.has(Mistake::WantedAsLast));
        self.write(reply, &self.reply_bytes(pad.limits, wanted, last), written)?;
        for k in 0..length {
            let place = (wanted + k) % w;
            record[16 * k..][..16].copy_from_slice(&pad.cell[16 * place..][..16]);
            pad.mark[place] = u16::from(self.has(Mistake::HeldMarkStays));
            if self.has(Mistake::LongTimersLeft) {
                pad.timer[place] = 251;
            }
        }
        if self.has(Mistake::RecordFilled) {
            record[16 * length..].fill(0);
        }
        let rise = if self.has(Mistake::WantedRisesBy1) { 1 } else { length };
        pad.numbers[0] = ((wanted + rise) % (2 * w)) as u16;
        *rows = length;
        if self.has(Mistake::CountsExchanged) {
            (*rows, *written) = (*written, *rows);
        }
        Ok(())
    }

    /// Question 4 before a call, or behind the others.
    fn ask_sound(&self, sound: bool, call: impl FnOnce() -> Result<(), Refused>) -> Result<(), Refused> {
        if self.has(Mistake::SoundnessLast) && !sound {
            return Err(22);
        }
        ask(sound, 4)?;
        call()
    }
}

impl DeviceLibrary for Devices {
    fn mat_open(&self, mat: &mut KeptMat, asked: Asked) -> u8 {
        self.open(mat, asked)
    }

    fn mat_send(&self, mat: &mut KeptMat, supply: &[u16], frame: &mut [u8], written: &mut usize) -> u8 {
        let sound = self.sound_mat(mat);
        let done = self.ask_sound(sound, || self.send(mat, supply, frame, written));
        self.ended(mat, done, &mut [written])
    }

    fn mat_resend(&self, mat: &mut KeptMat, k: u32, frame: &mut [u8], written: &mut usize) -> u8 {
        let sound = self.sound_mat(mat);
        let done = self.ask_sound(sound, || self.resend(mat, k, frame, written));
        self.ended(mat, done, &mut [written])
    }

    fn mat_receive(&self, mat: &mut KeptMat, frame: &[u8], acknowledged: &mut usize) -> u8 {
        let sound = self.sound_mat(mat);
        let done = self.ask_sound(sound, || self.acknowledge(mat, frame, acknowledged));
        self.ended(mat, done, &mut [acknowledged])
    }

    fn mat_tick(&self, mat: &mut KeptMat, d: u32) -> u8 {
        let sound = self.sound_mat(mat);
        self.tick(mat, sound, d)
    }

    fn pad_open(&self, pad: &mut KeptPad, asked: Asked) -> u8 {
        self.open(pad, asked)
    }

    fn pad_receive(&self, pad: &mut KeptPad, frame: &[u8], reply: &mut [u8], written: &mut usize) -> u8 {
        let sound = self.sound_pad(pad);
        let done = self.ask_sound(sound, || self.take(pad, frame, reply, written));
        self.ended(pad, done, &mut [written])
    }

    fn pad_reply(
        &self,
        pad: &mut KeptPad,
        record: &mut [u16],
        reply: &mut [u8],
        rows: &mut usize,
        written: &mut usize,
    ) -> u8 {
        let sound = self.sound_pad(pad);
        let done = self.ask_sound(sound, || self.record(pad, record, reply, [rows, written]));
        self.ended(pad, done, &mut [rows, written])
    }

    fn pad_tick(&self, pad: &mut KeptPad, d: u32) -> u8 {
        let sound = self.sound_pad(pad);
        self.tick(pad, sound, d)
    }
}

/// The link is right, whatever the devices are.
impl Library for Devices {
    fn open(&self, link: &mut Matlink, asked: Asked) -> u8 {
        StandIn(None).open(link, asked)
    }

    fn step(
        &self,
        link: &mut Matlink,
        event: (u32, u32),
        supply: &[u16],
        record: &mut [u16],
        counts: &mut CountNumbers,
    ) -> u8 {
        StandIn(None).step(link, event, supply, record, counts)
    }

    fn run(&self, link: &mut Matlink, lent: Lent) -> u8 {
        StandIn(None).run(link, lent)
    }

    fn ride(&self, asked: Asked, lent: Lent) -> u8 {
        StandIn(None).ride(asked, lent)
    }
}
