//! The calls of a mat with one mistake.

use super::device_stand_in::{answer, ask, Devices, Mistake, Read, Refused};
use second::kept_devices::{Kept, KeptMat};

impl Devices {
    /// The window, oldest, and how many rows are outstanding.
    fn window(mat: &KeptMat) -> (usize, usize, usize) {
        let (w, [oldest, next]) = (usize::from(mat.limits[0]), mat.numbers.map(usize::from));
        (w, oldest, (next + 2 * w - oldest) % (2 * w))
    }

    pub fn send(&self, mat: &mut KeptMat, supply: &[u16], frame: &mut [u8], written: &mut usize) -> Result<(), Refused> {
        let (w, _, outstanding) = Devices::window(mat);
        let whole = supply.len().is_multiple_of(16) || self.has(Mistake::SupplyNotWhole);
        let looked = if self.has(Mistake::CellsOfAllTheSupply) { supply.len() } else { supply.len().min(16) };
        let legal = supply[..looked].iter().all(|cell| self.legal(*cell));
        ask(frame.len() >= 36 || !self.has(Mistake::BufferFirst), 28)?;
        ask(whole || self.has(Mistake::SupplyAfterWindow), 6)?;
        ask(legal || supply.len() < 16 || !self.has(Mistake::CellBeforeWindow), 12)?;
        ask(outstanding < w, 10)?;
        ask(whole, 6)?;
        ask(supply.len() > 15, 11)?;
        ask(legal, 12)?;
        let next = usize::from(mat.numbers[1]);
        self.write(frame, &self.data_bytes(mat.limits, next, &supply[..16]), written)?;
        let place = next % w;
        mat.cell[16 * place..][..16].copy_from_slice(&supply[..16]);
        mat.numbers[1] = ((next + 1) % (2 * w)) as u16;
        if !self.has(Mistake::SendLeavesTimer) {
            mat.timer[place] = mat.limits[4];
        }
        Ok(())
    }

    pub fn resend(&self, mat: &mut KeptMat, k: u32, frame: &mut [u8], written: &mut usize) -> Result<(), Refused> {
        let (w, oldest, outstanding) = Devices::window(mat);
        let k = if self.has(Mistake::KOfOneByte) { k & 0xFF } else { k } as usize;
        ask(frame.len() >= 36 || !self.has(Mistake::BufferFirst), 28)?;
        ask(k < outstanding, 14)?;
        let number = oldest + if self.has(Mistake::ResendOfOldest) { 0 } else { k };
        let place = number % w;
        let runs = mat.timer[place] > 0 && !self.has(Mistake::ResendBeforeItsTime);
        ask(!runs || !self.has(Mistake::TimerBeforeMark), 16)?;
        ask(!self.on(mat.mark[place]) || self.has(Mistake::ResendOfMarked), 15)?;
        ask(!runs, 16)?;
        self.write(frame, &self.data_bytes(mat.limits, number, &mat.cell[16 * place..][..16]), written)?;
        if !self.has(Mistake::ResendLeavesTimer) {
            mat.timer[place] = mat.limits[4];
        }
        Ok(())
    }

    pub fn acknowledge(&self, mat: &mut KeptMat, bytes: &[u8], acknowledged: &mut usize) -> Result<(), Refused> {
        let read = self.read(mat.limits, 2, bytes);
        if read.is_err() && self.has(Mistake::ChangedByNoise) {
            mat.timer[0] = 0;
        }
        let Read::Reply { first, last } = read? else { unreachable!("a reply frame") };
        let (w, oldest, outstanding) = Devices::window(mat);
        let from = (first + 4 * w - oldest) % (2 * w);
        let span = if self.has(Mistake::Backwards) && last < first { 1 } else { (last + 4 * w - first) % (2 * w) + 1 };
        let asked = if self.has(Mistake::FirstOutstandingAlone) { from + 1 } else { from + span };
        ask(asked <= outstanding, 19)?;
        if from > 0 && self.has(Mistake::OldestFirst) {
            *acknowledged = 0;
            return Ok(());
        }
        for k in from..from + span {
            mat.mark[(oldest + k) % w] = 1;
            if self.has(Mistake::StopsTheTimer) {
                mat.timer[(oldest + k) % w] = 0;
            }
        }
        let marked = (0..outstanding).take_while(|k| mat.mark[(oldest + k) % w] != 0).count();
        let passed = match marked {
            0 => 0,
            _ if self.has(Mistake::PassesOneRow) => 1,
            _ if self.has(Mistake::PassesTheSpan) => span,
            all => all,
        };
        for k in (0..passed).filter(|_| !self.has(Mistake::PassedMarkStays)) {
            mat.mark[(oldest + k) % w] = 0;
        }
        mat.numbers[0] = ((oldest + passed) % (2 * w)) as u16;
        *acknowledged = if self.has(Mistake::CountsTheSpan) { span } else { passed };
        Ok(())
    }

    /// A call that is done settles the marks; of a refused one the counts are 0.
    pub fn ended<const N: usize>(&self, kept: &mut Kept<N>, done: Result<(), Refused>, counts: &mut [&mut usize]) -> u8 {
        match done {
            Ok(()) => self.settle(kept),
            Err(_) if self.has(Mistake::CountStays) => {}
            Err(_) => counts.iter_mut().for_each(|count| **count = 0),
        }
        answer(done)
    }
}
