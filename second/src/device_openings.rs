//! Openings of devices: limits at and beyond every edge, and limits that 16 bits do not hold.

use crate::checks::edge_limits;
use crate::compare::different;
use crate::device_calls::{members, Both, Device};
use crate::device_library::DeviceLibrary;
use crate::devices::{MatDevice, PadDevice};
use crate::differ::Difference;
use crate::kept_devices::Kept;
use crate::library::asked;
use crate::limits::{Limits, Refusal};
use crate::report::{Outcome, Replay};
use crate::threads::Amount;

/// Limits above 65,535 are refused as that is, with zeros.
fn wide<D: Device<N>, const N: usize>(library: &dyn DeviceLibrary) -> Result<u64, String> {
    let refusals = [Refusal::Window, Refusal::Times, Refusal::Times, Refusal::Times, Refusal::ResendWait];
    let mut calls = 0;
    for (place, refusal) in refusals.into_iter().enumerate() {
        for number in [65_536, 65_537, 65_538, 65_540, 1 << 24, 1 << 31, u32::MAX] {
            let mut asked = [2, 1, 1, 1, 4];
            asked[place] = number;
            let mut kept = Kept::filled(5);
            let answer = D::open_there(library, &mut kept, asked);
            let found = different(answer, refusal as u8, || "answer".into()).or_else(|| members(&kept, &Kept::filled(0)));
            found.map_or(Ok(()), |text| Err(format!("{} opened with {asked:?}: {text}", D::NAME)))?;
            calls += 1;
        }
    }
    Ok(calls)
}

/// Where the wait is 0: how the device differs from the one that is opened with the least wait.
fn of_wait_0<D: Device<N>, const N: usize>(library: &dyn DeviceLibrary, limits: Limits) -> Difference {
    let [(zero, kept), (least, expected)] = [limits, limits.with_least_wait()].map(|limits| {
        let mut kept = Kept::filled(5);
        (D::open_there(library, &mut kept, asked(limits)), kept)
    });
    let found = different(zero, least, || "answer".into()).or_else(|| members(&kept, &expected));
    found.map(|text| format!("{} opened with {limits:?} is not that with the least wait: {text}", D::NAME))
}

/// One opening of a device: the number, or what differs.
fn opening<D: Device<N>, const N: usize>(library: &dyn DeviceLibrary, limits: Limits) -> Result<u8, String> {
    let (_, answer, found) = Both::<D, N>::open(library, limits);
    let zero = || if limits.resend_wait == 0 { of_wait_0::<D, N>(library, limits) } else { None };
    found.or_else(zero).map_or(Ok(answer), Err)
}

/// Openings of both.
pub fn device_openings(library: &dyn DeviceLibrary, replay: &Replay, amount: Amount) -> Outcome {
    let failed = |text: String| replay.failed("device-openings", amount.seed, &text);
    let (mut count, mut opened) = (0, 0);
    for limits in edge_limits(amount) {
        let mat = opening::<MatDevice, 2>(library, limits).map_err(failed)?;
        opening::<PadDevice, 1>(library, limits).map_err(failed)?;
        count += 1;
        opened += u64::from(mat == 0);
    }
    let wide = wide::<MatDevice, 2>(library).map_err(failed)? + wide::<PadDevice, 1>(library).map_err(failed)?;
    Ok(format!("{count} openings of each device, {opened} of them done; {wide} with limits that are too wide"))
}
