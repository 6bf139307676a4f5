//! Devices as C keeps them: what is kept is given back, and each number has a name of its own.

use second::devices::{MatDevice, PadDevice};
use second::draw_link::drawn_link;
use second::kept_devices::{Kept, KeptMat, KeptPad};
use second::random::Random;

#[test]
fn kept_devices_give_the_devices_back() {
    let mut random = Random::new(3);
    for _ in 0..200 {
        let link = drawn_link(&mut random);
        let mat = MatDevice { limits: link.limits, mat: link.mat };
        let pad = PadDevice { limits: link.limits, pad: link.pad };
        assert_eq!(MatDevice::from(&KeptMat::from(&mat)), mat);
        assert_eq!(PadDevice::from(&KeptPad::from(&pad)), pad);
    }
    assert_eq!((KeptMat::COUNT, KeptPad::COUNT), (583, 582));
}

/// A number that a byte does not hold is none that question 4 lets pass.
#[test]
fn a_wide_number_is_not_taken_by_its_low_byte() {
    let mut mat = KeptMat::from(&MatDevice::open(super::limits(2, 1, 1, 1, 0)).1);
    let mut pad = KeptPad::from(&PadDevice::open(super::limits(2, 1, 1, 1, 0)).1);
    assert!(MatDevice::from(&mat).sound() && PadDevice::from(&pad).sound());
    (mat.numbers, pad.numbers) = ([256, 256], [256]);
    assert!(!MatDevice::from(&mat).sound() && !PadDevice::from(&pad).sound());
}

fn names<const N: usize>(first: [&str; 7]) {
    let mut kept = Kept::<N>::filled(0);
    let names: Vec<String> = (0..Kept::<N>::COUNT).map(Kept::<N>::name).collect();
    assert_eq!(names[..7], first);
    assert_eq!(names.last().map(String::as_str), Some("cell[511] (place 31, cell 15)"));
    let mut all = names;
    all.sort();
    all.dedup();
    assert_eq!(all.len(), Kept::<N>::COUNT);
    for at in 0..Kept::<N>::COUNT {
        *kept.at(at) = at as u16;
    }
    assert!(kept.all().into_iter().eq(0..Kept::<N>::COUNT as u16));
}

#[test]
fn every_number_has_its_name() {
    names::<2>(["window", "data_life", "reply_life", "reply_wait", "resend_wait", "oldest", "next"]);
    names::<1>(["window", "data_life", "reply_life", "reply_wait", "resend_wait", "wanted", "mark[0]"]);
}
