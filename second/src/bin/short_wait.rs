//! A ride with a resend wait that is too short, in words, with what each event would do on ends that did not ask question 3.
//!
//! `short_wait W D L Q R`: window, data life, reply life, reply wait and resend wait. Prints the text of a .ride file. Where
//! there is none for these limits, a line on standard error says why, and the program ends with status 1.

use second::limits::Limits;
use second::short_wait_ride::ride;
use std::io::{stdout, Write};
use std::process::exit;

/// The ride that was asked for.
fn asked() -> Result<String, String> {
    let numbers: Option<Vec<u16>> = std::env::args().skip(1).map(|word| word.parse().ok()).collect();
    let [window, data_life, reply_life, reply_wait, resend_wait] = numbers.unwrap_or_default()[..] else {
        return Err("usage: short_wait W D L Q R".into());
    };
    ride(Limits { window: window.into(), data_life, reply_life, reply_wait, resend_wait })
}

fn main() -> std::io::Result<()> {
    match asked() {
        Ok(text) => stdout().write_all(text.as_bytes()),
        Err(why) => {
            eprintln!("{why}");
            exit(1)
        }
    }
}
