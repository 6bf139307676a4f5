//! Calls that write bytes into a lent buffer, in the library and here: the number, the count of bytes, and the whole buffer.

use crate::compare::different;
use crate::differ::Difference;
use crate::limits::{number, Refusal};
use crate::members::named;

/// What stands in a lent count before a call.
pub const NO_COUNT: u64 = u64::MAX;

/// Bytes behind the lent buffer, which must stay.
const BEHIND: usize = 64;

/// What two calls wrote.
pub struct Written {
    /// What the call here gave.
    pub done: Result<usize, Refusal>,
    /// The buffer that the library wrote, with the bytes behind it.
    pub buffer: Vec<u8>,
    /// The first difference.
    pub found: Difference,
}

/// Writing what this names into a buffer of this length: the call here, the library's, and the name of a byte by its place.
/// Before, each byte of the buffer is above 127, as no byte of a text is, and neighbours differ, so that in a file a byte left as it
/// was and one written in the wrong place show, too.
pub fn written(
    what: &str,
    length: usize,
    here: impl FnOnce(&mut [u8]) -> Result<usize, Refusal>,
    library: impl FnOnce(&mut [u8], &mut u64) -> u8,
    name: impl Fn(usize) -> String,
) -> Written {
    let mut expected = (128..255).collect::<Vec<u8>>().repeat((length + BEHIND).div_ceil(127));
    expected.truncate(length + BEHIND);
    let mut buffer = expected.clone();
    let mut count = NO_COUNT;
    let done = here(&mut expected[..length]);
    let answer = library(&mut buffer[..length], &mut count);
    let found = different(answer, number(&done), || format!("number of the {what}"))
        .or_else(|| different(count, done.unwrap_or(0) as u64, || "count of bytes".into()))
        .or_else(|| if buffer == expected { None } else { named(&buffer, &expected, name) });
    Written { done, buffer, found }
}
