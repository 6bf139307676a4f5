//! A second implementation of the mat link, written from the papers (documents 01 and 02) alone.
//!
//! It is there to be compared: with the unbounded ends here, and with the proved implementation on the same input. The protocol
//! is the block acknowledgment protocol of source document 001, section 4.2, in whole ticks. "Question n" is the papers'
//! question with the number n; "row" and "reply" are their words for the data message's content and the acknowledgment.

#![warn(missing_docs)]

pub mod air;
pub mod answers;
pub mod audit;
pub mod built;
pub mod cell_bytes;
pub mod checks;
pub mod compare;
pub mod device_bytes;
pub mod device_calls;
pub mod device_checks;
pub mod device_draw;
pub mod device_library;
pub mod device_lists;
pub mod device_met;
pub mod device_noise;
pub mod device_openings;
pub mod device_rides;
pub mod devices;
pub mod differ;
pub mod draw;
pub mod draw_cells;
pub mod draw_file;
pub mod draw_link;
pub mod file;
pub mod file_checks;
pub mod file_lists;
pub mod file_met;
pub mod frame_checks;
pub mod frame_lists;
pub mod frames;
pub mod kept_devices;
pub mod library;
pub mod limits;
pub mod links;
pub mod mat;
pub mod matlink;
pub mod members;
pub mod met;
pub mod pad;
pub mod page;
pub mod page_checks;
pub mod page_lists;
#[cfg(feature = "proved")]
pub mod proved;
#[cfg(feature = "proved")]
pub mod proved_devices;
pub mod random;
pub mod recount;
pub mod report;
pub mod ride_text;
pub mod rides;
mod ring;
pub mod short;
pub mod short_wait;
pub mod short_wait_ride;
pub mod shrink;
pub mod threads;
pub mod trial;
pub mod trials;
pub mod unbounded;
pub mod wait_checks;
pub mod written;
