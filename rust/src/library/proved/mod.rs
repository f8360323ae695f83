//! The proved implementation.
//!
//! Each function takes what the second dispatcher's of the same name takes, so
//! that a test calls both alike. The library is compiled for x86-64, where it is
//! linked and called over the C ABI; elsewhere a peer under an emulator calls it.
//! The bindings of both ways are made by the build, from the Rattle source.

use crate::second::values::{Book, BookResult, Lengths, Plan, Rule, Timetable, LONGEST_TEXT};

#[cfg(direct)]
mod direct;
#[cfg(direct)]
use direct as bindings;

pub mod peer;
#[cfg(not(direct))]
use peer as bindings;

pub use bindings::*;
pub use bindings::{convert_text as write_converted, drop as drop_task, run_log as write_log};
pub use peer::{Measured, Measuring};

include!(concat!(env!("OUT_DIR"), "/functions.rs"));

/// Whether the library is called by the peer, under an emulator, where times say nothing.
pub const EMULATED: bool = cfg!(not(direct));

/// No log is longer, and a shorter buffer gets nothing.
pub const LONGEST_LOG: usize = 212_992;

/// So it is with the text of a timetable.
pub const LONGEST_TIMETABLE: usize = 3_328;

/// So it is with what is printed of a judged log.
pub const LONGEST_JUDGED: usize = 1_588;

/// And with a year's report.
pub const LONGEST_REPORT: usize = 1_024;

/// The converter writes nothing into a shorter buffer; no text of a plan is longer.
pub const CONVERTED_ROOM: usize = LONGEST_TEXT;

pub fn accepted(plan: &Plan) -> bool {
    bindings::is_accepted(plan)
}

pub fn sound(book: &Book) -> bool {
    bindings::is_sound(book)
}

pub fn open_book(plan: &Plan, rule: Rule) -> BookResult {
    bindings::open_book(plan, rule == Rule::Clash)
}

pub fn timetable(plan: &Plan, rule: Rule, given: &Lengths) -> Timetable {
    bindings::timetable(plan, rule == Rule::Clash, given)
}
