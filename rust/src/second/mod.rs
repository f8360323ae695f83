//! The second dispatcher, written from the rules alone: it reads, judges and writes plans,
//! keeps a book of the morning, and says how early everything left will be.

pub mod book;
pub mod convert;
pub mod desk;
pub mod exact;
pub mod fields;
pub mod judge;
pub mod lengths;
pub mod lines;
pub mod log_judge;
pub mod runlog;
pub mod sheet;
pub mod task_line;
pub mod text;
pub mod timetable;
pub mod values;
pub mod waits;
pub mod why;
pub mod year;
