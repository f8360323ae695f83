//! Two dispatchers for planned tasks on boards, and inputs to try both.
//!
//! A function named here is the second dispatcher's; the proved one of the same name is in `proved`.

pub mod library;
pub mod sample;
pub mod second;

pub use library::proved;
pub use second::book::{drop_task, minimum_early, open_book, report, sound};
pub use second::convert::{convert, convert_text, read_exclusive};
pub use second::desk::Desk;
pub use second::exact::exact_early;
pub use second::judge::{accepted, first_faulty_pair, judge_plan};
pub use second::lengths::timetable_text;
pub use second::log_judge::{judge_log, judged_text};
pub use second::runlog::run_log;
pub use second::sheet::{drop_sheet, fresh_sheet, make_sheet, on_drive, report_sheet};
pub use second::text::{read_plan, write_plan};
pub use second::timetable::timetable;
pub use second::values::{AddResult, Totals};
pub use second::values::{
    Answer, Book, BookResult, Chain, Exact, Figure, Plan, Reading, Rule, WriteResult,
};
pub use second::values::{BookAndSheet, OnDrive, Sheet, SheetResult};
pub use second::values::{JudgedLog, Lengths, LengthsResult, Timetable};
pub use second::why::why;
pub use second::year::{add_log, report_text, year_text};
