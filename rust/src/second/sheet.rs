//! The drive sheet: who is on each drive now, and who is next.
//!
//! Settled here where the document is silent: of a book that is not sound the
//! sheet is worked out all the same, of the tasks that have a place, a drive
//! showing the first eight of its running holders.

use super::book::{drop_task, report, sound};
use super::values::{
    drive_of, items, refusal, Answer, Book, BookAndSheet, BookResult, OnDrive, Sheet, SheetResult,
    DROPPED, HOLD_PLACES, MOST_DRIVES, MOST_TASKS, RUNNING, WAITING,
};

/// The sheet worked out afresh from the book.
pub fn fresh_sheet(book: &Book) -> Sheet {
    let mut sheet = Sheet::ZERO;
    for drive in 1..=MOST_DRIVES {
        let place = drive as usize - 1;
        let running = running_holders(book, drive);
        for (i, number) in running.into_iter().take(8).enumerate() {
            sheet.running[8 * place + i] = number;
        }
        sheet.next[place] = next_holder(book, drive);
    }
    sheet
}

/// The book's sheet, or refusal 9 and a sheet of zeros.
pub fn make_sheet(book: &Book) -> SheetResult {
    if !sound(book) {
        return SheetResult {
            answer: Answer::UNSOUND,
            sheet: Sheet::ZERO,
        };
    }
    SheetResult {
        answer: Answer::ACCEPTED,
        sheet: fresh_sheet(book),
    }
}

pub fn report_sheet(book: &Book, sheet: &Sheet, task: u32, tick: u32) -> BookAndSheet {
    kept(book, sheet, |book| report(book, task, tick))
}

pub fn drop_sheet(book: &Book, sheet: &Sheet, task: u32) -> BookAndSheet {
    kept(book, sheet, |book| drop_task(book, task))
}

/// The step with its sheet: a sheet that is not its book's gets 9, and so does, by the step itself, a book that is not sound.
fn kept(book: &Book, sheet: &Sheet, step: impl FnOnce(&Book) -> BookResult) -> BookAndSheet {
    if *sheet != fresh_sheet(book) {
        let result = BookResult {
            answer: Answer::UNSOUND,
            book: *book,
        };
        return BookAndSheet {
            result,
            sheet: *sheet,
        };
    }
    let result = step(book);
    let sheet = if result.answer.is_accepted() {
        fresh_sheet(&result.book)
    } else {
        *sheet
    };
    BookAndSheet { result, sheet }
}

pub fn on_drive(book: &Book, sheet: &Sheet, drive: u32) -> OnDrive {
    let refused = |answer| OnDrive {
        answer,
        running: [0; 8],
        next: 0,
    };
    if !sound(book) || *sheet != fresh_sheet(book) {
        return refused(Answer::UNSOUND);
    }
    if !(1..=MOST_DRIVES).contains(&drive) {
        return refused(refusal(21, drive, 0));
    }
    let place = drive as usize - 1;
    OnDrive {
        answer: Answer::ACCEPTED,
        running: sheet.running_on(drive),
        next: sheet.next[place],
    }
}

/// Those that hold the drive, whose start the clock has reached and which have not ended, by number.
fn running_holders(book: &Book, drive: u32) -> Vec<u8> {
    let running = (0..count(book)).filter(|&i| runs(book, i) && holds(book, i, drive));
    running.map(|i| i as u8 + 1).collect()
}

/// The holder still to begin, not dropped, that is planned to start first; 0 for none.
fn next_holder(book: &Book, drive: u32) -> u8 {
    let waiting = (0..count(book)).filter(|&i| waits(book, i) && holds(book, i, drive));
    let first = waiting.min_by_key(|&i| (book.begin[i], i));
    first.map_or(0, |i| i as u8 + 1)
}

fn runs(book: &Book, i: usize) -> bool {
    book.mark[i] == RUNNING && book.start[i] <= book.clock
}

fn waits(book: &Book, i: usize) -> bool {
    let to_begin = match book.mark[i] {
        WAITING => true,
        RUNNING => book.start[i] > book.clock,
        _ => false,
    };
    to_begin && book.dropped[i] != DROPPED
}

fn holds(book: &Book, i: usize, drive: u32) -> bool {
    let places = &book.holds[HOLD_PLACES * i..HOLD_PLACES * (i + 1)];
    items(places).iter().any(|&hold| drive_of(hold) == drive)
}

fn count(book: &Book) -> usize {
    book.tasks.min(MOST_TASKS) as usize
}
