//! The output of the program `runlog`, from the contents of its two files.
//!
//! Settled here where the document is silent: a task number over 1,000,000 is
//! 4 as a tick over it is, in a `drop` line too; after a 3 or 4 nothing more is
//! printed; with a refused plan `ends.txt` is not looked at, however long; the
//! `run` line has its 1 or 2 by the rule, for plans of both editions; before a
//! refused line 1 the book is opened, and its opening printed.

use super::book::{drop_task, minimum_early, open_book, report};
use super::fields::{is_number, line_of, Spelling};
use super::lines::{chosen_rule, take_lines, Line, NUMBER_FIELD, TASK_FIELD};
use super::text::read_plan;
use super::values::{refusal, Answer, Book, Plan, Rule, DROPPED, LAST_TICK, LONGEST_TEXT, WAITING};

/// How each field of an `end` line is spelt.
pub const END_LINE: [Spelling; 3] = [|word| word == b"end", is_number, is_number];

/// All that `runlog` prints. A missing file counts as empty.
pub fn run_log(plan_text: &[u8], ends_text: &[u8]) -> Vec<u8> {
    go_through(plan_text, ends_text).0
}

/// The log, and the book that it comes to, where nothing stops it.
pub fn go_through(plan_text: &[u8], ends_text: &[u8]) -> (Vec<u8>, Option<Book>) {
    let reading = read_plan(plan_text);
    if !reading.answer.is_accepted() {
        return (refused_line(reading.answer), None);
    }
    if ends_text.len() > LONGEST_TEXT {
        return (refused_line(refusal(1, 0, 0)), None);
    }
    let (mut log, mut book) = log_opening(&reading.plan, chosen_rule(ends_text));
    let taken = take_lines(ends_text, &END_LINE, |line| {
        hold_to_range(&line)?;
        book = match line {
            Line::Told { task, number: tick } => log_report(&mut log, &book, task, tick),
            Line::Drop { task } => log_drop(&mut log, &book, task),
        };
        Ok(())
    });
    match taken {
        Ok(()) => (log, Some(book)),
        Err(answer) => {
            log.extend(refused_line(answer));
            (log, None)
        }
    }
}

/// The error is the leftmost field with a number over the last tick.
fn hold_to_range(line: &Line) -> Result<(), usize> {
    match *line {
        Line::Told { task, .. } | Line::Drop { task } if task > LAST_TICK => Err(TASK_FIELD),
        Line::Told { number, .. } if number > LAST_TICK => Err(NUMBER_FIELD),
        _ => Ok(()),
    }
}

/// The book of an accepted plan as it is opened, and what is printed then.
pub fn log_opening(plan: &Plan, rule: Rule) -> (Vec<u8>, Book) {
    let book = open_book(plan, rule).book;
    let mut log = run_line(&book, rule);
    let nobody_yet = Book {
        mark: [WAITING; 64],
        ..book
    };
    log_starts(&mut log, &nobody_yet, &book);
    log_early(&mut log, &book);
    (log, book)
}

fn run_line(book: &Book, rule: Rule) -> Vec<u8> {
    let (boards, tasks) = (book.boards, book.tasks);
    let line = match rule {
        Rule::EarlyStart => format!("run\t1\t{boards}\t{tasks}\n"),
        Rule::Clash => format!("run\t2\t{boards}\t{tasks}\tclash\n"),
    };
    line.into_bytes()
}

pub fn log_report(log: &mut Vec<u8>, book: &Book, task: u32, tick: u32) -> Book {
    let reported = report(book, task, tick);
    if !reported.answer.is_accepted() {
        log.extend(refused_line(reported.answer));
        return reported.book;
    }
    let i = task as usize - 1;
    let early = book.finish[i] - tick;
    log.extend(line_of("end", &[task, book.board[i].into(), tick, early]));
    log_starts(log, book, &reported.book);
    log_early(log, &reported.book);
    reported.book
}

pub fn log_drop(log: &mut Vec<u8>, book: &Book, task: u32) -> Book {
    let dropped = drop_task(book, task);
    if !dropped.answer.is_accepted() {
        log.extend(refused_line(dropped.answer));
        return dropped.book;
    }
    let board = book.board[task as usize - 1];
    log.extend(line_of("drop", &[task, board.into()]));
    log_early(log, &dropped.book);
    dropped.book
}

/// A start line, or a skip line of a dropped task, for each task that waits in
/// `before` and no longer does so in `now`.
fn log_starts(log: &mut Vec<u8>, before: &Book, now: &Book) {
    for i in 0..usize::from(now.tasks) {
        if before.mark[i] != WAITING || now.mark[i] == WAITING {
            continue;
        }
        let word = if now.dropped[i] == DROPPED {
            "skip"
        } else {
            "start"
        };
        let tick = now.start[i];
        let early = now.begin[i] - tick;
        let numbers = [i as u32 + 1, now.board[i].into(), tick, early];
        log.extend(line_of(word, &numbers));
    }
}

pub fn log_early(log: &mut Vec<u8>, book: &Book) {
    log.extend(line_of("early", &[book.clock, minimum_early(book).early]));
}

/// A refusal as the log and the converter say it.
pub fn refused_line(answer: Answer) -> Vec<u8> {
    line_of("refused", &[answer.code, answer.first, answer.second])
}
