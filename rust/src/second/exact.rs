//! The exact figure: the morning is run ahead from the book, every running and
//! waiting task taking its full length and dropped ones none.
//!
//! Settled here where the document is silent: a dropped task that still waits
//! has not started, and counts.

use super::book::waits_if_sound;
use super::values::{Answer, Book, Exact, DROPPED, ENDED, RUNNING, WAITING};
use super::waits::Waits;

/// The least planned start less start over the tasks not started at the clock;
/// "none" where there is none such, and with refusal 9.
pub fn exact_early(book: &Book) -> Exact {
    let Some(waits) = waits_if_sound(book) else {
        return shown(Answer::UNSOUND, None);
    };
    let starts = starts_at_full_length(book, &waits);
    let left = (0..usize::from(book.tasks)).filter(|&i| !has_started(book, i));
    let early = left.map(|i| book.begin[i] - starts[i]).min();
    shown(Answer::ACCEPTED, early)
}

fn shown(answer: Answer, early: Option<u32>) -> Exact {
    Exact {
        answer,
        known: early.is_some(),
        early: early.unwrap_or(0),
    }
}

/// Whether the clock has reached the task's start.
fn has_started(book: &Book, i: usize) -> bool {
    book.mark[i] != WAITING && book.start[i] <= book.clock
}

/// When each task starts if no running or waiting task ends before its limit.
fn starts_at_full_length(book: &Book, waits: &Waits) -> [u32; 64] {
    let (mut starts, mut ends) = (book.start, book.end);
    for i in by_planned_start(book) {
        let length = book.finish[i] - book.begin[i];
        match (book.mark[i], book.dropped[i]) {
            (ENDED, _) => {}
            (RUNNING, _) => ends[i] = starts[i] + length,
            (_, DROPPED) => {
                starts[i] = latest(waits, i, &ends);
                ends[i] = starts[i];
            }
            _ => {
                starts[i] = latest(waits, i, &ends).max(book.ready[i]);
                ends[i] = starts[i] + length;
            }
        }
    }
    starts
}

/// The latest end of those that task index i waits for.
fn latest(waits: &Waits, i: usize, ends: &[u32; 64]) -> u32 {
    waits.of(i).map(|j| ends[j]).max().unwrap_or(0)
}

/// In this order each comes after all it waits for.
fn by_planned_start(book: &Book) -> Vec<usize> {
    let mut tasks: Vec<usize> = (0..usize::from(book.tasks)).collect();
    tasks.sort_unstable_by_key(|&i| book.begin[i]);
    tasks
}
