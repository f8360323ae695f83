//! The book of a morning: opening it, taking reports and drops, the
//! minimum-early figure.
//!
//! A task whose start is known is marked as running also while that start lies
//! past the clock.
//!
//! Settled here where the document is silent: a mark other than waiting,
//! running and ended makes a book unsound, and so does a `dropped` or a `rule`
//! other than 0 and 1; a report's tick above 1,000,000 is no fault of its own
//! and meets codes 11 to 14 like any other tick.

use super::judge::clashes_if_accepted;
use super::values::{
    refusal, Answer, Book, BookResult, Figure, Plan, Rule, DROPPED, ENDED, RUNNING, WAITING,
};
use super::waits::Waits;

/// A fresh book on the plan by that rule, or refusal 9 and a book of zeros.
pub fn open_book(plan: &Plan, rule: Rule) -> BookResult {
    let Some(clashes) = clashes_if_accepted(plan) else {
        return BookResult {
            answer: Answer::UNSOUND,
            book: Book::ZERO,
        };
    };
    let mut book = Book::on(plan, rule);
    let_go_all_that_can(&mut book, &Waits::by(rule, plan, &clashes));
    BookResult {
        answer: Answer::ACCEPTED,
        book,
    }
}

/// Whether an accepted plan, a rule and accepted reports and drops give this book.
pub fn sound(book: &Book) -> bool {
    waits_if_sound(book).is_some()
}

/// Whom each task waits for by the book's rule, where the book is sound.
pub(crate) fn waits_if_sound(book: &Book) -> Option<Waits> {
    let plan = book.plan();
    let rule = Rule::of_byte(book.rule)?;
    let waits = Waits::by(rule, &plan, &clashes_if_accepted(&plan)?);
    let ended = ended_tasks(book);
    let count = usize::from(book.tasks);
    let sound = (count..64).all(|i| place_is_empty(book, i))
        && (0..count).all(|i| task_is_sound(book, &waits, ended, i))
        && book.clock == greatest_end(book);
    sound.then_some(waits)
}

/// The book after the report, or the very book given and why it was refused.
pub fn report(book: &Book, task: u32, tick: u32) -> BookResult {
    let refused = |answer| BookResult {
        answer,
        book: *book,
    };
    let Some(waits) = waits_if_sound(book) else {
        return refused(Answer::UNSOUND);
    };
    let answer = report_answer(book, task, tick);
    if !answer.is_accepted() {
        return refused(answer);
    }
    let mut next = *book;
    let i = task as usize - 1;
    next.mark[i] = ENDED;
    next.end[i] = tick;
    next.clock = tick;
    let_go_all_that_can(&mut next, &waits);
    BookResult { answer, book: next }
}

/// The book with that task dropped, or the very book given and why it was
/// refused. The task goes at a later report: now somebody it waits for is left.
pub fn drop_task(book: &Book, task: u32) -> BookResult {
    let answer = drop_answer(book, task);
    if !answer.is_accepted() {
        return BookResult {
            answer,
            book: *book,
        };
    }
    let mut next = *book;
    next.dropped[task as usize - 1] = DROPPED;
    BookResult { answer, book: next }
}

/// M, the least of the tasks' terms, 0 if there is none; or refusal 9 and 0.
pub fn minimum_early(book: &Book) -> Figure {
    if !sound(book) {
        return Figure {
            answer: Answer::UNSOUND,
            early: 0,
        };
    }
    let terms = (0..usize::from(book.tasks)).filter_map(|i| early_term(book, i));
    Figure {
        answer: Answer::ACCEPTED,
        early: terms.min().unwrap_or(0),
    }
}

/// How early task index i is, if it is at work; how early it can be at most, if
/// it is still to come and not dropped.
fn early_term(book: &Book, i: usize) -> Option<u32> {
    match (book.mark[i], book.dropped[i]) {
        (RUNNING, _) if book.start[i] <= book.clock => Some(book.begin[i] - book.start[i]),
        (ENDED, _) | (_, DROPPED) => None,
        _ => Some(book.begin[i] - book.ready[i]),
    }
}

/// What a report on a sound book meets.
fn report_answer(book: &Book, task: u32, tick: u32) -> Answer {
    if task == 0 || task > u32::from(book.tasks) {
        return refusal(10, task, tick);
    }
    let i = task as usize - 1;
    if book.mark[i] != RUNNING {
        return refusal(11, task, tick);
    }
    if tick < book.clock {
        return refusal(12, task, tick);
    }
    if tick <= book.start[i] {
        return refusal(13, task, tick);
    }
    if u64::from(tick) > limit(book, i) {
        return refusal(14, task, tick);
    }
    if other_limit_passed(book, i, tick) {
        return refusal(15, task, tick);
    }
    Answer::ACCEPTED
}

fn drop_answer(book: &Book, task: u32) -> Answer {
    if !sound(book) {
        return Answer::UNSOUND;
    }
    if task == 0 || task > u32::from(book.tasks) {
        return refusal(10, task, 0);
    }
    let i = task as usize - 1;
    if book.mark[i] != WAITING || book.dropped[i] == DROPPED {
        return refusal(19, task, 0);
    }
    Answer::ACCEPTED
}

fn other_limit_passed(book: &Book, i: usize, tick: u32) -> bool {
    (0..usize::from(book.tasks))
        .any(|j| j != i && book.mark[j] == RUNNING && limit(book, j) < u64::from(tick))
}

/// Gives a start to every waiting task whose awaited tasks have all ended, the
/// last of them at the clock: there or, if that is later, at its ready tick. A
/// dropped one starts and ends at the clock, and those it held back may follow.
fn let_go_all_that_can(book: &mut Book, waits: &Waits) {
    let mut ended = ended_tasks(book);
    for i in waiting_by_planned_start(book) {
        if !waits.are_all_in(i, ended) {
            continue;
        }
        if book.dropped[i] == DROPPED {
            ended |= 1 << i;
            book.mark[i] = ENDED;
            book.start[i] = book.clock;
            book.end[i] = book.clock;
        } else {
            book.mark[i] = RUNNING;
            book.start[i] = book.clock.max(book.ready[i]);
        }
    }
}

/// In this order each comes after all it waits for, so one pass lets all go.
fn waiting_by_planned_start(book: &Book) -> Vec<usize> {
    let every = 0..usize::from(book.tasks);
    let mut waiting: Vec<usize> = every.filter(|&i| book.mark[i] == WAITING).collect();
    waiting.sort_unstable_by_key(|&i| book.begin[i]);
    waiting
}

/// The task indices that have ended, as a set.
fn ended_tasks(book: &Book) -> u64 {
    let ended = (0..usize::from(book.tasks)).filter(|&i| book.mark[i] == ENDED);
    ended.fold(0, |set, i| set | 1 << i)
}

/// Start plus length, of a task that is not dropped; wide enough for any start
/// a book can hold.
fn limit(book: &Book, i: usize) -> u64 {
    u64::from(book.start[i]) + u64::from(book.finish[i] - book.begin[i])
}

fn greatest_end(book: &Book) -> u32 {
    (0..usize::from(book.tasks))
        .filter(|&i| book.mark[i] == ENDED)
        .map(|i| book.end[i])
        .max()
        .unwrap_or(0)
}

fn nothing_known(book: &Book, i: usize) -> bool {
    book.start[i] == 0 && book.end[i] == 0
}

fn place_is_empty(book: &Book, i: usize) -> bool {
    nothing_known(book, i) && book.mark[i] == 0 && book.dropped[i] == 0
}

fn task_is_sound(book: &Book, waits: &Waits, ended: u64, i: usize) -> bool {
    let all_ended = waits.are_all_in(i, ended);
    match (book.mark[i], book.dropped[i]) {
        (WAITING, 0 | DROPPED) => nothing_known(book, i) && !all_ended,
        (RUNNING, 0) => {
            all_ended
                && started_by_the_rule(book, waits, i)
                && book.end[i] == 0
                && limit(book, i) >= u64::from(book.clock)
        }
        (ENDED, 0) => {
            all_ended
                && started_by_the_rule(book, waits, i)
                && book.start[i] < book.end[i]
                && u64::from(book.end[i]) <= limit(book, i)
                && book.end[i] <= book.clock
        }
        (ENDED, DROPPED) => {
            waits.of(i).next().is_some()
                && all_ended
                && started_by_the_rule(book, waits, i)
                && book.end[i] == book.start[i]
                && book.end[i] <= book.clock
        }
        _ => false,
    }
}

/// The start is the later of the ready tick, which counts for nothing in a
/// dropped task, and the latest awaited end, if any is awaited; all have ended.
fn started_by_the_rule(book: &Book, waits: &Waits, i: usize) -> bool {
    let is_dropped = book.dropped[i] == DROPPED;
    let mut start = if is_dropped { 0 } else { book.ready[i] };
    for j in waits.of(i) {
        start = start.max(book.end[j]);
    }
    book.start[i] == start
}
