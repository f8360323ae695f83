//! Plan and book values with some bytes changed.

use super::faults::{late_plan, sharing_plan};
use super::waiting::{awaited, rule_of};
use super::Rng;
use crate::second::values::{Book, Plan, Rule, DROPPED, ENDED, RUNNING, WAITING};

const LIKELY_BYTES: [u8; 12] = [0, 1, 2, 3, 8, 9, 32, 64, 65, 66, 67, 255];
const LIKELY_TICKS: [u32; 8] = [0, 1, 2, 3, 999_999, 1_000_000, 1_000_001, u32::MAX];

/// The plan with one to three places changed; it may still be accepted.
pub fn mutated_plan(rng: &mut Rng, plan: &Plan) -> Plan {
    let mut changed = *plan;
    for _ in 0..rng.within(1, 3) {
        mutate_plan_once(rng, &mut changed);
    }
    changed
}

/// The book with one to three places changed; it may still be sound.
pub fn mutated_book(rng: &mut Rng, book: &Book) -> Book {
    let mut changed = *book;
    for _ in 0..rng.within(1, 3) {
        mutate_book_once(rng, &mut changed);
    }
    changed
}

/// The same morning by the other rule, by which some other start may be due.
pub fn by_the_other_rule(book: &Book) -> Book {
    let other = match rule_of(book) {
        Rule::EarlyStart => Rule::Clash,
        Rule::Clash => Rule::EarlyStart,
    };
    Book {
        rule: other as u8,
        ..*book
    }
}

/// The book with a rule that there is not; never sound.
pub fn ruleless_book(rng: &mut Rng, book: &Book) -> Book {
    Book {
        rule: rng.within(2, 255) as u8,
        ..*book
    }
}

/// The book with one drop that no run gives; never sound.
pub fn wrongly_dropped_book(rng: &mut Rng, book: &Book) -> Book {
    let mut wrong = *book;
    let count = usize::from(book.tasks);
    let i = rng.index(count);
    let waits = !awaited(&book.plan(), rule_of(book), i).is_empty();
    match (book.mark[i], book.dropped[i], waits) {
        _ if count < 64 && rng.chance(10) => wrong.dropped[count + rng.index(64 - count)] = 1,
        _ if rng.chance(10) => wrong.dropped[i] = rng.pick(&[2, 3, 255]),
        (RUNNING, _, _) if waits || rng.chance(50) => wrong.dropped[i] = DROPPED,
        (ENDED, DROPPED, _) => wrong_a_passed_task(rng, &mut wrong, i),
        (ENDED, _, true) if rng.chance(50) => wrong.dropped[i] = DROPPED,
        (ENDED, _, true) => wrong.end[i] = wrong.start[i],
        (WAITING, _, _) => pass_task(&mut wrong, i, book.clock),
        // One that waits for nobody is never dropped, though it takes no time here.
        _ => pass_task(&mut wrong, i, 0),
    }
    wrong
}

/// Takes the drop or the passing back, or lets the end come later.
fn wrong_a_passed_task(rng: &mut Rng, book: &mut Book, i: usize) {
    match rng.within(1, 4) {
        1 => book.dropped[i] = 0,
        2 => book.end[i] += 1,
        3 => make_waiting(book, i),
        _ => {
            book.mark[i] = RUNNING;
            book.end[i] = 0;
        }
    }
}

/// Writes in that the task was dropped and passed on that tick.
fn pass_task(book: &mut Book, i: usize, tick: u32) {
    book.dropped[i] = DROPPED;
    book.mark[i] = ENDED;
    book.start[i] = tick;
    book.end[i] = tick;
}

fn mutate_plan_once(rng: &mut Rng, plan: &mut Plan) {
    let i = likely_index(rng, plan.task_count());
    match rng.within(1, 14) {
        1 => plan.boards = rng.pick(&LIKELY_BYTES),
        2 => plan.tasks = rng.pick(&LIKELY_BYTES),
        3 => plan.board[i] = rng.pick(&LIKELY_BYTES),
        4 => plan.begin[i] = nearby_tick(rng, plan.begin[i]),
        5 => plan.finish[i] = nearby_tick(rng, plan.finish[i]),
        6 => plan.holds[32 * i + rng.index(4)] = rng.pick(&LIKELY_BYTES),
        7 => plan.holds[32 * i + rng.index(32)] = rng.byte(),
        8 => plan.after[64 * i + rng.index(4)] = rng.pick(&LIKELY_BYTES),
        9 => *plan = late_plan(rng, plan),
        10 => plan.edition = rng.pick(&[0, 1, 2, 2, 3, 255]),
        11 => plan.ready[i] = nearby_tick(rng, plan.ready[i]),
        12 => plan.ready[i] = nearby_tick(rng, plan.begin[i]),
        13 if plan.task_count() > 0 => *plan = sharing_plan(rng, plan),
        _ => plan.after[64 * i + rng.index(64)] = rng.byte(),
    }
}

fn mutate_book_once(rng: &mut Rng, book: &mut Book) {
    let i = likely_index(rng, book.tasks.min(64).into());
    match rng.within(1, 15) {
        1 => book.clock = nearby_tick(rng, book.clock),
        2 => book.start[i] = nearby_tick(rng, book.start[i]),
        3 => book.end[i] = nearby_tick(rng, book.end[i]),
        4 => book.mark[i] = rng.pick(&[0, 1, 2, 3, 255]),
        5 => {
            // Moves the clock along with an end, which may leave the book sound.
            book.end[i] = nearby_tick(rng, book.end[i]);
            book.clock = book.end.iter().max().copied().unwrap_or(0);
        }
        6 => reopen_task(book, i),
        7 => close_task(rng, book, i),
        8 => book.dropped[i] = rng.pick(&[0, 1, 1, 2, 255]),
        9 => pass_task(book, i, book.clock),
        10 => make_waiting(book, i),
        11 => *book = late_book(rng, book),
        // As if it were ready, or as if nobody had to be waited for.
        12 => book.start[i] = rng.pick(&[book.clock, book.ready[i]]),
        13 if (1..=64).contains(&book.tasks) => *book = sharing_book(rng, book),
        14 => book.rule = rng.pick(&[0, 0, 1, 1, 2, 255]),
        _ => mutate_plan_of(rng, book),
    }
}

/// Takes an end back as if the task had not been reported.
fn reopen_task(book: &mut Book, i: usize) {
    book.mark[i] = 1;
    book.end[i] = 0;
    book.clock = book.end.iter().max().copied().unwrap_or(0);
}

/// Writes an end in as if the task had been reported.
fn close_task(rng: &mut Rng, book: &mut Book, i: usize) {
    book.mark[i] = 2;
    book.end[i] = book.start[i].saturating_add(rng.within(0, 5));
    book.clock = book.clock.max(book.end[i]);
}

/// Takes all back that is known of the task but a drop.
fn make_waiting(book: &mut Book, i: usize) {
    book.mark[i] = WAITING;
    book.start[i] = 0;
    book.end[i] = 0;
}

fn mutate_plan_of(rng: &mut Rng, book: &mut Book) {
    let mut plan = book.plan();
    mutate_plan_once(rng, &mut plan);
    *book = on_other_plan(book, &plan);
}

/// The same morning on a plan with no task at tick 0. Mostly all times are moved
/// alike, so that nothing else is wrong with it; never sound.
pub fn late_book(rng: &mut Rng, book: &Book) -> Book {
    on_other_plan(book, &late_plan(rng, &book.plan()))
}

/// The same morning on its plan in edition 2 with a hold shared; never sound.
pub fn sharing_book(rng: &mut Rng, book: &Book) -> Book {
    on_other_plan(book, &sharing_plan(rng, &book.plan()))
}

/// The same morning on another plan, by the same rule.
pub fn on_other_plan(book: &Book, plan: &Plan) -> Book {
    Book {
        rule: book.rule,
        clock: book.clock,
        start: book.start,
        end: book.end,
        mark: book.mark,
        dropped: book.dropped,
        ..Book::on(plan, Rule::EarlyStart)
    }
}

/// Mostly a task's index, sometimes one past the last task.
fn likely_index(rng: &mut Rng, count: usize) -> usize {
    if count == 0 || rng.chance(20) {
        return rng.index(64);
    }
    rng.index(count)
}

fn nearby_tick(rng: &mut Rng, tick: u32) -> u32 {
    match rng.within(1, 3) {
        1 => tick.saturating_add(rng.within(1, 2)),
        2 => tick.saturating_sub(rng.within(1, 2)),
        _ => rng.pick(&LIKELY_TICKS),
    }
}
