//! Drops, and mornings of reports and drops together.

use super::plans::{accepted_plan, random_plan};
use super::reports::{accepted_report, any_report, running_tasks};
use super::waiting::{either_rule, rule_of, waits_for};
use super::Rng;
use crate::second::book::{drop_task, open_book, report, sound};
use crate::second::fields::line_of;
use crate::second::values::{refusal, Answer, Book, Rule, DROPPED, ENDED, WAITING};

/// What a line of `ends.txt` says.
#[derive(Clone, Copy, PartialEq, Eq, Debug)]
pub enum Event {
    End(u32, u32),
    Drop(u32),
}

/// The answer to an event, and the book after it.
pub fn take(book: &Book, event: Event) -> (Answer, Book) {
    match event {
        Event::End(task, tick) => {
            let reported = report(book, task, tick);
            (reported.answer, reported.book)
        }
        Event::Drop(task) => {
            let dropped = drop_task(book, task);
            (dropped.answer, dropped.book)
        }
    }
}

/// The book after an event that must be accepted.
pub fn must_take(book: &Book, event: Event) -> Book {
    let (answer, next) = take(book, event);
    assert_eq!(answer, Answer::ACCEPTED, "{event:?}");
    next
}

/// The book of a plan's text after these events; all of them must be accepted.
pub fn book_after(text: &[u8], rule: Rule, events: &[Event]) -> Book {
    let fresh = open_book(&accepted_plan(text), rule).book;
    let book = events
        .iter()
        .fold(fresh, |book, &event| must_take(&book, event));
    assert!(sound(&book));
    book
}

/// These reports, each a task and a tick, as events.
pub fn ends(reports: &[(u32, u32)]) -> Vec<Event> {
    let end = |&(task, tick): &(u32, u32)| Event::End(task, tick);
    reports.iter().map(end).collect()
}

/// The event is refused by that code with what it says, and leaves the book.
pub fn check_refused(book: &Book, event: Event, code: u32) {
    let said = match event {
        Event::End(task, tick) => (task, tick),
        Event::Drop(task) => (task, 0),
    };
    let (answer, after) = take(book, event);
    assert_eq!(answer, refusal(code, said.0, said.1), "{event:?}");
    assert_eq!(after, *book, "{event:?}");
}

/// The event as a line of `ends.txt`.
pub fn event_line(event: Event) -> Vec<u8> {
    match event {
        Event::End(task, tick) => line_of("end", &[task, tick]),
        Event::Drop(task) => line_of("drop", &[task]),
    }
}

/// The text of `ends.txt` that chooses the rule and says these events.
pub fn ends_text(rule: Rule, events: &[Event]) -> Vec<u8> {
    let mut text = rule_line(rule).to_vec();
    text.extend(events.iter().copied().flat_map(event_line));
    text
}

/// The first line of `ends.txt` that chooses the rule; none chooses Early Start.
pub fn rule_line(rule: Rule) -> &'static [u8] {
    match rule {
        Rule::EarlyStart => b"",
        Rule::Clash => b"rule\tclash\n",
    }
}

/// A random book by either rule, some accepted reports and drops into its morning.
pub fn random_book(rng: &mut Rng) -> Book {
    let (plan, rule) = (random_plan(rng), either_rule(rng));
    let mut book = open_book(&plan, rule).book;
    for task in first_drops(rng, &book) {
        book = must_take(&book, Event::Drop(task));
    }
    let drop_percent = rng.pick(&[0, 0, 15, 50]);
    for _ in 0..rng.within(0, u32::from(book.tasks)) {
        if let Some(event) = accepted_event(rng, &book, drop_percent) {
            book = must_take(&book, event);
        }
    }
    book
}

/// Whether task index i has started: its start is known and the clock has reached it.
pub fn is_started(book: &Book, i: usize) -> bool {
    book.mark[i] != WAITING && book.start[i] <= book.clock
}

/// The tasks whose start is known and lies past the clock, as indices.
pub fn starts_past_the_clock(book: &Book) -> Vec<usize> {
    let running = running_tasks(book).into_iter();
    running.filter(|&i| !is_started(book, i)).collect()
}

/// The tasks that may be dropped, as numbers.
pub fn droppable_tasks(book: &Book) -> Vec<u32> {
    (1..=u32::from(book.tasks))
        .filter(|&task| book.mark[task as usize - 1] == WAITING)
        .filter(|&task| book.dropped[task as usize - 1] != DROPPED)
        .collect()
}

/// Drops that a fresh book takes one after the other: none, all, those of one
/// board, some that follow each other by the plan on any boards, or any.
pub fn first_drops(rng: &mut Rng, book: &Book) -> Vec<u32> {
    let mut drops = droppable_tasks(book);
    rng.shuffle(&mut drops);
    match rng.within(1, 8) {
        1 | 2 => drops.clear(),
        3 => {}
        4 => {
            let board = rng.within(1, book.boards.into()) as u8;
            drops.retain(|&task| book.board[task as usize - 1] == board);
        }
        5 | 6 => {
            drops.sort_by_key(|&task| book.begin[task as usize - 1]);
            let left_out = rng.index(drops.len() + 1);
            drops.drain(..left_out);
            drops.truncate(rng.within(2, 12) as usize);
        }
        _ => {
            let percent = rng.pick(&[10, 25, 60]);
            drops.retain(|_| rng.chance(percent));
        }
    }
    drops
}

/// A report or, so often, a drop that the document accepts; None once every
/// task has ended.
pub fn accepted_event(rng: &mut Rng, book: &Book, drop_percent: u32) -> Option<Event> {
    let (task, tick) = accepted_report(rng, book)?;
    let droppable = droppable_tasks(book);
    if !droppable.is_empty() && rng.chance(drop_percent) {
        return Some(Event::Drop(rng.pick(&droppable)));
    }
    Some(Event::End(task, tick))
}

/// Any task to drop: waiting, dropped, running, ended or none at all.
pub fn any_drop(rng: &mut Rng, book: &Book) -> u32 {
    let last = u32::from(book.tasks);
    let is_dropped = |task: &u32| book.dropped[*task as usize - 1] == DROPPED;
    let dropped: Vec<u32> = (1..=last).filter(is_dropped).collect();
    match rng.within(1, 8) {
        1 => rng.pick(&[0, last + 1, 65, 256 + last, u32::MAX]),
        2 | 3 if !dropped.is_empty() => rng.pick(&dropped),
        _ => rng.within(1, last),
    }
}

/// Any report or drop, mostly near the ones that are accepted.
pub fn any_event(rng: &mut Rng, book: &Book) -> Event {
    if rng.chance(50) {
        return Event::Drop(any_drop(rng, book));
    }
    let (task, tick) = any_report(rng, book);
    Event::End(task, tick)
}

/// The dropped tasks that passed between two books, as indices.
pub fn passed_tasks(before: &Book, now: &Book) -> Vec<usize> {
    (0..64)
        .filter(|&i| now.dropped[i] == DROPPED)
        .filter(|&i| before.mark[i] == WAITING && now.mark[i] == ENDED)
        .collect()
}

/// Whether one of these tasks waits for another one on another board.
pub fn is_chain_over_boards(book: &Book, tasks: &[usize]) -> bool {
    if tasks.len() < 2 {
        return false;
    }
    let (plan, rule) = (book.plan(), rule_of(book));
    let follows =
        |a: usize, b: usize| plan.board[a] != plan.board[b] && waits_for(&plan, rule, b, a);
    tasks.iter().any(|&a| tasks.iter().any(|&b| follows(a, b)))
}
