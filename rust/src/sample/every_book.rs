//! Plans so small that all their books can be listed.

use super::events::{take, Event};
use crate::second::book::open_book;
use crate::second::values::{Book, Plan, Rule};
use std::collections::HashSet;

/// Tasks 3, 4, 5 and 1 follow each other over three boards; 4, 5 and 1 can be dropped.
pub const CHAIN: &[u8] = b"plan\t1\t3\t5
task\t1\t3\t4\t6\te1\t5
task\t2\t1\t0\t2\te1\t-
task\t3\t2\t0\t1\ts2\t-
task\t4\t2\t1\t3\ts2\t-
task\t5\t1\t3\t4\te2\t-
";

/// Edition 2. Task 1 waits for nobody and is ready at 1; 3 may have to wait until it
/// is ready or for 2; 4 passes before it is ready if it is dropped.
pub const AWAITED: &[u8] = b"plan\t2\t3\t5
task\t1\t3\t1\t1\t3\t-\t-
task\t2\t1\t0\t0\t2\te1\t-
task\t3\t2\t1\t2\t4\te2\t-
task\t4\t1\t3\t3\t4\te1\t-
task\t5\t3\t2\t4\t6\t-\t4
";

/// What a book holds beside its plan, rule and clock.
pub type Morning = ([u32; 64], [u32; 64], [u8; 64], [u8; 64]);

pub fn morning_of(book: &Book) -> Morning {
    (book.start, book.end, book.mark, book.dropped)
}

/// All books that accepted reports and drops give on a plan, the fresh one first.
pub fn every_book(plan: &Plan, rule: Rule) -> Vec<Book> {
    let mut books = vec![open_book(plan, rule).book];
    let mut known: HashSet<Morning> = books.iter().map(morning_of).collect();
    let mut looked_at = 0;
    while looked_at < books.len() {
        for event in every_event(plan) {
            let (answer, next) = take(&books[looked_at], event);
            if answer.is_accepted() && known.insert(morning_of(&next)) {
                books.push(next);
            }
        }
        looked_at += 1;
    }
    books
}

/// Every drop and every report up to a tick after the last planned finish, of
/// every task from 0 to one past the last.
pub fn every_event(plan: &Plan) -> Vec<Event> {
    let last_tick = plan.finish.iter().max().map_or(0, |latest| latest + 1);
    let mut events = Vec::new();
    for task in 0..=u32::from(plan.tasks) + 1 {
        events.push(Event::Drop(task));
        events.extend((0..=last_tick).map(|tick| Event::End(task, tick)));
    }
    events
}
