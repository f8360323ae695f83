//! All that can still happen on a book of a small plan.

use super::events::{take, Event};
use super::every_book::{every_book, every_event, morning_of, Morning};
use crate::second::values::{Book, Plan, Rule, WAITING};
use std::collections::HashMap;

/// All books of a plan, and of each what one more accepted report or drop makes of it.
pub struct EveryLater {
    pub books: Vec<Book>,
    next: Vec<Vec<(Event, usize)>>,
}

/// Of each task the latest start that it has.
pub type Latest = [Option<u32>; 64];

impl EveryLater {
    pub fn of(plan: &Plan, rule: Rule) -> EveryLater {
        let books = every_book(plan, rule);
        let places = books.iter().enumerate();
        let place_of: HashMap<Morning, usize> =
            places.map(|(at, book)| (morning_of(book), at)).collect();
        let events = every_event(plan);
        let after = |book: &Book| {
            let taken = events.iter().map(|&event| (event, take(book, event)));
            let accepted = taken.filter(|(_, (answer, _))| answer.is_accepted());
            accepted
                .map(|(event, (_, next))| (event, place_of[&morning_of(&next)]))
                .collect()
        };
        let next = books.iter().map(after).collect();
        EveryLater { books, next }
    }

    /// Of each book the latest starts in it and in every later one, by reports alone or
    /// with further drops among them.
    pub fn latest_starts(&self, with_drops: bool) -> Vec<Latest> {
        let mut known = vec![None; self.books.len()];
        for at in 0..self.books.len() {
            self.look_ahead(at, with_drops, &mut known);
        }
        known.into_iter().flatten().collect()
    }

    fn look_ahead(&self, at: usize, with_drops: bool, known: &mut [Option<Latest>]) {
        if known[at].is_some() {
            return;
        }
        let mut latest = starts_in(&self.books[at]);
        for &(event, next) in &self.next[at] {
            if !with_drops && matches!(event, Event::Drop(_)) {
                continue;
            }
            self.look_ahead(next, with_drops, known);
            let later = known[next].expect("it was just looked at");
            for (mine, theirs) in latest.iter_mut().zip(later) {
                *mine = (*mine).max(theirs);
            }
        }
        known[at] = Some(latest);
    }
}

/// The starts that a book knows.
fn starts_in(book: &Book) -> Latest {
    std::array::from_fn(|i| (book.mark[i] != WAITING).then_some(book.start[i]))
}
