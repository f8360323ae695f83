//! Mornings with every book of theirs kept.

use super::events::{accepted_event, first_drops, must_take, Event};
use super::Rng;
use crate::second::book::open_book;
use crate::second::values::{Answer, Book, Plan, Rule};

/// A whole morning: every book from the fresh one to the last, and between
/// each two the report or drop that made the second of the first.
pub struct Morning {
    pub books: Vec<Book>,
    pub events: Vec<Event>,
}

impl Morning {
    pub fn new(plan: &Plan, rule: Rule) -> Morning {
        let opening = open_book(plan, rule);
        assert_eq!(opening.answer, Answer::ACCEPTED);
        Morning {
            books: vec![opening.book],
            events: Vec::new(),
        }
    }

    pub fn now(&self) -> &Book {
        &self.books[self.books.len() - 1]
    }

    pub fn take(&mut self, event: Event) {
        self.books.push(must_take(self.now(), event));
        self.events.push(event);
    }
}

/// Reports to the end, drops before them and, in some mornings, between them.
pub fn random_morning(rng: &mut Rng, plan: &Plan, rule: Rule) -> Morning {
    let mut morning = Morning::new(plan, rule);
    for task in first_drops(rng, morning.now()) {
        morning.take(Event::Drop(task));
    }
    let drop_percent = rng.pick(&[0, 0, 15, 50]);
    while let Some(event) = accepted_event(rng, morning.now(), drop_percent) {
        morning.take(event);
    }
    morning
}
