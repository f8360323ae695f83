//! The exact figure: the proved implementation, which looks one step ahead, must answer
//! every book as the second one does, which runs the morning ahead.

use dispatcher::sample::damage::{
    by_the_other_rule, late_book, mutated_book, ruleless_book, sharing_book, wrongly_dropped_book,
};
use dispatcher::sample::events::{random_book, starts_past_the_clock};
use dispatcher::sample::every_book::{every_book, AWAITED, CHAIN};
use dispatcher::sample::mornings::random_morning;
use dispatcher::sample::plans::{full_plan_of_either, random_plan};
use dispatcher::sample::tally::Tally;
use dispatcher::sample::waiting::either_rule;
use dispatcher::sample::wild::wild_book;
use dispatcher::sample::Rng;
use dispatcher::{exact_early, minimum_early, proved, read_plan, Book, Plan, Rule};

/// What was compared, and how many books of which sort were among it.
struct Compared {
    tally: Tally,
    none: u64,
    above: u64,
    ahead: u64,
    dropped: u64,
}

impl Compared {
    fn compare(&mut self, book: &Book) {
        let wanted = exact_early(book);
        assert_eq!(proved::exact_early(book), wanted, "{book:?}");
        self.tally.count(wanted.answer);
        if !wanted.answer.is_accepted() {
            return;
        }
        let least = minimum_early(book).early;
        let is_none = !wanted.known;
        assert!(is_none || least <= wanted.early, "{book:?}");
        self.none += u64::from(is_none);
        self.above += u64::from(!is_none && least < wanted.early);
        self.ahead += u64::from(!starts_past_the_clock(book).is_empty());
        let waits_dropped = |i: usize| book.mark[i] == 0 && book.dropped[i] == 1;
        self.dropped += u64::from((0..64).any(waits_dropped));
    }

    /// Every book of a whole morning.
    fn compare_morning(&mut self, rng: &mut Rng, plan: &Plan) {
        let rule = either_rule(rng);
        for book in random_morning(rng, plan, rule).books {
            self.compare(&book);
        }
    }
}

#[test]
fn books_are_answered_alike() {
    let (mut rng, tally) = Tally::seeded("compare_exact");
    let mut all = Compared {
        tally,
        none: 0,
        above: 0,
        ahead: 0,
        dropped: 0,
    };
    for _ in 0..1500 {
        let plan = random_plan(&mut rng);
        all.compare_morning(&mut rng, &plan);
    }
    all.tally.finish_kind("books of random mornings");
    for _ in 0..60 {
        let plan = full_plan_of_either(&mut rng, 64);
        all.compare_morning(&mut rng, &plan);
    }
    all.tally.finish_kind("books of mornings of 64 tasks");
    for text in [CHAIN, AWAITED] {
        let plan = read_plan(text).plan;
        for rule in Rule::BOTH {
            for book in every_book(&plan, rule) {
                all.compare(&book);
            }
        }
    }
    all.tally
        .finish_kind("books of two small plans, all of them");
    compare_changed_books(&mut rng, &mut all);
    all.tally.finish(20_000, &[0, 9]);
    for (part, sort) in [
        (all.none, "with none"),
        (all.above, "with a figure above M"),
        (all.ahead, "with a known start past the clock"),
        (all.dropped, "with a dropped task that waits"),
    ] {
        all.tally.say_part(part, sort);
        assert!(part >= 500, "{sort}");
    }
}

/// Books that are mostly not sound.
fn compare_changed_books(rng: &mut Rng, all: &mut Compared) {
    for _ in 0..500 {
        let book = random_book(rng);
        for _ in 0..6 {
            all.compare(&mutated_book(rng, &book));
        }
        all.compare(&wild_book(rng, &book));
        all.compare(&late_book(rng, &book));
        all.compare(&sharing_book(rng, &book));
        all.compare(&ruleless_book(rng, &book));
        all.compare(&by_the_other_rule(&book));
        all.compare(&wrongly_dropped_book(rng, &book));
    }
    all.compare(&Book::ZERO);
    all.tally.finish_kind("changed books");
}
