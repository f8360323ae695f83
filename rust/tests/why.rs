//! Why a task started when it did: chains typed by hand, what every chain keeps to, and
//! every task of many books asked of the proved implementation and of the second
//! dispatcher, which must answer alike to the last byte.

use dispatcher::sample::damage::{
    by_the_other_rule, mutated_book, ruleless_book, sharing_book, wrongly_dropped_book,
};
use dispatcher::sample::events::{
    accepted_event, book_after, ends, first_drops, is_started, must_take, random_book,
    starts_past_the_clock, Event,
};
use dispatcher::sample::every_book::{every_book, AWAITED, CHAIN};
use dispatcher::sample::plan_a::{PLAN_A, REPORTS_A};
use dispatcher::sample::plan_b::{PLAN_B, REPORTS_B};
use dispatcher::sample::plans::{full_plan_of_either, random_plan, single_file};
use dispatcher::sample::reports::last_moment_report;
use dispatcher::sample::tally::Tally;
use dispatcher::sample::waiting::{awaited, either_rule, rule_of};
use dispatcher::sample::wild::wild_book;
use dispatcher::sample::Rng;
use dispatcher::second::values::{refusal, DROPPED, EDITION_1, ENDED};
use dispatcher::{open_book, proved, read_plan, why, Answer, Book, Chain, Plan, Rule};

/// What was compared, and how much of it was of a sort that must not be rare.
struct LengthsResult {
    tally: Tally,
    /// Links of all chains, dropped tasks among them, chains that stop at a ready tick,
    /// and tasks that start past the clock.
    links: u64,
    dropped: u64,
    at_ready: u64,
    ahead: u64,
}

impl LengthsResult {
    fn seeded(title: &'static str) -> (Rng, LengthsResult) {
        let (rng, tally) = Tally::seeded(title);
        let asking = LengthsResult {
            tally,
            links: 0,
            dropped: 0,
            at_ready: 0,
            ahead: 0,
        };
        (rng, asking)
    }

    fn compare(&mut self, book: &Book, task: u32) -> Chain {
        let wanted = why(book, task);
        assert_eq!(proved::why(book, task), wanted, "why {task}, {book:?}");
        self.tally.count(wanted.answer);
        wanted
    }

    /// Every task from 0 to one past the last, of a sound book.
    fn compare_all(&mut self, book: &Book) {
        let plan = book.plan();
        let ahead = starts_past_the_clock(book);
        for task in 0..=u32::from(book.tasks) + 1 {
            let chain = self.compare(book, task);
            if !chain.answer.is_accepted() {
                assert_eq!(chain, Chain::empty(chain.answer));
                continue;
            }
            check_chain(&plan, book, task, &chain);
            self.count_sorts(book, &chain);
            if ahead.contains(&(task as usize - 1)) {
                assert_eq!(chain.count, 1, "{book:?}");
                self.ahead += 1;
            }
        }
    }

    fn count_sorts(&mut self, book: &Book, chain: &Chain) {
        let links: Vec<usize> = indices(chain);
        let last = links[links.len() - 1];
        self.links += links.len() as u64;
        self.dropped += links
            .iter()
            .filter(|&&i| book.dropped[i] == DROPPED)
            .count() as u64;
        self.at_ready += u64::from(book.start[last] > 0);
    }

    fn finish(&self, inputs: u64, codes: &[u32], sorts: [u64; 4]) {
        self.tally.finish(inputs, codes);
        let [links, dropped, at_ready, ahead] = sorts;
        for (part, sort, least) in [
            (self.links, "links", links),
            (self.dropped, "dropped links", dropped),
            (self.at_ready, "chains that stop at a ready tick", at_ready),
            (self.ahead, "starts past the clock", ahead),
        ] {
            self.tally.say_part(part, sort);
            assert!(part >= least, "too few {sort}");
        }
    }
}

fn indices(chain: &Chain) -> Vec<usize> {
    let numbers = chain.numbers().iter();
    numbers.map(|&number| usize::from(number) - 1).collect()
}

/// What the request asks of a chain, link by link, pair by pair.
fn check_chain(plan: &Plan, book: &Book, task: u32, chain: &Chain) {
    let links = indices(chain);
    assert_eq!(links[0], task as usize - 1);
    assert!(chain.links[links.len()..].iter().all(|&place| place == 0));
    for pair in links.windows(2) {
        check_link(plan, book, pair[0], pair[1]);
    }
    let last = links[links.len() - 1];
    assert!(stops(plan, book, last), "{book:?}");
    let repeated = |k: usize| links[..k].contains(&links[k]);
    assert!(!(0..links.len()).any(repeated), "{book:?}");
    let ran: u32 = links[1..]
        .iter()
        .map(|&i| book.end[i] - book.start[i])
        .sum();
    assert_eq!(ran, book.start[links[0]] - book.start[last], "{book:?}");
    if book.edition == EDITION_1 {
        assert_eq!(ran, book.start[links[0]], "{book:?}");
    }
}

/// The second let the first start: it is the lowest of the last of those waited for.
fn check_link(plan: &Plan, book: &Book, first: usize, second: usize) {
    assert!(!stops(plan, book, first), "{book:?}");
    assert_eq!(book.mark[second], ENDED);
    assert_eq!(book.end[second], book.start[first]);
    assert!(plan.begin[second] < plan.begin[first]);
    let waited = awaited(plan, rule_of(book), first);
    assert!(waited.contains(&second));
    assert!(waited.iter().all(|&j| book.end[j] <= book.end[second]));
    let same_end = |j: &&usize| book.end[**j] == book.end[second];
    assert!(waited.iter().filter(same_end).all(|&j| j >= second));
}

fn stops(plan: &Plan, book: &Book, i: usize) -> bool {
    let waited = awaited(plan, rule_of(book), i);
    let is_ready_last = waited.iter().all(|&j| book.end[j] < plan.ready[i]);
    let awaits_class = book.dropped[i] != DROPPED && is_ready_last;
    book.start[i] == 0 || awaits_class || waited.is_empty()
}

/// The book after the reports, tasks dropped before them.
fn after_drops(text: &[u8], rule: Rule, dropped: &[u32], reports: &[(u32, u32)]) -> Book {
    let drops = dropped.iter().map(|&task| Event::Drop(task));
    let events: Vec<Event> = drops.chain(ends(reports)).collect();
    book_after(text, rule, &events)
}

fn check_numbers(book: &Book, task: u32, numbers: &[u8]) {
    for chain in [why(book, task), proved::why(book, task)] {
        assert_eq!(chain.answer, Answer::ACCEPTED);
        assert_eq!(chain.numbers(), numbers, "why {task}");
    }
}

fn check_refused(book: &Book, task: u32, answer: Answer) {
    for chain in [why(book, task), proved::why(book, task)] {
        assert_eq!(chain, Chain::empty(answer));
    }
}

/// Worked out by hand. Task 4 started at 6, when 3 ended, which started at 3, when 2 ended.
#[test]
fn the_chains_of_plan_a() {
    let book = after_drops(PLAN_A, Rule::EarlyStart, &[], &REPORTS_A);
    check_numbers(&book, 1, &[1]);
    check_numbers(&book, 2, &[2]);
    check_numbers(&book, 3, &[3, 2]);
    check_numbers(&book, 4, &[4, 3, 2]);
    check_numbers(&book, 5, &[5, 3, 2]);
    check_refused(&book, 0, refusal(10, 0, 0));
    check_refused(&book, 6, refusal(10, 6, 0));
    check_refused(&book, u32::MAX, refusal(10, u32::MAX, 0));
    let early = after_drops(PLAN_A, Rule::EarlyStart, &[], &REPORTS_A[..2]);
    check_refused(&early, 4, refusal(11, 4, 0));
    check_refused(&Book::ZERO, 4, Answer::UNSOUND);
    // By the clash rule 4 clashes with 1 and 3 and started with the end of 3, 5 with the end of 3.
    let clash = after_drops(PLAN_A, Rule::Clash, &[], &[(2, 3), (1, 4), (3, 6)]);
    check_numbers(&clash, 4, &[4, 3, 2]);
    check_numbers(&clash, 5, &[5, 3, 2]);
}

/// Worked out by hand. Task 3 is dropped and passes at 3, when 2 ends; 4 starts when 1 ends.
#[test]
fn a_dropped_task_is_a_link_like_any_other() {
    let book = after_drops(PLAN_A, Rule::EarlyStart, &[3], &[(2, 3), (1, 4)]);
    check_numbers(&book, 3, &[3, 2]);
    check_numbers(&book, 4, &[4, 1]);
    // The chain of the small plan: 4 waits for 3, 5 for 2, 3 and 4, and 1 for all of them.
    let chain = after_drops(CHAIN, Rule::EarlyStart, &[4, 5], &[(3, 1), (2, 1)]);
    check_numbers(&chain, 4, &[4, 3]);
    check_numbers(&chain, 5, &[5, 2]);
    check_numbers(&chain, 1, &[1, 2]);
    // By clash 5 waits for 2 and 4 alone, and 1 for 2 and 5.
    let clash = after_drops(CHAIN, Rule::Clash, &[4, 5], &[(2, 1), (3, 1)]);
    check_numbers(&clash, 5, &[5, 2]);
    check_numbers(&clash, 4, &[4, 3]);
}

/// Worked out by hand: task 1 starts at its ready tick 2 and waits for nobody; 3 is ready at 3, after
/// the end of 2 at 1; 4 is ready at 9, after all it waits for; 5 is ready at 0.
#[test]
fn a_chain_stops_where_a_class_was_awaited() {
    let book = after_drops(PLAN_B, Rule::EarlyStart, &[], &REPORTS_B);
    check_numbers(&book, 1, &[1]);
    check_numbers(&book, 3, &[3]);
    check_numbers(&book, 4, &[4]);
    check_numbers(&book, 5, &[5, 4]);
    // Where 2 ends at 3, task 3 is ready just then, and the chain goes on.
    let equal = after_drops(PLAN_B, Rule::EarlyStart, &[], &[(2, 3)]);
    check_numbers(&equal, 3, &[3, 2]);
    // Task 4, dropped, passes at the last end, its ready tick 9 ignored.
    let dropped = after_drops(PLAN_B, Rule::EarlyStart, &[4], &[(2, 1), (1, 3), (3, 5)]);
    check_numbers(&dropped, 4, &[4, 3]);
    check_numbers(&dropped, 5, &[5, 3]);
    // At opening the start of 1 lies past the clock: its chain is itself alone, and not 11.
    check_numbers(&after_drops(PLAN_B, Rule::EarlyStart, &[], &[]), 1, &[1]);
}

/// All tasks follow each other, so the recursion is as deep as there are tasks.
#[test]
fn a_chain_may_have_64_links() {
    for rule in Rule::BOTH {
        let book = single_file_at_its_end(rule);
        let numbers: Vec<u8> = (1..=64).rev().collect();
        check_numbers(&book, 64, &numbers);
        let (_, mut asking) = LengthsResult::seeded("why, 64 links");
        asking.compare_all(&book);
    }
}

fn single_file_at_its_end(rule: Rule) -> Book {
    let mut book = open_book(&single_file(), rule).book;
    while let Some((task, tick)) = last_moment_report(&book) {
        book = must_take(&book, Event::End(task, tick));
    }
    book
}

/// Every task of every book of a morning, drops before and between the reports.
fn ask_a_morning(rng: &mut Rng, asking: &mut LengthsResult, plan: &Plan, every: usize) {
    let mut book = open_book(plan, either_rule(rng)).book;
    for task in first_drops(rng, &book) {
        book = must_take(&book, Event::Drop(task));
    }
    let drop_percent = rng.pick(&[0, 15, 50]);
    asking.compare_all(&book);
    let mut told = 0;
    while let Some(right) = accepted_event(rng, &book, drop_percent) {
        book = must_take(&book, right);
        told += 1;
        if told % every == 0 {
            asking.compare_all(&book);
        }
    }
    asking.compare_all(&book);
}

#[test]
fn every_task_of_random_mornings_is_answered_alike() {
    let (mut rng, mut asking) = LengthsResult::seeded("why");
    for _ in 0..160 {
        let plan = random_plan(&mut rng);
        ask_a_morning(&mut rng, &mut asking, &plan, 1);
    }
    asking
        .tally
        .finish_kind("tasks of every book of random mornings");
    for _ in 0..20 {
        let plan = full_plan_of_either(&mut rng, 64);
        ask_a_morning(&mut rng, &mut asking, &plan, 8);
    }
    asking
        .tally
        .finish_kind("tasks of books of mornings of 64 tasks");
    asking.finish(60_000, &[0, 10, 11], [60_000, 2_000, 2_000, 100]);
}

#[test]
fn every_task_of_every_book_of_small_plans_is_answered_alike() {
    let (_, mut asking) = LengthsResult::seeded("why, every book");
    let by_both = |text| Rule::BOTH.map(|rule| (text, rule));
    let small = [CHAIN, AWAITED].into_iter().flat_map(by_both);
    for (text, rule) in small.chain([(PLAN_A, Rule::EarlyStart)]) {
        for book in every_book(&read_plan(text).plan, rule) {
            asking.compare_all(&book);
        }
    }
    asking
        .tally
        .finish_kind("tasks of every book of three small plans");
    asking.finish(3_000, &[0, 10, 11], [1_000, 100, 100, 20]);
}

#[test]
fn changed_books_are_answered_alike() {
    let (mut rng, mut asking) = LengthsResult::seeded("why, changed books");
    for _ in 0..1200 {
        let book = random_book(&mut rng);
        let started = (0..64).filter(|&i| is_started(&book, i));
        let started: Vec<u32> = started.map(|i| i as u32 + 1).collect();
        for _ in 0..4 {
            let task = rng.pick(&started);
            asking.compare(&mutated_book(&mut rng, &book), task);
            asking.compare(&wrongly_dropped_book(&mut rng, &book), task);
            asking.compare(&sharing_book(&mut rng, &book), task);
            asking.compare(&ruleless_book(&mut rng, &book), task);
            asking.compare(&by_the_other_rule(&book), task);
            asking.compare(&wild_book(&mut rng, &book), task);
        }
    }
    asking.finish(20_000, &[0, 9], [0, 0, 0, 0]);
}
