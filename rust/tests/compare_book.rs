//! Opening, reporting, dropping, M and soundness: the proved implementation
//! must answer every input as the second dispatcher does, to the last byte.

use dispatcher::sample::damage::{
    by_the_other_rule, mutated_book, mutated_plan, ruleless_book, sharing_book,
    wrongly_dropped_book,
};
use dispatcher::sample::events::{
    accepted_event, any_drop, any_event, first_drops, is_chain_over_boards, must_take,
    passed_tasks, random_book, starts_past_the_clock, Event,
};
use dispatcher::sample::every_book::{every_book, every_event, AWAITED, CHAIN};
use dispatcher::sample::faults::{late_plan, sharing_plan};
use dispatcher::sample::pairs::every_pair;
use dispatcher::sample::plan_a::{PLAN_A, REPORTS_A};
use dispatcher::sample::plan_b::{PLAN_B, REPORTS_B};
use dispatcher::sample::plans::{full_plan_of_either, random_plan};
use dispatcher::sample::reports::{
    accepted_report, any_report, last_moment_report, one_tick_reports, running_tasks, Report,
};
use dispatcher::sample::tally::Tally;
use dispatcher::sample::waiting::either_rule;
use dispatcher::sample::wild::{one_rule_broken, wild_book, wild_plan};
use dispatcher::sample::Rng;
use dispatcher::{drop_task, minimum_early, open_book, proved, read_plan, report, sound};
use dispatcher::{Book, Plan, Rule};

fn compare_opening(tally: &mut Tally, plan: &Plan, rule: Rule) -> Book {
    let wanted = open_book(plan, rule);
    let got = proved::open_book(plan, rule);
    assert_eq!(got.answer, wanted.answer, "{plan:?}");
    assert!(got.book == wanted.book, "{plan:?}");
    tally.count(wanted.answer);
    wanted.book
}

/// The book after the report, which is the one given when it is refused.
fn compare_report(tally: &mut Tally, book: &Book, (task, tick): Report) -> Book {
    let wanted = report(book, task, tick);
    let got = proved::report(book, task, tick);
    assert_eq!(got.answer, wanted.answer, "end {task} at {tick}, {book:?}");
    assert!(got.book == wanted.book, "end {task} at {tick}, {book:?}");
    tally.count(wanted.answer);
    wanted.book
}

/// The book after the drop, which is the one given when it is refused.
fn compare_drop(tally: &mut Tally, book: &Book, task: u32) -> Book {
    let wanted = drop_task(book, task);
    let got = proved::drop_task(book, task);
    assert_eq!(got.answer, wanted.answer, "drop {task}, {book:?}");
    assert!(got.book == wanted.book, "drop {task}, {book:?}");
    tally.count(wanted.answer);
    wanted.book
}

fn compare_figure(tally: &mut Tally, book: &Book) {
    let wanted = minimum_early(book);
    assert_eq!(proved::minimum_early(book), wanted, "{book:?}");
    tally.count(wanted.answer);
}

fn compare_judging(tally: &mut Tally, book: &Book) {
    let wanted = sound(book);
    assert_eq!(proved::sound(book), wanted, "{book:?}");
    tally.count_judged(wanted);
}

/// A whole morning by either rule, wrong reports before each right one; the number of
/// reports.
fn compare_morning(rng: &mut Rng, tally: &mut Tally, plan: &Plan, wrong_ones: u32) -> u64 {
    let mut reports = 0;
    let rule = either_rule(rng);
    let mut book = compare_opening(tally, plan, rule);
    for _ in 0..=plan.tasks {
        compare_figure(tally, &book);
        for _ in 0..wrong_ones {
            let wrong = any_report(rng, &book);
            compare_report(tally, &book, wrong);
            reports += 1;
        }
        if let Some(right) = accepted_report(rng, &book) {
            book = compare_report(tally, &book, right);
            reports += 1;
        }
    }
    assert!(running_tasks(&book).is_empty(), "the morning is over");
    reports
}

fn take_random_mornings(rng: &mut Rng, tally: &mut Tally) -> u64 {
    let mut reports = 0;
    for _ in 0..1300 {
        let plan = random_plan(rng);
        reports += compare_morning(rng, tally, &plan, 4);
    }
    tally.finish_kind("openings, reports and figures of random mornings");
    reports
}

fn take_full_mornings(rng: &mut Rng, tally: &mut Tally) -> u64 {
    let mut reports = 0;
    for _ in 0..60 {
        let plan = full_plan_of_either(rng, 64);
        reports += compare_morning(rng, tally, &plan, 4);
    }
    tally.finish_kind("openings, reports and figures of mornings of 64 tasks");
    reports
}

/// Every task runs to its limit, so that the morning goes by the plan.
fn take_mornings_without_gain(rng: &mut Rng, tally: &mut Tally) -> u64 {
    let mut reports = 0;
    for _ in 0..300 {
        let (plan, rule) = (random_plan(rng), either_rule(rng));
        let mut book = compare_opening(tally, &plan, rule);
        for _ in 0..book.tasks {
            let last_moment = last_moment_report(&book).expect("some task has not ended");
            book = compare_report(tally, &book, last_moment);
            compare_figure(tally, &book);
            reports += 1;
        }
    }
    tally.finish_kind("reports and figures of mornings without gain");
    reports
}

/// Every tick from 0 to 15 reported of every task 0 to 6, all along plans A and B.
fn take_every_report_on_plans_a_and_b(tally: &mut Tally) -> u64 {
    let mut reports = 0;
    for rule in Rule::BOTH {
        reports += take_every_report_along(tally, (PLAN_A, rule), &REPORTS_A);
        reports += take_every_report_along(tally, (PLAN_B, rule), &REPORTS_B);
    }
    tally.finish_kind("reports of every task and tick along plans A and B");
    reports
}

fn take_every_report_along(
    tally: &mut Tally,
    (text, rule): (&[u8], Rule),
    right_ones: &[Report],
) -> u64 {
    let any_tick = |task| (0..=15).map(move |tick| (task, tick));
    let near_ones: Vec<Report> = (0..=6).flat_map(any_tick).collect();
    let mut reports = 0;
    let mut book = compare_opening(tally, &read_plan(text).plan, rule);
    for next in 0..=right_ones.len() {
        for &near in &near_ones {
            compare_report(tally, &book, near);
            reports += 1;
        }
        if let Some(&right) = right_ones.get(next) {
            book = compare_report(tally, &book, right);
            reports += 1;
        }
    }
    reports
}

/// All orders in which the reports can come.
fn every_order(reports: &[Report]) -> Vec<Vec<Report>> {
    if reports.is_empty() {
        return vec![Vec::new()];
    }
    let mut orders = Vec::new();
    for first in 0..reports.len() {
        let mut others = reports.to_vec();
        let chosen = others.remove(first);
        for mut order in every_order(&others) {
            order.push(chosen);
            orders.push(order);
        }
    }
    orders
}

/// Five tasks end on one tick; every order must give the same book.
fn take_five_ends_in_every_order(rng: &mut Rng, tally: &mut Tally) -> u64 {
    let mut reports = 0;
    let mut groups = 0;
    while groups < 20 {
        let tasks = rng.pick(&[8, 12, 20, 40]);
        let (plan, rule) = (full_plan_of_either(rng, tasks), either_rule(rng));
        let mut book = open_book(&plan, rule).book;
        for _ in 0..rng.index(tasks as usize - 5) {
            let right = accepted_report(rng, &book).expect("some task has not ended");
            book = report(&book, right.0, right.1).book;
        }
        let mut ends = one_tick_reports(rng, &book);
        rng.shuffle(&mut ends);
        ends.truncate(5);
        if ends.len() < 5 {
            continue;
        }
        groups += 1;
        reports += compare_orders(tally, &book, &ends);
    }
    tally.finish_kind("reports of five ends on one tick in every order");
    reports
}

fn compare_orders(tally: &mut Tally, book: &Book, ends: &[Report]) -> u64 {
    let mut reports = 0;
    let mut books = Vec::new();
    for order in every_order(ends) {
        let mut now = *book;
        for end in order {
            now = compare_report(tally, &now, end);
            reports += 1;
        }
        books.push(now);
    }
    assert!(books.iter().all(|now| *now == books[0]));
    reports
}

/// Reports on books that are mostly not sound.
fn take_reports_on_changed_books(rng: &mut Rng, tally: &mut Tally) -> u64 {
    let mut reports = 0;
    for _ in 0..600 {
        let book = random_book(rng);
        for _ in 0..10 {
            let changed = mutated_book(rng, &book);
            let any = any_report(rng, &book);
            compare_report(tally, &changed, any);
            compare_figure(tally, &changed);
            reports += 1;
        }
        let sharing = sharing_book(rng, &book);
        let ruleless = ruleless_book(rng, &book);
        for changed in [sharing, ruleless, by_the_other_rule(&book)] {
            let any = any_report(rng, &book);
            compare_report(tally, &changed, any);
            compare_figure(tally, &changed);
            reports += 1;
        }
    }
    tally.finish_kind("reports and figures of changed books");
    reports
}

fn open_changed_plans(rng: &mut Rng, tally: &mut Tally) {
    for _ in 0..500 {
        let plan = random_plan(rng);
        for _ in 0..5 {
            let rule = either_rule(rng);
            compare_opening(tally, &mutated_plan(rng, &plan), rule);
            compare_opening(tally, &one_rule_broken(rng, &plan), rule);
            compare_opening(tally, &late_plan(rng, &plan), rule);
            compare_opening(tally, &sharing_plan(rng, &plan), rule);
            compare_opening(tally, &wild_plan(rng), rule);
        }
    }
    for rule in Rule::BOTH {
        compare_opening(tally, &Plan::ZERO, rule);
    }
    tally.finish_kind("openings of changed plans");
}

/// Two tasks by both rules, and the report that ends the first of them.
fn open_every_pair(tally: &mut Tally) -> u64 {
    let mut reports = 0;
    for pair in every_pair() {
        for rule in Rule::BOTH {
            let book = compare_opening(tally, &pair.plan, rule);
            compare_report(tally, &book, (pair.first as u32 + 1, 2));
            reports += 1;
        }
    }
    tally.finish_kind("openings of pairs with every sort of clash, and reports on them");
    reports
}

#[test]
fn mornings_are_answered_alike() {
    let (mut rng, mut tally) = Tally::seeded("compare_book");
    let mut reports = take_random_mornings(&mut rng, &mut tally);
    reports += take_full_mornings(&mut rng, &mut tally);
    reports += take_mornings_without_gain(&mut rng, &mut tally);
    tally.finish(120_000, &[0, 10, 11, 12, 13, 14, 15]);
    tally.say_part(reports, "reports");
    assert!(reports >= 100_000, "too few reports");
}

#[test]
fn small_and_changed_books_are_answered_alike() {
    let (mut rng, mut tally) = Tally::seeded("compare_book, changed");
    let mut reports = take_every_report_on_plans_a_and_b(&mut tally);
    reports += take_five_ends_in_every_order(&mut rng, &mut tally);
    reports += take_reports_on_changed_books(&mut rng, &mut tally);
    reports += open_every_pair(&mut tally);
    open_changed_plans(&mut rng, &mut tally);
    tally.finish(40_000, &[0, 9, 10, 11, 14]);
    tally.say_part(reports, "reports");
    assert!(reports >= 20_000, "too few reports");
}

/// What was compared along mornings with drops.
struct Dropping {
    drops: Tally,
    reports: Tally,
    /// Dropped tasks that passed, and reports after which some of them passed
    /// one by one over several boards.
    passed: u64,
    chains: u64,
    /// Books of mornings with a known start past the clock.
    ahead: u64,
}

impl Dropping {
    fn compare(&mut self, book: &Book, event: Event) -> Book {
        let next = match event {
            Event::End(task, tick) => compare_report(&mut self.reports, book, (task, tick)),
            Event::Drop(task) => compare_drop(&mut self.drops, book, task),
        };
        let passed = passed_tasks(book, &next);
        self.passed += passed.len() as u64;
        self.chains += u64::from(is_chain_over_boards(book, &passed));
        next
    }

    fn finish_kind(&mut self, kind: &str) {
        self.drops.finish_kind(&format!("drops {kind}"));
        self.reports.finish_kind(&format!("reports {kind}"));
    }
}

/// A whole morning, its drops before and between the reports, and any other
/// drops and reports before each right one.
fn compare_dropping_morning(rng: &mut Rng, dropping: &mut Dropping, plan: &Plan) {
    let rule = either_rule(rng);
    let mut book = open_book(plan, rule).book;
    for task in first_drops(rng, &book) {
        book = compare_drop(&mut dropping.drops, &book, task);
    }
    let drop_percent = rng.pick(&[0, 15, 50]);
    while let Some(right) = accepted_event(rng, &book, drop_percent) {
        for _ in 0..3 {
            let any = any_event(rng, &book);
            dropping.compare(&book, any);
        }
        compare_figure(&mut dropping.reports, &book);
        dropping.ahead += u64::from(!starts_past_the_clock(&book).is_empty());
        let next = dropping.compare(&book, right);
        assert!(next != book, "{right:?} was refused, {book:?}");
        book = next;
    }
    let too_late = any_drop(rng, &book);
    compare_drop(&mut dropping.drops, &book, too_late);
    compare_figure(&mut dropping.reports, &book);
}

fn take_dropping_mornings(rng: &mut Rng, dropping: &mut Dropping) {
    for _ in 0..1300 {
        let plan = random_plan(rng);
        compare_dropping_morning(rng, dropping, &plan);
    }
    dropping.finish_kind("of random mornings");
    for _ in 0..60 {
        let plan = full_plan_of_either(rng, 64);
        compare_dropping_morning(rng, dropping, &plan);
    }
    dropping.finish_kind("of mornings of 64 tasks");
}

fn take_every_event_on_every_book(dropping: &mut Dropping) {
    let by_both = |text| Rule::BOTH.map(|rule| (text, rule));
    for (text, rule) in [CHAIN, AWAITED].into_iter().flat_map(by_both) {
        let plan = read_plan(text).plan;
        let events = every_event(&plan);
        for book in every_book(&plan, rule) {
            compare_figure(&mut dropping.reports, &book);
            for &event in &events {
                dropping.compare(&book, event);
            }
            compare_drop(&mut dropping.drops, &book, u32::MAX);
        }
    }
    dropping.finish_kind("on every book of two small plans");
}

fn take_every_drop_on_every_book_of_plan_a(tally: &mut Tally) {
    for book in every_book(&read_plan(PLAN_A).plan, Rule::EarlyStart) {
        for task in 0..=6 {
            compare_drop(tally, &book, task);
        }
    }
    tally.finish_kind("drops on every book of plan A");
}

/// Drops and reports on books of which most are not sound.
fn take_events_on_changed_books(rng: &mut Rng, dropping: &mut Dropping) {
    for _ in 0..750 {
        let book = random_book(rng);
        for _ in 0..4 {
            let changed = mutated_book(rng, &book);
            let wrong = wrongly_dropped_book(rng, &book);
            let sharing = sharing_book(rng, &book);
            for unsound in [changed, wrong, sharing, by_the_other_rule(&book)] {
                let any = any_drop(rng, &book);
                compare_drop(&mut dropping.drops, &unsound, any);
                let any = any_event(rng, &book);
                dropping.compare(&unsound, any);
            }
        }
    }
    dropping.finish_kind("on changed books");
}

#[test]
fn drops_are_answered_alike() {
    let (mut rng, drops) = Tally::seeded("compare_drop");
    let mut dropping = Dropping {
        drops,
        reports: Tally::new("compare_drop, reports"),
        passed: 0,
        chains: 0,
        ahead: 0,
    };
    take_dropping_mornings(&mut rng, &mut dropping);
    take_every_event_on_every_book(&mut dropping);
    take_every_drop_on_every_book_of_plan_a(&mut dropping.drops);
    take_events_on_changed_books(&mut rng, &mut dropping);
    dropping.drops.finish(80_000, &[0, 9, 10, 19]);
    let codes = [0, 9, 10, 11, 12, 13, 14, 15];
    dropping.reports.finish(50_000, &codes);
    let parts = [
        (dropping.passed, "dropped tasks that passed", 5_000),
        (dropping.chains, "chains over several boards", 500),
        (dropping.ahead, "books with a start past the clock", 2_000),
    ];
    for (part, sort, least) in parts {
        dropping.reports.say_part(part, sort);
        assert!(part >= least, "too few {sort}");
    }
}

/// All books of a morning, and for each some with one to three places changed.
fn judge_books_of_mornings(rng: &mut Rng, tally: &mut Tally) {
    for _ in 0..600 {
        let (plan, rule) = (random_plan(rng), either_rule(rng));
        let mut book = open_book(&plan, rule).book;
        for task in first_drops(rng, &book) {
            book = must_take(&book, Event::Drop(task));
        }
        while let Some(event) = accepted_event(rng, &book, 15) {
            compare_judging(tally, &book);
            for _ in 0..6 {
                compare_judging(tally, &mutated_book(rng, &book));
            }
            for _ in 0..3 {
                compare_judging(tally, &wrongly_dropped_book(rng, &book));
            }
            compare_judging(tally, &sharing_book(rng, &book));
            compare_judging(tally, &ruleless_book(rng, &book));
            compare_judging(tally, &by_the_other_rule(&book));
            book = must_take(&book, event);
        }
        compare_judging(tally, &book);
    }
    tally.finish_kind("books of mornings, sound and changed");
}

fn judge_wild_books(rng: &mut Rng, tally: &mut Tally) {
    compare_judging(tally, &Book::ZERO);
    for _ in 0..2000 {
        let book = random_book(rng);
        for _ in 0..10 {
            compare_judging(tally, &wild_book(rng, &book));
        }
    }
    tally.finish_kind("books of random starts, ends, marks and drops");
}

/// Every small clock, start, end, mark and drop of every task along plan A, with
/// nobody dropped and with task 3, and on the first books of plan B by the clash rule,
/// with task 4.
fn judge_every_change_along_plans_a_and_b(tally: &mut Tally) {
    let fresh = open_book(&read_plan(PLAN_A).plan, Rule::EarlyStart).book;
    judge_every_change_along(tally, &fresh, &REPORTS_A);
    let without_3 = must_take(&fresh, Event::Drop(3));
    judge_every_change_along(tally, &without_3, &[(2, 3), (1, 4), (4, 6)]);
    let awaited = open_book(&read_plan(PLAN_B).plan, Rule::Clash).book;
    let without_4 = must_take(&awaited, Event::Drop(4));
    judge_every_change_along(tally, &without_4, &REPORTS_B[..3]);
    tally.finish_kind("books along plans A and B with one task changed");
}

fn judge_every_change_along(tally: &mut Tally, first: &Book, reports: &[Report]) {
    let mut book = *first;
    for next in 0..=reports.len() {
        for i in 0..6 {
            judge_every_change_of_a_task(tally, &book, i);
        }
        if let Some(&(task, tick)) = reports.get(next) {
            book = must_take(&book, Event::End(task, tick));
        }
    }
}

fn judge_every_change_of_a_task(tally: &mut Tally, book: &Book, i: usize) {
    let mut changed = *book;
    for mark in 0..=2 {
        changed.mark[i] = mark;
        for dropped in 0..=1 {
            changed.dropped[i] = dropped;
            judge_every_time_of_a_task(tally, &changed, i);
        }
    }
    for (mark, dropped) in [(3, 0), (3, 1), (0, 2), (1, 2), (2, 2), (3, 2)] {
        changed = *book;
        changed.mark[i] = mark;
        changed.dropped[i] = dropped;
        compare_judging(tally, &changed);
    }
}

fn judge_every_time_of_a_task(tally: &mut Tally, book: &Book, i: usize) {
    for start in 0..=7 {
        for end in 0..=9 {
            let mut changed = *book;
            changed.start[i] = start;
            changed.end[i] = end;
            compare_judging(tally, &changed);
            changed.clock = changed.end.iter().max().copied().unwrap_or(0);
            compare_judging(tally, &changed);
        }
    }
}

#[test]
fn soundness_is_judged_alike() {
    let (mut rng, mut tally) = Tally::seeded("compare_sound");
    judge_books_of_mornings(&mut rng, &mut tally);
    judge_wild_books(&mut rng, &mut tally);
    judge_every_change_along_plans_a_and_b(&mut tally);
    tally.finish(150_000, &[0, 9]);
}
