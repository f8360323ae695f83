//! The shortcuts that break a morning, each coded as a small variant. They break it by
//! both rules, which let the same tasks of these plans go on the same ticks.

use dispatcher::sample::events::{book_after, ends};
use dispatcher::sample::plan_a::PLAN_A;
use dispatcher::sample::waiting::{awaited, rule_of};
use dispatcher::second::judge::{clash, clash_by_drive};
use dispatcher::{minimum_early, open_book, read_plan, report, Book, Plan, Rule};

/// Whether waiting task index i may start now, reporter being the index ended.
type StartRule = fn(book: &Book, i: usize, reporter: Option<usize>) -> bool;

fn ended(book: &Book, i: usize) -> bool {
    book.mark[i] == 2
}

fn count(book: &Book) -> usize {
    usize::from(book.tasks)
}

/// The document's rule, as the variants' common starting point.
fn awaited_ended(book: &Book, i: usize, _: Option<usize>) -> bool {
    let mut awaited = awaited(&book.plan(), rule_of(book), i).into_iter();
    awaited.all(|j| ended(book, j))
}

/// Shortcut: the board's earlier tasks have ended and its drives are free.
fn board_and_drives_free(book: &Book, i: usize, _: Option<usize>) -> bool {
    let plan = book.plan();
    (0..count(book)).all(|j| {
        let in_front = book.board[j] == book.board[i] && book.begin[j] < book.begin[i];
        let in_use = book.mark[j] == 1 && clash_by_drive(&plan, i, j);
        (!in_front || ended(book, j)) && !in_use
    })
}

/// Shortcut: waits only for tasks that finish strictly before.
fn strictly_earlier_ended(book: &Book, i: usize, _: Option<usize>) -> bool {
    let (plan, rule) = (book.plan(), rule_of(book));
    let counts = |j: usize| rule == Rule::EarlyStart || clash(&plan, i, j);
    (0..count(book)).all(|j| book.finish[j] >= book.begin[i] || !counts(j) || ended(book, j))
}

/// Shortcut: looks for starts on the reporter's board only.
fn on_the_reporters_board(book: &Book, i: usize, reporter: Option<usize>) -> bool {
    let looked_at = reporter.is_none_or(|r| book.board[r] == book.board[i]);
    looked_at && awaited_ended(book, i, reporter)
}

fn start_by(may_start: StartRule, book: &mut Book, reporter: Option<usize>) {
    for i in 0..count(book) {
        if book.mark[i] == 0 && may_start(book, i, reporter) {
            book.mark[i] = 1;
            book.start[i] = book.clock;
        }
    }
}

fn open_by(may_start: StartRule, plan: &Plan, rule: Rule) -> Book {
    let mut book = open_book(plan, rule).book;
    book.mark = [0; 64];
    start_by(may_start, &mut book, None);
    book
}

fn report_by(may_start: StartRule, book: &Book, task: usize, tick: u32) -> Book {
    let mut next = *book;
    next.mark[task - 1] = 2;
    next.end[task - 1] = tick;
    next.clock = tick;
    start_by(may_start, &mut next, Some(task - 1));
    next
}

/// Every task takes its full length; ends are reported as they come.
fn full_length_starts(may_start: StartRule, plan: &Plan, rule: Rule) -> Vec<u32> {
    let mut book = open_by(may_start, plan, rule);
    while let Some((tick, i)) = next_end(&book) {
        book = report_by(may_start, &book, i + 1, tick);
    }
    book.start[..count(&book)].to_vec()
}

fn next_end(book: &Book) -> Option<(u32, usize)> {
    (0..count(book))
        .filter(|&i| book.mark[i] == 1)
        .map(|i| (book.start[i] + book.finish[i] - book.begin[i], i))
        .min()
}

fn plan_a() -> Plan {
    let reading = read_plan(PLAN_A);
    assert!(reading.answer.is_accepted());
    reading.plan
}

#[test]
fn starting_once_board_and_drives_are_free() {
    for rule in Rule::BOTH {
        let text = b"plan\t1\t2\t4
task\t1\t1\t0\t4\t-\t-
task\t2\t2\t0\t5\t-\t-
task\t3\t2\t5\t6\te1\t-
task\t4\t1\t6\t9\te1\t-
";
        let plan = read_plan(text).plan;
        assert_eq!(
            full_length_starts(board_and_drives_free, &plan, rule),
            [0, 0, 7, 4]
        );
        assert_eq!(full_length_starts(awaited_ended, &plan, rule), [0, 0, 5, 6]);

        let real = book_after(text, rule, &ends(&[(1, 4), (2, 5), (3, 6), (4, 9)]));
        assert_eq!(real.start[..4], plan.begin[..4]);
        assert_eq!(real.end[..4], plan.finish[..4]);
    }
}

#[test]
fn waiting_only_for_strictly_earlier_finishes() {
    for rule in Rule::BOTH {
        let wrong = open_by(strictly_earlier_ended, &plan_a(), rule);
        assert_eq!(wrong.mark[..5], [1, 1, 1, 0, 0]);
        assert_eq!(wrong.start[2], 0);
        assert_eq!(wrong.board[1], wrong.board[2]);

        let real = open_book(&plan_a(), rule).book;
        assert_eq!(real.mark[..5], [1, 1, 0, 0, 0]);
    }
}

#[test]
fn looking_on_the_reporters_board_only() {
    for rule in Rule::BOTH {
        let before = book_after(PLAN_A, rule, &ends(&[(2, 3), (1, 4)]));
        let wrong = report_by(on_the_reporters_board, &before, 3, 6);
        assert_eq!(wrong.mark[..5], [2, 2, 2, 0, 1]);

        let real = report(&before, 3, 6).book;
        assert_eq!(real.mark[..5], [2, 2, 2, 1, 1]);
        assert_eq!(real.start[3], 6);
    }
}

/// Shortcut: the figure of the report just taken.
fn early_of_last_report(book: &Book) -> u32 {
    let last = (0..count(book)).find(|&i| ended(book, i) && book.end[i] == book.clock);
    last.map_or(0, |i| book.finish[i] - book.end[i])
}

/// Shortcut: the largest figure of any board, also of one where nobody runs.
fn early_of_largest_board(book: &Book) -> u32 {
    let figures = (1..=book.boards).map(|board| {
        let here = || (0..count(book)).filter(move |&i| book.board[i] == board);
        match here().find(|&i| book.mark[i] == 1) {
            Some(i) => book.begin[i] - book.start[i],
            None => here()
                .filter(|&i| ended(book, i))
                .max_by_key(|&i| book.end[i])
                .map_or(0, |i| book.finish[i] - book.end[i]),
        }
    });
    figures.max().unwrap_or(0)
}

/// Shortcut: the largest figure of any running task.
fn early_of_earliest_running(book: &Book) -> u32 {
    let running = (0..count(book)).filter(|&i| book.mark[i] == 1);
    let ticks_early = running.map(|i| book.begin[i] - book.start[i]);
    ticks_early.max().unwrap_or(0)
}

#[test]
fn taking_the_figure_from_one_report_or_the_largest_board() {
    for rule in Rule::BOTH {
        let book = book_after(PLAN_A, rule, &ends(&[(2, 3), (1, 4)]));
        assert_eq!(early_of_last_report(&book), 2);
        assert_eq!(early_of_largest_board(&book), 2);
        assert_eq!(minimum_early(&book).early, 1);

        let later = report(&book, 3, 8);
        assert!(later.answer.is_accepted());
        let task_4_early = later.book.begin[3] - later.book.start[3];
        assert_eq!(task_4_early, 1);
    }
}

#[test]
fn taking_the_largest_figure_of_those_that_run() {
    for rule in Rule::BOTH {
        let book = book_after(PLAN_A, rule, &ends(&[(2, 3)]));
        assert_eq!(early_of_earliest_running(&book), 1);
        assert_eq!(minimum_early(&book).early, 0);

        let later = report(&book, 1, 6);
        assert!(later.answer.is_accepted());
        let task_1_early = later.book.finish[0] - later.book.end[0];
        assert_eq!(task_1_early, 0);
    }
}
