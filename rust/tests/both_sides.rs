//! "Both sides of each line": the starred items and the run-only ones. In plan A the two
//! rules let the same tasks go on the same ticks, so each item holds by both.

use dispatcher::sample::lines::with_line;
use dispatcher::sample::plan_a::{PLAN_A, REPORTS_A};
use dispatcher::second::values::refusal;
use dispatcher::{minimum_early, open_book, read_plan, report, Answer, Book, Rule};

fn fresh_book(rule: Rule) -> Book {
    let reading = read_plan(PLAN_A);
    assert!(reading.answer.is_accepted());
    let opening = open_book(&reading.plan, rule);
    assert!(opening.answer.is_accepted());
    opening.book
}

fn after_end_of_2(rule: Rule) -> Book {
    let reported = report(&fresh_book(rule), 2, 3);
    assert!(reported.answer.is_accepted());
    reported.book
}

fn check_report(book: &Book, task: u32, tick: u32, code: u32) {
    let reported = report(book, task, tick);
    if code == 0 {
        assert_eq!(reported.answer, Answer::ACCEPTED, "end {task} at {tick}");
        assert_eq!(reported.book.end[task as usize - 1], tick);
        assert_eq!(reported.book.clock, tick);
        return;
    }
    assert_eq!(
        reported.answer,
        refusal(code, task, tick),
        "end {task} at {tick}"
    );
    assert_eq!(reported.book, *book);
}

/// A plan of that many unit tasks in a row on one board.
fn row_of_tasks(tasks: u32) -> Vec<u8> {
    let mut text = format!("plan\t1\t1\t{tasks}\n");
    for k in 1..=tasks {
        text.push_str(&format!("task\t{k}\t1\t{}\t{k}\t-\t-\n", k - 1));
    }
    text.into_bytes()
}

fn one_task(begin: u32, finish: u32) -> Vec<u8> {
    format!("plan\t1\t1\t1\ntask\t1\t1\t{begin}\t{finish}\t-\t-\n").into_bytes()
}

#[test]
fn reports_on_a_fresh_book() {
    for rule in Rule::BOTH {
        let book = fresh_book(rule);
        check_report(&book, 2, 4, 0);
        check_report(&book, 2, 5, 14);
        check_report(&book, 2, 0, 13);
        check_report(&book, 1, 4, 0);
        check_report(&book, 1, 5, 15);
        check_report(&book, 1, 7, 14);
        check_report(&book, 3, 3, 11);
        check_report(&book, 6, 3, 10);
    }
}

#[test]
fn reports_after_the_end_of_task_2() {
    for rule in Rule::BOTH {
        let book = after_end_of_2(rule);
        check_report(&book, 1, 2, 12);
        check_report(&book, 3, 3, 13);
        check_report(&book, 2, 4, 11);
    }
}

/// M of the fresh book and after each report, all of which must be accepted.
fn figures_along(rule: Rule, text: &[u8], reports: &[(u32, u32)]) -> Vec<u32> {
    let mut book = open_book(&read_plan(text).plan, rule).book;
    let mut figures = vec![minimum_early(&book).early];
    for &(task, tick) in reports {
        check_report(&book, task, tick, 0);
        book = report(&book, task, tick).book;
        let figure = minimum_early(&book);
        assert!(figure.answer.is_accepted());
        figures.push(figure.early);
    }
    figures
}

#[test]
fn the_figures_of_the_run() {
    for rule in Rule::BOTH {
        assert_eq!(figures_along(rule, PLAN_A, &REPORTS_A), [0, 0, 1, 3, 3, 0]);
    }
}

#[test]
fn a_board_with_no_work_does_not_pin_the_figure() {
    for rule in Rule::BOTH {
        let eight_boards = with_line(PLAN_A, 1, "plan\t1\t8\t5");
        assert_eq!(
            figures_along(rule, &eight_boards, &REPORTS_A),
            [0, 0, 1, 3, 3, 0]
        );
    }
}

#[test]
fn a_board_done_for_the_day_does_not_freeze_the_figure() {
    for rule in Rule::BOTH {
        let text = b"plan\t1\t2\t3
task\t1\t1\t0\t4\t-\t-
task\t2\t2\t0\t2\t-\t-
task\t3\t1\t4\t8\t-\t-
";
        // Board 2 is done at 2, on time; task 3 starts then, two ticks early.
        assert_eq!(
            figures_along(rule, text, &[(2, 2), (1, 2), (3, 6)]),
            [0, 0, 2, 0]
        );
    }
}

#[test]
fn sixty_four_tasks_are_read_and_sixty_five_are_not() {
    assert_eq!(read_plan(&row_of_tasks(64)).answer, Answer::ACCEPTED);
    assert_eq!(read_plan(&row_of_tasks(65)).answer, refusal(2, 1, 0));
}

#[test]
fn the_last_tick() {
    assert_eq!(read_plan(&one_task(0, 1_000_000)).answer, Answer::ACCEPTED);
    assert_eq!(read_plan(&one_task(0, 1_000_001)).answer, refusal(4, 2, 12));
    let text = b"plan\t1\t1\t2\ntask\t1\t1\t0\t1\t-\t-\ntask\t2\t1\t999999\t1000000\t-\t-\n";
    assert_eq!(read_plan(text).answer, Answer::ACCEPTED);
}

#[test]
fn finish_equal_to_start() {
    assert_eq!(read_plan(&one_task(0, 0)).answer, refusal(4, 2, 12));
    assert_eq!(read_plan(&one_task(0, 1)).answer, Answer::ACCEPTED);
}

#[test]
fn no_task_at_tick_0() {
    assert_eq!(read_plan(&one_task(7, 7)).answer, refusal(4, 2, 12));
    assert_eq!(read_plan(&one_task(7, 8)).answer, refusal(17, 7, 0));
    assert_eq!(read_plan(&one_task(1, 2)).answer, refusal(17, 1, 0));
    let last = read_plan(&one_task(999_999, 1_000_000)).answer;
    assert_eq!(last, refusal(17, 999_999, 0));
}

#[test]
fn task_3_of_plan_a_moved_to_start_3() {
    let text = with_line(PLAN_A, 4, "task\t3\t2\t3\t9\ts2\t-");
    assert_eq!(read_plan(&text).answer, refusal(6, 2, 3));
}

#[test]
fn task_2_of_plan_a_listing_itself() {
    let text = with_line(PLAN_A, 3, "task\t2\t2\t0\t4\t-\t2");
    assert_eq!(read_plan(&text).answer, refusal(8, 2, 2));
}
