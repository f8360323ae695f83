//! Request P8's ready ticks by examples worked out by hand. In plan B the two rules let
//! the same tasks go on the same ticks, so each holds by both.

use dispatcher::sample::events::{book_after, check_refused, ends, must_take, rule_line, Event};
use dispatcher::sample::faults::check_reading;
use dispatcher::sample::lines::with_line;
use dispatcher::sample::plan_b::{PLAN_B, REPORTS_B};
use dispatcher::sample::plans::accepted_plan;
use dispatcher::second::values::{refusal, ENDED, RUNNING, WAITING};
use dispatcher::{
    accepted, drop_task, minimum_early, open_book, read_plan, report, run_log, sound, write_plan,
};
use dispatcher::{Answer, Book, Plan, Rule};
use Event::{Drop, End};

/// What a change breaks, and the change.
type Spoiled<T> = (&'static str, fn(&mut T));

fn plan_b() -> Plan {
    accepted_plan(PLAN_B)
}

/// The book of plan B after these, all of which must be accepted.
fn b_after(rule: Rule, events: &[Event]) -> Book {
    book_after(PLAN_B, rule, events)
}

fn figure(book: &Book) -> u32 {
    let figure = minimum_early(book);
    assert_eq!(figure.answer, Answer::ACCEPTED);
    figure.early
}

/// Plan B's text with one line replaced.
fn plan_b_with(line: usize, new_line: &str) -> Vec<u8> {
    with_line(PLAN_B, line, new_line)
}

fn check_text(text: &[u8], code: u32, first: u32, second: u32) {
    check_reading(read_plan(text), text, refusal(code, first, second));
}

#[test]
fn edition_2_is_read_with_its_ready_ticks() {
    let plan = plan_b();
    assert_eq!((plan.edition, plan.boards, plan.tasks), (2, 2, 5));
    assert_eq!(plan.ready[..6], [2, 0, 3, 9, 0, 0]);
    assert_eq!(plan.begin[..6], [4, 0, 5, 9, 12, 0]);
    assert_eq!(plan.finish[..6], [6, 5, 8, 12, 14, 0]);
    assert_eq!(Plan::ZERO.edition, 0);
}

#[test]
fn each_edition_is_written_in_its_own_form() {
    let mut out = [7; 300];
    let written = write_plan(&plan_b(), &mut out);
    assert_eq!(written.answer, Answer::ACCEPTED);
    assert_eq!(&out[..written.length as usize], PLAN_B);

    // The same tasks without ready ticks.
    let first_edition = Plan {
        edition: 1,
        ready: [0; 64],
        ..plan_b()
    };
    let written = write_plan(&first_edition, &mut out);
    let text = b"plan\t1\t2\t5
task\t1\t1\t4\t6\t-\t-
task\t2\t2\t0\t5\te1\t-
task\t3\t2\t5\t8\te2\t-
task\t4\t1\t9\t12\te2\t-
task\t5\t2\t12\t14\te1\t2,4
";
    assert_eq!(&out[..written.length as usize], text);
    assert_eq!(read_plan(text).plan, first_edition);
}

#[test]
fn each_edition_has_its_own_number_of_fields() {
    // Read as edition 1, the planned finish stands in the place of holds.
    check_text(&plan_b_with(1, "plan\t1\t2\t5"), 3, 2, 14);
    // Without its ready field, holds stand in the planned finish's place.
    check_text(&plan_b_with(3, "task\t2\t2\t0\t5\te1\t-"), 3, 3, 14);
    check_text(&plan_b_with(3, "task\t2\t2\t0\t0\t5\te1"), 3, 3, 18);
    check_text(&plan_b_with(3, "task\t2\t2\t0\t0\t5\te1\t-\t-"), 3, 3, 21);
    check_text(&plan_b_with(1, "plan\t3\t2\t5"), 2, 1, 0);
}

#[test]
fn a_ready_tick_is_misspelt_or_out_of_range_in_its_own_field() {
    for misspelt in ["", "-", "03", "3,", "x", " 3", "+3"] {
        let line = format!("task\t3\t2\t{misspelt}\t5\t8\te2\t-");
        check_text(&plan_b_with(4, &line), 3, 4, 10);
    }
    for over in ["1000001", "4294967296", "18446744073709551616"] {
        let line = format!("task\t3\t2\t{over}\t5\t8\te2\t-");
        check_text(&plan_b_with(4, &line), 4, 4, 10);
    }
    // The fields behind it are one further to the right.
    check_text(
        &plan_b_with(4, "task\t3\t2\t3\t1000001\t8\te2\t-"),
        4,
        4,
        12,
    );
    check_text(&plan_b_with(4, "task\t3\t2\t3\t5\t5\te2\t-"), 4, 4, 14);
    check_text(&plan_b_with(4, "task\t3\t2\t3\t5\t8\te0\t-"), 4, 4, 16);
    check_text(&plan_b_with(4, "task\t3\t2\t3\t5\t8\te2\t6"), 4, 4, 19);
}

#[test]
fn code_18_ready_after_the_planned_start() {
    for ready in ["6", "7", "8", "9", "1000000"] {
        let line = format!("task\t3\t2\t{ready}\t5\t8\te2\t-");
        check_text(&plan_b_with(4, &line), 18, 4, 10);
    }
    let just_in_time = plan_b_with(4, "task\t3\t2\t5\t5\t8\te2\t-");
    assert_eq!(read_plan(&just_in_time).answer, Answer::ACCEPTED);
    // The column is that of the ready field, wherever it stands.
    let ten = "plan\t2\t1\t10\n".to_string()
        + &(1..=9)
            .map(|k| format!("task\t{k}\t1\t0\t{}\t{k}\t-\t-\n", k - 1))
            .collect::<String>();
    let text = ten + "task\t10\t1\t10\t9\t10\t-\t-\n";
    check_text(text.as_bytes(), 18, 11, 11);
}

#[test]
fn code_18_comes_in_a_line_after_4_and_before_the_next_line() {
    check_text(&plan_b_with(4, "task\t3\t2\t6\t5\t8\te2\t-,"), 3, 4, 19);
    check_text(&plan_b_with(4, "task\t3\t2\t6\t5\t8\te2"), 3, 4, 18);
    check_text(&plan_b_with(4, "task\t3\t2\t6\t5\t8\te33\t-"), 4, 4, 16);
    check_text(&plan_b_with(4, "task\t3\t2\t6\t5\t5\te2\t-"), 4, 4, 14);
    check_text(&plan_b_with(4, "task\t4\t2\t6\t5\t8\te2\t-"), 4, 4, 6);
    // The next line is malformed, bytes follow the last one, nobody begins at 0, two overlap.
    let text = b"plan\t2\t1\t2\ntask\t1\t1\t1\t0\t5\t-\t-\nx\n";
    check_text(text, 18, 2, 10);
    let text = b"plan\t2\t1\t1\ntask\t1\t1\t1\t0\t5\t-\t-\nx\n";
    check_text(text, 18, 2, 10);
    let text = b"plan\t2\t1\t2\ntask\t1\t1\t1\t1\t5\t-\t-\ntask\t2\t1\t3\t2\t6\t-\t-\n";
    check_text(text, 18, 3, 10);
}

#[test]
fn code_17_looks_at_planned_starts_and_not_at_ready_ticks() {
    let text = b"plan\t2\t1\t1\ntask\t1\t1\t0\t3\t5\t-\t-\n";
    check_text(text, 17, 3, 0);
    let text = b"plan\t2\t1\t1\ntask\t1\t1\t0\t0\t5\t-\t-\n";
    assert_eq!(read_plan(text).answer, Answer::ACCEPTED);
}

fn check_plan_9(plan: &Plan, what: &str) {
    assert!(!accepted(plan), "{what}");
    for rule in Rule::BOTH {
        let opening = open_book(plan, rule);
        assert_eq!(opening.answer, refusal(9, 0, 0), "{what}");
        assert_eq!(opening.book, Book::ZERO, "{what}");
    }
    assert_eq!(write_plan(plan, &mut []).answer, refusal(9, 0, 0), "{what}");
}

#[test]
fn code_9_plan_with_a_wrong_edition_or_ready_tick() {
    let spoil: [Spoiled<Plan>; 9] = [
        ("edition 0", |p| p.edition = 0),
        ("edition 3", |p| p.edition = 3),
        ("edition 255", |p| p.edition = 255),
        ("ready ticks in edition 1", |p| p.edition = 1),
        ("ready after its planned start", |p| p.ready[0] = 5),
        ("ready after the one planned at 0", |p| p.ready[1] = 1),
        ("ready at the end of all numbers", |p| p.ready[3] = u32::MAX),
        ("ready just past the last task", |p| p.ready[5] = 1),
        ("ready in the last place", |p| p.ready[63] = 1),
    ];
    for (what, change) in spoil {
        let mut plan = plan_b();
        change(&mut plan);
        check_plan_9(&plan, what);
    }
    // One ready tick is enough, and none is no fault.
    let mut first_edition = Plan {
        edition: 1,
        ready: [0; 64],
        ..plan_b()
    };
    assert!(accepted(&first_edition));
    first_edition.ready[4] = 1;
    check_plan_9(&first_edition, "one ready tick in edition 1");
}

#[test]
fn at_opening_a_start_may_lie_past_the_clock() {
    for rule in Rule::BOTH {
        let book = b_after(rule, &[]);
        assert_eq!((book.edition, book.clock), (2, 0));
        assert_eq!(book.ready, plan_b().ready);
        assert_eq!(
            book.mark[..5],
            [RUNNING, RUNNING, WAITING, WAITING, WAITING]
        );
        assert_eq!(book.start[..5], [2, 0, 0, 0, 0]);
        // Task 2 is at work and on time.
        assert_eq!(figure(&book), 0);
    }
}

#[test]
fn a_start_past_the_clock_counts_as_running() {
    for rule in Rule::BOTH {
        let book = b_after(rule, &[]);
        // At or before its start, at once and later.
        for tick in [0, 1, 2] {
            check_refused(&book, End(1, tick), 13);
        }
        // Its limit is 2 + 2, and holds others back.
        check_refused(&book, End(1, 5), 14);
        check_refused(&book, End(2, 5), 15);
        check_refused(&book, End(2, 6), 14);
        check_refused(&book, Drop(1), 19);
        assert_eq!(b_after(rule, &[End(1, 3)]).end[0], 3);
        assert_eq!(b_after(rule, &[End(2, 4)]).clock, 4);
        // The task of least limit, at its limit.
        assert_eq!(b_after(rule, &[End(1, 4)]).clock, 4);
    }
}

#[test]
fn the_figure_may_come_from_ready_terms_alone() {
    for rule in Rule::BOTH {
        // After the end of 2 at 1 nobody is at work: 1 starts at 2, and 3 at 3.
        let book = b_after(rule, &[Drop(4), End(2, 1)]);
        assert_eq!(book.mark[..5], [RUNNING, ENDED, RUNNING, WAITING, WAITING]);
        assert_eq!((book.clock, book.start[0], book.start[2]), (1, 2, 3));
        // 4 - 2, 5 - 3 and 12 - 0; 4 is dropped, and its 9 - 9 left out.
        assert_eq!(figure(&book), 2);
        let mut moved = plan_b();
        moved.ready[0] = 1;
        moved.ready[2] = 4;
        let moved = [Drop(4), End(2, 1)]
            .iter()
            .fold(open_book(&moved, rule).book, |book, &event| {
                must_take(&book, event)
            });
        // Task 1's start is reached at 1: 4 - 1, and 5 - 4 of task 3 still to come.
        assert_eq!(figure(&moved), 1);
        // With 4 among those to come.
        assert_eq!(figure(&b_after(rule, &[End(2, 1)])), 0);
        // Once all have ended there is no term.
        let last = b_after(rule, &ends(&REPORTS_B));
        assert_eq!((last.clock, figure(&last)), (13, 0));
    }
}

#[test]
fn the_start_is_the_later_of_ready_tick_and_latest_end() {
    for rule in Rule::BOTH {
        // Before the ready tick, on it, and after it.
        for (end, start) in [(1, 3), (2, 3), (3, 3), (4, 4)] {
            let book = b_after(rule, &[End(2, end)]);
            assert_eq!(
                (book.mark[2], book.start[2]),
                (RUNNING, start),
                "end 2 at {end}"
            );
        }
        // Task 4 is ready at 9 only, however early the others end.
        let book = b_after(rule, &[End(2, 1), End(1, 3), End(3, 5)]);
        assert_eq!((book.clock, book.mark[3], book.start[3]), (5, RUNNING, 9));
        for tick in [5, 8, 9] {
            check_refused(&book, End(4, tick), 13);
        }
        check_refused(&book, End(4, 4), 12);
        check_refused(&book, End(5, 10), 11);
        check_refused(&book, End(4, 13), 14);
        check_refused(&book, Drop(4), 19);
        assert_eq!(figure(&book), 0);
        // Task 5 is ready at 0 and starts with the end of 4.
        let book = must_take(&book, End(4, 10));
        assert_eq!((book.mark[4], book.start[4]), (RUNNING, 10));
        assert_eq!(figure(&book), 2);
    }
}

#[test]
fn a_dropped_task_need_not_be_ready() {
    for rule in Rule::BOTH {
        let book = b_after(rule, &[Drop(4), End(2, 1), End(1, 3), End(3, 5)]);
        // Its ready tick is 9; it passes at 5, and 5 starts there.
        assert_eq!(book.mark[..5], [ENDED, ENDED, ENDED, ENDED, RUNNING]);
        assert_eq!((book.start[3], book.end[3], book.start[4]), (5, 5, 5));
        assert_eq!(figure(&book), 7);
        // Dropped between the reports too, as long as it waits.
        let later = b_after(rule, &[End(2, 1), End(1, 3), Drop(4), End(3, 5)]);
        assert_eq!(later, book);
    }
}

fn check_book_9(book: &Book, what: &str) {
    assert!(!sound(book), "{what}");
    assert_eq!(report(book, 1, 3).answer, refusal(9, 0, 0), "{what}");
    assert_eq!(drop_task(book, 4).answer, refusal(9, 0, 0), "{what}");
    assert_eq!(minimum_early(book).answer, refusal(9, 0, 0), "{what}");
}

#[test]
fn code_9_book_with_a_start_that_is_not_by_the_rule() {
    for rule in Rule::BOTH {
        let spoil: [Spoiled<Book>; 12] = [
            ("started at the latest end, though not ready", |b| {
                b.start[2] = 1
            }),
            ("started after its ready tick", |b| b.start[2] = 4),
            ("started at 0, though not ready", |b| b.start[0] = 0),
            ("started at the clock, though not ready", |b| b.start[0] = 1),
            ("not started, though all it waits for ended", |b| {
                (b.mark[2], b.start[2]) = (WAITING, 0)
            }),
            ("not started until the clock is there", |b| {
                (b.mark[0], b.start[0]) = (WAITING, 0)
            }),
            ("dropped with a known start", |b| b.dropped[2] = 1),
            ("ended at its start", |b| (b.mark[0], b.end[0]) = (ENDED, 2)),
            ("ended past the clock", |b| {
                (b.mark[0], b.end[0]) = (ENDED, 3)
            }),
            ("another ready tick", |b| b.ready[2] = 2),
            ("edition 1", |b| b.edition = 1),
            ("edition 0", |b| b.edition = 0),
        ];
        for (what, change) in spoil {
            let mut book = b_after(rule, &[End(2, 1)]);
            change(&mut book);
            check_book_9(&book, what);
        }
        // A ready tick that its start does not tell is another plan's, and as good.
        let mut other_plan = b_after(rule, &[End(2, 1)]);
        other_plan.ready[3] = 0;
        assert!(sound(&other_plan));
        // Passed at its ready tick instead of the latest end.
        let mut passed_late = b_after(rule, &[Drop(4), End(2, 1), End(1, 3), End(3, 5)]);
        (passed_late.start[3], passed_late.end[3], passed_late.clock) = (9, 9, 9);
        passed_late.start[4] = 9;
        check_book_9(
            &passed_late,
            "a dropped task that waited for its ready tick",
        );
    }
}

#[test]
fn runlog_prints_a_start_when_it_is_known() {
    let ends = "drop\t1
end\t1\t2
end\t2\t5
end\t1\t5
drop\t4
end\t2\t1
drop\t3
end\t3\t3
end\t1\t3
end\t3\t5
end\t5\t6
";
    let log = "start\t1\t1\t2\t2
start\t2\t2\t0\t0
early\t0\t0
refused\t19\t1\t0
refused\t13\t1\t2
refused\t15\t2\t5
refused\t14\t1\t5
drop\t4\t1
early\t0\t0
end\t2\t2\t1\t4
start\t3\t2\t3\t2
early\t1\t2
refused\t19\t3\t0
refused\t13\t3\t3
end\t1\t1\t3\t3
early\t3\t2
end\t3\t2\t5\t3
skip\t4\t1\t5\t4
start\t5\t2\t5\t7
early\t5\t7
end\t5\t2\t6\t8
early\t6\t0
";
    for (rule, run_line) in [
        (Rule::EarlyStart, "run\t1\t2\t5\n"),
        (Rule::Clash, "run\t2\t2\t5\tclash\n"),
    ] {
        let ends = [rule_line(rule), ends.as_bytes()].concat();
        let printed = String::from_utf8(run_log(PLAN_B, &ends)).unwrap();
        assert_eq!(printed, format!("{run_line}{log}"));
    }
}
