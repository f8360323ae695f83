//! Request P9's drops by examples worked out by hand. In plan A and in the chain the
//! two rules let the same tasks go on the same ticks, so each holds by both.

use dispatcher::sample::events::rule_line;
use dispatcher::sample::every_book::CHAIN;
use dispatcher::sample::plan_a::PLAN_A;
use dispatcher::second::values::{refusal, ENDED, RUNNING, WAITING};
use dispatcher::{
    drop_task, minimum_early, open_book, read_plan, report, run_log, sound, Answer, Book, Rule,
};

/// What a change breaks, and the change.
type Spoiled = (&'static str, fn(&mut Book));

fn fresh_book(text: &[u8], rule: Rule) -> Book {
    let reading = read_plan(text);
    assert!(reading.answer.is_accepted());
    open_book(&reading.plan, rule).book
}

/// The book with each of the tasks dropped, which must be accepted.
fn dropped(book: &Book, tasks: &[u32]) -> Book {
    let mut book = *book;
    for &task in tasks {
        let dropped = drop_task(&book, task);
        assert_eq!(dropped.answer, Answer::ACCEPTED, "drop {task}");
        book = dropped.book;
    }
    book
}

/// The book after each of the reports, which must be accepted.
fn reported(book: &Book, reports: &[(u32, u32)]) -> Book {
    let mut book = *book;
    for &(task, tick) in reports {
        let reported = report(&book, task, tick);
        assert_eq!(reported.answer, Answer::ACCEPTED, "end {task} at {tick}");
        book = reported.book;
    }
    book
}

fn check_refused(book: &Book, task: u32, code: u32) {
    let dropped = drop_task(book, task);
    assert_eq!(dropped.answer, refusal(code, task, 0), "drop {task}");
    assert_eq!(dropped.book, *book, "drop {task}");
}

fn check_unsound(book: &Book, what: &str) {
    assert!(!sound(book), "{what}");
    // Neither the task's number nor its state is looked at before the book.
    for task in [0, 1, 4, 6] {
        let dropped = drop_task(book, task);
        assert_eq!(dropped.answer, refusal(9, 0, 0), "{what}");
        assert_eq!(dropped.book, *book, "{what}");
    }
    assert_eq!(report(book, 1, 4).answer, refusal(9, 0, 0), "{what}");
    assert_eq!(minimum_early(book).answer, refusal(9, 0, 0), "{what}");
}

#[test]
fn a_drop_marks_the_task_and_nothing_else() {
    for rule in Rule::BOTH {
        let fresh = fresh_book(PLAN_A, rule);
        let mut expected = fresh;
        expected.dropped[2] = 1;
        assert_eq!(dropped(&fresh, &[3]), expected);

        let later = reported(&fresh, &[(2, 3)]);
        let mut expected = later;
        expected.dropped[3] = 1;
        expected.dropped[4] = 1;
        assert_eq!(dropped(&later, &[5, 4]), expected);
        assert_eq!(expected.clock, 3);
    }
}

#[test]
fn a_dropped_task_starts_and_ends_on_the_tick_that_lets_it_go() {
    for rule in Rule::BOTH {
        let book = dropped(&fresh_book(PLAN_A, rule), &[3]);
        let book = reported(&book, &[(2, 3)]);
        assert_eq!(book.mark[..5], [RUNNING, ENDED, ENDED, WAITING, WAITING]);
        assert_eq!((book.start[2], book.end[2], book.clock), (3, 3, 3));

        // Tasks 4 and 5 waited for 1, 2 and 3, of which only 1 was left.
        let book = reported(&book, &[(1, 4)]);
        assert_eq!(book.mark[..5], [ENDED, ENDED, ENDED, RUNNING, RUNNING]);
        assert_eq!(book.start[3..5], [4, 4]);
        assert_eq!(minimum_early(&book).early, 5);
    }
}

#[test]
fn a_drop_while_others_run_takes_effect_at_their_last_end() {
    for rule in Rule::BOTH {
        let book = reported(&fresh_book(PLAN_A, rule), &[(2, 3), (1, 4)]);
        let book = reported(&dropped(&book, &[4]), &[(3, 6)]);
        assert_eq!(book.mark[..5], [ENDED, ENDED, ENDED, ENDED, RUNNING]);
        assert_eq!((book.start[3], book.end[3], book.start[4]), (6, 6, 6));
        // Task 4 would have been 3 ticks early; it does not run, so 5's count alone.
        assert_eq!(minimum_early(&book).early, 4);
    }
}

#[test]
fn refusal_19_of_a_known_start_or_a_second_drop() {
    for rule in Rule::BOTH {
        let fresh = fresh_book(PLAN_A, rule);
        check_refused(&fresh, 1, 19);
        let book = dropped(&fresh, &[3]);
        check_refused(&book, 3, 19);
        let passed = reported(&book, &[(2, 3)]);
        for task in [1, 2, 3] {
            check_refused(&passed, task, 19);
        }
        let all_started = reported(&passed, &[(1, 4)]);
        for task in 1..=5 {
            check_refused(&all_started, task, 19);
        }
    }
}

#[test]
fn refusal_10_of_no_such_task() {
    for rule in Rule::BOTH {
        let book = dropped(&fresh_book(PLAN_A, rule), &[3]);
        for task in [0, 6, 64, 65, 256 + 4, 1 << 16, u32::MAX] {
            check_refused(&book, task, 10);
        }
    }
}

#[test]
fn refusal_11_of_a_report_on_a_dropped_task() {
    for rule in Rule::BOTH {
        let waiting = dropped(&fresh_book(PLAN_A, rule), &[3]);
        let passed = reported(&waiting, &[(2, 3)]);
        for (book, tick) in [(waiting, 1), (waiting, 3), (passed, 3), (passed, 4)] {
            let reported = report(&book, 3, tick);
            assert_eq!(reported.answer, refusal(11, 3, tick));
            assert_eq!(reported.book, book);
        }
    }
}

#[test]
fn a_chain_over_three_boards_passes_on_one_tick() {
    for rule in Rule::BOTH {
        let fresh = fresh_book(CHAIN, rule);
        let book = reported(&dropped(&fresh, &[5, 4]), &[(3, 1)]);
        // Task 5 waits for 2 besides.
        assert_eq!(book.mark[..5], [WAITING, RUNNING, ENDED, ENDED, WAITING]);
        let book = reported(&book, &[(2, 2)]);
        assert_eq!(book.mark[..5], [RUNNING, ENDED, ENDED, ENDED, ENDED]);
        assert_eq!((book.start[3], book.end[3]), (1, 1));
        assert_eq!((book.start[4], book.end[4], book.start[0]), (2, 2, 2));

        let book = reported(&dropped(&fresh, &[1, 4, 5]), &[(2, 1), (3, 1)]);
        assert_eq!(book.mark[..5], [ENDED; 5]);
        assert_eq!(book.start[..5], [1, 0, 0, 1, 1]);
        assert_eq!(book.end[..5], [1; 5]);
        assert!(sound(&book));
        assert_eq!(minimum_early(&book).early, 0);
    }
}

/// Plan A with 3 dropped and passed at 3, and 5 dropped and waiting.
fn book_with_drops(rule: Rule) -> Book {
    let book = reported(&dropped(&fresh_book(PLAN_A, rule), &[3, 5]), &[(2, 3)]);
    assert!(sound(&book));
    book
}

#[test]
fn refusal_9_of_a_book_with_a_wrong_drop() {
    for rule in Rule::BOTH {
        let spoil: [Spoiled; 14] = [
            ("dropped is 2", |b| b.dropped[3] = 2),
            ("dropped is 255", |b| b.dropped[4] = 255),
            ("a running task dropped", |b| b.dropped[0] = 1),
            ("an ended task dropped", |b| b.dropped[1] = 1),
            ("its drop taken back", |b| b.dropped[2] = 0),
            ("its end later", |b| (b.end[2], b.clock) = (4, 4)),
            ("passed too early", |b| (b.start[2], b.end[2]) = (2, 2)),
            ("passed too late", |b| (b.start[2], b.end[2]) = (4, 4)),
            ("running", |b| (b.mark[2], b.end[2]) = (1, 0)),
            ("waiting with a known start", |b| b.mark[2] = 0),
            ("waiting for nobody left", |b| {
                (b.mark[2], b.start[2], b.end[2]) = (0, 0, 0)
            }),
            ("passed with one left that it waits for", |b| {
                (b.mark[4], b.start[4], b.end[4]) = (2, 3, 3)
            }),
            ("dropped just past the last task", |b| b.dropped[5] = 1),
            ("dropped in the last place", |b| b.dropped[63] = 1),
        ];
        for (what, change) in spoil {
            let mut book = book_with_drops(rule);
            change(&mut book);
            check_unsound(&book, what);
        }
    }
}

#[test]
fn refusal_9_of_a_dropped_task_that_waits_for_nobody() {
    for rule in Rule::BOTH {
        let mut book = fresh_book(PLAN_A, rule);
        (book.mark[1], book.dropped[1]) = (ENDED, 1);
        // Task 3 waits for 2 alone, so all but the drop itself is in order.
        book.mark[2] = RUNNING;
        check_unsound(&book, "2 waits for nobody");
    }
}

#[test]
fn waiting_tasks_may_be_dropped_or_not() {
    for rule in Rule::BOTH {
        let mut book = book_with_drops(rule);
        book.dropped[3] = 1;
        assert!(sound(&book));
        book.dropped[4] = 0;
        assert!(sound(&book));
    }
}

/// The log of a plan whose `ends.txt` chooses the rule and has these lines.
fn whole_log_of(plan: &[u8], rule: Rule, ends: &str) -> String {
    let ends = [rule_line(rule), ends.as_bytes()].concat();
    String::from_utf8(run_log(plan, &ends)).unwrap()
}

/// The log of plan A after its four opening lines.
fn log_of(rule: Rule, ends: &str) -> String {
    let log = whole_log_of(PLAN_A, rule, ends);
    log.split_inclusive('\n').skip(4).collect()
}

/// How many lines stand before the first end or drop.
fn rule_lines(rule: Rule) -> usize {
    rule_line(rule)
        .split_inclusive(|&byte| byte == b'\n')
        .count()
}

#[test]
fn runlog_prints_drops_and_skips() {
    for rule in Rule::BOTH {
        let ends = "drop\t3\nend\t2\t3\ndrop\t5\nend\t1\t4\nend\t4\t6\n";
        let expected = "drop\t3\t2
early\t0\t0
end\t2\t2\t3\t1
skip\t3\t2\t3\t1
early\t3\t0
drop\t5\t2
early\t3\t0
end\t1\t1\t4\t2
start\t4\t1\t4\t5
skip\t5\t2\t4\t6
early\t4\t5
end\t4\t1\t6\t6
early\t6\t0
";
        assert_eq!(log_of(rule, ends), expected);
    }
}

#[test]
fn runlog_prints_starts_and_skips_in_one_order_by_number() {
    for rule in Rule::BOTH {
        let ends = "end\t3\t1\ndrop\t5\nend\t2\t1\ndrop\t1\nend\t4\t3\n";
        let log = whole_log_of(CHAIN, rule, ends);
        let last = "end\t4\t2\t3\t0\nskip\t1\t3\t3\t1\nskip\t5\t1\t3\t0\nearly\t3\t0\n";
        assert!(log.ends_with(last), "{log}");

        let ends = "end\t2\t1\ndrop\t4\ndrop\t5\nend\t3\t1\n";
        let log = whole_log_of(CHAIN, rule, ends);
        let last = "start\t1\t3\t1\t3\nskip\t4\t2\t1\t0\nskip\t5\t1\t1\t2\nearly\t1\t3\n";
        assert!(log.ends_with(last), "{log}");
    }
}

#[test]
fn runlog_reads_on_after_a_refused_drop() {
    for rule in Rule::BOTH {
        let ends = "drop\t0\ndrop\t6\ndrop\t1000000\ndrop\t1\ndrop\t3\ndrop\t3\nend\t3\t3\n";
        let expected = "refused\t10\t0\t0
refused\t10\t6\t0
refused\t10\t1000000\t0
refused\t19\t1\t0
drop\t3\t2
early\t0\t0
refused\t19\t3\t0
refused\t11\t3\t3
";
        assert_eq!(log_of(rule, ends), expected);
    }
}

#[test]
fn runlog_stops_at_a_malformed_drop_line() {
    for rule in Rule::BOTH {
        let malformed = [
            ("drop\n", 5),
            ("drop\t\n", 6),
            ("drop\t3\t\n", 8),
            ("drop\t3\t3\n", 8),
            ("drop\t03\n", 6),
            ("drop\t-\n", 6),
            ("drop\t+3\n", 6),
            ("drop\t3 \n", 6),
            ("drop\t3\r\n", 6),
            ("drop 3\n", 1),
            ("Drop\t3\n", 1),
            ("drops\t3\n", 1),
            ("\tdrop\t3\n", 1),
            ("skip\t3\n", 1),
            ("end\t3\n", 6),
            ("3\n", 1),
            ("drop\t1000001\t1\n", 14),
        ];
        for (line, column) in malformed {
            let ends = format!("drop\t9\n{line}end\t2\t3\n");
            let line_number = 2 + rule_lines(rule);
            let expected = format!("refused\t10\t9\t0\nrefused\t3\t{line_number}\t{column}\n");
            assert_eq!(log_of(rule, &ends), expected, "{line:?}");
        }
        assert_eq!(
            log_of(rule, "drop\t3"),
            format!("refused\t3\t{}\t7\n", 1 + rule_lines(rule))
        );
    }
}

#[test]
fn runlog_stops_at_a_drop_of_a_number_over_the_last_tick() {
    for rule in Rule::BOTH {
        for number in ["1000001", "4294967299", "18446744073709551619"] {
            let ends = format!("drop\t3\ndrop\t{number}\ndrop\t4\n");
            let line_number = 2 + rule_lines(rule);
            let expected = format!("drop\t3\t2\nearly\t0\t0\nrefused\t4\t{line_number}\t6\n");
            assert_eq!(log_of(rule, &ends), expected, "{number}");
        }
    }
}
