//! Request P12, shared holds retired in edition 2, by examples worked out by hand.

use dispatcher::sample::damage::on_other_plan;
use dispatcher::sample::faults::check_reading;
use dispatcher::sample::plan_a::PLAN_A;
use dispatcher::sample::plan_b::{PLAN_B, REPORTS_B};
use dispatcher::sample::plans::accepted_plan;
use dispatcher::second::values::{refusal, EDITION_2};
use dispatcher::{
    accepted, convert, convert_text, drop_task, minimum_early, open_book, read_exclusive,
    read_plan, report, sound, write_plan,
};
use dispatcher::{Answer, Book, Plan, Rule};

/// Three tasks on two boards in edition 2; holds stand in column 16 of each line.
const SMALL: [&str; 4] = [
    "plan\t2\t2\t3",
    "task\t1\t1\t0\t0\t5\te1,e3\t-",
    "task\t2\t2\t0\t0\t4\te2\t-",
    "task\t3\t1\t3\t5\t9\te1\t1,2",
];

/// The small plan with these lines, counted from 1, in the place of its own.
fn small_with(new_lines: &[(usize, &str)]) -> Vec<u8> {
    let mut lines = SMALL;
    for &(line, text) in new_lines {
        lines[line - 1] = text;
    }
    (lines.join("\n") + "\n").into_bytes()
}

/// Reading is refused by the first answer, and the second call by the other.
fn check_both(text: &[u8], read: (u32, u32, u32), second: (u32, u32, u32)) {
    check_reading(read_plan(text), text, refusal(read.0, read.1, read.2));
    check_reading(
        read_exclusive(text),
        text,
        refusal(second.0, second.1, second.2),
    );
}

/// Reading is refused by 20 with that line and column, and the second call reads it.
fn check_20(text: &[u8], line: u32, column: u32) {
    check_reading(read_plan(text), text, refusal(20, line, column));
    assert_eq!(read_exclusive(text).answer, Answer::ACCEPTED);
}

#[test]
fn code_20_names_the_holds_field() {
    assert_eq!(read_plan(&small_with(&[])).answer, Answer::ACCEPTED);
    for holds in ["s1", "s32", "s1,e3", "e1,s3", "s1,s3", "e1,e3,s4"] {
        let line = format!("task\t1\t1\t0\t0\t5\t{holds}\t-");
        check_20(&small_with(&[(2, &line)]), 2, 16);
    }
    check_20(&small_with(&[(3, "task\t2\t2\t0\t0\t4\ts2\t-")]), 3, 16);
    // Wherever the field stands.
    let wide = "task\t3\t1\t300\t500\t900\ts1\t1,2";
    check_20(&small_with(&[(4, wide)]), 4, 22);
}

#[test]
fn edition_1_takes_shared_holds_as_before() {
    let plan = accepted_plan(PLAN_A);
    assert_eq!(plan.holds[64..66], [5, 0]);
    for rule in Rule::BOTH {
        assert_eq!(open_book(&plan, rule).answer, Answer::ACCEPTED);
    }
    let mut out = [7; 300];
    let length = write_plan(&plan, &mut out).length as usize;
    assert_eq!(&out[..length], PLAN_A);
    // Two may share it at the same time.
    let text = b"plan\t1\t2\t2\ntask\t1\t1\t0\t5\ts1\t-\ntask\t2\t2\t0\t5\ts1\t-\n";
    assert_eq!(read_plan(text).answer, Answer::ACCEPTED);
}

#[test]
fn code_20_comes_in_a_line_after_3_and_4() {
    let both = |line: &str, code: u32, column: u32| {
        let text = small_with(&[(2, line)]);
        check_both(&text, (code, 2, column), (code, 2, column));
    };
    both("task\t1\t1\t0\t0\t5\ts1,s3\t-,", 3, 22);
    both("task\t1\t1\t0\t0\t5\ts1,x\t-", 3, 16);
    both("task\t1\t1\t0\t0\t5\ts1", 3, 18);
    both("task\t1\t1\t0\t0\t5\ts1\t-\t-", 3, 21);
    both("Task\t1\t1\t0\t0\t5\ts1\t-", 3, 1);
    both("task\t1\t1\t0\t0\t5\ts33\t-", 4, 16);
    both("task\t1\t1\t0\t0\t5\ts0\t-", 4, 16);
    both("task\t1\t1\t0\t0\t5\ts3,s1\t-", 4, 16);
    both("task\t1\t1\t0\t0\t5\te1,s1\t-", 4, 16);
    both("task\t1\t1\t0\t0\t5\ts1\t4", 4, 19);
    both("task\t2\t1\t0\t0\t5\ts1\t-", 4, 6);
    both("task\t1\t9\t0\t0\t5\ts1\t-", 4, 8);
    both("task\t1\t1\t0\t0\t0\ts1\t-", 4, 14);
    // No LF after a shared hold in the last line.
    let mut text = small_with(&[(4, "task\t3\t1\t3\t5\t9\ts1\t1,2")]);
    text.pop();
    check_both(&text, (3, 4, 22), (3, 4, 22));
}

#[test]
fn code_20_comes_in_a_line_before_18() {
    let text = small_with(&[(2, "task\t1\t1\t1\t0\t5\ts1\t-")]);
    check_both(&text, (20, 2, 16), (18, 2, 10));
    let text = small_with(&[(4, "task\t3\t1\t6\t5\t9\te1,s2\t1,2")]);
    check_both(&text, (20, 4, 16), (18, 4, 10));
    // After 4, all three in one line.
    let text = small_with(&[(4, "task\t3\t1\t6\t5\t9\ts1\t9")]);
    check_both(&text, (4, 4, 19), (4, 4, 19));
}

#[test]
fn of_two_lines_the_first_is_named() {
    let (shared, late) = ("task\t1\t1\t0\t0\t5\ts1\t-", "task\t1\t1\t1\t0\t5\te1\t-");
    for (line, second) in [
        ("task\t2\t2\t0\t0\tx\te2\t-", (3, 3, 14)),
        ("task\t2\t2\t0\t0\t0\te2\t-", (4, 3, 14)),
        ("task\t2\t2\t1\t0\t4\te2\t-", (18, 3, 10)),
    ] {
        let text = small_with(&[(2, shared), (3, line)]);
        check_both(&text, (20, 2, 16), second);
    }
    let text = small_with(&[(2, late), (3, "task\t2\t2\t0\t0\t4\ts2\t-")]);
    check_both(&text, (18, 2, 10), (18, 2, 10));
    let text = small_with(&[(2, "task\t1\t1\t0\t0\t5\te1"), (3, shared)]);
    check_both(&text, (3, 2, 18), (3, 2, 18));
    let text = small_with(&[(2, "task\t1\t3\t0\t0\t5\te1\t-"), (3, shared)]);
    check_both(&text, (4, 2, 8), (4, 2, 8));
}

#[test]
fn code_20_comes_before_whatever_is_said_of_the_whole_text() {
    let shared = "task\t3\t1\t3\t5\t9\ts1\t1,2";
    let mut text = small_with(&[(4, shared)]);
    text.push(b'\n');
    check_both(&text, (20, 4, 16), (5, 5, 0));
    let late = b"plan\t2\t1\t1\ntask\t1\t1\t0\t3\t5\ts1\t-\n";
    check_both(late, (20, 2, 16), (17, 3, 0));
    // Tasks 1 and 2 on one board; 1 and 2 on one drive; 3 before 2 has finished.
    let text = small_with(&[(3, "task\t2\t1\t0\t0\t4\te2\t-"), (4, shared)]);
    check_both(&text, (20, 4, 16), (6, 1, 2));
    let text = small_with(&[(3, "task\t2\t2\t0\t0\t4\ts3\t-"), (4, shared)]);
    check_both(&text, (20, 3, 16), (7, 1, 2));
    let text = small_with(&[(3, "task\t2\t2\t0\t0\t6\ts2\t-")]);
    check_both(&text, (20, 3, 16), (8, 2, 3));
}

#[test]
fn code_9_plan_and_book_with_a_shared_hold_in_edition_2() {
    for rule in Rule::BOTH {
        let mut plan = accepted_plan(PLAN_B);
        let mut books = vec![open_book(&plan, rule).book];
        for (task, tick) in REPORTS_B {
            books.push(report(&books[books.len() - 1], task, tick).book);
        }
        assert!(books.iter().all(sound));
        // Task 3 holds drive 2.
        plan.holds[64] = 5;
        assert!(!accepted(&plan));
        let opening = open_book(&plan, rule);
        assert_eq!(
            (opening.answer, opening.book),
            (Answer::UNSOUND, Book::ZERO)
        );
        assert_eq!(write_plan(&plan, &mut []).answer, Answer::UNSOUND);
        for book in books {
            let sharing = on_other_plan(&book, &plan);
            assert!(!sound(&sharing));
            let reported = report(&sharing, 1, 3);
            assert_eq!((reported.answer, reported.book), (Answer::UNSOUND, sharing));
            let dropped = drop_task(&sharing, 4);
            assert_eq!((dropped.answer, dropped.book), (Answer::UNSOUND, sharing));
            assert_eq!(minimum_early(&sharing).answer, Answer::UNSOUND);
        }
    }
}

/// Plan A as the converter writes it.
const PLAN_A_CONVERTED: &[u8] = b"plan\t2\t2\t5
task\t1\t1\t0\t0\t6\te1\t-
task\t2\t2\t0\t0\t4\t-\t-
task\t3\t2\t0\t4\t9\te2\t-
task\t4\t1\t0\t9\t12\te2\t1
task\t5\t2\t0\t10\t14\te1\t3
";

#[test]
fn plan_a_is_converted() {
    let converted = convert(&accepted_plan(PLAN_A));
    assert_eq!(converted.answer, Answer::ACCEPTED);
    assert_eq!(converted.plan, accepted_plan(PLAN_A_CONVERTED));
    assert_eq!(convert_text(PLAN_A), PLAN_A_CONVERTED);
    assert_eq!(convert_text(PLAN_A_CONVERTED), PLAN_A_CONVERTED);
}

#[test]
fn a_drive_shared_at_the_same_time_meets_7_with_its_first_pair() {
    // Tasks 1 and 4 share drive 1 one after the other, 3 and 4 drive 2 from 4 to 6.
    let text = b"plan\t1\t3\t4
task\t1\t1\t0\t4\ts1\t-
task\t2\t2\t1\t5\te3\t-
task\t3\t1\t4\t6\ts2\t-
task\t4\t3\t4\t7\ts1,s2\t-
";
    let plan = accepted_plan(text);
    check_reading(convert(&plan), text, refusal(7, 3, 4));
    assert_eq!(convert_text(text), b"refused\t7\t3\t4\n");
    // Task 1 a tick longer holds it too, and its pair is the first.
    let mut longer = plan;
    (longer.board[2], longer.finish[0]) = (2, 5);
    (longer.begin[2], longer.finish[2]) = (5, 6);
    assert!(accepted(&longer));
    check_reading(convert(&longer), text, refusal(7, 1, 4));
}

#[test]
fn any_plan_that_is_not_accepted_in_edition_1_is_9_for_the_converter() {
    let spoiled = |change: fn(&mut Plan)| {
        let mut plan = accepted_plan(PLAN_A);
        change(&mut plan);
        plan
    };
    let late = spoiled(|plan| (plan.begin[0], plan.begin[1]) = (1, 1));
    let overlapping = spoiled(|plan| plan.begin[2] = 3);
    let with_a_ready_tick = spoiled(|plan| plan.ready[3] = 1);
    let of_edition_2 = spoiled(|plan| plan.edition = EDITION_2);
    let second = accepted_plan(PLAN_B);
    let converted = accepted_plan(PLAN_A_CONVERTED);
    for plan in [
        late,
        overlapping,
        with_a_ready_tick,
        of_edition_2,
        second,
        converted,
        Plan::ZERO,
    ] {
        check_reading(convert(&plan), b"", refusal(9, 0, 0));
    }
}

#[test]
fn the_second_call_keeps_ready_ticks() {
    let sharing = String::from_utf8_lossy(PLAN_B).replace("\te2", "\ts2");
    check_reading(
        read_plan(sharing.as_bytes()),
        sharing.as_bytes(),
        refusal(20, 4, 16),
    );
    let reading = read_exclusive(sharing.as_bytes());
    assert_eq!(
        (reading.answer, reading.plan),
        (Answer::ACCEPTED, accepted_plan(PLAN_B))
    );
    assert_eq!(read_exclusive(PLAN_B), reading);
    assert_eq!(convert_text(sharing.as_bytes()), PLAN_B);
}

#[test]
fn the_second_call_takes_no_text_of_edition_1_and_none_that_is_too_long() {
    check_reading(read_exclusive(PLAN_A), PLAN_A, refusal(2, 1, 0));
    check_reading(read_exclusive(b""), b"", refusal(2, 1, 0));
    check_reading(read_exclusive(b"plan\t1\t1\t1\n"), b"", refusal(2, 1, 0));
    check_reading(read_exclusive(b"plan\t3\t1\t1\n"), b"", refusal(2, 1, 0));
    check_reading(read_exclusive(b"plan\t2\t1\t65\n"), b"", refusal(2, 1, 0));
    for text in [PLAN_A, PLAN_B, b""] {
        let mut long = text.to_vec();
        long.resize(32_769, b'\n');
        check_reading(read_exclusive(&long), &long, refusal(1, 0, 0));
        assert_eq!(convert_text(&long), b"refused\t1\t0\t0\n");
    }
}

#[test]
fn what_a_text_of_either_edition_is_refused_by_is_printed() {
    let printed = |text: &[u8]| String::from_utf8(convert_text(text)).unwrap();
    assert_eq!(printed(b""), "refused\t2\t1\t0\n");
    assert_eq!(printed(b"plan\t3\t1\t1\n"), "refused\t2\t1\t0\n");
    assert_eq!(printed(b"plan\t1\t1\t1\n"), "refused\t3\t2\t1\n");
    let text = b"plan\t1\t1\t2\ntask\t1\t1\t0\t5\ts1\t-\ntask\t2\t1\t4\t6\t-\t-\n";
    assert_eq!(printed(text), "refused\t6\t1\t2\n");
    let text = small_with(&[(2, "task\t1\t1\t1\t0\t5\ts1\t-")]);
    assert_eq!(printed(&text), "refused\t18\t2\t10\n");
    let text = small_with(&[(3, "task\t2\t2\t0\t0\t4\ts3\t-")]);
    assert_eq!(printed(&text), "refused\t7\t1\t2\n");
}
