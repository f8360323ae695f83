//! Every refusal number by hand-written cases, with the two numbers it says. In plan A and
//! in the small plan the two rules let the same tasks go, so books meet them by both.

use dispatcher::sample::damage::on_other_plan;
use dispatcher::sample::events::{book_after, ends, random_book};
use dispatcher::sample::faults::check_reading;
use dispatcher::sample::lent::shown;
use dispatcher::sample::plan_a::{ENDS_A, PLAN_A, REPORTS_A};
use dispatcher::sample::plans::moved_later;
use dispatcher::sample::Rng;
use dispatcher::second::text::plan_text;
use dispatcher::second::values::{refusal, RUNNING};
use dispatcher::{
    accepted, drop_task, minimum_early, open_book, proved, read_plan, report, run_log, sound,
    write_plan,
};
use dispatcher::{Answer, Book, Plan, Rule};

/// What a change breaks, and the change.
type Spoiled<T> = (&'static str, fn(&mut T));

const FORTY_DIGITS: &str = "1234567890123456789012345678901234567890";

/// Three tasks on two boards; 1 and 2 overlap, 3 comes after both.
const SMALL: [&str; 4] = [
    "plan\t1\t2\t3",
    "task\t1\t1\t0\t5\te1,s3\t-",
    "task\t2\t2\t0\t4\ts3\t-",
    "task\t3\t1\t5\t9\te1\t1,2",
];

fn small_with(line: usize, new_line: &str) -> Vec<u8> {
    let mut lines = SMALL;
    lines[line - 1] = new_line;
    (lines.join("\n") + "\n").into_bytes()
}

/// The small plan with one field of one line replaced.
fn small_with_field(line: usize, field: usize, value: &str) -> Vec<u8> {
    let mut fields: Vec<&str> = SMALL[line - 1].split('\t').collect();
    fields[field - 1] = value;
    small_with(line, &fields.join("\t"))
}

fn small_text() -> Vec<u8> {
    small_with(1, SMALL[0])
}

fn small_plan() -> Plan {
    let reading = read_plan(&small_text());
    assert_eq!(reading.answer, Answer::ACCEPTED);
    reading.plan
}

fn book_of(rule: Rule, text: &[u8], reports: &[(u32, u32)]) -> Book {
    book_after(text, rule, &ends(reports))
}

fn check_text(text: &[u8], code: u32, first: u32, second: u32) {
    check_reading(read_plan(text), text, refusal(code, first, second));
    let refused = format!("refused\t{code}\t{first}\t{second}\n");
    assert_eq!(run_log(text, ENDS_A), refused.as_bytes(), "{}", shown(text));
}

fn check_plan_9(plan: &Plan, what: &str) {
    assert!(!accepted(plan), "{what}");
    for rule in Rule::BOTH {
        let opening = open_book(plan, rule);
        assert_eq!(opening.answer, refusal(9, 0, 0), "{what}");
        assert_eq!(opening.book, Book::ZERO, "{what}");
    }
    let mut out = [7u8; 2000];
    let written = write_plan(plan, &mut out);
    assert_eq!(written.answer, refusal(9, 0, 0), "{what}");
    assert_eq!(written.length, 0, "{what}");
    assert_eq!(out, [7u8; 2000], "{what}");
    // A buffer too short must not hide that the plan is refused.
    assert_eq!(write_plan(plan, &mut []).answer.code, 9, "{what}");
}

fn check_book_9(book: &Book, what: &str) {
    assert!(!sound(book), "{what}");
    let reported = report(book, 0, 0);
    assert_eq!(reported.answer, refusal(9, 0, 0), "{what}");
    assert_eq!(reported.book, *book, "{what}");
    let dropped = drop_task(book, 0);
    assert_eq!(dropped.answer, refusal(9, 0, 0), "{what}");
    assert_eq!(dropped.book, *book, "{what}");
    let figure = minimum_early(book);
    assert_eq!(figure.answer, refusal(9, 0, 0), "{what}");
    assert_eq!(figure.early, 0, "{what}");
}

fn check_report(book: &Book, task: u32, tick: u32, code: u32) {
    let reported = report(book, task, tick);
    assert_eq!(reported.answer, refusal(code, task, tick));
    assert_eq!(reported.book, *book);
}

#[test]
fn code_1_too_long_a_text() {
    let mut text = small_text();
    text.resize(32_769, b'x');
    check_text(&text, 1, 0, 0);
    check_text(&[b'\n'; 32_769], 1, 0, 0);
    check_text(&vec![0; 100_000], 1, 0, 0);
}

#[test]
fn code_1_does_not_take_a_text_of_32_768_bytes() {
    let mut text = small_text();
    text.resize(32_768, b'x');
    check_text(&text, 5, 5, 0);
    check_text(&[b'p'; 32_768], 2, 1, 0);
}

#[test]
fn code_2_first_line_missing_or_cut() {
    for text in ["", "\n", "plan", "plan\t1\t2\t3", "\0", "\t\t\t\n", "\r\n"] {
        check_text(text.as_bytes(), 2, 1, 0);
    }
    check_text(&small_text()[1..], 2, 1, 0);
    check_text(&[b"\n", &small_text()[..]].concat(), 2, 1, 0);
    check_text(&[b"\xef\xbb\xbf", &small_text()[..]].concat(), 2, 1, 0);
}

#[test]
fn code_2_first_line_misspelt() {
    let lines = [
        "plan\t1\t2",
        "plan\t1\t2\t3\t",
        "plan\t1\t2\t3\t4",
        "plan 1 2 3",
        "plan\t\t1\t2\t3",
        "plan\t1\t2\t3 ",
        "plan\t1\t2\t3\r",
        "plan\t1\t2\t\0",
        "\tplan\t1\t2\t3",
        "Plan\t1\t2\t3",
        "task\t1\t2\t3",
        "\t1\t2\t3",
        "plan\t0\t2\t3",
        "plan\t3\t2\t3",
        "plan\t12\t2\t3",
        "plan\t01\t2\t3",
        "plan\t02\t2\t3",
        "plan\t4294967298\t2\t3",
        "plan\t-\t2\t3",
        "plan\t1\t-\t3",
        "plan\t1\t2\t-",
        "plan\t1\t\t3",
        "plan\t1\t2\t",
        "plan\t1\t02\t3",
        "plan\t1\t2\t03",
        "plan\t1\t+2\t3",
        "plan\t1\t2\t+3",
    ];
    for line in lines {
        check_text(&small_with(1, line), 2, 1, 0);
    }
}

#[test]
fn code_2_first_line_out_of_range() {
    for boards in ["0", "9", "255", "256", "258", "4294967298", FORTY_DIGITS] {
        check_text(&small_with_field(1, 3, boards), 2, 1, 0);
    }
    for tasks in ["0", "65", "255", "256", "259", "4294967299", FORTY_DIGITS] {
        check_text(&small_with_field(1, 4, tasks), 2, 1, 0);
    }
}

#[test]
fn code_3_a_line_missing_or_without_lf() {
    check_text(b"plan\t1\t2\t3\n", 3, 2, 1);
    let mut cut = small_text();
    cut.pop();
    check_text(&cut, 3, 4, 20);
    check_text(&small_with_field(1, 4, "4"), 3, 5, 1);
    check_text(&small_with(3, ""), 3, 3, 1);
    check_text(&small_with(2, "\n"), 3, 2, 1);
}

#[test]
fn code_3_fields_too_few_or_too_many() {
    check_text(&small_with(2, "task\t1\t1\t0\t5\te1"), 3, 2, 16);
    check_text(&small_with(2, "task\t1\t1\t0\t5\te1\t-\t"), 3, 2, 19);
    check_text(&small_with(2, "task\t1\t1\t0\t5\te1\t-\t-"), 3, 2, 19);
    check_text(&small_with(2, "task\t\t1\t1\t0\t5\te1\t-"), 3, 2, 6);
    check_text(&small_with(2, "task 1 1 0 5 e1 -"), 3, 2, 1);
    check_text(&small_with(2, "\ttask\t1\t1\t0\t5\te1\t-"), 3, 2, 1);
}

#[test]
fn code_3_wrong_word() {
    for word in ["", "Task", "tasks", "tas", "plan", "task ", "-", "1"] {
        check_text(&small_with_field(3, 1, word), 3, 3, 1);
    }
}

#[test]
fn code_3_misspelt_numbers() {
    let misspelt = [
        "", "-", "+1", "-1", "01", "00", " 1", "1 ", "1.0", "0x1", "1\r", "\0", "1\0", "one",
        "1,1", "\u{663}", "1e0", "1_0",
    ];
    for (field, column) in [(2, 6), (3, 8), (4, 10), (5, 12)] {
        for number in misspelt {
            check_text(&small_with_field(4, field, number), 3, 4, column);
        }
    }
}

#[test]
fn code_3_misspelt_lists() {
    let holds = [
        "", ",", ",e1", "e1,", "e1,,e2", "e01", "e00", "e", "s", "x1", "E1", "S1", "1", "e1 ",
        "e 1", " e1", "-,e1", "e1,-", "e-1", "e+1", "--", "e1;e2", "e1\r", "e1\0", "es1", "e1, e2",
    ];
    for list in holds {
        check_text(&small_with_field(2, 6, list), 3, 2, 14);
    }
    let afters = [
        "", ",", ",1", "1,", "1,,2", "01", "00", "e1", "-1", "+1", "--", "1,-", "-,1", "1 ", "1;2",
        "1\r", "1\0", "1, 2",
    ];
    for list in afters {
        check_text(&small_with_field(4, 7, list), 3, 4, 17);
    }
}

#[test]
fn code_3_comes_before_4_in_one_line_only() {
    check_text(&small_with(2, "task\t9\t9\t5\t0\te0\t01"), 3, 2, 17);
    let list_broken = "task\t1\t1\t0\t1000001\te1\t1,";
    check_text(&small_with(2, list_broken), 3, 2, 23);
    let mut text = small_with_field(2, 2, "2");
    text.truncate(text.len() - 5);
    check_text(&text, 4, 2, 6);
}

#[test]
fn code_4_numbers_out_of_range() {
    for number in ["0", "2", "65", "257", "4294967297", FORTY_DIGITS] {
        check_text(&small_with_field(2, 2, number), 4, 2, 6);
    }
    for board in ["0", "3", "8", "257", "4294967297", FORTY_DIGITS] {
        check_text(&small_with_field(3, 3, board), 4, 3, 8);
    }
    // A start in range leaves the finish, behind it, not above it.
    for (begin, column) in [("9", 12), ("10", 13), ("1000000", 18)] {
        check_text(&small_with_field(4, 4, begin), 4, 4, column);
    }
    for begin in ["1000001", "4294967296", FORTY_DIGITS] {
        check_text(&small_with_field(4, 4, begin), 4, 4, 10);
    }
    for finish in ["0", "4", "5", "1000001", "4294967305", FORTY_DIGITS] {
        check_text(&small_with_field(4, 5, finish), 4, 4, 12);
    }
}

#[test]
fn code_4_lists_out_of_range_or_not_rising() {
    let holds = [
        "e0",
        "s0",
        "e33",
        "s33",
        "e1,e1",
        "e1,s1",
        "s1,e1",
        "e2,e1",
        "e1,e3,s2",
        "e0,e1",
        "e1,e33",
        "e128",
        "e4294967297",
    ];
    for list in holds {
        check_text(&small_with_field(2, 6, list), 4, 2, 14);
    }
    let long_holds = vec!["e1"; 40].join(",");
    check_text(&small_with_field(2, 6, &long_holds), 4, 2, 14);
    let forty = format!("e{FORTY_DIGITS}");
    check_text(&small_with_field(2, 6, &forty), 4, 2, 14);
    let afters = [
        "0",
        "4",
        "65",
        "257",
        "1,1",
        "2,1",
        "1,2,2",
        "0,1",
        "1,4",
        "4294967297",
        FORTY_DIGITS,
    ];
    for list in afters {
        check_text(&small_with_field(4, 7, list), 4, 4, 17);
    }
    let long_after = vec!["1"; 70].join(",");
    check_text(&small_with_field(4, 7, &long_after), 4, 4, 17);
}

#[test]
fn code_4_of_an_early_line_comes_before_3_of_a_later_one() {
    let text = "plan\t1\t1\t2\ntask\t1\t2\t0\t1\t-\t-\nnonsense\n";
    check_text(text.as_bytes(), 4, 2, 8);
}

#[test]
fn code_5_bytes_after_the_last_task_line() {
    for tail in ["\n", "x", "\0", " ", "task\t4\t1\t9\t10\t-\t-\n"] {
        check_text(&[&small_text()[..], tail.as_bytes()].concat(), 5, 5, 0);
    }
    check_text(&small_with_field(1, 4, "2"), 5, 4, 0);
    // Bytes after the last line are seen before a faulty pair.
    let mut overlapping = small_with_field(4, 4, "4");
    overlapping.push(b'x');
    check_text(&overlapping, 5, 5, 0);
}

/// The small plan's text so many ticks later.
fn small_later(by: u32) -> Vec<u8> {
    plan_text(&moved_later(&small_plan(), by))
}

#[test]
fn code_17_no_task_at_tick_0() {
    for by in [1, 2, 30_000, 999_991] {
        check_text(&small_later(by), 17, by, 0);
    }
    // The least planned start, whichever task has it.
    let text =
        "plan\t1\t2\t3\ntask\t1\t1\t8\t9\t-\t-\ntask\t2\t1\t3\t4\t-\t-\ntask\t3\t2\t5\t6\t-\t-\n";
    check_text(text.as_bytes(), 17, 3, 0);
    // One task at 0 is enough, also the last one.
    let last_at_0 = text.replace("task\t3\t2\t5", "task\t3\t2\t0");
    assert_eq!(read_plan(last_at_0.as_bytes()).answer, Answer::ACCEPTED);
}

#[test]
fn code_17_comes_after_5_and_before_6() {
    let text = small_later(7);
    check_text(&[&text[..], b"\n"].concat(), 5, 5, 0);
    check_text(&text[..text.len() - 1], 3, 4, 22);
    let text = String::from_utf8(text).unwrap();
    check_text(text.replace("\t12\t", "\t7\t").as_bytes(), 4, 2, 12);
    for (what, by_pair) in [
        ("task\t2\t2\t", "task\t2\t1\t"),
        ("\ts3\t", "\te3\t"),
        ("\t1,2\n", "\t1,3\n"),
    ] {
        let faulty = text.replace(what, by_pair);
        assert_ne!(faulty, text);
        check_text(faulty.as_bytes(), 17, 7, 0);
    }
}

#[test]
fn code_9_plan_or_book_with_no_task_at_tick_0() {
    for rule in Rule::BOTH {
        for by in [1, 30_000] {
            let what = format!("{by} ticks late");
            let late = moved_later(&small_plan(), by);
            check_plan_9(&late, &what);
            for reports in [&[][..], &[(2, 3)], &[(2, 3), (1, 4)]] {
                let book = book_of(rule, &small_text(), reports);
                check_book_9(&on_other_plan(&book, &late), &what);
            }
        }
    }
}

#[test]
fn code_6_overlap_on_one_board() {
    check_text(&small_with(4, "task\t3\t1\t4\t9\t-\t-"), 6, 1, 3);
    check_text(&small_with(3, "task\t2\t1\t4\t5\ts3\t-"), 6, 1, 2);
    // The board is looked at before drives and after.
    check_text(&small_with(4, "task\t3\t1\t4\t9\te1\t1"), 6, 1, 3);
    let touching = small_with(4, "task\t3\t2\t4\t9\t-\t-");
    assert_eq!(read_plan(&touching).answer, Answer::ACCEPTED);
}

#[test]
fn code_7_overlap_on_a_drive() {
    for (first, second) in [("e3", "e3"), ("e3", "s3"), ("s3", "e3")] {
        let lines = [
            "plan\t1\t2\t2".to_string(),
            format!("task\t1\t1\t0\t5\te1,{first}\t-"),
            format!("task\t2\t2\t4\t6\t{second},e9\t-"),
        ];
        check_text((lines.join("\n") + "\n").as_bytes(), 7, 1, 2);
    }
    // Drives are looked at before after.
    check_text(&small_with(3, "task\t2\t2\t0\t4\te1\t1"), 7, 1, 2);
    let touching = small_with(3, "task\t2\t2\t5\t6\te3\t-");
    assert_eq!(read_plan(&touching).answer, refusal(8, 2, 3));
    let shared = small_with(3, "task\t2\t2\t0\t4\ts3\t-");
    assert_eq!(read_plan(&shared).answer, Answer::ACCEPTED);
}

#[test]
fn code_8_after_broken_in_either_direction() {
    check_text(&small_with(2, "task\t1\t1\t0\t5\t-\t1"), 8, 1, 1);
    check_text(&small_with(3, "task\t2\t2\t0\t4\t-\t1"), 8, 1, 2);
    check_text(&small_with(2, "task\t1\t1\t0\t5\t-\t2"), 8, 1, 2);
    check_text(&small_with(2, "task\t1\t1\t0\t5\t-\t3"), 8, 1, 3);
    check_text(&small_with(4, "task\t3\t2\t4\t9\t-\t1"), 8, 1, 3);
    check_text(&small_with(4, "task\t3\t2\t4\t9\t-\t2,3"), 8, 3, 3);
}

#[test]
fn the_first_faulty_pair_is_by_a_then_b() {
    let (first, last) = ("task\t1\t1\t0\t5\t-\t-", "task\t3\t1\t4\t9\te1\t3");
    let text = format!("plan\t1\t2\t3\n{first}\ntask\t2\t2\t0\t4\t-\t2\n{last}\n");
    // (1, 3) shares a board, (2, 2) and (3, 3) break after.
    check_text(text.as_bytes(), 6, 1, 3);
    let text = text.replace("task\t1\t1\t0\t5", "task\t1\t1\t0\t4");
    check_text(text.as_bytes(), 8, 2, 2);
}

#[test]
fn code_9_plan_counts_out_of_range() {
    for boards in [0, 1, 9, 255] {
        let plan = Plan {
            boards,
            ..small_plan()
        };
        check_plan_9(&plan, &format!("boards {boards}"));
    }
    for tasks in [0, 1, 2, 4, 65, 255] {
        let plan = Plan {
            tasks,
            ..small_plan()
        };
        check_plan_9(&plan, &format!("tasks {tasks}"));
    }
    check_plan_9(&Plan::ZERO, "zeros");
}

#[test]
fn code_9_plan_numbers_out_of_range() {
    for board in [0, 3, 9, 255] {
        let mut plan = small_plan();
        plan.board[1] = board;
        check_plan_9(&plan, &format!("board {board}"));
    }
    for begin in [9, 10, u32::MAX] {
        let mut plan = small_plan();
        plan.begin[2] = begin;
        check_plan_9(&plan, &format!("begin {begin}"));
    }
    for finish in [0, 5, 1_000_001, u32::MAX] {
        let mut plan = small_plan();
        plan.finish[2] = finish;
        check_plan_9(&plan, &format!("finish {finish}"));
    }
}

#[test]
fn code_9_plan_lists_out_of_rule() {
    let bad_holds: [&[u8]; 9] = [
        &[1],
        &[66],
        &[67],
        &[255],
        &[2, 2],
        &[2, 3],
        &[3, 2],
        &[4, 2],
        &[0, 4],
    ];
    for holds in bad_holds {
        let mut plan = small_plan();
        plan.holds[32..64].fill(0);
        plan.holds[32..][..holds.len()].copy_from_slice(holds);
        check_plan_9(&plan, &format!("holds {holds:?}"));
    }
    let bad_afters: [&[u8]; 6] = [&[4], &[65], &[255], &[1, 1], &[2, 1], &[0, 1]];
    for after in bad_afters {
        let mut plan = small_plan();
        plan.after[128..192].fill(0);
        plan.after[128..][..after.len()].copy_from_slice(after);
        check_plan_9(&plan, &format!("after {after:?}"));
    }
}

#[test]
fn code_9_plan_keeps_something_past_its_end() {
    let spoil: [Spoiled<Plan>; 9] = [
        ("hold past a list's last item", |p| p.holds[31] = 64),
        ("after past a list's last item", |p| p.after[63] = 1),
        ("board past the last task", |p| p.board[3] = 1),
        ("begin past the last task", |p| p.begin[63] = 1),
        ("finish past the last task", |p| p.finish[3] = 1),
        ("holds past the last task", |p| p.holds[96] = 2),
        ("holds in the last place", |p| p.holds[2047] = 1),
        ("after past the last task", |p| p.after[192] = 1),
        ("after in the last place", |p| p.after[4095] = 1),
    ];
    for (what, change) in spoil {
        let mut plan = small_plan();
        change(&mut plan);
        check_plan_9(&plan, what);
    }
}

#[test]
fn code_9_plan_with_a_faulty_pair() {
    let mut overlapping = small_plan();
    overlapping.begin[2] = 4;
    check_plan_9(&overlapping, "overlap on a board");
    let mut drive = small_plan();
    drive.holds[32] = 6;
    check_plan_9(&drive, "overlap on a drive");
    let mut itself = small_plan();
    itself.after[64] = 2;
    check_plan_9(&itself, "lists itself");
}

#[test]
fn full_lists_are_accepted() {
    let mut plan = small_plan();
    plan.tasks = 1;
    plan.board[1..].fill(0);
    plan.begin[1..].fill(0);
    plan.finish[1..].fill(0);
    plan.holds.fill(0);
    plan.after.fill(0);
    for drive in 1..=32u8 {
        plan.holds[drive as usize - 1] = 2 * drive + drive % 2;
    }
    assert!(accepted(&plan));
    for rule in Rule::BOTH {
        assert!(open_book(&plan, rule).answer.is_accepted());
    }
}

/// Book of plan A with tasks 1 to 3 ended and 4, 5 running from tick 6.
fn late_book(rule: Rule) -> Book {
    let book = book_of(rule, PLAN_A, &REPORTS_A[..3]);
    assert!(sound(&book));
    assert_eq!(book.mark[..5], [2, 2, 2, 1, 1]);
    book
}

#[test]
fn code_9_book_of_no_accepted_run() {
    for rule in Rule::BOTH {
        let spoil: [Spoiled<Book>; 18] = [
            ("a rule that is none", |b| b.rule = 2),
            ("the last byte as a rule", |b| b.rule = 255),
            ("clock after the greatest end", |b| b.clock = 7),
            ("clock before the greatest end", |b| b.clock = 5),
            ("clock at the end of all numbers", |b| b.clock = u32::MAX),
            ("start of a running task moved", |b| b.start[3] = 5),
            ("start at the end of all numbers", |b| b.start[3] = u32::MAX),
            ("start of an ended task moved", |b| b.start[1] = 1),
            ("end after the limit", |b| b.end[1] = 5),
            ("end that moves a later start", |b| b.end[1] = 2),
            ("end of a running task", |b| b.end[3] = 7),
            ("end at the start", |b| b.end[0] = 0),
            ("a mark that is none", |b| b.mark[3] = 3),
            ("running made waiting", |b| b.mark[3] = 0),
            ("ended made running", |b| b.mark[2] = 1),
            ("mark past the last task", |b| b.mark[5] = 1),
            ("start past the last task", |b| b.start[5] = 1),
            ("end past the last task", |b| b.end[63] = 1),
        ];
        for (what, change) in spoil {
            let mut book = late_book(rule);
            change(&mut book);
            check_book_9(&book, what);
        }
        check_book_9(&Book::ZERO, "zeros");
    }
}

#[test]
fn code_9_book_with_a_waiting_or_running_task_out_of_place() {
    for rule in Rule::BOTH {
        let fresh = book_of(rule, PLAN_A, &[]);
        let spoil: [Spoiled<Book>; 5] = [
            ("waits for nobody but has not started", |b| b.mark[0] = 0),
            ("runs while one it waits for runs", |b| b.mark[2] = 1),
            ("a waiting task knows its start", |b| b.start[4] = 6),
            ("a waiting task knows its end", |b| b.end[4] = 6),
            ("a plan that is not accepted", |b| b.begin[2] = 3),
        ];
        for (what, change) in spoil {
            let mut book = fresh;
            change(&mut book);
            check_book_9(&book, what);
        }
        // Task 1's limit is 6: the clock cannot have passed it while it runs.
        let mut passed = book_of(rule, PLAN_A, &[(2, 4)]);
        passed.mark[2] = 2;
        passed.end[2] = 7;
        passed.clock = 7;
        check_book_9(&passed, "a running task's limit has passed");
        let sound_sibling = book_of(rule, PLAN_A, &[(2, 4), (3, 6)]);
        assert!(sound(&sound_sibling));
    }
}

#[test]
fn code_10_no_such_task() {
    for rule in Rule::BOTH {
        let book = late_book(rule);
        for task in [0, 6, 64, 65, 256, 257, 999_999, u32::MAX] {
            for tick in [0, 7, u32::MAX] {
                check_report(&book, task, tick, 10);
            }
        }
    }
}

#[test]
fn code_11_waiting_or_ended() {
    for rule in Rule::BOTH {
        for tick in [0, 1, 3, 7, u32::MAX] {
            check_report(&book_of(rule, PLAN_A, &[]), 5, tick, 11);
            check_report(&late_book(rule), 2, tick, 11);
        }
    }
}

#[test]
fn code_12_before_the_clock() {
    for rule in Rule::BOTH {
        check_report(&late_book(rule), 4, 5, 12);
        check_report(&late_book(rule), 4, 0, 12);
        // Task 1 started at 0, so only the clock stands in the way.
        check_report(&book_of(rule, PLAN_A, &[(2, 3)]), 1, 2, 12);
    }
}

#[test]
fn code_13_at_or_before_the_start() {
    for rule in Rule::BOTH {
        check_report(&late_book(rule), 4, 6, 13);
        check_report(&book_of(rule, PLAN_A, &[]), 1, 0, 13);
    }
}

#[test]
fn code_14_after_the_limit() {
    for rule in Rule::BOTH {
        check_report(&late_book(rule), 4, 10, 14);
        check_report(&late_book(rule), 5, 11, 14);
        check_report(&late_book(rule), 5, u32::MAX, 14);
    }
}

/// A limit is at most the planned finish, so above the last tick 14 comes before 15.
#[test]
fn above_the_last_tick_a_running_task_always_gets_14() {
    let to_the_last_tick = b"plan\t1\t2\t3
task\t1\t1\t0\t1000000\t-\t-
task\t2\t2\t0\t5\t-\t-
task\t3\t2\t5\t9\t-\t-
";
    let mut rng = Rng::announced("above the last tick");
    let mut books: Vec<Book> = (0..500).map(|_| random_book(&mut rng)).collect();
    books.extend(Rule::BOTH.map(|rule| book_of(rule, to_the_last_tick, &[])));
    for book in books {
        for task in 0..=u32::from(book.tasks) + 1 {
            let code = match book.mark.get((task as usize).wrapping_sub(1)) {
                _ if task == 0 || task > u32::from(book.tasks) => 10,
                Some(&RUNNING) => 14,
                _ => 11,
            };
            for tick in [1_000_001, 1_000_002, u32::MAX] {
                check_report(&book, task, tick, code);
                let proved = proved::report(&book, task, tick);
                assert_eq!(proved.answer, refusal(code, task, tick));
            }
        }
    }
}

#[test]
fn code_15_after_another_running_limit() {
    for rule in Rule::BOTH {
        // Task 4 may run to 9, task 5 to 10.
        check_report(&late_book(rule), 5, 10, 15);
        assert!(report(&late_book(rule), 5, 9).answer.is_accepted());
        assert!(report(&late_book(rule), 4, 9).answer.is_accepted());
    }
}

#[test]
fn code_16_buffer_too_short() {
    let plan = small_plan();
    let text = small_text();
    let needed = text.len();
    for length in [0, 1, needed - 1] {
        let mut out = vec![7u8; length];
        let written = write_plan(&plan, &mut out);
        assert_eq!(written.answer, refusal(16, needed as u32, 0));
        assert_eq!(written.length, 0);
        assert_eq!(out, vec![7u8; length]);
    }
    for length in [needed, needed + 1, 40_000] {
        let mut out = vec![7u8; length];
        let written = write_plan(&plan, &mut out);
        assert_eq!(written.answer, Answer::ACCEPTED);
        assert_eq!(written.length as usize, needed);
        assert_eq!(out[..needed], text[..]);
        assert!(out[needed..].iter().all(|&byte| byte == 7));
    }
}

/// What runlog prints on plan A after its four opening lines.
fn tail_of_run(ends: &[u8]) -> String {
    let log = String::from_utf8(run_log(PLAN_A, ends)).unwrap();
    log.split_inclusive('\n').skip(4).collect()
}

#[test]
fn runlog_ends_too_long() {
    let long = vec![b'x'; 32_769];
    assert_eq!(run_log(PLAN_A, &long), b"refused\t1\t0\t0\n");
    assert_eq!(run_log(b"", &long), b"refused\t2\t1\t0\n");
    assert_eq!(tail_of_run(&long[1..]), "refused\t3\t1\t1\n");
}

#[test]
fn runlog_malformed_end_lines_stop_the_run() {
    let malformed = [
        ("\n", 1),
        ("end\n", 4),
        ("end\t2\n", 6),
        ("end\t2\t3\t4\n", 9),
        ("end\t2\t3\t\n", 9),
        // It runs into the next line, so its tick is `3end`.
        ("end\t2\t3", 7),
        ("End\t2\t3\n", 1),
        ("start\t2\t3\n", 1),
        ("end 2 3\n", 1),
        ("end\t02\t3\n", 5),
        ("end\t2\t03\n", 7),
        ("end\t-\t3\n", 5),
        ("end\t2\t-\n", 7),
        ("end\t\t3\n", 5),
        ("end\t2\t3\r\n", 7),
        ("end\t2\t\0\n", 7),
        ("end\t+2\t3\n", 5),
        ("end\t1000001\t-1\n", 13),
    ];
    for (line, column) in malformed {
        let ends = [b"end\t9\t1\n", line.as_bytes(), ENDS_A].concat();
        let expected = format!("refused\t10\t9\t1\nrefused\t3\t2\t{column}\n");
        assert_eq!(tail_of_run(&ends), expected, "{line:?}");
    }
    assert_eq!(tail_of_run(b"end\t2\t3"), "refused\t3\t1\t8\n");
}

#[test]
fn runlog_numbers_over_the_last_tick_stop_the_run() {
    for number in ["1000001", "4294967298", FORTY_DIGITS] {
        let tick = format!("end\t2\t{number}\nend\t2\t3\n");
        assert_eq!(tail_of_run(tick.as_bytes()), "refused\t4\t1\t7\n");
        let task = format!("end\t{number}\t3\nend\t2\t3\n");
        assert_eq!(tail_of_run(task.as_bytes()), "refused\t4\t1\t5\n");
    }
}

#[test]
fn runlog_goes_on_after_codes_10_to_15() {
    let ends = "end\t0\t1
end\t65\t2
end\t999999\t1000000
end\t1000000\t0
end\t3\t3
end\t2\t0
end\t2\t1000000
end\t1\t5
end\t2\t3
end\t1\t2
";
    let expected = "refused\t10\t0\t1
refused\t10\t65\t2
refused\t10\t999999\t1000000
refused\t10\t1000000\t0
refused\t11\t3\t3
refused\t13\t2\t0
refused\t14\t2\t1000000
refused\t15\t1\t5
end\t2\t2\t3\t1
start\t3\t2\t3\t1
early\t3\t0
refused\t12\t1\t2
";
    assert_eq!(tail_of_run(ends.as_bytes()), expected);
}

#[test]
fn runlog_without_a_plan() {
    assert_eq!(run_log(b"", b""), b"refused\t2\t1\t0\n");
    assert_eq!(run_log(b"", ENDS_A), b"refused\t2\t1\t0\n");
}
