//! How much stack one call of the proved implementation takes (`proved::Measured` says what counts).

use dispatcher::proved::{measured, Function, Measured, Measuring};
use dispatcher::proved::{LONGEST_JUDGED, LONGEST_LOG, LONGEST_REPORT, LONGEST_TIMETABLE};
use dispatcher::sample::events::{droppable_tasks, must_take, Event};
use dispatcher::sample::logs::{school_log, school_times};
use dispatcher::sample::old_texts::with_all_shared;
use dispatcher::sample::plans::{exclusively_held, full_plan, single_file, with_even_ready_ticks};
use dispatcher::sample::program::{at_root, contents};
use dispatcher::sample::reports::last_moment_report;
use dispatcher::sample::tally::say;
use dispatcher::sample::years::ALL_ONES;
use dispatcher::sample::Rng;
use dispatcher::second::fields::line_of;
use dispatcher::second::text::plan_text;
use dispatcher::second::values::{DROPPED, LONGEST_TEXT};
use dispatcher::{fresh_sheet, open_book};
use dispatcher::{Book, Lengths, Plan, Rule, Sheet, Totals};

const MOST_STACK: u32 = 32_768;

/// What judging a plan took before the clash rule came, and is to take at most.
const MOST_FOR_JUDGING: u32 = 14_352;

/// A text is read, converted and written in one call: a program's whole work, under a limit of its own.
const MOST_FOR_A_TEXT: u32 = 65_536;

/// So are a plan and its ends made a log.
const MOST_FOR_A_LOG: u32 = 98_304;

/// The code is that of the answer; of a judgement it is 1 or 0.
fn check(what: &str, measured: Measured, code: u32) {
    let used = measured.used;
    assert_eq!(measured.code, code, "{what}");
    say(&format!("stack of {what}: {used} bytes"));
    assert!(used <= MOST_STACK, "{what} takes {used} bytes of stack");
}

/// A truth value is the answer's lowest byte; what stands above it in the register is nobody's.
fn check_truth(what: &str, mut measured: Measured, is_true: bool) {
    measured.code &= 0xff;
    check(what, measured, u32::from(is_true));
}

fn check_reading(what: &str, text: &[u8], code: u32) {
    check(what, measured::read_plan(text), code);
}

fn check_writing(what: &str, plan: &Plan, code: u32) {
    check(what, measured::write_plan(plan, &[0; LONGEST_TEXT]), code);
}

fn check_opening(what: &str, plan: &Plan, rule: Rule, code: u32) {
    let measured = measured::open_book(plan, rule == Rule::Clash);
    check(&format!("{what} by {rule:?}"), measured, code);
}

/// A full plan of each edition.
fn full_plans() -> [Plan; 2] {
    let plan = full_plan(&mut Rng::new(7), 64);
    [plan, with_even_ready_ticks(&plan)]
}

/// A task planned at 0 comes after the last one: the order is broken, and every pair is searched in full.
fn with_broken_order(mut plan: Plan) -> Plan {
    let first = (0..63).find(|&task| plan.begin[task] == 0);
    plan.after[64 * first.expect("a plan begins at 0")] = 64;
    plan
}

#[test]
fn no_call_on_a_plan_takes_more_than_32_kib() {
    for plan in full_plans() {
        let text = plan_text(&plan);
        check_reading("reading a plan", &text, 0);
        check_reading("a refused reading", &text[..text.len() - 1], 3);
        check_writing("writing a plan", &plan, 0);
        check_truth("judging a plan", measured::is_accepted(&plan), true);
        assert!(measured::is_accepted(&plan).used <= MOST_FOR_JUDGING);
        check(
            "telling why a plan is refused",
            measured::judge_plan(&plan),
            0,
        );
        let broken = with_broken_order(plan);
        check_truth("a broken order", measured::is_accepted(&broken), false);
        check("telling a broken order", measured::judge_plan(&broken), 8);
        check_reading("reading a broken order", &plan_text(&broken), 8);
        for rule in Rule::BOTH {
            check_opening("opening a book", &plan, rule, 0);
        }
    }
    let [_, mut unready] = full_plans();
    unready.ready[63] = unready.begin[63] + 1;
    check_reading("reading a ready tick too late", &plan_text(&unready), 18);
    check_truth(
        "a ready tick too late",
        measured::is_accepted(&unready),
        false,
    );
    check_writing("a refused writing", &Plan::ZERO, 9);
    check_truth(
        "a plan not accepted",
        measured::is_accepted(&Plan::ZERO),
        false,
    );
    for rule in Rule::BOTH {
        check_opening("a refused opening", &Plan::ZERO, rule, 9);
    }
}

/// `convert_text` is a whole program's work, as `run_log` is, and stands under a limit of its own.
#[test]
fn no_conversion_takes_more_than_32_kib() {
    let [sharing, awaited] = full_plans();
    check("a refused conversion", measured::convert(&sharing), 7);
    check("a conversion of edition 2", measured::convert(&awaited), 9);
    let exclusive = exclusively_held(&sharing);
    check("a conversion", measured::convert(&exclusive), 0);
    let text = plan_text(&with_all_shared(&awaited));
    check_reading("reading a shared hold", &text, 20);
    check("the second call", measured::read_exclusive(&text), 0);
    check(
        "a refused second call",
        measured::read_exclusive(&text[..text.len() - 1]),
        3,
    );
    check(
        "the second call on edition 1",
        measured::read_exclusive(&plan_text(&sharing)),
        2,
    );
}

#[test]
fn a_converted_text_takes_no_more_than_64_kib() {
    for plan in full_plans() {
        let text = plan_text(&exclusively_held(&plan));
        let used = measured::convert_text(&text, &[0; LONGEST_TEXT]).used;
        say(&format!("stack of a converted text: {used} bytes"));
        assert!(used <= MOST_FOR_A_TEXT, "{used}");
    }
}

/// The lengths that the plan has, every second droppable task dropped.
fn lengths_with_drops(plan: &Plan, rule: Rule) -> Lengths {
    let mut given = Lengths::planned(plan);
    let book = open_book(plan, rule).book;
    for task in droppable_tasks(&book).into_iter().step_by(2) {
        given.dropped[task as usize - 1] = DROPPED;
    }
    given
}

fn check_timetable(what: &str, plan: &Plan, rule: Rule, given: &Lengths, code: u32) {
    let measured = measured::timetable(plan, rule == Rule::Clash, given);
    check(&format!("{what} by {rule:?}"), measured, code);
}

#[test]
fn no_timetable_takes_more_than_32_kib() {
    for (plan, rule) in full_plans()
        .iter()
        .flat_map(|plan| Rule::BOTH.map(|rule| (plan, rule)))
    {
        let given = lengths_with_drops(plan, rule);
        check_timetable("a timetable", plan, rule, &given, 0);
        check_timetable(
            "a timetable without drops",
            plan,
            rule,
            &Lengths::planned(plan),
            0,
        );
        let all_dropped = Lengths {
            dropped: [DROPPED; 64],
            ..given
        };
        check_timetable("a timetable with all dropped", plan, rule, &all_dropped, 19);
        let mut wrong = given;
        wrong.length[63] = 0;
        wrong.dropped[63] = 0;
        check_timetable("a timetable with a wrong length", plan, rule, &wrong, 22);
        check_timetable("a timetable of no plan", &Plan::ZERO, rule, &given, 9);
    }
}

#[test]
fn the_text_of_a_timetable_takes_no_more_than_64_kib() {
    for plan in full_plans() {
        let text = plan_text(&plan);
        let lengths: Vec<u8> = (1..=64)
            .flat_map(|task| line_of("length", &[task, 1]))
            .collect();
        for (lengths, code) in [
            (&b""[..], 0),
            (b"rule\tclash\n", 0),
            (&lengths, 0),
            (b"length\n", 3),
        ] {
            let asked = measured::read_lengths(&plan, lengths);
            check("reading lengths", asked, code);
            let used = measured::write_timetable(&text, lengths, &[0; LONGEST_TIMETABLE]).used;
            say(&format!("stack of the text of a timetable: {used} bytes"));
            assert!(used <= MOST_FOR_A_TEXT, "{used}");
        }
    }
}

/// The texts of a morning of 64 tasks, whose log is the longest of the examples.
#[test]
fn a_whole_log_takes_no_more_than_96_kib() {
    let [plan, ends] =
        ["plan.txt", "ends.txt"].map(|name| contents(&at_root("examples/full-morning").join(name)));
    for ends in [&ends[..], b"", &[b"rule\tclash\n", &ends[..]].concat()] {
        let used = measured::run_log(&plan, ends, &[0; LONGEST_LOG]).used;
        say(&format!("stack of a whole log: {used} bytes"));
        assert!(used <= MOST_FOR_A_LOG, "{used}");
    }
}

/// A school's log of the plan, and that log with a fault for each code.
fn logs_of(plan: &Plan) -> [(Vec<u8>, u32); 6] {
    let mut rng = Rng::new(11);
    let times = school_times(&mut rng, plan);
    let log = school_log(&mut rng, plan, &times);
    let [mut short, mut clashing, mut late] = [times; 3];
    short.end[63] = short.start[63];
    // The last task of a board begins with the first one, or runs after all others and late.
    let before = (0..63).find(|&i| plan.board[i] == plan.board[63]);
    clashing.start[63] = times.start[before.expect("a board has several tasks")];
    clashing.end[63] = clashing.start[63] + 1;
    late.start[63] = 999_999;
    late.end[63] = 1_000_000;
    let [short, clashing, late] =
        [short, clashing, late].map(|times| school_log(&mut rng, plan, &times));
    let doubled = [
        &log[..],
        &line_of("end", &[64, plan.board[63].into(), 1, 0]),
    ]
    .concat();
    let unread = [&log[..], b"end\n"].concat();
    [
        (log, 0),
        (unread, 23),
        (doubled, 24),
        (short, 25),
        (clashing, 26),
        (late, 27),
    ]
}

#[test]
fn no_log_judged_takes_more_than_32_kib() {
    for plan in full_plans() {
        for (log, code) in logs_of(&plan) {
            check("judging a log", measured::judge_log(&plan, &log), code);
        }
        let long = [b'7'; LONGEST_TEXT + 1];
        check("judging a long log", measured::judge_log(&plan, &long), 1);
    }
    check("a log of no plan", measured::judge_log(&Plan::ZERO, b""), 9);
}

#[test]
fn no_log_added_takes_more_than_32_kib() {
    let full_year = Totals {
        accepted: 10_000,
        ..Totals::ZERO
    };
    for plan in full_plans() {
        for (log, _) in logs_of(&plan) {
            let added = measured::add_log(&Totals::ZERO, &plan, &log);
            check("a log added to a year", added, 0);
            check(
                "a log too many",
                measured::add_log(&full_year, &plan, &log),
                28,
            );
            check(
                "a log added to no totals",
                measured::add_log(&ALL_ONES, &plan, &log),
                9,
            );
        }
    }
    for totals in [Totals::ZERO, full_year, ALL_ONES] {
        let used = measured::write_report(&totals, true, &[0; LONGEST_REPORT]).used;
        say(&format!("stack of a year's report: {used} bytes"));
        assert!(used <= MOST_STACK, "{used}");
    }
}

#[test]
fn the_text_of_a_log_judged_takes_no_more_than_64_kib() {
    for plan in full_plans() {
        let text = plan_text(&plan);
        for (log, _) in logs_of(&plan) {
            let used = measured::write_judged(&text, &log, &[0; LONGEST_JUDGED]).used;
            say(&format!("stack of the text of a log judged: {used} bytes"));
            assert!(used <= MOST_FOR_A_TEXT, "{used}");
        }
    }
}

#[test]
fn no_call_on_a_book_takes_more_than_32_kib() {
    for plan in full_plans() {
        for rule in Rule::BOTH {
            check_calls_on(&open_book(&plan, rule).book, rule);
        }
    }
    check_truth("a book not sound", measured::is_sound(&Book::ZERO), false);
    check("a refused figure", measured::exact_early(&Book::ZERO), 9);
}

/// Every call on a fresh book by that rule.
fn check_calls_on(book: &Book, rule: Rule) {
    let by_rule = |what: &str| format!("{what} by {rule:?}");
    let (task, tick) = last_moment_report(book).expect("a fresh book has running tasks");
    check(&by_rule("a report"), measured::report(book, task, tick), 0);
    check(
        &by_rule("a refused report"),
        measured::report(book, 65, tick),
        10,
    );
    check(&by_rule("M"), measured::minimum_early(book), 0);
    check(&by_rule("the exact figure"), measured::exact_early(book), 0);
    check_truth(&by_rule("judging a book"), measured::is_sound(book), true);
    let droppable = droppable_tasks(book);
    check(&by_rule("a drop"), measured::drop(book, droppable[0]), 0);
    check(&by_rule("a refused drop"), measured::drop(book, task), 19);
    let all_dropped = droppable
        .iter()
        .fold(*book, |book, &task| must_take(&book, Event::Drop(task)));
    let with_drops = by_rule("a report with drops");
    check(&with_drops, measured::report(&all_dropped, task, tick), 0);
    check_truth(
        &by_rule("judging drops"),
        measured::is_sound(&all_dropped),
        true,
    );
}

/// Asked of the last of 64 tasks in single file, the recursion from task to cause is 64 deep.
#[test]
fn a_chain_of_64_links_takes_no_more_than_32_kib() {
    for rule in Rule::BOTH {
        let mut book = open_book(&single_file(), rule).book;
        while let Some((task, tick)) = last_moment_report(&book) {
            book = must_take(&book, Event::End(task, tick));
        }
        let alone = measured::why(&book, 1).used;
        for links in [1, 2, 32, 64] {
            let what = format!("a chain of {links} links by {rule:?}");
            check(&what, measured::why(&book, links), 0);
            // The call comes last, so the compiler makes a jump of it: a step takes no stack.
            assert_eq!(measured::why(&book, links).used, alone, "{what}");
        }
        check("a refused chain", measured::why(&book, 65), 10);
    }
    check("a chain not sound", measured::why(&Book::ZERO, 1), 9);
}

/// Book and sheet together, half way through a morning and with drops.
#[test]
fn no_call_on_a_sheet_takes_more_than_32_kib() {
    for plan in full_plans() {
        for rule in Rule::BOTH {
            let fresh = open_book(&plan, rule).book;
            check_sheet_calls(&fresh, rule);
            let dropped = droppable_tasks(&fresh)
                .iter()
                .take(16)
                .fold(fresh, |book, &task| must_take(&book, Event::Drop(task)));
            check_sheet_calls(&dropped, rule);
        }
    }
    check("a refused sheet", measured::make_sheet(&Book::ZERO), 9);
}

fn check_sheet_calls(book: &Book, rule: Rule) {
    let by_rule = |what: &str| format!("{what} by {rule:?}");
    let sheet = fresh_sheet(book);
    let (task, tick) = last_moment_report(book).expect("a fresh book has running tasks");
    check(&by_rule("making a sheet"), measured::make_sheet(book), 0);
    let reported = measured::report_sheet(book, &sheet, task, tick);
    check(&by_rule("a report with its sheet"), reported, 0);
    let refused = measured::report_sheet(book, &sheet, 65, tick);
    check(&by_rule("a refused report with its sheet"), refused, 10);
    let other = measured::report_sheet(book, &Sheet::ZERO, task, tick);
    check(&by_rule("a report with another sheet"), other, 9);
    let waiting = droppable_tasks(book)[0];
    let dropped = measured::drop_sheet(book, &sheet, waiting);
    check(&by_rule("a drop with its sheet"), dropped, 0);
    check(
        &by_rule("asking for a drive"),
        measured::on_drive(book, &sheet, 7),
        0,
    );
    check(
        &by_rule("asking for drive 33"),
        measured::on_drive(book, &sheet, 33),
        21,
    );
}

#[test]
fn the_measure_itself_is_right() {
    let nothing = Measuring::of(Function::Nothing).measured();
    assert_eq!(nothing.used, 16);
    let value = Measuring::of(Function::Nothing).value(&[1; 160]).measured();
    assert_eq!(value.used, 176);
    let known = Measuring::of(Function::KnownFrame).measured().used;
    assert!((20_000..20_500).contains(&known), "{known}");
}
