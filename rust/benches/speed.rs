//! Times of the proved implementation and of the second dispatcher, on the
//! same inputs in one run, and their ratio.
//!
//! `cargo bench` takes the times; `cargo test` only calls everything once, and
//! so does `cargo bench` where the proved implementation runs under an emulator.

use dispatcher::sample::events::{
    droppable_tasks, ends_text, event_line, must_take, passed_tasks, Event,
};
use dispatcher::sample::lengths::{lengths_text, Case};
use dispatcher::sample::live::{desk_program, folder_with, is_last, quick_place};
use dispatcher::sample::logs::{own_log, school_log, school_times};
use dispatcher::sample::mornings::random_morning;
use dispatcher::sample::old_texts::with_all_shared;
use dispatcher::sample::plans::{exclusively_held, full_plan, single_file, with_even_ready_ticks};
use dispatcher::sample::program::empty_folder;
use dispatcher::sample::reports::{accepted_report, last_moment_report, Report};
use dispatcher::sample::years::any_totals;
use dispatcher::sample::Rng;
use dispatcher::second::text::plan_text;
use dispatcher::second::values::LONGEST_TEXT;
use dispatcher::{
    accepted, convert, convert_text, drop_task, exact_early, minimum_early, open_book,
};
use dispatcher::{
    add_log, judge_log, judged_text, proved, read_exclusive, read_plan, report, report_text,
    run_log, timetable, timetable_text, why, write_plan,
};
use dispatcher::{drop_sheet, fresh_sheet, make_sheet, on_drive, report_sheet};
use dispatcher::{Answer, Book, Lengths, Plan, Rule, Totals};
use std::fs;
use std::hint::black_box;
use std::io::{BufRead, BufReader, Write};
use std::process::{Child, ChildStdin, ChildStdout, Stdio};
use std::time::{Duration, Instant};

/// Short rounds and many, since others may be at work on the same machine.
const ROUND: Duration = Duration::from_millis(2);
const ROUNDS: u32 = 250;

/// Prints the best times of both, their rounds taken in turn, and the ratio; answers the
/// proved one's, where times are taken.
fn time_both<T: PartialEq>(
    rounds: u32,
    what: &str,
    mut proved: impl FnMut() -> T,
    mut rust: impl FnMut() -> T,
) -> Option<f64> {
    assert!(proved() == rust(), "{what}: the answers differ");
    if rounds == 0 {
        println!("{what:<28}the answers agree");
        return None;
    }
    let (mut best_proved, mut best_rust) = (f64::MAX, f64::MAX);
    for _ in 0..rounds {
        best_proved = best_proved.min(mean_time(&mut proved));
        best_rust = best_rust.min(mean_time(&mut rust));
    }
    let ratio = best_proved / best_rust;
    println!("{what:<28}{best_proved:>12.0}{best_rust:>12.0}{ratio:>10.2}");
    Some(best_proved)
}

/// Nanoseconds a call, over calls in tens until the round is over.
fn mean_time<T>(call: &mut impl FnMut() -> T) -> f64 {
    let start = Instant::now();
    let mut calls = 0;
    loop {
        for _ in 0..10 {
            black_box(call());
        }
        calls += 10;
        let elapsed = start.elapsed();
        if elapsed >= ROUND {
            return elapsed.as_nanos() as f64 / f64::from(calls);
        }
    }
}

fn time_texts(rounds: u32, plan: &Plan) {
    let text = plan_text(plan);
    assert_eq!(read_plan(&text).answer, Answer::ACCEPTED);
    time_both(
        rounds,
        &format!("read 64 tasks, {} bytes", text.len()),
        || proved::read_plan(black_box(&text)),
        || read_plan(black_box(&text)),
    );
    time_both(
        rounds,
        "judge them as a value",
        || proved::accepted(black_box(plan)),
        || accepted(black_box(plan)),
    );
    let (mut out, mut other_out) = ([0; LONGEST_TEXT], [0; LONGEST_TEXT]);
    time_both(
        rounds,
        "write them",
        || proved::write_plan(black_box(plan), black_box(&mut out)),
        || write_plan(black_box(plan), black_box(&mut other_out)),
    );
    assert!(out == other_out);
}

/// Plans of either edition made into ones that share no drive, the first as it is
/// accepted.
fn time_conversions(rounds: u32, plan: &Plan) {
    let old = exclusively_held(plan);
    assert_eq!(convert(&old).answer, Answer::ACCEPTED);
    time_both(
        rounds,
        "convert 64 tasks",
        || proved::convert(black_box(&old)),
        || convert(black_box(&old)),
    );
    let text = plan_text(&with_all_shared(&with_even_ready_ticks(plan)));
    assert_eq!(read_exclusive(&text).answer, Answer::ACCEPTED);
    time_both(
        rounds,
        &format!("second call, {} bytes", text.len()),
        || proved::read_exclusive(black_box(&text)),
        || read_exclusive(black_box(&text)),
    );
    let (text, mut out) = (plan_text(&old), vec![0; proved::CONVERTED_ROOM]);
    time_both(
        rounds,
        &format!("convert a text, {} bytes", text.len()),
        || proved::write_converted(black_box(&text), black_box(&mut out)),
        || convert_text(black_box(&text)).len(),
    );
}

/// A book half way through its morning by the rule, and a report it accepts.
fn half_a_morning(rng: &mut Rng, plan: &Plan, rule: Rule) -> (Book, Report) {
    let mut book = open_book(plan, rule).book;
    for _ in 0..plan.tasks / 2 {
        let (task, tick) = accepted_report(rng, &book).expect("half the tasks have not ended");
        book = report(&book, task, tick).book;
    }
    let next = accepted_report(rng, &book).expect("half the tasks have not ended");
    (book, next)
}

/// A report, M and the exact figure; answers the proved report's time.
fn time_book(rounds: u32, rng: &mut Rng, plan: &Plan, rule: Rule) -> Option<f64> {
    let tasks = plan.tasks;
    let (book, (task, tick)) = half_a_morning(rng, plan, rule);
    assert_eq!(report(&book, task, tick).answer, Answer::ACCEPTED);
    let time_of_report = time_both(
        rounds,
        &format!("report, {tasks} tasks"),
        || proved::report(black_box(&book), task, tick),
        || report(black_box(&book), task, tick),
    );
    time_both(
        rounds,
        &format!("M, {tasks} tasks"),
        || proved::minimum_early(black_box(&book)),
        || minimum_early(black_box(&book)),
    );
    time_both(
        rounds,
        &format!("exact figure, {tasks} tasks"),
        || proved::exact_early(black_box(&book)),
        || exact_early(black_box(&book)),
    );
    time_of_report
}

/// The longest chain of the plan's whole morning by the rule.
fn time_chain(rounds: u32, plan: &Plan, rule: Rule) {
    let mut book = open_book(plan, rule).book;
    while let Some((task, tick)) = last_moment_report(&book) {
        book = must_take(&book, Event::End(task, tick));
    }
    let links = |task: &u32| why(&book, *task).count;
    let asked = (1..=u32::from(plan.tasks))
        .max_by_key(links)
        .expect("a plan has tasks");
    time_both(
        rounds,
        &format!("why, chain of {}", links(&asked)),
        || proved::why(black_box(&book), asked),
        || why(black_box(&book), asked),
    );
}

/// A report with its sheet against a report and a sheet made anew.
fn time_sheets(rounds: u32, rng: &mut Rng, plan: &Plan, rule: Rule) {
    let (book, (task, tick)) = half_a_morning(rng, plan, rule);
    let sheet = fresh_sheet(&book);
    let waiting = droppable_tasks(&book)[0];
    time_both(
        rounds,
        "make a sheet, 64 tasks",
        || proved::make_sheet(black_box(&book)),
        || make_sheet(black_box(&book)),
    );
    time_both(
        rounds,
        "report with its sheet",
        || proved::report_sheet(black_box(&book), black_box(&sheet), task, tick),
        || report_sheet(black_box(&book), black_box(&sheet), task, tick),
    );
    time_both(
        rounds,
        "report, then make a sheet",
        || proved::make_sheet(&proved::report(black_box(&book), task, tick).book),
        || make_sheet(&report(black_box(&book), task, tick).book),
    );
    time_both(
        rounds,
        "drop with its sheet",
        || proved::drop_sheet(black_box(&book), black_box(&sheet), waiting),
        || drop_sheet(black_box(&book), black_box(&sheet), waiting),
    );
    time_both(
        rounds,
        "ask for drive 7",
        || proved::on_drive(black_box(&book), black_box(&sheet), 7),
        || on_drive(black_box(&book), black_box(&sheet), 7),
    );
}

/// One plan by both rules: opening, report, M, drops, a chain and sheets, and what the clash rule costs.
fn time_rules(rounds: u32, rng: &mut Rng, plan: &Plan) {
    let times = Rule::BOTH.map(|rule| {
        println!("by {rule:?}");
        time_both(
            rounds,
            &format!("open, {} tasks", plan.tasks),
            || proved::open_book(black_box(plan), rule),
            || open_book(black_box(plan), rule),
        );
        let time_of_report = time_book(rounds, rng, plan, rule);
        time_drops(rounds, rng, plan, rule);
        time_chain(rounds, plan, rule);
        time_sheets(rounds, rng, plan, rule);
        time_of_report
    });
    if let [Some(early_start), Some(clash)] = times {
        let ratio = clash / early_start;
        println!("proved report by the clash rule to one by Early Start: {ratio:.2}");
    }
}

fn text_of_morning(name: &str) -> Vec<u8> {
    let folder = concat!(env!("CARGO_MANIFEST_DIR"), "/../examples/full-morning");
    fs::read(format!("{folder}/{name}")).expect("the example has its texts")
}

/// The program's whole work: two texts in memory, the log to memory.
fn time_run(rounds: u32, what: &str, plan: &[u8], ends: &[u8]) {
    let mut out = vec![0; proved::LONGEST_LOG];
    let length = proved::write_log(plan, ends, &mut out);
    assert!(out[..length] == run_log(plan, ends));
    time_both(
        rounds,
        what,
        || proved::write_log(black_box(plan), black_box(ends), black_box(&mut out)),
        || run_log(black_box(plan), black_box(ends)).len(),
    );
}

fn time_random_morning(rounds: u32, rng: &mut Rng, plan: &Plan) {
    let events = random_morning(rng, plan, Rule::EarlyStart).events;
    let ends = ends_text(Rule::EarlyStart, &events);
    time_run(rounds, "whole run, 64 tasks", &plan_text(plan), &ends);
}

/// A fresh book with a quarter of its tasks dropped, those that follow each
/// other by the plan from its middle on.
fn with_a_quarter_dropped(plan: &Plan, rule: Rule) -> Book {
    let mut book = open_book(plan, rule).book;
    let mut droppable = droppable_tasks(&book);
    droppable.sort_by_key(|&task| plan.begin[task as usize - 1]);
    let from = droppable.len() / 2;
    for &task in droppable[from..].iter().take(plan.task_count() / 4) {
        book = must_take(&book, Event::Drop(task));
    }
    book
}

/// The report of a morning that lets the most dropped tasks pass, the book
/// before it, and how many they are.
fn report_with_most_passing(rng: &mut Rng, plan: &Plan, rule: Rule) -> (Book, Report, usize) {
    let mut book = with_a_quarter_dropped(plan, rule);
    let mut best = (book, (0, 0), 0);
    while let Some((task, tick)) = accepted_report(rng, &book) {
        let next = must_take(&book, Event::End(task, tick));
        let passed = passed_tasks(&book, &next).len();
        if passed > best.2 {
            best = (book, (task, tick), passed);
        }
        book = next;
    }
    best
}

fn time_drops(rounds: u32, rng: &mut Rng, plan: &Plan, rule: Rule) {
    let (book, (task, tick), passed) = report_with_most_passing(rng, plan, rule);
    assert!(passed >= 3, "no chain of dropped tasks");
    time_both(
        rounds,
        &format!("report, {passed} dropped pass"),
        || proved::report(black_box(&book), task, tick),
        || report(black_box(&book), task, tick),
    );
    let waiting = droppable_tasks(&book)[0];
    time_both(
        rounds,
        "drop, 64 tasks",
        || proved::drop_task(black_box(&book), waiting),
        || drop_task(black_box(&book), waiting),
    );
}

/// The engine without reports by both rules, with short lengths and a quarter of the tasks dropped, and its program's work.
fn time_timetables(rounds: u32, rng: &mut Rng, plan: &Plan) {
    for rule in Rule::BOTH {
        let mut given = Lengths::planned(plan);
        given.length = given.length.map(|planned| planned - planned / 3);
        let none_dropped = given;
        given.dropped = with_a_quarter_dropped(plan, rule).dropped;
        assert_eq!(timetable(plan, rule, &given).answer, Answer::ACCEPTED);
        println!("by {rule:?}");
        for (what, given) in [
            ("timetable, 64 tasks", none_dropped),
            ("timetable, 16 dropped", given),
        ] {
            time_both(
                rounds,
                what,
                || proved::timetable(black_box(plan), rule, black_box(&given)),
                || timetable(black_box(plan), rule, black_box(&given)),
            );
        }
        let text = plan_text(plan);
        let case = Case {
            plan: *plan,
            rule,
            given,
        };
        let lengths = lengths_text(rng, &case);
        let mut out = vec![0; proved::LONGEST_TIMETABLE];
        let length = proved::write_timetable(&text, &lengths, &mut out);
        assert!(out[..length] == timetable_text(&text, &lengths));
        time_both(
            rounds,
            "timetable, whole program",
            || proved::write_timetable(black_box(&text), black_box(&lengths), black_box(&mut out)),
            || timetable_text(black_box(&text), black_box(&lengths)).len(),
        );
    }
}

/// Our own log of a plan, a school's whose lines stand in any order, and the program's work.
fn time_judged_logs(rounds: u32, rng: &mut Rng, plan: &Plan) {
    let text = plan_text(plan);
    let own = own_log(rng, plan, Rule::EarlyStart);
    let times = school_times(rng, plan);
    let school = school_log(rng, plan, &times);
    for (whose, log) in [("our own", own), ("a school's", school)] {
        assert_eq!(judge_log(plan, &log).answer, Answer::ACCEPTED);
        time_both(
            rounds,
            &format!("judge {whose} log"),
            || proved::judge_log(black_box(plan), black_box(&log)),
            || judge_log(black_box(plan), black_box(&log)),
        );
        let mut out = [0; proved::LONGEST_JUDGED];
        let length = proved::write_judged(&text, &log, &mut out);
        assert!(out[..length] == judged_text(&text, &log));
        time_both(
            rounds,
            &format!("its program, {} bytes", log.len()),
            || proved::write_judged(black_box(&text), black_box(&log), black_box(&mut out)),
            || judged_text(black_box(&text), black_box(&log)).len(),
        );
    }
}

/// A log added to totals, their report, and a year's work in memory: texts of plans read, and their logs added.
fn time_year(rounds: u32, rng: &mut Rng) {
    let (text, log) = (text_of_morning("plan.txt"), text_of_morning("log.txt"));
    let (plan, totals) = (read_plan(&text).plan, Totals::ZERO);
    time_both(
        rounds,
        "add a full morning's log",
        || proved::add_log(black_box(&totals), black_box(&plan), black_box(&log)),
        || add_log(black_box(&totals), black_box(&plan), black_box(&log)),
    );
    let some = any_totals(rng);
    let mut out = [0; proved::LONGEST_REPORT];
    time_both(
        rounds,
        "a year's report",
        || proved::write_report(black_box(&some), false, black_box(&mut out)),
        || report_text(black_box(&some), false).len(),
    );
    let logs = if rounds == 0 { 10 } else { 10_000 };
    let by_proved = || {
        (0..logs).fold(totals, |totals, _| {
            let plan = proved::read_plan(black_box(&text)).plan;
            proved::add_log(&totals, &plan, black_box(&log)).totals
        })
    };
    let by_rust = || {
        (0..logs).fold(totals, |totals, _| {
            let plan = read_plan(black_box(&text)).plan;
            add_log(&totals, &plan, black_box(&log)).totals
        })
    };
    assert!(by_proved() == by_rust());
    if rounds == 0 {
        return;
    }
    // Each takes long enough for a round of its own.
    let (mut best_proved, mut best_rust) = (f64::MAX, f64::MAX);
    for _ in 0..5 {
        best_proved = best_proved.min(time_of(by_proved));
        best_rust = best_rust.min(time_of(by_rust));
    }
    let ratio = best_proved / best_rust;
    println!(
        "{:<28}{best_proved:>12.0}{best_rust:>12.0}{ratio:>10.2}",
        "a year, 10,000 mornings"
    );
}

/// Nanoseconds of one call.
fn time_of<T>(call: impl Fn() -> T) -> f64 {
    let start = Instant::now();
    black_box(call());
    start.elapsed().as_nanos() as f64
}

/// The desk's program, asked line by line.
struct Asked {
    child: Child,
    into: ChildStdin,
    out: BufReader<ChildStdout>,
}

impl Asked {
    /// On a folder of that name with this plan and nothing kept; the opening is read.
    fn on(below: &str, name: &str, plan: &[u8]) -> Asked {
        let folder = folder_with(empty_folder(below, name), plan);
        let mut program = desk_program(&folder);
        let program = program.stdin(Stdio::piped()).stdout(Stdio::piped());
        let mut child = program.spawn().expect("the desk is built");
        let (into, out) = (child.stdin.take(), child.stdout.take());
        let mut asked = Asked {
            child,
            into: into.expect("its input is a pipe"),
            out: BufReader::new(out.expect("its output is a pipe")),
        };
        asked.answer();
        asked
    }

    fn answer(&mut self) {
        let mut line = Vec::new();
        while !is_last(&line) {
            line.clear();
            let read = self.out.read_until(b'\n', &mut line);
            assert!(read.expect("an answer is read") > 0, "the desk has ended");
        }
    }

    /// Nanoseconds from the line in to its answer out.
    fn time(&mut self, line: &[u8]) -> f64 {
        let start = Instant::now();
        self.into.write_all(line).expect("the desk reads on");
        self.answer();
        start.elapsed().as_nanos() as f64
    }

    fn end(mut self) {
        drop(self.into);
        assert!(self.child.wait().expect("the desk ends").success());
    }
}

/// Prints the best and the middle time of lines that the desk answered.
fn print_desk_times(timed: bool, what: &str, mut times: Vec<f64>) {
    if !timed {
        println!("desk: {what:<34}{} lines answered", times.len());
        return;
    }
    times.sort_by(f64::total_cmp);
    let (best, middle) = (times[0], times[times.len() / 2]);
    println!("desk: {what:<34}{best:>12.0}{middle:>12.0}");
}

/// Lines that are kept, on the disk and on a file system in memory, where flushing costs nothing; and a question.
fn time_desk(timed: bool, rng: &mut Rng, plan: &Plan) {
    let (text, disk) = (plan_text(plan), env!("CARGO_TARGET_TMPDIR"));
    let mornings = if timed { 10 } else { 1 };
    if timed {
        println!("from a line in to its answer out            best      middle");
    }
    let mut asked = Asked::on(disk, "desk-questions", &text);
    let questions = (0..1_000 * mornings).map(|_| asked.time(b"early\n"));
    print_desk_times(timed, "a question, early", questions.collect());
    asked.end();
    let memory = quick_place(disk);
    for (what, below) in [
        ("an end, kept in memory, no flush", &*memory),
        ("an end, kept and flushed", disk),
    ] {
        let mut times = Vec::new();
        for round in 0..mornings {
            let ends = random_morning(rng, plan, Rule::EarlyStart).events;
            let mut asked = Asked::on(below, &format!("desk-ends-{round}"), &text);
            times.extend(ends.iter().map(|&event| asked.time(&event_line(event))));
            asked.end();
        }
        print_desk_times(timed, what, times);
    }
    if memory != disk {
        let _ = fs::remove_dir_all(memory);
    }
}

fn main() {
    // Cargo says --bench to a benchmark only when times are wanted.
    let times_wanted = std::env::args().any(|arg| arg == "--bench");
    let timed = times_wanted && !proved::EMULATED;
    let rounds = if timed { ROUNDS } else { 0 };
    let mut rng = Rng::announced("speed");
    if timed {
        println!("nanoseconds a call              proved        Rust     ratio");
    } else if times_wanted {
        println!("no times: the proved side runs under an emulator here, where they say nothing");
    }
    let (plan, ends) = (text_of_morning("plan.txt"), text_of_morning("ends.txt"));
    time_run(rounds, "whole run, full morning", &plan, &ends);
    time_texts(rounds, &full_plan(&mut rng, 64));
    for tasks in [8, 16, 32, 64] {
        let plan = full_plan(&mut rng, tasks);
        time_book(rounds, &mut rng, &plan, Rule::EarlyStart);
    }
    let plan = full_plan(&mut rng, 64);
    time_rules(rounds, &mut rng, &plan);
    time_timetables(rounds, &mut rng, &plan);
    time_judged_logs(rounds, &mut rng, &plan);
    time_conversions(rounds, &plan);
    time_year(rounds, &mut rng);
    println!("64 tasks in single file");
    for rule in Rule::BOTH {
        time_chain(rounds, &single_file(), rule);
    }
    println!("edition 2");
    let awaited = with_even_ready_ticks(&plan);
    time_random_morning(rounds, &mut rng, &awaited);
    time_texts(rounds, &awaited);
    time_rules(rounds, &mut rng, &awaited);
    time_timetables(rounds, &mut rng, &awaited);
    time_judged_logs(rounds, &mut rng, &awaited);
    // The program is for x86-64, whatever the library was compiled for.
    time_desk(timed && cfg!(target_arch = "x86_64"), &mut rng, &plan);
}
