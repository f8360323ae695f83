//! What must hold of both editions together, and of ready ticks, on random
//! plans and runs. Each test prints its seed; set SEED to repeat or try another.

use dispatcher::sample::events::{any_event, ends_text, is_started, starts_past_the_clock, take};
use dispatcher::sample::mornings::random_morning;
use dispatcher::sample::plans::{exclusively_held, first_edition, random_plan, with_ready_ticks};
use dispatcher::sample::reports::running_tasks;
use dispatcher::sample::waiting::{awaited, either_rule};
use dispatcher::sample::Rng;
use dispatcher::second::text::plan_text;
use dispatcher::second::values::{refusal, DROPPED, EDITION_2, WAITING};
use dispatcher::{accepted, drop_task, minimum_early, open_book, read_plan, report, run_log};
use dispatcher::{Book, Plan};

/// A random plan with ready ticks.
fn awaited_plan(rng: &mut Rng) -> Plan {
    let plan = random_plan(rng);
    with_ready_ticks(rng, &plan)
}

/// All books of so many mornings with ready ticks.
fn books_of_awaited_mornings(rng: &mut Rng, mornings: u32) -> Vec<Book> {
    let one = |_| {
        let (plan, rule) = (awaited_plan(rng), either_rule(rng));
        random_morning(rng, &plan, rule).books
    };
    (0..mornings).flat_map(one).collect()
}

fn in_edition_2(book: &Book) -> Book {
    Book {
        edition: EDITION_2,
        ..*book
    }
}

#[test]
fn edition_2_with_nobody_awaiting_a_class_runs_as_edition_1() {
    let mut rng = Rng::announced("edition_2_with_nobody_awaiting_a_class_runs_as_edition_1");
    for _ in 0..400 {
        let plan = exclusively_held(&first_edition(&random_plan(&mut rng)));
        let second = Plan {
            edition: EDITION_2,
            ..plan
        };
        let rule = either_rule(&mut rng);
        let morning = random_morning(&mut rng, &plan, rule);
        assert!(open_book(&second, rule).book == in_edition_2(&morning.books[0]));
        for book in &morning.books {
            let other = in_edition_2(book);
            assert_eq!(minimum_early(&other), minimum_early(book));
            let event = any_event(&mut rng, book);
            let (answer, next) = take(book, event);
            assert!(take(&other, event) == (answer, in_edition_2(&next)));
        }
        for (book, &event) in morning.books.iter().zip(&morning.events) {
            let (answer, next) = take(book, event);
            assert!(take(&in_edition_2(book), event) == (answer, in_edition_2(&next)));
        }
    }
}

#[test]
fn the_figure_of_edition_1_is_the_least_over_the_running_tasks() {
    let mut rng = Rng::announced("the_figure_of_edition_1_is_the_least_over_the_running_tasks");
    let mut early = 0;
    for _ in 0..400 {
        let plan = first_edition(&random_plan(&mut rng));
        let rule = either_rule(&mut rng);
        for book in random_morning(&mut rng, &plan, rule).books {
            assert!(starts_past_the_clock(&book).is_empty());
            let running = running_tasks(&book).into_iter();
            let least = running.map(|i| book.begin[i] - book.start[i]).min();
            assert_eq!(minimum_early(&book).early, least.unwrap_or(0));
            early += u32::from(least > Some(0));
        }
    }
    println!("M above 0 in {early} books");
    assert!(early > 1000);
}

#[test]
fn nobody_starts_before_its_ready_tick_unless_dropped() {
    let mut rng = Rng::announced("nobody_starts_before_its_ready_tick_unless_dropped");
    let (mut on_the_tick, mut later, mut passed_before) = (0, 0, 0);
    for _ in 0..600 {
        let (plan, rule) = (awaited_plan(&mut rng), either_rule(&mut rng));
        let morning = random_morning(&mut rng, &plan, rule);
        let last = morning.now();
        for i in (0..plan.task_count()).filter(|&i| plan.ready[i] > 0) {
            if last.dropped[i] == DROPPED {
                passed_before += u32::from(last.start[i] < plan.ready[i]);
                continue;
            }
            assert!(last.start[i] >= plan.ready[i]);
            on_the_tick += u32::from(last.start[i] == plan.ready[i]);
            later += u32::from(last.start[i] > plan.ready[i]);
        }
    }
    println!("{on_the_tick} started when ready, {later} later");
    println!("{passed_before} dropped ones passed before");
    assert!(on_the_tick > 500 && later > 500 && passed_before > 100);
}

/// The report of the task at that tick is refused by 13, and its drop by 19.
fn check_not_begun(book: &Book, i: usize, tick: u32) {
    let task = i as u32 + 1;
    assert_eq!(report(book, task, tick).answer, refusal(13, task, tick));
    assert_eq!(drop_task(book, task).answer, refusal(19, task, 0));
}

/// No other task is reported past the limit of task index i.
fn check_limit_holds_others(book: &Book, i: usize) -> u32 {
    let limit = book.start[i] + book.finish[i] - book.begin[i];
    let others = running_tasks(book).into_iter().filter(|&j| j != i);
    let codes = others.map(|j| report(book, j as u32 + 1, limit + 1).answer.code);
    let mut by_15 = 0;
    for code in codes {
        // Its own start or limit may stand in the way before.
        assert!([13, 14, 15].contains(&code), "{code}");
        by_15 += u32::from(code == 15);
    }
    by_15
}

#[test]
fn starts_past_the_clock_count_as_running() {
    let mut rng = Rng::announced("starts_past_the_clock_count_as_running");
    let (mut starts, mut by_15) = (0, 0);
    for book in books_of_awaited_mornings(&mut rng, 300) {
        for i in starts_past_the_clock(&book) {
            assert_eq!(book.start[i], book.ready[i]);
            check_not_begun(&book, i, book.clock);
            check_not_begun(&book, i, book.start[i]);
            by_15 += check_limit_holds_others(&book, i);
            starts += 1;
        }
    }
    println!("{starts} starts past the clock, {by_15} reports refused by 15");
    assert!(starts > 300 && by_15 > 50);
}

#[test]
fn drops_leave_ready_terms_out_and_lower_no_figure() {
    let mut rng = Rng::announced("drops_leave_ready_terms_out_and_lower_no_figure");
    let mut raised = 0;
    for book in books_of_awaited_mornings(&mut rng, 150) {
        let figure = minimum_early(&book).early;
        for i in (0..usize::from(book.tasks)).filter(|&i| book.mark[i] == WAITING) {
            let dropped = drop_task(&book, i as u32 + 1).book;
            let without = minimum_early(&dropped).early;
            assert!(figure <= without);
            raised += u32::from(figure < without);
        }
    }
    println!("{raised} drops raised the figure");
    assert!(raised > 100);
}

#[test]
fn a_ready_tick_after_the_start_is_18_in_a_text_and_9_as_a_value() {
    let mut rng = Rng::announced("a_ready_tick_after_the_start");
    for _ in 0..2000 {
        let mut plan = awaited_plan(&mut rng);
        assert!(accepted(&plan));
        let i = rng.index(plan.task_count());
        plan.ready[i] = plan.begin[i] + rng.within(1, 1_000_000 - plan.begin[i]);
        assert!(!accepted(&plan));
        let before = format!("task\t{}\t{}\t", i + 1, plan.board[i]);
        let expected = refusal(18, i as u32 + 2, before.len() as u32 + 1);
        assert_eq!(read_plan(&plan_text(&plan)).answer, expected);
    }
}

#[test]
fn an_edition_1_text_has_no_ready_ticks_and_an_edition_1_value_none_either() {
    let mut rng = Rng::announced("an_edition_1_text_has_no_ready_ticks");
    for _ in 0..1000 {
        let plan = first_edition(&random_plan(&mut rng));
        let text = plan_text(&plan);
        let reading = read_plan(&text);
        assert!(reading.answer.is_accepted() && reading.plan == plan);
        let mut wrong = plan;
        wrong.ready[rng.index(64)] = rng.within(1, 3);
        assert!(!accepted(&wrong));
        // Its text does not say it.
        assert_eq!(plan_text(&wrong), text);
    }
}

/// The `start` lines of a log as (task, tick, clock of the line's paragraph).
fn starts_in(log: &str) -> Vec<(usize, u32, u32)> {
    let mut known = Vec::new();
    let mut starts = Vec::new();
    for line in log.lines() {
        let fields: Vec<&str> = line.split('\t').collect();
        let number = |k: usize| fields[k].parse::<u32>().unwrap();
        match fields[0] {
            "start" => known.push((number(1) as usize, number(3))),
            "early" => {
                let clock = number(1);
                starts.extend(known.drain(..).map(|(task, tick)| (task, tick, clock)));
            }
            _ => {}
        }
    }
    starts
}

#[test]
fn runlog_prints_each_start_once_all_it_waits_for_have_ended() {
    let mut rng = Rng::announced("runlog_prints_each_start_once_all_it_waits_for_have_ended");
    let mut ahead = 0;
    for _ in 0..150 {
        let (plan, rule) = (awaited_plan(&mut rng), either_rule(&mut rng));
        let morning = random_morning(&mut rng, &plan, rule);
        let last = morning.now();
        let ends = ends_text(rule, &morning.events);
        let log = String::from_utf8(run_log(&plan_text(&plan), &ends)).unwrap();
        for (task, tick, clock) in starts_in(&log) {
            let awaited = awaited(&plan, rule, task - 1).into_iter();
            let latest = awaited.map(|j| last.end[j]).max();
            assert_eq!(clock, latest.unwrap_or(0), "task {task}");
            assert_eq!(tick, last.start[task - 1], "task {task}");
            ahead += u32::from(tick > clock);
        }
    }
    println!("150 logs, {ahead} starts past the clock");
    assert!(ahead > 100);
}

#[test]
fn a_known_start_is_fixed() {
    let mut rng = Rng::announced("a_known_start_is_fixed");
    let mut reached_later = 0;
    for _ in 0..400 {
        let (plan, rule) = (awaited_plan(&mut rng), either_rule(&mut rng));
        for step in random_morning(&mut rng, &plan, rule).books.windows(2) {
            let (before, now) = (&step[0], &step[1]);
            for i in (0..plan.task_count()).filter(|&i| before.mark[i] != WAITING) {
                assert_eq!(now.start[i], before.start[i]);
                assert!(is_started(now, i) || !is_started(before, i));
                reached_later += u32::from(is_started(now, i) && !is_started(before, i));
            }
        }
    }
    println!("the clock reached {reached_later} known starts");
    assert!(reached_later > 500);
}
