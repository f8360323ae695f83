//! The built program `runlog` on folders of cases, and the examples for a class: what is typed there
//! is what the program and the second dispatcher print.

use crate::folders::plan_folder;
use dispatcher::run_log;
use dispatcher::sample::plans::full_plan;
use dispatcher::sample::program::{at_root, cases_below, contents, expect_printed, program_in};
use dispatcher::sample::Rng;
use dispatcher::second::text::plan_text;
use std::collections::BTreeMap;
use std::fs;
use std::path::Path;

fn expect_log(folder: &Path, log: &[u8]) {
    expect_printed(program_in("runlog", folder), log);
}

/// Runs the program on each case below the folder, and answers how many there are.
fn expect_logs_below(folder: &Path) -> usize {
    let cases = cases_below(folder);
    for case in &cases {
        let log = fs::read(case.join("log.txt")).unwrap();
        expect_log(case, &log);
    }
    cases.len()
}

#[test]
fn folders_of_cases_print_their_logs() {
    assert_eq!(expect_logs_below(&at_root("rust/tests/cases")), 65);
}

/// So that a typed log is wrong on both sides or on none.
#[test]
fn the_second_dispatcher_prints_the_logs_of_cases_and_examples() {
    for below in ["rust/tests/cases", "examples"] {
        for case in cases_below(&at_root(below)) {
            let [plan, ends, log] =
                ["plan.txt", "ends.txt", "log.txt"].map(|name| contents(&case.join(name)));
            assert!(run_log(&plan, &ends) == log, "{}", case.display());
        }
    }
}

#[test]
fn examples_print_their_logs() {
    assert_eq!(expect_logs_below(&at_root("examples")), 11);
}

/// The ticks at which tasks start and end by a log, each by its number.
fn times_in(log: &str) -> BTreeMap<u32, (u32, u32)> {
    let mut times = BTreeMap::new();
    for line in log.lines() {
        let fields: Vec<&str> = line.split('\t').collect();
        let number = |k: usize| fields[k].parse::<u32>().unwrap();
        match fields[0] {
            "start" => drop(times.insert(number(1), (number(3), 0))),
            "end" => times.get_mut(&number(1)).unwrap().1 = number(3),
            _ => {}
        }
    }
    times
}

/// One plan and the same lengths; tasks 5, 8 and 9 go earlier by the clash rule.
#[test]
fn the_example_of_two_rules_has_one_plan_and_the_same_lengths() {
    let text = |path: &str| fs::read_to_string(at_root("examples/two-rules").join(path)).unwrap();
    assert_eq!(text("early-start/plan.txt"), text("clash/plan.txt"));
    assert!(text("README.md").contains(&text("clash/plan.txt")));
    let [early_start, clash] =
        ["early-start/log.txt", "clash/log.txt"].map(|log| times_in(&text(log)));
    let lengths = |times: &BTreeMap<u32, (u32, u32)>| -> Vec<u32> {
        times.values().map(|(start, end)| end - start).collect()
    };
    assert_eq!(lengths(&early_start), [7, 5, 12, 4, 6, 5, 8, 5, 6]);
    assert_eq!(lengths(&clash), lengths(&early_start));
    let earlier = |task: &&u32| clash[task].0 < early_start[task].0;
    let same = |task: &&u32| clash[task].0 == early_start[task].0;
    assert!(clash.keys().filter(earlier).eq(&[5, 8, 9]));
    assert!(clash.keys().filter(same).eq(&[1, 2, 3, 4, 6, 7]));
}

#[test]
fn sixty_four_tasks_are_read_and_sixty_five_are_not() {
    let plan = plan_text(&full_plan(&mut Rng::announced("cases"), 64));
    let folder = plan_folder("tasks-64", &plan);
    expect_log(&folder, &run_log(&plan, b""));

    let mut longer = String::from("plan\t1\t1\t65\n");
    for k in 1..=65 {
        longer += &format!("task\t{k}\t1\t{}\t{k}\t-\t-\n", k - 1);
    }
    let folder = plan_folder("tasks-65", longer.as_bytes());
    expect_log(&folder, b"refused\t2\t1\t0\n");
}
