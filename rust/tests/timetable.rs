//! The built program `timetable` on folders of a plan and lengths: what is typed there, from the rules, is what it prints.

use crate::folders::{folder_of, put_files};
use dispatcher::sample::program::{at_root, entries_below, expect_printed, program_in};
use std::fs;
use std::path::Path;
use std::process::Command;

fn timetable_in(folder: &Path) -> Command {
    program_in("timetable", folder)
}

#[test]
fn the_program_prints_what_is_typed() {
    let cases = entries_below(&at_root("rust/tests/timetable"));
    assert_eq!(cases.len(), 51);
    for folder in cases {
        let wanted = fs::read(folder.join("out.txt")).unwrap();
        expect_printed(timetable_in(&folder), &wanted);
    }
    let example = at_root("examples/plan-a");
    let wanted = fs::read(example.join("timetable.txt")).unwrap();
    expect_printed(timetable_in(&example), &wanted);
}

/// The example's timetable has the starts and ends of its log.
#[test]
fn the_examples_log_says_the_same() {
    let read = |name: &str| fs::read_to_string(at_root("examples/plan-a").join(name)).unwrap();
    let log = read("log.txt");
    let tick_of = |word: &str, task: &str, board: &str| {
        let line = log
            .lines()
            .find(|line| line.starts_with(&format!("{word}\t{task}\t{board}\t")));
        line.unwrap().split('\t').nth(3).unwrap().to_string()
    };
    let table = read("timetable.txt");
    assert_eq!(table.lines().count(), 5);
    for row in table.lines() {
        let row: Vec<&str> = row.split('\t').collect();
        assert_eq!(tick_of("start", row[1], row[2]), row[3]);
        assert_eq!(tick_of("end", row[1], row[2]), row[4]);
    }
}

/// Sixty-four tasks of board 1, one after the other, each a million's sixty-fourth: the longest ticks.
#[test]
fn a_plan_of_sixty_four_tasks_is_printed_whole() {
    let step = 15_625;
    let mut plan = String::from("plan\t1\t1\t64\n");
    let mut table = String::new();
    let mut lengths = String::new();
    for task in 1..=64 {
        let (start, finish) = (step * (task - 1), step * task);
        plan += &format!("task\t{task}\t1\t{start}\t{finish}\t-\t-\n");
        lengths += &format!("length\t{task}\t{}\n", step - 1);
        table += &format!(
            "task\t{task}\t1\t{}\t{}\n",
            start - (task - 1),
            finish - task
        );
    }
    let files = [
        ("plan.txt", plan.as_bytes()),
        ("lengths.txt", lengths.as_bytes()),
    ];
    let folder = folder_of("timetable-64", &files);
    expect_printed(timetable_in(&folder), table.as_bytes());
    lengths += "drop\t65\n";
    put_files(&folder, &[("lengths.txt", lengths.as_bytes())]);
    expect_printed(timetable_in(&folder), b"refused\t4\t65\t6\n");
}
