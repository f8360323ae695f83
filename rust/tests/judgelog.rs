//! The built program `judgelog` on folders of a plan and a log: what is typed there, from the rules, is what it prints.

use crate::folders::folder_of;
use dispatcher::judged_text;
use dispatcher::sample::logs::{school_log, school_times};
use dispatcher::sample::plans::{full_plan, with_even_ready_ticks};
use dispatcher::sample::program::{at_root, contents, entries_below, expect_printed, program_in};
use dispatcher::sample::Rng;
use dispatcher::second::text::plan_text;
use std::fs;
use std::path::{Path, PathBuf};
use std::process::Command;

const EXAMPLES: [&str; 3] = ["accepted", "clash", "late"];

fn judgelog_in(folder: &Path) -> Command {
    program_in("judgelog", folder)
}

/// The typed folders, and those of the examples.
fn typed_folders() -> Vec<PathBuf> {
    let mut folders = entries_below(&at_root("rust/tests/judgelog"));
    assert_eq!(folders.len(), 94);
    folders.extend(EXAMPLES.map(|name| at_root("examples/other-schools").join(name)));
    folders
}

#[test]
fn the_program_prints_what_is_typed() {
    for folder in typed_folders() {
        let wanted = fs::read(folder.join("judged.txt")).unwrap();
        expect_printed(judgelog_in(&folder), &wanted);
    }
}

/// So that a typed text is wrong on both sides or on none.
#[test]
fn the_second_judge_prints_what_is_typed() {
    for folder in typed_folders() {
        let [plan, log, judged] =
            ["plan.txt", "log.txt", "judged.txt"].map(|name| contents(&folder.join(name)));
        assert!(judged_text(&plan, &log) == judged, "{}", folder.display());
    }
}

/// The examples are one plan, judged in three ways.
#[test]
fn the_examples_have_one_plan() {
    let text = |name: &str, file: &str| {
        let folder = at_root("examples/other-schools").join(name);
        fs::read_to_string(folder.join(file)).unwrap()
    };
    let plan = text("accepted", "plan.txt");
    let readme = fs::read_to_string(at_root("examples/other-schools/README.md")).unwrap();
    assert!(readme.contains(&plan));
    for (name, last) in [
        ("accepted", "accepted"),
        ("clash", "refused\t26\t"),
        ("late", "refused\t27\t"),
    ] {
        assert_eq!(text(name, "plan.txt"), plan);
        let judged = text(name, "judged.txt");
        assert!(judged.lines().last().unwrap().starts_with(last), "{judged}");
        assert!(readme.contains(&format!("```\n{judged}```\n")), "{name}");
    }
    assert!(text("late", "judged.txt").contains("\t-"));
}

/// The manual judges the log of an example line by line.
#[test]
fn the_manual_shows_what_is_printed() {
    let manual = fs::read_to_string(at_root("docs/USING.md")).unwrap();
    let folder = at_root("examples/other-schools/late");
    for name in ["log.txt", "judged.txt"] {
        for line in fs::read_to_string(folder.join(name)).unwrap().lines() {
            let row = format!("| `{}` |", line.replace('\t', " "));
            assert!(manual.contains(&row), "{row}");
        }
    }
}

/// What is printed is the second judge's, of logs too large to be typed.
#[test]
fn logs_of_sixty_four_tasks_are_judged_whole() {
    let mut rng = Rng::announced("judgelog");
    let full = full_plan(&mut rng, 64);
    for (name, plan) in [("1", full), ("2", with_even_ready_ticks(&full))] {
        let times = school_times(&mut rng, &plan);
        let log = school_log(&mut rng, &plan, &times);
        let plan = plan_text(&plan);
        let wanted = judged_text(&plan, &log);
        assert_eq!(wanted.iter().filter(|&&byte| byte == b'\n').count(), 65);
        let folder = folder_of(
            &format!("judgelog-64-{name}"),
            &[("plan.txt", &plan), ("log.txt", &log)],
        );
        expect_printed(judgelog_in(&folder), &wanted);
    }
}
