//! The built program `convert` on folders of plans, and the examples for a class: what
//! is typed there is what the program and the second dispatcher print.

use crate::folders::plan_folder;
use dispatcher::sample::plans::{exclusively_held, full_plan};
use dispatcher::sample::program::{at_root, contents, entries_below, expect_printed, program_in};
use dispatcher::sample::Rng;
use dispatcher::second::text::plan_text;
use dispatcher::{convert_text, run_log};
use std::fs;
use std::path::{Path, PathBuf};
use std::process::Command;

const EXAMPLES: [&str; 2] = ["examples/old-plan", "examples/old-plan-refused"];

fn convert_in(folder: &Path) -> Command {
    program_in("convert", folder)
}

/// Each folder with a plan, or with none, and what is typed for it.
fn typed() -> Vec<(PathBuf, Vec<u8>)> {
    let cases = entries_below(&at_root("rust/tests/convert"));
    assert_eq!(cases.len(), 12);
    let cases = cases.into_iter().map(|case| (case, "out.txt"));
    let examples = EXAMPLES.map(|example| (at_root(example), "converted.txt"));
    let all = cases.chain(examples);
    all.map(|(folder, name)| (folder.clone(), fs::read(folder.join(name)).unwrap()))
        .collect()
}

#[test]
fn the_program_prints_what_is_typed() {
    for (folder, wanted) in typed() {
        expect_printed(convert_in(&folder), &wanted);
    }
}

#[test]
fn the_second_dispatcher_prints_what_is_typed() {
    for (folder, wanted) in typed() {
        let printed = convert_text(&contents(&folder.join("plan.txt")));
        assert!(printed == wanted, "{}", folder.display());
    }
}

#[test]
fn the_old_plan_runs_as_before_once_it_is_converted() {
    let file = |name| fs::read(at_root(EXAMPLES[0]).join(name)).unwrap();
    let (old, converted) = (file("plan.txt"), file("converted.txt"));
    assert!(old != converted);
    for plan in [old, converted] {
        assert!(run_log(&plan, &file("ends.txt")) == file("log.txt"));
    }
}

/// Moving one task mends it, as its README says.
#[test]
fn the_refused_plan_is_the_old_plan_but_for_task_6() {
    let [mended, refused] =
        EXAMPLES.map(|example| fs::read_to_string(at_root(example).join("plan.txt")).unwrap());
    let refused: Vec<&str> = refused.lines().collect();
    let mended: Vec<&str> = mended.lines().collect();
    assert_eq!(refused[..6], mended[..6]);
    assert_eq!(refused[6], "task\t6\t2\t10\t14\ts2\t4");
    assert_eq!(mended[6], "task\t6\t2\t12\t16\ts2\t4");
}

#[test]
fn plans_of_sixty_four_tasks_are_printed_whole() {
    let full = full_plan(&mut Rng::announced("convert"), 64);
    for (name, plan) in [("shared", full), ("exclusive", exclusively_held(&full))] {
        let text = plan_text(&plan);
        let folder = plan_folder(&format!("convert-{name}"), &text);
        expect_printed(convert_in(&folder), &convert_text(&text));
    }
}
