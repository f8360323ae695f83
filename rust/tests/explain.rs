//! `./explain`: the words beside each refusal of a folder's log. What it must say is typed, in `told.txt` of each folder.

use crate::folders::folder_of;
use dispatcher::run_log;
use dispatcher::sample::lent::text;
use dispatcher::sample::plan_a::{ENDS_A, PLAN_A};
use dispatcher::sample::program::{at_root, contents, entries_below, expect_said, make_unreadable};
use std::collections::BTreeSet;
use std::fs::{self, File};
use std::path::Path;
use std::process::{Command, Output};

/// Those that a folder's log can have.
const NUMBERS: [u32; 18] = [
    1, 2, 3, 4, 5, 6, 7, 8, 10, 11, 12, 13, 14, 15, 17, 18, 19, 20,
];

/// The interpreter itself: `python3` on the path may be a script that looks for it anew at each call.
fn python() -> String {
    let asked = Command::new("python3")
        .args(["-c", "import sys; print(sys.executable, end='')"])
        .output()
        .expect("python3 is on the machine");
    String::from_utf8(asked.stdout).unwrap()
}

fn explain(python: &str, folder: &Path) -> Command {
    let mut command = Command::new(python);
    command
        .arg("explain")
        .arg(folder)
        .current_dir(at_root(""))
        .env("LC_ALL", "C");
    command
}

fn told_of(folder: &Path) -> String {
    let output = explain(&python(), folder).output().unwrap();
    assert_eq!(text(&output.stderr), "");
    assert_eq!(output.status.code(), Some(0));
    String::from_utf8(output.stdout).unwrap()
}

/// The typed folders, each by its name and what must be told of it.
fn typed_folders() -> Vec<(String, String)> {
    let folders = entries_below(&at_root("rust/tests/explain"));
    let mut typed: Vec<(String, String)> = folders
        .iter()
        .map(|folder| {
            let name = folder.file_name().unwrap().to_str().unwrap();
            let told = fs::read_to_string(folder.join("told.txt")).unwrap();
            (name.to_owned(), told)
        })
        .collect();
    typed.sort();
    typed
}

/// Each folder whose name begins so is told as it is typed; answers how many there are.
fn expect_told(beginnings: &[&str]) -> usize {
    let python = python();
    let mut count = 0;
    for (name, told) in typed_folders() {
        if !beginnings.iter().any(|begin| name.starts_with(begin)) {
            continue;
        }
        let folder = Path::new("rust/tests/explain").join(&name);
        let output = explain(&python, &folder).output().unwrap();
        assert_eq!(text(&output.stderr), "", "{name}");
        assert_eq!(text(&output.stdout), told, "{name}");
        assert_eq!(output.status.code(), Some(0), "{name}");
        count += 1;
    }
    count
}

#[test]
fn a_first_line_is_explained_by_its_cause() {
    assert_eq!(expect_told(&["2-"]), 20);
}

#[test]
fn a_misspelt_line_of_a_plan_is_explained_by_its_cause() {
    assert_eq!(expect_told(&["3-"]), 36);
}

#[test]
fn ranges_and_pairs_and_a_morning_without_refusals_are_explained() {
    let others = ["0-", "4-", "5-", "6-", "7-", "8-", "17-", "18-", "20-"];
    assert_eq!(expect_told(&others), 27);
}

#[test]
fn refused_reports_and_drops_are_explained() {
    let reports = ["10-", "11-", "12-", "13-", "14-", "15-", "19-", "several"];
    assert_eq!(expect_told(&reports), 17);
}

/// The `refused` lines of a log, or of what is told of it, which parts the numbers by spaces.
fn refused_in(words: &str) -> Vec<String> {
    let words = words.replace('\t', " ");
    let lines = words.lines().filter(|line| line.starts_with("refused "));
    lines.map(str::to_owned).collect()
}

/// What is typed holds by the second dispatcher too, and so that no number is left out.
#[test]
fn every_number_of_a_log_has_a_typed_folder() {
    let mut numbers = BTreeSet::from([1]);
    for (name, told) in typed_folders() {
        let folder = at_root("rust/tests/explain").join(&name);
        let [plan, ends] = ["plan.txt", "ends.txt"].map(|file| contents(&folder.join(file)));
        let log = String::from_utf8(run_log(&plan, &ends)).unwrap();
        assert_eq!(refused_in(&told), refused_in(&log), "{name}");
        for line in refused_in(&told) {
            numbers.insert(line.split(' ').nth(1).unwrap().parse::<u32>().unwrap());
        }
    }
    assert!(numbers.iter().eq(&NUMBERS), "{numbers:?}");
}

/// Number 1, whose texts are too long to be typed.
#[test]
fn a_text_that_is_too_long_is_named_with_its_length() {
    for (name, plan, ends) in [
        ("plan.txt", [b'x'; 40_000].as_slice(), ENDS_A),
        ("ends.txt", PLAN_A, [b'x'; 40_000].as_slice()),
    ] {
        let told = told_of(&folder_of(
            &format!("explain-long-{name}"),
            &[("plan.txt", plan), ("ends.txt", ends)],
        ));
        let words = format!(
            "refused 1 0 0
  Wrong: {name} has 40,000 bytes, and a text has at most 32,768.
  To do: Shorten {name}. Nothing in it was read.
"
        );
        assert_eq!(told, words);
    }
}

/// A number of thousands of digits is well spelt; its line is shown around the column.
#[test]
fn of_a_long_line_the_part_around_the_column_is_shown() {
    let digits = "9".repeat(6_000);
    let plan = format!("plan\t1\t1\t1\ntask\t1\t1\t0\t{digits}\t-\t-\n");
    let told = told_of(&folder_of(
        "explain-wide",
        &[("plan.txt", plan.as_bytes()), ("ends.txt", b"")],
    ));
    let words = format!(
        "refused 4 2 12
  Wrong: The planned finish `{}…` is over 1,000,000, the greatest number of a text.
    plan.txt, line 2, column 12:
      task→1→1→0→{}…
                 ^
  To do: Correct it; where the plan is longer, take larger ticks.

(→ is a tab)
",
        "9".repeat(30),
        "9".repeat(40)
    );
    assert_eq!(told, words);
    let plan = format!("plan\t1\t1\t1\ntask\t1\t1\t0\t{digits}\tq\t-\n");
    let told = told_of(&folder_of(
        "explain-far",
        &[("plan.txt", plan.as_bytes()), ("ends.txt", b"")],
    ));
    let line = format!(
        "\n      …{}→q→-¶\n      {}^\n",
        "9".repeat(69),
        " ".repeat(71)
    );
    assert!(told.contains(&line), "{told}");
}

/// So that the words there are those of the tool.
#[test]
fn the_manual_shows_what_is_told() {
    let manual = fs::read_to_string(at_root("docs/USING.md")).unwrap();
    let told = told_of(Path::new("examples/one-clash"));
    assert!(manual.contains(&format!("```\n{told}```\n")), "{told}");
}

#[test]
fn it_ends_with_2_and_one_sentence_where_there_is_no_log() {
    let nowhere = explain(&python(), Path::new("examples/nowhere")).output();
    let unreadable = folder_of(
        "explain-unreadable",
        &[("plan.txt", PLAN_A), ("ends.txt", ENDS_A)],
    );
    make_unreadable(&unreadable, "ends.txt");
    let unread = explain(&python(), &unreadable).output();
    for output in [nowhere.unwrap(), unread.unwrap()] {
        assert_eq!(output.stdout, b"");
        expect_said(&output.stderr, "runlog");
        assert_eq!(output.status.code(), Some(2));
    }
}

fn in_shell(line: &str) -> Output {
    let mut shell = Command::new("bash");
    let shell = shell.args(["-c", line]).current_dir(at_root(""));
    shell.output().unwrap()
}

#[test]
fn a_reader_that_goes_away_is_no_failure_and_a_full_disk_is() {
    let gone = in_shell("./explain --help | true; exit ${PIPESTATUS[0]}");
    assert_eq!(text(&gone.stderr), "");
    assert_eq!(gone.status.code(), Some(0));
    for line in ["./explain >&-", "./explain --help >&-"] {
        let closed = in_shell(line);
        assert_eq!(
            text(&closed.stderr),
            "explain: standard output is closed\n",
            "{line}"
        );
        assert_eq!(closed.status.code(), Some(2));
    }
    let mut full = explain(&python(), Path::new("examples/plan-a"));
    let full = full.stdout(File::options().write(true).open("/dev/full").unwrap());
    let full = full.output().unwrap();
    expect_said(&full.stderr, "explain");
    assert!(text(&full.stderr).starts_with("explain: standard output: "));
    assert_eq!(full.status.code(), Some(2));
}

#[test]
fn its_use_says_that_it_is_not_proved() {
    let use_told = in_shell("./explain --help");
    let words = text(&use_told.stdout).replace('\n', " ");
    assert!(words.contains("no part of what is proved"), "{words}");
    assert!(words.contains("judges nothing anew"), "{words}");
}

/// No module but the standard library's, and a call leaves nothing behind in the clone.
#[test]
fn it_needs_python_alone_and_leaves_nothing_behind() {
    let mut files = vec![at_root("explain")];
    for own in ["tools/common", "tools/explain"] {
        assert!(!at_root(own).join("__pycache__").exists());
        files.extend(entries_below(&at_root(own)));
    }
    for file in files {
        for line in fs::read_to_string(&file).unwrap().lines() {
            let mut words = line.split(' ');
            let (Some("import" | "from"), Some(module)) = (words.next(), words.next()) else {
                continue;
            };
            let own = [".", "common.", "explain.told"];
            let is_own = own.iter().any(|begin| module.starts_with(begin));
            let standard = ["difflib", "os", "re", "signal", "subprocess", "sys"];
            assert!(
                is_own || standard.contains(&module),
                "{file:?} needs {module}"
            );
        }
    }
}
