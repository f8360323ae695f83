//! The committed pictures are what the tool draws now, and it draws nothing it should not.

use crate::folders::new_folder;
use dispatcher::run_log;
use dispatcher::sample::plan_a::PLAN_A;
use dispatcher::sample::program::at_root;
use std::collections::BTreeMap;
use std::fs::{self, File};
use std::io;
use std::path::PathBuf;
use std::process::{Command, Output, Stdio};

/// Shown in the README at the root.
const DRAWN: [&str; 6] = [
    "plan-a",
    "full-morning",
    "absent-students",
    "awaited-class",
    "old-plan",
    "old-plan-refused",
];

/// Shown in the README of their own example.
const DRAWN_BELOW: [(&str, &str); 5] = [
    ("two-rules", "early-start"),
    ("two-rules", "clash"),
    ("other-schools", "accepted"),
    ("other-schools", "clash"),
    ("other-schools", "late"),
];

/// One morning drawn from its timetable and from its log, both shown in the README of the example.
const DRAWN_TWICE: [(&str, &str); 2] = [
    ("timetable.txt", "timetable.svg"),
    ("log.txt", "picture.svg"),
];

/// Drawn by drive, each from what refuses its plan; shown in the README of their own example.
const DRAWN_BY_DRIVE: [(&str, &str); 2] = [
    ("one-clash", "log.txt"),
    ("old-plan-refused", "converted.txt"),
];

fn picture(options: &[&str], files: &[PathBuf]) -> Output {
    Command::new("python3")
        .arg(at_root("tools/picture"))
        .args(options)
        .args(files)
        .output()
        .expect("python3 is on the machine")
}

fn draw(plan: &str, log: &str) -> Output {
    picture(&[], &[at_root(plan), at_root(log)])
}

/// What is drawn of texts of its own, put into a folder of that name; without ends the plan alone.
fn drawn(name: &str, options: &[&str], plan: &[u8], ends: Option<&[u8]>) -> String {
    let folder = new_folder(name);
    let mut files = vec![folder.join("plan.txt")];
    fs::write(&files[0], plan).unwrap();
    if let Some(ends) = ends {
        files.push(folder.join("log.txt"));
        fs::write(&files[1], run_log(plan, ends)).unwrap();
    }
    let output = picture(options, &files);
    assert_eq!(String::from_utf8_lossy(&output.stderr), "");
    assert_eq!(output.status.code(), Some(0));
    String::from_utf8(output.stdout).unwrap()
}

/// A shape's or text's attributes by their names, and what stands within it.
fn parts_of(line: &str) -> (BTreeMap<&str, &str>, &str) {
    let (head, rest) = line.split_once('>').unwrap();
    let mut attributes = BTreeMap::new();
    for pair in head.split("\" ") {
        let (name, value) = pair.rsplit_once("=\"").unwrap();
        let name = name.rsplit(' ').next().unwrap();
        attributes.insert(name, value.trim_end_matches('"'));
    }
    (attributes, rest)
}

fn number(attributes: &BTreeMap<&str, &str>, name: &str) -> f64 {
    attributes[name].parse().unwrap()
}

/// The bars that tell something of tasks where they are hovered.
fn bars(svg: &str) -> Vec<(BTreeMap<&str, &str>, &str)> {
    let lines = svg.lines().filter(|line| line.starts_with("<rect "));
    let parts = lines
        .filter(|line| line.contains("<title>task "))
        .map(parts_of);
    parts.collect()
}

fn expect_refused(plan: &str, log: &str, why: &str) {
    let output = draw(plan, log);
    let said = String::from_utf8_lossy(&output.stderr);
    assert_eq!(output.status.code(), Some(1));
    assert_eq!(output.stdout, b"");
    assert!(said.contains(why), "said {said}");
}

#[test]
fn the_committed_pictures_are_drawn_anew() {
    let below = DRAWN_BELOW.map(|(example, name)| format!("{example}/{name}"));
    for name in DRAWN.map(String::from).into_iter().chain(below) {
        let folder = format!("examples/{name}");
        let output = draw(&format!("{folder}/plan.txt"), &format!("{folder}/log.txt"));
        let committed = fs::read(at_root(&format!("{folder}/picture.svg"))).unwrap();
        assert!(output.status.success());
        assert!(output.stdout == committed, "{folder}/picture.svg is old");
    }
    for (text, svg) in DRAWN_TWICE {
        let folder = "examples/timetable";
        let output = draw(&format!("{folder}/plan.txt"), &format!("{folder}/{text}"));
        let committed = fs::read(at_root(&format!("{folder}/{svg}"))).unwrap();
        assert!(output.status.success());
        assert!(output.stdout == committed, "{folder}/{svg} is old");
    }
    for (name, refusal) in DRAWN_BY_DRIVE {
        let file = |file: &str| at_root("examples").join(name).join(file);
        let output = picture(&["--by", "drive"], &[file("plan.txt"), file(refusal)]);
        assert!(output.status.success());
        assert!(
            output.stdout == fs::read(file("drives.svg")).unwrap(),
            "{name}/drives.svg is old"
        );
    }
}

#[test]
fn the_readmes_show_them() {
    let readme = fs::read_to_string(at_root("README.md")).unwrap();
    for name in DRAWN {
        assert!(
            readme.contains(&format!("(examples/{name}/picture.svg)")),
            "{name}"
        );
    }
    for (example, name) in DRAWN_BELOW {
        let readme = fs::read_to_string(at_root(&format!("examples/{example}/README.md"))).unwrap();
        assert!(readme.contains(&format!("({name}/picture.svg)")), "{name}");
    }
    assert!(readme.contains("(examples/timetable/timetable.svg)"));
    let beside = fs::read_to_string(at_root("examples/timetable/README.md")).unwrap();
    for (_, svg) in DRAWN_TWICE {
        assert!(beside.contains(&format!("({svg})")), "{svg}");
    }
    for (name, _) in DRAWN_BY_DRIVE {
        let readme = fs::read_to_string(at_root(&format!("examples/{name}/README.md"))).unwrap();
        assert!(readme.contains("(drives.svg)"), "{name}");
    }
}

/// Sixty-four tasks of one tick over 7,900: each bar is wide enough to be seen, and no white border covers it.
#[test]
fn narrow_bars_are_seen() {
    let mut plan = String::from("plan\t1\t1\t64\n");
    let mut ends = String::new();
    for k in 1..=64 {
        plan += &format!(
            "task\t{k}\t1\t{}\t{}\t-\t-\n",
            (k - 1) * 125,
            (k - 1) * 125 + 1
        );
        ends += &format!("end\t{k}\t{k}\n");
    }
    let svg = drawn("narrow", &[], plan.as_bytes(), Some(ends.as_bytes()));
    let bars = bars(&svg);
    assert_eq!(bars.len(), 128);
    for (bar, says) in bars {
        assert!(number(&bar, "width") >= 2.0, "{says}");
        assert!(!bar.contains_key("stroke"), "{says}");
    }
    // A broad bar keeps its border, and two that touch can be told apart.
    let svg = drawn("broad", &[], PLAN_A, None);
    assert!(svg.contains("stroke=\"#fff\""));
}

/// The numbers of an axis have room beside each other: a digit of this size is less than 7 wide.
#[test]
fn tick_labels_do_not_crowd() {
    for last in [1, 14, 201, 7_900, 99_999, 123_456, 999_999, 1_000_000] {
        let plan = format!("plan\t1\t1\t1\ntask\t1\t1\t0\t{last}\t-\t-\n");
        let svg = drawn(&format!("ticks-{last}"), &[], plan.as_bytes(), None);
        let lines = svg.lines().filter(|line| line.starts_with("<text "));
        let labels: Vec<(f64, usize)> = lines
            .map(parts_of)
            .filter(|(label, _)| label["fill"] == "#616e7c" && label["text-anchor"] == "middle")
            .map(|(label, rest)| (number(&label, "x"), rest.trim_end_matches("</text>").len()))
            .collect();
        assert!(labels.len() >= 2, "{last}");
        for pair in labels.windows(2) {
            let [(left, wide), (right, wider)] = [pair[0], pair[1]];
            let needed = 3.5 * (wide + wider) as f64 + 3.0;
            assert!(right - left >= needed, "{last}: {left} and {right}");
        }
        let (x, wide) = labels[labels.len() - 1];
        assert!(
            x + 3.5 * wide as f64 <= 1_080.0,
            "{last}: the last one is cut"
        );
    }
}

#[test]
fn a_bar_tells_its_task_where_it_is_hovered() {
    let told = |svg: &str, says: &str| {
        let title = format!("<title>{says}</title>");
        assert!(svg.contains(&title), "{says} is not among\n{svg}");
    };
    let ends = b"drop\t3\nend\t2\t3\nend\t1\t4\nend\t5\t6\n";
    let svg = drawn("titles", &[], PLAN_A, Some(ends));
    told(
        &svg,
        "task 1, board 1, holds e1: planned 0 to 6, ran 0 to 4",
    );
    told(&svg, "task 2, board 2, holds -: planned 0 to 4, ran 0 to 3");
    told(
        &svg,
        "task 3, board 2, holds s2: planned 4 to 9, dropped, skipped at 3",
    );
    told(
        &svg,
        "task 4, board 1, holds e2: planned 9 to 12, started at 4, has not ended",
    );
    told(
        &svg,
        "task 5, board 2, holds e1: planned 10 to 14, ran 4 to 6",
    );
    let plan = b"plan\t2\t1\t2\ntask\t1\t1\t0\t0\t4\te1,e3\t-\ntask\t2\t1\t5\t6\t8\t-\t-\n";
    let svg = drawn("titles-ready", &[], plan, None);
    told(&svg, "task 1, board 1, holds e1,e3: planned 0 to 4");
    told(&svg, "task 2, board 1, holds -: planned 6 to 8, ready at 5");
}

/// Where the bars of a task and those of another stand, from above.
fn heights(svg: &str, task: u32) -> Vec<f64> {
    let begin = format!("<title>task {task},");
    let of_task = bars(svg)
        .into_iter()
        .filter(|(_, says)| says.starts_with(&begin));
    of_task.map(|(bar, _)| number(&bar, "y")).collect()
}

/// Tasks 1 and 2 share drive 4 at the same time, task 3 holds it alone later; drive 9 is task 3's; task 4 holds none.
#[test]
fn by_drive_a_row_is_a_drive_and_its_holders_are_stacked() {
    let plan = b"plan\t1\t3\t4\ntask\t1\t1\t0\t6\ts4\t-\ntask\t2\t2\t2\t5\ts4\t-\ntask\t3\t3\t6\t9\te4,e9\t-\ntask\t4\t3\t0\t2\t-\t-\n";
    let svg = drawn("drives", &["--by", "drive"], plan, None);
    let rows = svg.lines().filter(|line| line.contains(">drive "));
    let names: Vec<&str> = rows.map(|line| parts_of(line).1).collect();
    assert_eq!(names, ["drive 4</text>", "drive 9</text>"]);
    assert!(!svg.contains(">board "));
    assert_eq!(bars(&svg).len(), 4);
    let [one, two, three] = [1, 2, 3].map(|task| heights(&svg, task));
    assert_eq!((one.len(), two.len(), three.len()), (1, 1, 2));
    // Bars are 18 high: the one that shares stands below the other, and the later one beside the first.
    assert!(two[0] >= one[0] + 18.0);
    assert_eq!(three[0], one[0]);
    assert!(three[1] >= two[0] + 18.0);
    let fill = |task: usize| bars(&svg)[task - 1].0["fill"].to_owned();
    assert_eq!(fill(1), fill(2));
    assert_ne!(fill(1), fill(3));
    assert!(svg.contains("not drawn: 1 task without a drive"));
    // With a log actual bars stand below the planned ones of their drive.
    let ends = b"end\t1\t3\nend\t2\t4\n";
    let svg = drawn("drives-ran", &["--by", "drive"], plan, Some(ends));
    assert!(svg.contains("M, how early"));
    assert_eq!(heights(&svg, 1).len(), 2);
}

/// From the plan alone: the two are outlined, and the time in which they overlap is marked where they do.
#[test]
fn a_refused_pair_is_marked() {
    let svg = fs::read_to_string(at_root("examples/one-clash/drives.svg")).unwrap();
    assert!(svg.contains("the plan, refused by 7 (tasks 20 and 22)"));
    assert!(svg.contains("<title>drive 26: task 20 and task 22 overlap from 36 to 40</title>"));
    assert_eq!(svg.matches(" overlap from ").count(), 1);
    let marked = bars(&svg)
        .into_iter()
        .filter(|(bar, _)| bar.get("stroke") == Some(&"#d7263d"));
    let marked: Vec<&str> = marked.map(|(_, says)| &says[..14]).collect();
    assert_eq!(
        marked,
        [
            "<title>task 20",
            "<title>task 20",
            "<title>task 22",
            "<title>task 22"
        ]
    );

    let svg = fs::read_to_string(at_root("examples/old-plan-refused/drives.svg")).unwrap();
    assert!(svg.contains("<title>drive 2: task 5 and task 6 overlap from 10 to 12</title>"));

    let plan = b"plan\t1\t1\t2\ntask\t1\t1\t0\t6\t-\t-\ntask\t2\t1\t4\t8\t-\t-\n";
    let svg = drawn("one-board", &[], plan, Some(b""));
    assert!(svg.contains("refused by 6 (tasks 1 and 2)"));
    assert!(svg.contains("<title>board 1: task 1 and task 2 overlap from 4 to 6</title>"));
    assert!(heights(&svg, 2)[0] >= heights(&svg, 1)[0] + 18.0);
}

/// The bars of the timetable stand where those of the log do; it tells nothing of M.
#[test]
fn a_timetable_has_the_bars_of_its_log() {
    let [timetable, log] = DRAWN_TWICE.map(|(_, svg)| {
        let file = at_root("examples/timetable").join(svg);
        fs::read_to_string(file).unwrap()
    });
    assert_eq!(bars(&timetable).len(), 7 + 1 + 6);
    assert!(bars(&timetable) == bars(&log));
    let diamonds = |svg: &str| svg.matches("dropped, skipped at 7").count();
    assert_eq!(diamonds(&timetable), diamonds(&log));
    assert!(timetable.contains("7 tasks on 3 boards: the plan and its timetable"));
    assert!(log.contains("M, how early") && !timetable.contains("M, how early"));
    let by_drive = picture(
        &["--by", "drive"],
        &["plan.txt", "timetable.txt"].map(|name| at_root("examples/timetable").join(name)),
    );
    let by_drive = String::from_utf8(by_drive.stdout).unwrap();
    assert!(by_drive.contains("exclusive, planned and actual"));
}

/// Lines of plan A's timetable, and what is wrong with them.
#[test]
fn a_timetable_of_another_plan_is_not_drawn() {
    let lines = [
        "task\t1\t1\t0\t4\n",
        "task\t2\t2\t0\t3\n",
        "task\t3\t2\t3\t6\n",
        "task\t4\t1\t6\t9\n",
        "task\t5\t2\t6\t8\n",
    ];
    let folder = new_folder("timetables");
    let (plan, file) = (folder.join("plan.txt"), folder.join("timetable.txt"));
    fs::write(&plan, PLAN_A).unwrap();
    let drawn_of = |text: String| {
        fs::write(&file, text).unwrap();
        let output = picture(&[], &[plan.clone(), file.clone()]);
        let said = String::from_utf8_lossy(&output.stderr).into_owned();
        (output.status.code(), said)
    };
    assert_eq!(drawn_of(lines.concat()), (Some(0), String::new()));
    for (line, why) in [
        ("", "not of this plan"),
        ("task\t2\t1\t0\t3\n", "line 2: the timetable is not of"),
        ("task\t3\t2\t0\t3\n", "line 2: the timetable is not of"),
        ("task\t2\t2\t0\n", "line 2: the timetable is not of"),
        ("end\t2\t2\t0\t3\n", "line 2: the timetable is not of"),
        ("task\t2\t2\t3\t2\n", "task 2 takes no length"),
        ("task\t2\t2\t0\t5\n", "task 2 takes no length"),
        ("task\t2\t2\t0\tx\n", "no number"),
    ] {
        let mut wrong = lines;
        wrong[1] = line;
        let (status, said) = drawn_of(wrong.concat());
        assert_eq!(status, Some(1), "{line:?}");
        assert!(said.contains(why), "{said}");
    }
    let (_, said) = drawn_of("refused\t22\t3\t0\n".to_string());
    assert!(said.contains("refused by 22 (3, 0)"), "{said}");
}

/// What is drawn of plan A and a log of another school, or why it is not.
fn drawn_of_log(name: &str, log: &str) -> Result<String, String> {
    let folder = new_folder(name);
    let files = ["plan.txt", "log.txt"].map(|file| folder.join(file));
    fs::write(&files[0], PLAN_A).unwrap();
    fs::write(&files[1], log).unwrap();
    let output = picture(&[], &files);
    if output.status.code() == Some(0) {
        return Ok(String::from_utf8(output.stdout).unwrap());
    }
    assert_eq!(output.status.code(), Some(1));
    Err(String::from_utf8(output.stderr).unwrap())
}

/// Late tasks, no M where there is no `early` line, and lines in any order.
#[test]
fn another_schools_log_is_drawn() {
    let late = "run\t1\t2\t5\nstart\t1\t1\t0\t0\nstart\t2\t2\t1\t-1\nend\t2\t2\t5\t-1\nend\t1\t1\t6\t0\nstart\t3\t2\t5\t-1\nend\t3\t2\t10\t-1\nstart\t4\t1\t10\t-1\nend\t4\t1\t13\t-1\nstart\t5\t2\t17\t-7\nend\t5\t2\t21\t-7\n";
    let svg = drawn_of_log("school-late", late).unwrap();
    let says = "<title>task 5, board 2, holds e1: planned 10 to 14, ran 17 to 21</title>";
    assert!(svg.contains(says));
    assert!(svg.contains("5 tasks on 2 boards: the plan and how it went"));
    assert!(!svg.contains("M, how early"));
    // A late start is not one that was known before.
    assert!(!svg.contains("known at"));
    assert!(bars(&svg)
        .iter()
        .all(|(bar, _)| number(bar, "x") + number(bar, "width") <= 1_080.0));

    let (first, rest) = late.split_once('\n').unwrap();
    let backwards: Vec<&str> = rest.lines().rev().collect();
    let backwards = format!("{first}\n{}\n", backwards.join("\n"));
    assert!(drawn_of_log("school-backwards", &backwards).unwrap() == svg);

    for (name, of, instead, why) in [
        ("minus-0", "\t5\t-1\n", "\t5\t-0\n", "no number"),
        ("plus", "\t5\t-1\n", "\t5\t+1\n", "no number"),
        ("tick", "\t5\t-1\n", "\t-5\t-1\n", "no number"),
        ("board", "end\t2\t2", "end\t2\t1", "not of this plan"),
        (
            "twice",
            "end\t1\t1\t6\t0\n",
            "end\t1\t1\t6\t0\nend\t1\t1\t6\t0\n",
            "not of this plan",
        ),
        (
            "before",
            "end\t1\t1\t6\t0\n",
            "end\t1\t1\t0\t6\n",
            "ends before it has started",
        ),
    ] {
        let said = drawn_of_log(&format!("school-{name}"), &late.replacen(of, instead, 1));
        assert!(said.unwrap_err().contains(why), "{name}");
    }
}

#[test]
fn a_refused_text_and_a_log_of_another_plan_are_not_drawn() {
    expect_refused(
        "rust/tests/cases/column-field-missing/plan.txt",
        "rust/tests/cases/column-field-missing/log.txt",
        "not a task line",
    );
    expect_refused(
        "examples/plan-a/plan.txt",
        "rust/tests/cases/plan-missing/log.txt",
        "refused by 2 (1, 0)",
    );
    for log in [
        "examples/full-morning/log.txt",
        "examples/two-rules/clash/log.txt",
        "examples/one-clash/log.txt",
    ] {
        expect_refused("examples/plan-a/plan.txt", log, "not of this plan");
    }
    expect_refused(
        "examples/plan-a/log.txt",
        "examples/plan-a/log.txt",
        "not the first line of a plan",
    );
}

#[test]
fn rows_are_boards_or_drives() {
    let plan = at_root("examples/plan-a/plan.txt");
    let plain = picture(&[], &[plan.clone()]);
    assert!(picture(&["--by", "board"], &[plan.clone()]).stdout == plain.stdout);
    for options in [["--by", "task"].as_slice(), &["--by"]] {
        let output = picture(options, &[]);
        assert_eq!(output.status.code(), Some(2));
        assert!(String::from_utf8_lossy(&output.stderr).contains("drive or board"));
    }
}

/// What it says and its status if it prints into this.
fn said_into(output: impl Into<Stdio>, words: &[&str]) -> (String, Option<i32>) {
    let mut command = Command::new(at_root("tools/picture"));
    let command = command.args(words).current_dir(at_root(""));
    let ran = command.stdout(output).output().unwrap();
    (String::from_utf8(ran.stderr).unwrap(), ran.status.code())
}

#[test]
fn a_reader_that_goes_away_is_no_failure_and_a_full_disk_is() {
    let drawn = ["examples/plan-a/plan.txt", "examples/plan-a/log.txt"];
    for words in [&drawn[..], &drawn[..1], &["--help"]] {
        let (reader, writer) = io::pipe().unwrap();
        drop(reader);
        assert_eq!(said_into(writer, words), (String::new(), Some(0)));
        let full = File::options().write(true).open("/dev/full").unwrap();
        let (said, status) = said_into(full, words);
        assert!(said.starts_with("picture: standard output: "), "{said}");
        assert_eq!(status, Some(2));
    }
    let mut shell = Command::new("bash");
    let shell = shell.args(["-c", "tools/picture --help >&-"]);
    let closed = shell.current_dir(at_root("")).output().unwrap();
    assert_eq!(closed.stderr, b"picture: standard output is closed\n");
    assert_eq!(closed.status.code(), Some(2));
}
