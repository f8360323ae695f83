//! The clients of `examples/embed`: that in C built, both run, and what they print held against the log of the morning
//! and against the second dispatcher.

use crate::folders::new_folder;
use dispatcher::proved::{peer::kit, EMULATED};
use dispatcher::sample::program::{at_root, cases_below, contents, expect_printed};
use dispatcher::sample::tally::say;
use dispatcher::second::fields::line_of;
use dispatcher::second::values::{items, ENDED};
use dispatcher::{drop_task, fresh_sheet, on_drive, open_book, read_plan, report, run_log, why};
use dispatcher::{Book, Rule};
use std::fs;
use std::path::{Path, PathBuf};
use std::process::Command;

/// A drive and a task, asked for in each morning; there is no drive 33, and few have 64 tasks.
const ASKED: [(u32, u32); 4] = [(1, 5), (7, 1), (2, 64), (33, 3)];

fn run(command: &mut Command) {
    let output = command.output().unwrap();
    let said = String::from_utf8_lossy(&output.stderr);
    assert!(output.status.success(), "{command:?}: {said}");
}

/// `morning.c`, built for x86-64 by the toolchain's own compiler and linker.
fn built_morning(folder: &Path) -> PathBuf {
    let (kit, root) = (kit(), at_root("."));
    let (object, program) = (folder.join("morning.o"), folder.join("morning"));
    let mut compiler = kit.compiler(&root);
    compiler.args([
        "-std=c11",
        "-O2",
        "-Wall",
        "-Wextra",
        "-Wpedantic",
        "-Wshadow",
        "-Werror",
        "-c",
    ]);
    run(compiler
        .arg(root.join("examples/embed/morning.c"))
        .arg("-o")
        .arg(&object));
    run(&mut kit.linker(
        &object,
        &root.join("crates/cloverdusk/out/libcloverdusk.a"),
        &program,
    ));
    program
}

/// The book after the opening and after each line of the ends that it takes.
fn books_of(plan: &[u8], ends: &str) -> Vec<Book> {
    let reading = read_plan(plan);
    if !reading.answer.is_accepted() {
        return Vec::new();
    }
    let (rule, lines) = match ends.strip_prefix("rule\tclash\n") {
        Some(lines) => (Rule::Clash, lines),
        None => (Rule::EarlyStart, ends),
    };
    let mut books = vec![open_book(&reading.plan, rule).book];
    for line in lines.lines() {
        let numbers: Vec<u32> = line
            .split('\t')
            .skip(1)
            .map(|field| field.parse().unwrap())
            .collect();
        let book = &books[books.len() - 1];
        let handed = match numbers[..] {
            [task, tick] => report(book, task, tick),
            _ => drop_task(book, numbers[0]),
        };
        if handed.answer.is_accepted() {
            books.push(handed.book);
        }
    }
    books
}

fn refused(answer: dispatcher::Answer) -> Vec<u8> {
    line_of("refused", &[answer.code, answer.first, answer.second])
}

fn or_none(number: u32) -> String {
    if number == 0 {
        "-".to_string()
    } else {
        number.to_string()
    }
}

fn drive_line(book: &Book, drive: u32) -> Vec<u8> {
    let on = on_drive(book, &fresh_sheet(book), drive);
    if !on.answer.is_accepted() {
        return refused(on.answer);
    }
    let running: Vec<String> = items(&on.running).iter().map(u8::to_string).collect();
    let running = if running.is_empty() {
        "-".to_string()
    } else {
        running.join(",")
    };
    format!("drive\t{drive}\t{running}\t{}\n", or_none(on.next.into())).into_bytes()
}

fn why_lines(book: &Book, task: u32) -> Vec<u8> {
    let chain = why(book, task);
    if !chain.answer.is_accepted() {
        return refused(chain.answer);
    }
    let link = |&task: &u8| {
        let i = usize::from(task) - 1;
        let end = if book.mark[i] == ENDED {
            book.end[i].to_string()
        } else {
            "-".to_string()
        };
        format!(
            "link\t{task}\t{}\t{}\t{end}\n",
            book.board[i], book.start[i]
        )
    };
    let links: String = chain.numbers().iter().map(link).collect();
    [links.into_bytes(), line_of("why", &[task, chain.count])].concat()
}

/// The log of the folder; behind each figure who is on the drive, and last why the task started.
fn wanted(case: &Path, drive: u32, task: u32) -> Vec<u8> {
    let ends = String::from_utf8(contents(&case.join("ends.txt"))).unwrap();
    let books = books_of(&contents(&case.join("plan.txt")), &ends);
    let mut books_left = books.iter();
    let mut printed = Vec::new();
    for line in contents(&case.join("log.txt")).split_inclusive(|&byte| byte == b'\n') {
        printed.extend_from_slice(line);
        if line.starts_with(b"early\t") {
            let book = books_left.next().expect("a book for each figure");
            printed.extend(drive_line(book, drive));
        }
    }
    assert!(books_left.next().is_none());
    if let Some(last) = books.last() {
        printed.extend(why_lines(last, task));
    }
    printed
}

/// Plan A with reports and drops that are refused, the log by the second dispatcher.
fn case_with_refusals(name: &str) -> PathBuf {
    let (folder, plan_a) = (new_folder(name), at_root("examples/plan-a"));
    let plan = contents(&plan_a.join("plan.txt"));
    let ends = [
        b"drop\t1\nend\t3\t3\n",
        &contents(&plan_a.join("ends.txt"))[..],
        b"end\t6\t9\ndrop\t0\n",
    ];
    let ends = ends.concat();
    for (name, text) in [
        ("log.txt", &run_log(&plan, &ends)),
        ("plan.txt", &plan),
        ("ends.txt", &ends),
    ] {
        fs::write(folder.join(name), text).unwrap();
    }
    folder
}

/// The client, which takes a plan, its ends, a drive and a task, on every morning of the examples.
fn check_client(name: &str, asked: &[(u32, u32)], client: impl Fn() -> Command) {
    let mut cases = cases_below(&at_root("examples"));
    assert!(cases.len() >= 10);
    cases.push(case_with_refusals(name));
    for case in cases {
        for &(drive, task) in asked {
            let mut command = client();
            command.args([case.join("plan.txt"), case.join("ends.txt")]);
            command.args([drive.to_string(), task.to_string()]);
            expect_printed(command, &wanted(&case, drive, task));
        }
    }
}

#[test]
fn the_client_in_c_prints_the_log_and_what_it_asks() {
    let program = built_morning(&new_folder("morning"));
    // An emulated program takes long to start.
    let asked = if EMULATED { &ASKED[..1] } else { &ASKED };
    check_client("morning-refusals", asked, || kit().runner(&program));
}

#[test]
fn the_client_in_python_prints_the_same() {
    check_client("python-refusals", &ASKED[..1], || {
        let mut command = Command::new("python3");
        command.arg("-B").arg(at_root("examples/embed/morning.py"));
        command
    });
}

/// The text between the lines of three backquotes that follow the heading.
fn block_below(readme: &str, heading: &str) -> String {
    let (_, below) = readme
        .split_once(&format!("\n{heading}\n"))
        .unwrap_or_else(|| panic!("no {heading}"));
    below.split("```\n").nth(1).expect("a block").to_string()
}

fn embed_readme() -> String {
    fs::read_to_string(at_root("examples/embed/README.md")).unwrap()
}

#[test]
fn what_the_readme_shows_is_printed() {
    let shown = block_below(&embed_readme(), "## What is printed");
    assert_eq!(
        shown.into_bytes(),
        wanted(&at_root("examples/plan-a"), 1, 5)
    );
}

#[test]
fn the_clients_are_short() {
    for name in fs::read_dir(at_root("examples/embed")).unwrap() {
        let path = name.unwrap().path();
        if path.extension().is_some_and(|of| of != "md") {
            let lines = fs::read_to_string(&path).unwrap().lines().count();
            assert!(lines < 120, "{}: {lines} lines", path.display());
        }
    }
}

/// Whether `cc` is there with headers of its own, and makes what the library is for.
fn has_c_compiler() -> bool {
    let folder = new_folder("has-c-compiler");
    let file = folder.join("try.c");
    fs::write(
        &file,
        "#include <stdio.h>\n#include <stdint.h>\nint main(void) { return 0; }\n",
    )
    .unwrap();
    let tried = Command::new("cc")
        .arg(&file)
        .arg("-o")
        .arg(folder.join("try"))
        .output();
    cfg!(target_arch = "x86_64") && tried.is_ok_and(|output| output.status.success())
}

/// The toolchain's compiler always builds the client; this is what somebody without it types.
#[test]
fn the_readme_builds_and_runs_it_with_a_c_compiler_of_the_system() {
    if !has_c_compiler() {
        return say("there is no C compiler for x86-64 here with headers of its own");
    }
    let lines = block_below(&embed_readme(), "## Build and run");
    let (build, run_it) = lines
        .trim_end()
        .rsplit_once('\n')
        .expect("it is built, then run");
    let build = build
        .strip_prefix("tools/library\n")
        .expect("the library first");
    let mut shell = Command::new("sh");
    run(shell.args(["-ec", build]).current_dir(at_root(".")));
    let mut shell = Command::new("sh");
    shell.args(["-ec", run_it]).current_dir(at_root("."));
    expect_printed(shell, &wanted(&at_root("examples/plan-a"), 1, 5));
}
