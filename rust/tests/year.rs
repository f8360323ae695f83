//! The built program `year` on lists of folders: what is typed is what it prints, and what it says where it cannot.

use crate::folders::{copy_command, copy_files, new_folder, put_script};
use dispatcher::proved::EMULATED;
use dispatcher::sample::lent::text;
use dispatcher::sample::plan_a::{ENDS_A, PLAN_A};
use dispatcher::sample::program::{
    at_root, comes_true, contents, is_gone, make_unreadable, on_terminal, program_in,
};
use dispatcher::sample::tally::say;
use dispatcher::{run_log, year_text};
use std::ffi::OsStr;
use std::fs::{self, File};
use std::io::Write;
use std::os::unix::ffi::OsStrExt;
use std::os::unix::fs::symlink;
use std::path::{Path, PathBuf};
use std::process::{Command, Output, Stdio};
use std::time::Instant;

const ALL_IDLE: &str = "all\t0\t0\t-\t-\n";
/// What plan A's log comes to, once.
const BOARDS_A: &str = "board\t1\t2\t5\t3\t2\nboard\t2\t3\t10\t6\t1\n";
const ALL_A: &str = "all\t5\t15\t6\t1\n";

/// The rows of boards from that one on, on which no task has ended.
fn idle_from(board: u32) -> String {
    let row = |board: u32| format!("board\t{board}\t0\t0\t-\t-\n");
    (board..=8).map(row).collect()
}

/// The program in that folder, with the list on its standard input.
fn year_in(folder: &Path, list: &[u8]) -> Output {
    let mut command = program_in("year", folder);
    command.stdin(Stdio::piped()).stdout(Stdio::piped());
    let mut program = command.stderr(Stdio::piped()).spawn().unwrap();
    let mut names = program.stdin.take().unwrap();
    let list = list.to_vec();
    // It may stop before it has read all.
    let writer = std::thread::spawn(move || drop(names.write_all(&list)));
    let output = program.wait_with_output().unwrap();
    writer.join().unwrap();
    output
}

/// What it says but notes of how far it is.
fn said_by(output: &Output) -> Vec<u8> {
    let lines = output.stderr.split_inclusive(|&byte| byte == b'\n');
    let said = lines.filter(|line| !line.starts_with(b"note: "));
    said.collect::<Vec<&[u8]>>().concat()
}

fn expect_report(folder: &Path, list: &[u8], report: &str) {
    let output = year_in(folder, list);
    assert_eq!(String::from_utf8_lossy(&said_by(&output)), "");
    assert_eq!(String::from_utf8_lossy(&output.stdout), report);
    assert!(output.status.success());
}

/// The same of the command.
fn expect_report_of_command(folder: &Path, list: &[u8], report: &str) {
    let file = folder.join("list.txt");
    fs::write(&file, list).unwrap();
    let output = script(folder, &file);
    assert_eq!(String::from_utf8_lossy(&output.stderr), "");
    assert_eq!(String::from_utf8_lossy(&output.stdout), report);
    assert_eq!(output.status.code(), Some(0));
}

fn has(words: &[u8], part: &[u8]) -> bool {
    part.is_empty() || words.windows(part.len()).any(|window| window == part)
}

/// Nothing is printed, and a sentence has the name in it.
fn expect_stopped(folder: &Path, list: &[u8], name: &[u8]) {
    let output = year_in(folder, list);
    assert_eq!(String::from_utf8_lossy(&output.stdout), "");
    let said = output.stderr;
    assert!(said.ends_with(b"\n"));
    let last = said[..said.len() - 1].rsplit(|&byte| byte == b'\n').next();
    let last = last.unwrap();
    let shown = String::from_utf8_lossy(last);
    assert!(has(last, name), "{shown}");
    assert!(last.len() > name.len(), "{shown}");

    let file = folder.join("list.txt");
    fs::write(&file, list).unwrap();
    let output = script(folder, &file);
    assert_eq!(String::from_utf8_lossy(&output.stdout), "");
    assert!(output.stderr.starts_with(b"year: "));
    assert!(has(&output.stderr, name), "{shown}");
    assert_eq!(output.status.code(), Some(2), "{shown}");
}

/// The command, called in that folder.
fn script(folder: &Path, list: &Path) -> Output {
    let mut command = Command::new(at_root("year").canonicalize().unwrap());
    command.arg(list).current_dir(folder).output().unwrap()
}

/// A folder for the command to be called in, in which plan A and its log stand in folders of these names.
fn folder_with(name: &str, names: &[&[u8]]) -> PathBuf {
    let folder = new_folder(name);
    for name in names {
        put_plan_a(&folder.join(OsStr::from_bytes(name)));
    }
    folder
}

fn put_plan_a(folder: &Path) {
    fs::create_dir_all(folder).unwrap();
    fs::write(folder.join("plan.txt"), PLAN_A).unwrap();
    fs::write(folder.join("log.txt"), run_log(PLAN_A, ENDS_A)).unwrap();
}

#[test]
fn the_example_has_the_report_that_is_typed() {
    let root = at_root("").canonicalize().unwrap();
    let list = root.join("examples/year/list.txt");
    let report = fs::read_to_string(root.join("examples/year/report.txt")).unwrap();
    let names = fs::read_to_string(&list).unwrap();
    expect_report(&root, names.as_bytes(), &report);
    let output = script(&root, Path::new("examples/year/list.txt"));
    assert_eq!(String::from_utf8_lossy(&output.stdout), report);
    assert_eq!(String::from_utf8_lossy(&output.stderr), "");
    assert_eq!(output.status.code(), Some(0));
    // A list may be a pipe.
    let line = "./year <(cat examples/year/list.txt)";
    let mut shell = Command::new("bash");
    let output = shell
        .args(["-c", line])
        .current_dir(&root)
        .output()
        .unwrap();
    assert_eq!(String::from_utf8_lossy(&output.stdout), report);

    let texts: Vec<[Vec<u8>; 2]> = names
        .lines()
        .map(|name| ["plan.txt", "log.txt"].map(|file| contents(&root.join(name).join(file))))
        .collect();
    let folders = texts.iter().map(|[plan, log]| (&plan[..], &log[..]));
    assert_eq!(year_text(folders), report.as_bytes());
    for document in ["docs/USING.md", "examples/year/README.md"] {
        let text = fs::read_to_string(root.join(document)).unwrap();
        assert!(text.contains(&format!("```\n{report}```\n")), "{document}");
    }
}

/// The loop of the manual tells which logs of the example were refused, and by what.
#[test]
fn the_manuals_loop_finds_the_refused_logs() {
    let manual = fs::read_to_string(at_root("docs/USING.md")).unwrap();
    let from = manual.find("while IFS= read -r name").unwrap();
    let code = &manual[from..from + manual[from..].find("```").unwrap()];
    let code = code.replace("list.txt", "examples/year/list.txt");
    let mut shell = Command::new("bash");
    let shell = shell.args(["-c", &code]).current_dir(at_root(""));
    let output = shell.output().unwrap();
    assert_eq!(String::from_utf8_lossy(&output.stderr), "");
    let wanted = "examples/other-schools/clash: refused\t26\t1\t5
examples/other-schools/late: refused\t27\t6\t0
examples/absent-students: refused\t23\t";
    let printed = String::from_utf8(output.stdout).unwrap();
    assert!(printed.starts_with(wanted), "{printed}");
    assert_eq!(printed.lines().count(), 3);
}

#[test]
fn lists_are_read_to_their_last_name() {
    let folder = folder_with("year-lists", &[b"a", b"b"]);
    let none = format!("logs\t0\t0\n{}{ALL_IDLE}", idle_from(1));
    expect_report(&folder, b"", &none);
    let once = format!("logs\t1\t0\n{BOARDS_A}{}{ALL_A}", idle_from(3));
    let twice = format!(
        "logs\t2\t0\nboard\t1\t4\t10\t3\t2\nboard\t2\t6\t20\t6\t1\n{}all\t10\t30\t6\t1\n",
        idle_from(3)
    );
    expect_report(&folder, b"a\n", &once);
    // A last line without LF is a name.
    expect_report(&folder, b"a", &once);
    expect_report(&folder, b"a\nb", &twice);
    // One that is named twice counts twice; names are taken from where the program runs.
    expect_report(&folder, b"b\nb\n", &twice);
    expect_report(&folder, b"./a/\n../year-lists/b\n", &twice);
    let whole = folder.canonicalize().unwrap().join("b");
    expect_report(&folder, whole.as_os_str().as_bytes(), &once);
}

/// An empty file is there, and counts as what it is.
#[test]
fn what_is_refused_is_counted_apart() {
    let folder = folder_with("year-refused", &[b"good", b"empty", b"unplanned", b"long"]);
    fs::write(folder.join("empty/log.txt"), b"").unwrap();
    fs::write(folder.join("unplanned/plan.txt"), b"").unwrap();
    fs::write(folder.join("long/plan.txt"), [b'7'; 40_000]).unwrap();
    let log = File::create(folder.join("long/log.txt")).unwrap();
    log.set_len(50_000_000).unwrap();
    let report = format!("logs\t1\t3\n{BOARDS_A}{}{ALL_A}", idle_from(3));
    expect_report(&folder, b"empty\ngood\nunplanned\nlong\n", &report);
    let none = format!("logs\t0\t2\n{}{ALL_IDLE}", idle_from(1));
    expect_report(&folder, b"unplanned\nempty\n", &none);
}

/// The command takes any name; the program by itself takes those that are UTF-8.
#[test]
fn a_name_is_bytes() {
    let odd: [&[u8]; 8] = [
        b"\xff\xfe",
        b" a name ",
        b"-n",
        b"tab\there",
        b"note: 100 logs done",
        b"cr\r",
        b"*",
        b"'\"$HOME\"'",
    ];
    let folder = folder_with("year-names", &odd);
    let list = odd.join(&b'\n');
    let report = format!(
        "logs\t8\t0\nboard\t1\t16\t40\t3\t2\nboard\t2\t24\t80\t6\t1\n{}all\t40\t120\t6\t1\n",
        idle_from(3)
    );
    expect_report_of_command(&folder, &list, &report);
    let report = format!(
        "logs\t7\t0\nboard\t1\t14\t35\t3\t2\nboard\t2\t21\t70\t6\t1\n{}all\t35\t105\t6\t1\n",
        idle_from(3)
    );
    expect_report(&folder, &odd[1..].join(&b'\n'), &report);
}

/// Byte for byte: what is not UTF-8 would be shown alike.
fn expect_said(output: &Output, said: &[u8]) {
    let shown = String::from_utf8_lossy(&output.stderr);
    assert!(output.stderr == said, "{shown}");
    assert_eq!(String::from_utf8_lossy(&output.stdout), "");
}

#[test]
fn the_program_stops_at_a_name_that_is_not_utf_8() {
    let name = b"\xff\xfe";
    let list = b"\xff\xfe\n";
    let folder = folder_with("year-not-utf-8", &[name]);
    let said = b"\xff\xfe/plan.txt: Invalid or incomplete multibyte or wide character\n";
    expect_said(&year_in(&folder, list), said);
    // The command says the user's own name, not its link's.
    let plan = folder.join(OsStr::from_bytes(name)).join("plan.txt");
    fs::remove_file(plan).unwrap();
    expect_stopped(&folder, list, name);
    let output = script(&folder, &folder.join("list.txt"));
    let said = b"year: \xff\xfe/plan.txt: No such file or directory\n";
    expect_said(&output, said);
}

/// Of each what is wrong is said, whatever stands before and behind it.
#[test]
fn what_is_missing_or_cannot_be_read_stops_it() {
    let folder = folder_with(
        "year-stopped",
        &[b"a", b"no-plan", b"no-log", b"plan", b"log"],
    );
    fs::remove_file(folder.join("no-plan/plan.txt")).unwrap();
    fs::remove_file(folder.join("no-log/log.txt")).unwrap();
    make_unreadable(&folder.join("plan"), "plan.txt");
    make_unreadable(&folder.join("log"), "log.txt");
    fs::write(folder.join("file"), b"").unwrap();
    symlink("loop", folder.join("loop")).unwrap();
    let long = [b'x'; 256];
    let names: [&[u8]; 11] = [
        b"nowhere",
        b"no-plan",
        b"no-log",
        b"plan",
        b"log",
        b"file",
        b"loop",
        b"note: nowhere",
        b"note: 100 logs done",
        b"\xff",
        &long,
    ];
    for name in names {
        expect_stopped(&folder, name, name);
        expect_stopped(&folder, &[b"a\n", name, b"\na\n"].concat(), name);
    }
    // A NUL byte is in no name, and what stands before it is not taken for one.
    expect_stopped(&folder, b"a\na\0b\n", b"a");
    expect_stopped(&folder, b"a\0\n", b"a");
    expect_stopped(&folder, b"\0", b"");
    for list in [&b"\n"[..], b"a\n\n", b"a\n\na\n", b"\na\n"] {
        expect_stopped(&folder, list, b"");
    }
}

/// The system takes a path of 4,095 bytes: a name and what is put behind it.
#[test]
fn a_name_may_be_as_long_as_the_system_allows() {
    let folder = folder_with("year-long-names", &[b"ab", b"abc"]);
    let named = |name: &[u8], length: usize| {
        let before = "./".repeat((length - name.len()) / 2);
        let long = [before.as_bytes(), name].concat();
        assert_eq!(long.len(), length);
        long
    };
    let once = format!("logs\t1\t0\n{BOARDS_A}{}{ALL_A}", idle_from(3));
    let longest = 4_095 - "/plan.txt".len();
    for (name, length) in [(&b"ab"[..], 254), (b"ab", 256), (b"ab", longest)] {
        expect_report(&folder, &named(name, length), &once);
    }
    for length in [longest + 1, longest + 3, 10_001, 100_001] {
        let name = named(b"abc", length);
        let output = year_in(&folder, &[&name[..], b"\nab\n"].concat());
        assert_eq!(String::from_utf8_lossy(&output.stdout), "");
        assert!(has(&output.stderr, b"./././"), "{length}");
    }
}

/// Names of all lengths, so that each place of a name is somewhere at the end of a piece.
#[test]
fn a_list_is_read_piece_by_piece() {
    let folder = folder_with("year-pieces", &[b"a", b"ab"]);
    let mut list = Vec::new();
    for k in 0..1_200 {
        list.extend("./".repeat(k % 90).bytes());
        list.extend(if k % 7 == 0 { &b"ab\n"[..] } else { b"a\n" });
    }
    let report = format!(
        "logs\t1200\t0\nboard\t1\t2400\t6000\t3\t2\nboard\t2\t3600\t12000\t6\t1\n{}all\t6000\t18000\t6\t1\n",
        idle_from(3)
    );
    expect_report(&folder, &list, &report);
}

/// 10,000 full mornings; how long they take is said, and is no matter of a test.
#[test]
fn ten_thousand_full_mornings_are_added_up() {
    let root = at_root("").canonicalize().unwrap();
    let folder = root.join("examples/full-morning");
    let [plan, log] = ["plan.txt", "log.txt"].map(|file| contents(&folder.join(file)));
    let wanted = year_text((0..10_000).map(|_| (&plan[..], &log[..])));
    assert!(wanted.starts_with(b"logs\t10000\t0\n"));
    let list = "examples/full-morning\n".repeat(10_000);
    let began = Instant::now();
    expect_report(
        &root,
        list.as_bytes(),
        std::str::from_utf8(&wanted).unwrap(),
    );
    let took = began.elapsed();
    say(&format!(
        "year: 10,000 full mornings in {} ms",
        took.as_millis()
    ));
}

#[test]
fn from_the_10_001st_name_on_nothing_is_opened() {
    let folder = folder_with("year-10001", &[b"a"]);
    let report = format!(
        "logs\t10000\t0\nboard\t1\t20000\t50000\t3\t2\nboard\t2\t30000\t100000\t6\t1\n{}all\t50000\t150000\t6\t1\n",
        idle_from(3)
    );
    let list = "a\n".repeat(10_000);
    expect_report(&folder, list.as_bytes(), &report);
    let refused = format!("{report}refused\t28\t0\t0\n");
    for more in ["a\n", "a", "nowhere\n", "nowhere\nnowhere\n"] {
        expect_report(&folder, format!("{list}{more}").as_bytes(), &refused);
    }
}

/// The most memory that the process has had so far, in KiB: as addresses, and in use.
fn most_memory(process: u32) -> [u64; 2] {
    let status = fs::read_to_string(format!("/proc/{process}/status")).unwrap();
    ["VmPeak:", "VmHWM:"].map(|name| {
        let line = status.lines().find(|line| line.starts_with(name));
        let mut words = line.expect("the system tells it").split_whitespace();
        words.nth(1).unwrap().parse().unwrap()
    })
}

/// The memory after so many logs: the log behind them is a pipe, which the program has to wait for.
fn memory_after(folder: &Path, logs: usize) -> [u64; 2] {
    let mut command = program_in("year", folder);
    command.stdin(Stdio::piped()).stdout(Stdio::piped());
    let mut program = command.stderr(Stdio::null()).spawn().unwrap();
    let mut names = program.stdin.take().unwrap();
    names.write_all("a\n".repeat(logs).as_bytes()).unwrap();
    names.write_all(b"pipe\n").unwrap();
    drop(names);
    // It opens once the program does.
    let mut pipe = File::options()
        .write(true)
        .open(folder.join("pipe/log.txt"))
        .unwrap();
    let memory = most_memory(program.id());
    pipe.write_all(&run_log(PLAN_A, ENDS_A)).unwrap();
    drop(pipe);
    let output = program.wait_with_output().unwrap();
    let first = format!("logs\t{}\t0\n", logs + 1);
    assert!(output.stdout.starts_with(first.as_bytes()));
    memory
}

#[test]
fn the_memory_is_the_same_for_one_log_and_for_ten_thousand() {
    let folder = folder_with("year-memory", &[b"a", b"pipe"]);
    let log = folder.join("pipe/log.txt");
    fs::remove_file(&log).unwrap();
    assert!(Command::new("mkfifo").arg(&log).status().unwrap().success());
    let [one, many] = [1, 9_999].map(|logs| memory_after(&folder, logs));
    say(&format!(
        "year: {one:?} KiB after a log, {many:?} after 9,999"
    ));
    // Which pages of the program's own file are in use is the system's choice.
    assert!(EMULATED || many[0] == one[0] && many[1] <= one[1] + 512);
}

#[test]
fn a_list_that_cannot_be_read_is_said() {
    let folder = folder_with("year-no-list", &[b"a"]);
    symlink("loop", folder.join("loop")).unwrap();
    for list in ["nowhere", "a", "", "loop"] {
        let output = script(&folder, Path::new(list));
        assert_eq!(output.stdout, b"");
        let begin = format!("year: {list}: ");
        assert!(output.stderr.starts_with(begin.as_bytes()), "{list}");
        assert_eq!(
            output.stderr.iter().filter(|&&byte| byte == b'\n').count(),
            1
        );
        assert_eq!(output.status.code(), Some(2));
    }
    // A folder on the program's own standard input.
    let mut program = program_in("year", &folder);
    let program = program.stdin(File::open(&folder).unwrap());
    let output = program.output().unwrap();
    assert_eq!(output.stdout, b"");
    assert!(output.stderr.len() > 1);
}

/// A project with the command in it, whose program does what the script says.
fn project(name: &str, program: &str) -> PathBuf {
    let root = new_folder(name);
    fs::create_dir_all(root.join("crates")).unwrap();
    copy_files("tools/common", &root);
    copy_files("tools/links", &root);
    fs::write(root.join("crates.txt"), "year:\n").unwrap();
    for file in ["year", "tools/year", "tools/run.bash", "tools/use.bash"] {
        copy_command(file, &root);
    }
    put_script(&root.join("tools/program"), program);
    put_script(&root.join("crates/year/out/year"), "");
    fs::write(root.join("list"), b"").unwrap();
    root
}

fn called_in(root: &Path) -> (String, String, Option<i32>) {
    let mut command = Command::new(root.join("year"));
    let output = command.arg("list").current_dir(root).output().unwrap();
    let [printed, said] =
        [output.stdout, output.stderr].map(|words| String::from_utf8(words).unwrap());
    (printed, said, output.status.code())
}

const NOTES: &str = "echo 'note: 100 logs done' >&2; echo 'note: 200 logs done' >&2";

/// Elsewhere than on a terminal notes are not shown; a failure is told from them.
#[test]
fn a_note_is_no_failure() {
    let root = project("year-notes", &format!("{NOTES}; echo report"));
    assert_eq!(
        called_in(&root),
        ("report\n".into(), String::new(), Some(0))
    );
    let root = project("year-notes-failed", &format!("{NOTES}; echo 'x: no' >&2"));
    assert_eq!(
        called_in(&root),
        (String::new(), "year: x: no\n".into(), Some(2))
    );
    // What is printed beside a failure is kept back.
    let root = project("year-half", "echo report; echo 'x: no' >&2");
    assert_eq!(
        called_in(&root),
        (String::new(), "year: x: no\n".into(), Some(2))
    );
    // A sentence about a folder with such a name is the last, and nothing is printed.
    let root = project("year-note-name", "echo 'note: x/plan.txt: no' >&2");
    let said = "year: note: x/plan.txt: no\n";
    assert_eq!(called_in(&root), (String::new(), said.into(), Some(2)));
    let root = project("year-killed", "kill -KILL $$");
    let (printed, said, status) = called_in(&root);
    assert_eq!((printed.as_str(), status), ("", Some(2)));
    assert_eq!(
        said,
        "year: the program ended with status 137, and did not say why\n"
    );
}

fn year_on_terminal(root: &Path, steps: &[&str]) -> (String, Option<i32>) {
    let mut command = on_terminal(steps, &root.join("year"));
    command.arg("list").current_dir(root).env("TERM", "xterm");
    let output = command.output().unwrap();
    assert_eq!(text(&output.stderr), "");
    (text(&output.stdout).to_owned(), output.status.code())
}

#[test]
fn on_a_terminal_it_shows_how_many_logs_are_done() {
    let root = project("year-terminal", &format!("{NOTES}; echo report"));
    let (shown, status) = year_on_terminal(&root, &[]);
    assert_eq!(status, Some(0), "{shown:?}");
    let wanted = "\r\x1b[Kyear: 100 logs done\r\x1b[Kyear: 200 logs done\r\x1b[Kreport\r\n";
    assert_eq!(shown, wanted);
}

/// What a program does to keep the path of the link that it is handed first.
const KEEP_LINK: &str = "IFS= read -r link; test -L \"$link\" && echo \"$link\" >link";

/// A project whose list has a name that is not UTF-8.
fn project_with_link(name: &str, program: &str) -> PathBuf {
    let root = project(name, &format!("{KEEP_LINK}; {program}"));
    fs::write(root.join("list"), b"\xff\n").unwrap();
    root
}

fn expect_link_gone(root: &Path) {
    let link = fs::read_to_string(root.join("link")).unwrap();
    let folder = Path::new(link.trim_end()).parent().unwrap();
    assert!(folder.is_absolute() && !folder.exists(), "{link}");
}

#[test]
fn no_link_is_left() {
    let root = project_with_link("year-link", "readlink \"$link\"");
    let mut command = Command::new(root.join("year"));
    let output = command.arg("list").current_dir(&root).output().unwrap();
    let target = root
        .canonicalize()
        .unwrap()
        .join(OsStr::from_bytes(b"\xff"));
    let wanted = [target.as_os_str().as_bytes(), b"\n"].concat();
    assert!(output.stdout == wanted);
    assert_eq!(String::from_utf8_lossy(&output.stderr), "");
    expect_link_gone(&root);

    let root = project_with_link("year-link-failed", "echo \"$link/log.txt: no\" >&2");
    let mut command = Command::new(root.join("year"));
    let output = command.arg("list").current_dir(&root).output().unwrap();
    expect_said(&output, b"year: \xff/log.txt: no\n");
    assert_eq!(output.status.code(), Some(2));
    expect_link_gone(&root);
}

/// The program may stop before the end of a list, and the list may have none.
#[test]
fn a_list_need_not_end() {
    let root = project("year-endless", "head -n 3");
    for line in ["yes a | ./year /dev/stdin", "./year <(yes a)"] {
        let mut shell = Command::new("bash");
        let shell = shell.args(["-c", line]).current_dir(&root);
        let output = shell.output().unwrap();
        assert_eq!(String::from_utf8_lossy(&output.stderr), "");
        assert_eq!(String::from_utf8_lossy(&output.stdout), "a\na\na\n");
        assert_eq!(output.status.code(), Some(0));
    }
}

fn program_to_interrupt() -> String {
    format!("echo $$ >child; {NOTES}; exec sleep 600")
}

fn expect_ended_by_ctrl_c(root: &Path) {
    let (shown, status) = year_on_terminal(root, &["200 logs done", "\x03"]);
    assert_eq!(status, Some(130), "{shown:?}");
    let child = root.join("child");
    assert!(comes_true(|| is_gone(&child)), "the program runs on");
}

#[test]
fn ctrl_c_leaves_nothing_running() {
    expect_ended_by_ctrl_c(&project("year-ctrl-c", &program_to_interrupt()));
}

#[test]
fn ctrl_c_leaves_no_link() {
    let root = project_with_link("year-ctrl-c-link", &program_to_interrupt());
    expect_ended_by_ctrl_c(&root);
    expect_link_gone(&root);
}
