//! The desk and its folder: what it starts with, what it keeps, how it fails and who else is there.

use crate::folders::{folder_of, new_folder, plan_folder};
use dispatcher::run_log;
use dispatcher::sample::lent::text;
use dispatcher::sample::live::{answers_in, desk_command, desk_program, Left, Live};
use dispatcher::sample::plan_a::{ENDS_A, OPENING_A, PLAN_A};
use dispatcher::sample::program::{at_root, comes_true, expect_said, on_full_disk, without_rights};
use std::fs;
use std::os::unix::fs::PermissionsExt;
use std::path::{Path, PathBuf};
use std::process::Command;

const CUT_OFF: &str =
    "note: what followed the last LF of ends.txt was never answered, and is cut off\n";

fn folder_with_ends(name: &str, plan: &[u8], ends: &[u8]) -> PathBuf {
    folder_of(name, &[("plan.txt", plan), ("ends.txt", ends)])
}

/// All that a desk leaves to whom these lines are handed, and then the end of input.
fn session(command: Command, lines: &[u8]) -> Left {
    let mut live = Live::start(command);
    live.hand(lines);
    live.end()
}

fn expect_left(left: &Left, printed: &[u8], said: &str, status: i32) {
    assert_eq!(text(&left.printed), text(printed));
    assert_eq!(left.said, said);
    assert_eq!(left.status.code(), Some(status));
}

/// One sentence that begins so, and status 2.
fn expect_failed(left: &Left, printed: &[u8], name: &str) {
    assert_eq!(text(&left.printed), text(printed));
    expect_said(left.said.as_bytes(), name);
    assert_eq!(left.status.code(), Some(2));
}

#[test]
fn a_started_desk_goes_on_where_it_stopped() {
    let folder = plan_folder("desk-goes-on", PLAN_A);
    let log = run_log(PLAN_A, ENDS_A);
    let mut kept = Vec::new();
    for line in ENDS_A.split_inclusive(|&byte| byte == b'\n') {
        let before = run_log(PLAN_A, &kept);
        kept.extend_from_slice(line);
        let after = run_log(PLAN_A, &kept);
        expect_left(&session(desk_program(&folder), line), &after, "", 0);
        assert!(after.starts_with(&before));
        assert_eq!(fs::read(folder.join("ends.txt")).unwrap(), kept);
    }
    expect_left(&session(desk_command(&folder), b""), &log, "", 0);
}

#[test]
fn a_refused_plan_ends_the_desk() {
    for (k, (plan, refused)) in [
        (b"plan\t1\t1\t0\n".as_slice(), "refused\t2\t1\t0\n"),
        (b"", "refused\t2\t1\t0\n"),
        (&[b'x'; 32_769], "refused\t1\t0\t0\n"),
        (
            b"plan\t1\t1\t1\ntask\t1\t1\t0\t0\t-\t-\n",
            "refused\t4\t2\t12\n",
        ),
    ]
    .into_iter()
    .enumerate()
    {
        // What ends.txt says does not count then, however long it is.
        for (case, ends) in [b"end\t1".to_vec(), vec![b'x'; 40_000]]
            .into_iter()
            .enumerate()
        {
            let folder = folder_with_ends(&format!("desk-bad-plan-{k}-{case}"), plan, &ends);
            let left = session(desk_program(&folder), b"early\nend\t1\t1\n");
            expect_left(&left, refused.as_bytes(), "", 0);
            assert!(fs::read(folder.join("ends.txt")).unwrap() == ends);
        }
    }
    let folder = new_folder("desk-no-plan");
    let left = session(desk_command(&folder), b"early\n");
    expect_left(&left, b"refused\t2\t1\t0\n", "", 0);
    assert_eq!(fs::read_dir(folder).unwrap().count(), 0);
}

/// Where `runlog` stops in the text up to its last LF, its log is printed and nothing changed.
#[test]
fn ends_in_which_runlog_stops_are_left_alone() {
    for (k, ends) in [
        b"end\t2\t3\nfoo\nend\t1\t4\n".as_slice(),
        b"end\t2\t3\nend\t1\t1000001\n",
        b"rule\tclash \n",
        b"rule\nend\t2\t3\n",
        b"end\t2\t3\nrule\tclash\nend\t1",
        b"\n",
        b"early\n",
    ]
    .into_iter()
    .enumerate()
    {
        let folder = folder_with_ends(&format!("desk-stops-{k}"), PLAN_A, ends);
        let whole = ends.iter().rposition(|&byte| byte == b'\n').unwrap() + 1;
        let log = run_log(PLAN_A, &ends[..whole]);
        assert!(text(&log).lines().last().unwrap().starts_with("refused\t"));
        let left = session(desk_program(&folder), b"early\n");
        assert_eq!(text(&left.printed), text(&log));
        assert_eq!(
            left.said,
            "ends.txt: runlog stops in it; nothing was changed\n"
        );
        if k == 0 {
            let left = session(desk_command(&folder), b"early\n");
            expect_failed(&left, &log, "desk: ends.txt");
        }
        assert_eq!(fs::read(folder.join("ends.txt")).unwrap(), ends);
    }
}

/// Bytes behind the last LF were never answered. They are cut off, which is told and no failure.
#[test]
fn a_torn_last_line_is_cut_off() {
    for (k, (ends, whole)) in [
        (b"end\t2\t3\nend\t1\t4".as_slice(), 8),
        (b"end\t2\t3\n\0\0\0\0", 8),
        (b"end\t2\t3\nrule\tclash", 8),
        (b"rule\tcla", 0),
        (b"e", 0),
        (b"rule\tclash\nend\t1000001", 11),
    ]
    .into_iter()
    .enumerate()
    {
        let folder = folder_with_ends(&format!("desk-torn-{k}"), PLAN_A, ends);
        let log = run_log(PLAN_A, &ends[..whole]);
        if k == 0 {
            let left = session(desk_command(&folder), b"");
            expect_left(&left, &log, &format!("desk: {CUT_OFF}"), 0);
        } else {
            let left = session(desk_program(&folder), b"");
            expect_left(&left, &log, CUT_OFF, 0);
        }
        assert_eq!(fs::read(folder.join("ends.txt")).unwrap(), &ends[..whole]);
        // The next line stands at the end of the whole ones, and the next start finds nothing to tell.
        let left = session(desk_program(&folder), b"end\t2\t3\nend\t1\t4\n");
        assert_eq!(left.said, "");
        let after = fs::read(folder.join("ends.txt")).unwrap();
        assert!(after.starts_with(&ends[..whole]) && after.ends_with(b"end\t1\t4\n"));
        let again = session(desk_program(&folder), b"");
        assert!(again.printed == run_log(PLAN_A, &after));
    }
}

/// A rule may be chosen once a torn first line is cut off: `ends.txt` is empty then.
#[test]
fn a_rule_is_taken_where_only_a_torn_line_stood() {
    let folder = folder_with_ends("desk-torn-rule", PLAN_A, b"end\t2\t");
    let left = session(desk_program(&folder), b"rule\tclash\nrule\tclash\n");
    let clash = OPENING_A.replace("run\t1\t2\t5", "run\t2\t2\t5\tclash");
    let printed = format!("{OPENING_A}{clash}refused\t3\t2\t1\n");
    assert_eq!(text(&left.printed), printed);
    assert_eq!(fs::read(folder.join("ends.txt")).unwrap(), b"rule\tclash\n");
}

/// A line that would take `ends.txt` past 32,768 bytes is refused by 1; one that just fits is kept.
#[test]
fn a_line_that_no_longer_fits_is_refused() {
    // 32,760 bytes, and 32,761 with a longer line among them.
    for (name, ends, fits) in [
        ("fits", b"end\t0\t0\n".repeat(4_095), true),
        (
            "past",
            [b"end\t0\t10\n".to_vec(), b"end\t0\t0\n".repeat(4_094)].concat(),
            false,
        ),
    ] {
        let folder = folder_with_ends(&format!("desk-limit-{name}"), PLAN_A, &ends);
        let mut live = Live::start(desk_program(&folder));
        let log = run_log(PLAN_A, &ends);
        assert!(live.answers(answers_in(&log)) == log);
        assert_eq!(text(&live.ask(b"end\t2\t9\n")), "refused\t14\t2\t9\n");
        let answer = live.ask(b"end\t2\t3\n");
        if fits {
            assert!(text(&answer).ends_with("early\t3\t0\n"));
            assert_eq!(text(&live.ask(b"end\t1\t4\n")), "refused\t1\t0\t0\n");
        } else {
            assert_eq!(text(&answer), "refused\t1\t0\t0\n");
            // A shorter line still fits.
            assert_eq!(text(&live.ask(b"drop\t4\n")), "drop\t4\t1\nearly\t0\t0\n");
        }
        let clock = if fits { 3 } else { 0 };
        assert_eq!(text(&live.ask(b"early\n")), format!("early\t{clock}\t0\n"));
        // What the book refuses is not asked whether it fits, and what is not of its form neither.
        assert_eq!(text(&live.ask(b"end\t9\t9\n")), "refused\t10\t9\t9\n");
        assert_eq!(text(&live.ask(b"rule\tclash\n")), "refused\t3\t6\t1\n");
        live.end();
        let more: &[u8] = if fits { b"end\t2\t3\n" } else { b"drop\t4\n" };
        assert!(fs::read(folder.join("ends.txt")).unwrap() == [&ends, more].concat());
        assert!(
            session(desk_program(&folder), b"").printed == run_log(PLAN_A, &[&ends, more].concat())
        );
    }
}

/// Questions need no file; the first line that is to be kept cannot be, is not answered, and ends the desk.
#[test]
fn a_folder_that_may_not_be_written_answers_questions() {
    let folder = plan_folder("desk-read-only", PLAN_A);
    fs::set_permissions(&folder, fs::Permissions::from_mode(0o555)).unwrap();
    let command = at_root("desk");
    let command = || without_rights(&command, &[folder.to_str().unwrap()]);
    let questions = b"early\nend\t1\t9\nnow\n";
    let answers = "early\t0\t0\nrefused\t14\t1\t9\nruns\t1\t1\t0\t6\nruns\t2\t2\t0\t4\nnow\t0\t2\n";
    let asked = session(command(), questions);
    let ended = session(command(), b"early\nend\t2\t3\nearly\n");
    fs::set_permissions(&folder, fs::Permissions::from_mode(0o755)).unwrap();
    expect_left(&asked, format!("{OPENING_A}{answers}").as_bytes(), "", 0);
    expect_failed(
        &ended,
        format!("{OPENING_A}early\t0\t0\n").as_bytes(),
        "desk: ends.txt",
    );
    assert!(!folder.join("ends.txt").exists());
}

/// Likewise an `ends.txt` that may be read alone; a torn line in it cannot be cut off, which is a failure.
#[test]
fn ends_that_may_not_be_written_are_said() {
    let folder = folder_with_ends("desk-read-only-ends", PLAN_A, b"end\t2\t3\n");
    let file = folder.join("ends.txt");
    let command = at_root("desk");
    let command = || without_rights(&command, &[folder.to_str().unwrap()]);
    fs::set_permissions(&file, fs::Permissions::from_mode(0o444)).unwrap();
    let log = run_log(PLAN_A, b"end\t2\t3\n");
    let left = session(command(), b"early\nend\t1\t4\nearly\n");
    expect_failed(
        &left,
        &[&log, b"early\t3\t0\n".as_slice()].concat(),
        "desk: ends.txt",
    );
    fs::set_permissions(&file, fs::Permissions::from_mode(0o644)).unwrap();
    fs::write(&file, b"end\t2\t3\nend").unwrap();
    fs::set_permissions(&file, fs::Permissions::from_mode(0o444)).unwrap();
    let left = session(command(), b"early\n");
    expect_said(left.said.as_bytes(), "desk: ends.txt");
    assert_eq!(left.status.code(), Some(2));
    assert_eq!(fs::read(&file).unwrap(), b"end\t2\t3\nend");
}

fn expect_second(left: &Left) {
    expect_failed(left, b"", "desk");
    assert!(
        left.said.contains("another desk is open on"),
        "{}",
        left.said
    );
}

#[test]
fn a_second_desk_says_that_another_is_open() {
    let folder = plan_folder("desk-two", PLAN_A);
    let mut first = Live::start(desk_command(&folder));
    assert_eq!(text(&first.answer()), OPENING_A);
    let second = session(desk_command(&folder), b"end\t1\t4\n");
    expect_second(&second);
    assert_eq!(text(&first.ask(b"early\n")), "early\t0\t0\n");
    // Through a link it is the same folder.
    let link = folder.with_extension("link");
    let _ = fs::remove_file(&link);
    std::os::unix::fs::symlink(&folder, &link).unwrap();
    expect_second(&session(desk_command(&link), b""));
    expect_left(&first.end(), b"", "", 0);
    expect_left(
        &session(desk_command(&folder), b""),
        OPENING_A.as_bytes(),
        "",
        0,
    );
}

/// The processes that run in that folder.
fn processes_in(folder: &Path) -> Vec<PathBuf> {
    let folder = folder.canonicalize().unwrap();
    let runs_there =
        |process: &PathBuf| fs::read_link(process.join("cwd")).ok() == Some(folder.clone());
    let processes = fs::read_dir("/proc").unwrap();
    let processes = processes.map(|entry| entry.unwrap().path());
    processes.filter(runs_there).collect()
}

/// Who kills the command, by whatever signal, kills the desk, and leaves no lock.
#[test]
fn no_process_outlives_the_command() {
    for signal in ["KILL", "TERM", "HUP"] {
        let folder = plan_folder(&format!("desk-signal-{signal}"), PLAN_A);
        // so too if the tests themselves were told to ignore it
        let mut command = Command::new("env");
        command.arg("--default-signal=TERM,HUP");
        command.arg(at_root("desk")).arg(&folder);
        let mut live = Live::start(command);
        live.answer();
        live.ask(b"end\t2\t3\n");
        assert_eq!(processes_in(&folder).len(), 2);
        let status = Command::new("kill")
            .args(["-s", signal, &live.child.id().to_string()])
            .status();
        assert!(status.unwrap().success());
        assert_eq!(live.left().status.code(), None);
        let again = session(desk_command(&folder), b"");
        assert!(
            again.printed == run_log(PLAN_A, b"end\t2\t3\n"),
            "{}",
            again.said
        );
        let is_deserted = || processes_in(&folder).is_empty();
        assert!(comes_true(is_deserted), "{signal}");
    }
}

/// A reader that goes away has what it wanted, as of the other commands.
#[test]
fn a_reader_that_goes_away_is_no_failure() {
    let folder = plan_folder("desk-no-reader", PLAN_A);
    let lines = "for k in 1 2 3 4 5 6 7 8 9; do echo early; sleep 0.05; done";
    let line = format!("({lines}) | \"$0\" \"$1\" | head -n 1; exit ${{PIPESTATUS[1]}}");
    let output = Command::new("bash")
        .args(["-c", &line])
        .arg(at_root("desk"))
        .arg(&folder)
        .output()
        .unwrap();
    assert_eq!(text(&output.stdout), "run\t1\t2\t5\n");
    assert_eq!(text(&output.stderr), "");
    assert_eq!(output.status.code(), Some(0));
}

/// A folder in the place of standard input is there, and cannot be read.
#[test]
fn input_that_cannot_be_read_is_said() {
    let folder = plan_folder("desk-unread-input", PLAN_A);
    let input = || fs::File::open(&folder).unwrap();
    let output = desk_program(&folder).stdin(input()).output().unwrap();
    assert_eq!(text(&output.stdout), OPENING_A);
    expect_said(&output.stderr, "standard input");
    let output = desk_command(&folder).stdin(input()).output().unwrap();
    assert_eq!(text(&output.stderr), "desk: standard input is a folder\n");
    assert_eq!(output.status.code(), Some(2));
}

/// What was kept stays kept where its answer cannot be written: the next start shows it.
#[test]
fn a_line_is_kept_where_its_answer_cannot_be_written() {
    let folder = folder_with_ends("desk-full-output", PLAN_A, b"end\t2\t3\n");
    // A file that takes the opening and a few bytes more.
    let room = run_log(PLAN_A, b"end\t2\t3\n").len() + 5;
    let lines = folder.join("lines");
    fs::write(&lines, "end\t1\t4\nearly\n").unwrap();
    let answers = folder.join("answers");
    let output = on_full_disk(&desk_program(&folder), room)
        .stdin(fs::File::open(&lines).unwrap())
        .stdout(fs::File::create(&answers).unwrap())
        .output();
    expect_said(&output.unwrap().stderr, "standard output");
    assert_eq!(fs::read(&answers).unwrap().len(), room);
    let kept = fs::read(folder.join("ends.txt")).unwrap();
    assert_eq!(text(&kept), "end\t2\t3\nend\t1\t4\n");
}

#[test]
fn closed_input_and_no_word_are_said() {
    let folder = plan_folder("desk-closed", PLAN_A);
    for (line, why) in [
        ("\"$0\" \"$1\" <&-", "standard input is closed"),
        ("\"$0\"", "no folder is named"),
    ] {
        let output = Command::new("bash")
            .args(["-c", line])
            .arg(at_root("desk"))
            .arg(&folder)
            .output()
            .unwrap();
        expect_said(&output.stderr, "desk");
        assert!(text(&output.stderr).contains(why), "{line}");
        assert_eq!(output.stdout, b"", "{line}");
        assert_eq!(output.status.code(), Some(2), "{line}");
    }
    // Whoever closes standard error hears nothing, and the status is the same.
    let output = Command::new("bash")
        .args(["-c", "exec \"$0\" \"$1\" 2>&- <<<early"])
        .arg(at_root("desk"))
        .arg(&folder)
        .output()
        .unwrap();
    assert_eq!(text(&output.stdout), format!("{OPENING_A}early\t0\t0\n"));
    assert_eq!(output.status.code(), Some(0));
}

/// The calls that write, flush or cut files which a desk makes over these lines, as `traced.py` tells them; what it
/// prints is of no interest here.
fn calls_over(folder: &Path, lines: &[u8]) -> Vec<String> {
    let program = desk_program(folder);
    let mut traced = Command::new("python3");
    traced
        .arg(at_root("rust/tests/traced.py").canonicalize().unwrap())
        .arg(program.get_program())
        .args(program.get_args())
        .current_dir(folder);
    let left = session(traced, lines);
    assert!(left.status.success(), "{}", left.said);
    left.said.lines().map(str::to_owned).collect()
}

/// Where the call stands among the others: its name, and the descriptor where one is given.
fn place_of(calls: &[String], call: &str) -> usize {
    let is_it = |told: &String| told == call || told.starts_with(&format!("{call} "));
    let place = calls.iter().position(is_it);
    place.unwrap_or_else(|| panic!("no {call} in {calls:?}"))
}

/// What is kept for a line: one write, then `fdatasync` of the same file, and only then the answer.
fn expect_kept_first(calls: &[String], bytes: usize) {
    let (answer, before) = calls.split_last().unwrap();
    assert!(answer.starts_with("write 1 "), "{calls:?}");
    let is_put =
        |call: &&String| call.starts_with("write ") && call.ends_with(&format!(" {bytes}"));
    let put = before.iter().find(is_put);
    let file = put
        .and_then(|call| call.split(' ').nth(1))
        .unwrap_or_else(|| panic!("{calls:?}"));
    assert!(
        place_of(before, &format!("write {file}")) < place_of(before, &format!("fdatasync {file}"))
    );
    let writes = before.iter().filter(|call| call.starts_with("write "));
    assert_eq!(writes.count(), 1, "{calls:?}");
}

/// The disk has the line before its reader has the answer; at the first line kept it has the folder's new entry too.
#[test]
fn a_line_is_on_the_disk_before_it_is_answered() {
    let folder = plan_folder("desk-traced", PLAN_A);
    let calls = calls_over(&folder, b"early\nend\t2\t3\nend\t1\t99\nend\t1\t4\n");
    let is_answer = |call: &String| call.starts_with("write 1 ");
    let mut answers: Vec<&[String]> = calls.split_inclusive(is_answer).collect();
    assert_eq!(answers.len(), 5, "{calls:?}");
    let (last, first) = (answers.pop().unwrap(), answers.remove(2));
    for asked in answers {
        assert_eq!(asked.len(), 1, "{calls:?}");
    }
    expect_kept_first(first, b"end\t2\t3\n".len());
    place_of(first, "fsync");
    expect_kept_first(last, b"end\t1\t4\n".len());
    assert_eq!(last.len(), 3, "{calls:?}");
}

#[test]
fn a_torn_line_is_cut_off_on_the_disk() {
    let folder = folder_with_ends("desk-traced-torn", PLAN_A, b"end\t2\t3\nend\t1");
    let calls = calls_over(&folder, b"");
    let cut = &calls[place_of(&calls, "ftruncate")];
    let file = cut.split(' ').nth(1).unwrap();
    assert!(place_of(&calls, cut) < place_of(&calls, &format!("fdatasync {file}")));
}
