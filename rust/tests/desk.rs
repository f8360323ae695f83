//! The desk line by line: dialogues typed from the rules, and whole mornings beside the second desk.

use crate::folders::plan_folder;
use dispatcher::run_log;
use dispatcher::sample::desk_lines::{any_line, any_question, next_step, opened};
use dispatcher::sample::events::rule_line;
use dispatcher::sample::lent::text;
use dispatcher::sample::live::{
    answers_in, desk_command, desk_program, folder_with, quick_place, Live,
};
use dispatcher::sample::plan_a::{ENDS_A, PLAN_A};
use dispatcher::sample::plans::full_plan_of_either;
use dispatcher::sample::program::{contents, empty_folder};
use dispatcher::sample::tally::Tally;
use dispatcher::sample::Rng;
use dispatcher::second::desk::Reply;
use dispatcher::second::text::plan_text;
use dispatcher::{Desk, Rule};
use std::fs;
use std::path::Path;

const MORNINGS: u32 = 100;

/// A line, its answer and whether it is kept, typed with blanks for tabs and `|` between lines.
type Told = (&'static str, &'static str, bool);

const KEPT: bool = true;
const LEFT: bool = false;

fn as_text(typed: &str) -> Vec<u8> {
    typed.replace(' ', "\t").replace('|', "\n").into_bytes()
}

fn as_line(typed: &str) -> Vec<u8> {
    [as_text(typed), b"\n".to_vec()].concat()
}

/// The second desk and the program answer as it is typed, and `ends.txt` has the kept lines.
fn check(name: &str, plan: &[u8], opening: &str, told: &[Told]) {
    let folder = plan_folder(name, plan);
    let mut live = Live::start(desk_program(&folder));
    let (log, mut desk) = opened(plan, b"");
    assert_eq!(text(&log), text(&as_line(opening)));
    assert_eq!(text(&live.answer()), text(&log));
    let mut kept = Vec::new();
    for &(line, answer, is_kept) in told {
        let expected = Reply {
            answer: as_line(answer),
            is_kept,
        };
        assert_eq!(desk.take(&as_text(line), true), expected, "{line}");
        if is_kept {
            kept.extend(as_line(line));
        }
        let printed = live.ask(&as_line(line));
        assert_eq!(text(&printed), text(&expected.answer), "{line}");
        let is_there = folder.join("ends.txt").exists();
        assert_eq!(is_there, !kept.is_empty(), "{line}");
        assert_eq!(contents(&folder.join("ends.txt")), kept, "{line}");
    }
    expect_quiet_end(live);
}

fn expect_quiet_end(live: Live) {
    let left = live.end();
    assert_eq!(text(&left.printed), "");
    assert_eq!(left.said, "");
    assert!(left.status.success());
}

const OPENING_A: &str = "run 1 2 5|start 1 1 0 0|start 2 2 0 0|early 0 0";

#[test]
fn a_morning_is_answered_as_typed_from_the_rules() {
    check(
        "desk-morning-a",
        PLAN_A,
        OPENING_A,
        &[
            ("early", "early 0 0", LEFT),
            ("exact", "exact 0 0", LEFT),
            ("now", "runs 1 1 0 6|runs 2 2 0 4|now 0 2", LEFT),
            ("drive 1", "drive 1 1 5", LEFT),
            ("drive 2", "drive 2 - 3", LEFT),
            ("drive 32", "drive 32 - -", LEFT),
            ("drive 33", "refused 21 33 0", LEFT),
            ("drive 0", "refused 21 0 0", LEFT),
            ("drive 1000000", "refused 21 1000000 0", LEFT),
            ("why 1", "link 1 1 0 -|why 1 1", LEFT),
            ("why 3", "refused 11 3 0", LEFT),
            ("why 6", "refused 10 6 0", LEFT),
            ("why 0", "refused 10 0 0", LEFT),
            ("end 6 3", "refused 10 6 3", LEFT),
            ("end 3 3", "refused 11 3 3", LEFT),
            ("end 2 0", "refused 13 2 0", LEFT),
            ("end 2 5", "refused 14 2 5", LEFT),
            ("end 1 5", "refused 15 1 5", LEFT),
            ("drop 6", "refused 10 6 0", LEFT),
            ("drop 1", "refused 19 1 0", LEFT),
            ("end 2 3", "end 2 2 3 1|start 3 2 3 1|early 3 0", KEPT),
            ("end 1 2", "refused 12 1 2", LEFT),
            ("exact", "exact 3 1", LEFT),
            ("drop 4", "drop 4 1|early 3 0", KEPT),
            ("drop 4", "refused 19 4 0", LEFT),
            ("drive 2", "drive 2 3 -", LEFT),
            ("exact", "exact 3 1", LEFT),
            ("end 1 4", "end 1 1 4 2|early 4 1", KEPT),
            ("early", "early 4 1", LEFT),
            (
                "end 3 6",
                "end 3 2 6 3|skip 4 1 6 3|start 5 2 6 4|early 6 4",
                KEPT,
            ),
            (
                "why 5",
                "link 5 2 6 -|link 3 2 3 6|link 2 2 0 3|why 5 3",
                LEFT,
            ),
            (
                "why 4",
                "link 4 1 6 6|link 3 2 3 6|link 2 2 0 3|why 4 3",
                LEFT,
            ),
            ("exact", "exact 6 -", LEFT),
            ("now", "runs 5 2 6 10|now 6 1", LEFT),
            ("drive 1", "drive 1 5 -", LEFT),
            ("end 5 8", "end 5 2 8 6|early 8 0", KEPT),
            ("now", "now 8 0", LEFT),
            ("drive 1", "drive 1 - -", LEFT),
        ],
    );
}

/// A start that lies ahead counts as running for `now`, and as waiting for `drive` and `exact`.
#[test]
fn a_start_past_the_clock_is_answered_as_typed_from_the_rules() {
    check(
        "desk-ready",
        b"plan\t2\t1\t2\ntask\t1\t1\t0\t0\t4\te1\t-\ntask\t2\t1\t6\t6\t9\te1\t-\n",
        "run 1 1 2|start 1 1 0 0|early 0 0",
        &[
            ("end 1 2", "end 1 1 2 2|start 2 1 6 0|early 2 0", KEPT),
            ("now", "runs 2 1 6 9|now 2 1", LEFT),
            ("drive 1", "drive 1 - 2", LEFT),
            ("why 2", "link 2 1 6 -|why 2 1", LEFT),
            ("exact", "exact 2 0", LEFT),
            ("drop 2", "refused 19 2 0", LEFT),
            ("end 2 8", "end 2 1 8 1|early 8 0", KEPT),
            ("exact", "exact 8 -", LEFT),
        ],
    );
}

/// Task 3 clashes with nobody, and by the clash rule waits for nobody.
#[test]
fn the_rule_is_taken_until_the_first_line_is_kept() {
    let plan = b"plan\t1\t2\t3\ntask\t1\t1\t0\t4\te1\t-\ntask\t2\t1\t4\t8\te1\t-\ntask\t3\t2\t9\t12\t-\t-\n";
    check(
        "desk-rule",
        plan,
        "run 1 2 3|start 1 1 0 0|early 0 0",
        &[
            ("now", "runs 1 1 0 4|now 0 1", LEFT),
            ("rule", "refused 3 2 5", LEFT),
            ("rule early", "refused 3 3 6", LEFT),
            ("rule clash clash", "refused 3 4 12", LEFT),
            ("rule clash ", "refused 3 5 12", LEFT),
            ("rules clash", "refused 3 6 1", LEFT),
            ("end 1 9", "refused 14 1 9", LEFT),
            (
                "rule clash",
                "run 2 2 3 clash|start 1 1 0 0|start 3 2 0 9|early 0 0",
                KEPT,
            ),
            ("now", "runs 1 1 0 4|runs 3 2 0 3|now 0 2", LEFT),
            ("rule clash", "refused 3 10 1", LEFT),
            ("end 3 2", "end 3 2 2 10|early 2 0", KEPT),
            ("rule clash", "refused 3 12 1", LEFT),
        ],
    );
    check(
        "desk-no-rule",
        plan,
        "run 1 2 3|start 1 1 0 0|early 0 0",
        &[
            ("drop 2", "drop 2 1|early 0 0", KEPT),
            ("rule clash", "refused 3 2 1", LEFT),
            ("rule", "refused 3 3 1", LEFT),
        ],
    );
}

/// A slip of the hand is answered by 3 or 4, its line and its column, and the next line is read.
#[test]
fn slips_are_answered_as_typed_from_the_rules() {
    check(
        "desk-slips",
        PLAN_A,
        OPENING_A,
        &[
            ("", "refused 3 1 1", LEFT),
            ("help", "refused 3 2 1", LEFT),
            ("End 2 3", "refused 3 3 1", LEFT),
            ("end 2", "refused 3 4 6", LEFT),
            ("end 2 x", "refused 3 5 7", LEFT),
            ("end 2 3 ", "refused 3 6 9", LEFT),
            ("end 02 3", "refused 3 7 5", LEFT),
            ("end 1000001 3", "refused 4 8 5", LEFT),
            ("end 1000001 03", "refused 3 9 13", LEFT),
            ("end 2 1000001", "refused 4 10 7", LEFT),
            ("drop", "refused 3 11 5", LEFT),
            ("drop 1 2", "refused 3 12 8", LEFT),
            ("drop 1000001", "refused 4 13 6", LEFT),
            ("early ", "refused 3 14 7", LEFT),
            ("early 1", "refused 3 15 7", LEFT),
            ("now x", "refused 3 16 5", LEFT),
            ("exactly", "refused 3 17 1", LEFT),
            ("exact 0", "refused 3 18 7", LEFT),
            ("drive", "refused 3 19 6", LEFT),
            ("drive ", "refused 3 20 7", LEFT),
            ("drive e1", "refused 3 21 7", LEFT),
            ("drive 1 2", "refused 3 22 9", LEFT),
            ("drive 1000001", "refused 4 23 7", LEFT),
            ("why", "refused 3 24 4", LEFT),
            ("why 1000001", "refused 4 25 5", LEFT),
            ("why 99999999999999999999", "refused 4 26 5", LEFT),
            (" early", "refused 3 27 1", LEFT),
            ("start 1 1 0 0", "refused 3 28 1", LEFT),
            ("early", "early 0 0", LEFT),
        ],
    );
}

/// Up to 64 bytes a line is read; a longer one is 3 at column 65, whatever it holds, and answered once.
#[test]
fn a_long_line_is_answered_once() {
    let folder = plan_folder("desk-long", PLAN_A);
    let mut live = Live::start(desk_program(&folder));
    live.answer();
    let digits = |many: usize| [b"why\t".to_vec(), b"1".repeat(many), b"\n".to_vec()].concat();
    assert_eq!(text(&live.ask(&digits(60))), "refused\t4\t1\t5\n");
    assert_eq!(text(&live.ask(&digits(61))), "refused\t3\t2\t65\n");
    let mut slips = 2;
    for many in [65, 66, 128, 4_095, 4_096, 4_097, 65_535, 1_000_000] {
        for byte in b"x\t\0\xff" {
            slips += 1;
            let mut line = vec![*byte; many];
            line.push(b'\n');
            let expected = format!("refused\t3\t{slips}\t65\n");
            assert_eq!(text(&live.ask(&line)), expected, "{many} of {byte}");
        }
    }
    assert_eq!(
        text(&live.ask(b"now\n")),
        "runs\t1\t1\t0\t6\nruns\t2\t2\t0\t4\nnow\t0\t2\n"
    );
    expect_quiet_end(live);
}

/// A last line without LF is never taken, whatever it says; an input that ends with LF has no such line.
#[test]
fn a_last_line_without_lf_is_refused() {
    for (k, (line, column)) in [
        (b"end\t2\t3".as_slice(), 8),
        (b"rule\tclash", 11),
        (b"early", 6),
        (b"end\t1000001\t3", 14),
        (b"end\tx", 5),
        (b"x", 1),
        (b"early\t", 7),
        (&[b'x'; 64], 1),
        (&[b'1'; 65], 65),
        (&[b'e'; 5_000], 65),
    ]
    .into_iter()
    .enumerate()
    {
        let folder = plan_folder(&format!("desk-no-lf-{k}"), PLAN_A);
        let mut live = Live::start(desk_program(&folder));
        live.answer();
        live.ask(b"early\n");
        live.hand(line);
        let left = live.end();
        let expected = format!("refused\t3\t2\t{column}\n");
        assert_eq!(text(&left.printed), expected, "{:?}", text(line));
        assert_eq!(left.said, "");
        assert!(!folder.join("ends.txt").exists());
    }
}

/// Where the pieces of a line come one by one, it is one line; where lines come together, each is answered.
#[test]
fn lines_are_told_apart_by_their_lf_alone() {
    let folder = plan_folder("desk-pieces", PLAN_A);
    let mut live = Live::start(desk_program(&folder));
    live.answer();
    for byte in b"end\t2\t3" {
        live.hand(&[*byte]);
        std::thread::sleep(std::time::Duration::from_millis(2));
    }
    let expected = "end\t2\t2\t3\t1\nstart\t3\t2\t3\t1\nearly\t3\t0\n";
    assert_eq!(text(&live.ask(b"\n")), expected);
    live.hand(b"early\nnow\nearly\nend\t1");
    let answers = live.answers(3);
    let now = "early\t3\t0\nruns\t1\t1\t0\t6\nruns\t3\t2\t3\t8\nnow\t3\t2\nearly\t3\t0\n";
    assert_eq!(text(&answers), now);
    assert_eq!(text(&live.ask(b"\t4\n")), "end\t1\t1\t4\t2\nearly\t4\t1\n");
    expect_quiet_end(live);
}

/// One morning beside the second desk, line by line.
fn compare_morning(rng: &mut Rng, tally: &mut Tally, folder: &Path, plan: &[u8], rule: Rule) {
    let mut live = Live::start(desk_program(folder));
    let (opening, mut desk) = opened(plan, b"");
    assert!(live.answer() == opening);
    let mut kept = Vec::new();
    let mut compare = |desk: &mut Desk, line: &[u8]| {
        let reply = desk.take(&line[..line.len() - 1], true);
        let answer = live.ask(line);
        assert!(
            answer == reply.answer,
            "{:?}\nis answered\n{}instead of\n{}",
            String::from_utf8_lossy(line),
            String::from_utf8_lossy(&answer),
            String::from_utf8_lossy(&reply.answer)
        );
        tally.count_printed(&answer);
        if reply.is_kept {
            kept.extend_from_slice(line);
        }
    };
    for _ in 0..rng.within(0, 3) {
        let question = any_question(rng, &desk);
        compare(&mut desk, &question);
    }
    if rule == Rule::Clash {
        compare(&mut desk, rule_line(rule));
    }
    let drop_percent = rng.pick(&[0, 5, 20]);
    while let Some(step) = next_step(rng, &desk, drop_percent) {
        for _ in 0..rng.within(0, 3) {
            let line = any_line(rng, &desk);
            compare(&mut desk, &line);
        }
        compare(&mut desk, &step);
    }
    for _ in 0..3 {
        let line = any_line(rng, &desk);
        compare(&mut desk, &line);
    }
    expect_quiet_end(live);
    assert!(fs::read(folder.join("ends.txt")).unwrap() == kept);
    let mut again = Live::start(desk_program(folder));
    let log = run_log(plan, &kept);
    assert!(again.answers(answers_in(&log)) == log);
    let question = any_question(rng, &desk);
    desk.lines = 0;
    let reply = desk.take(&question[..question.len() - 1], true);
    assert!(again.ask(&question) == reply.answer);
    expect_quiet_end(again);
}

fn compare_mornings(rule: Rule, title: &'static str) {
    let (mut rng, mut tally) = Tally::seeded(title);
    let place = quick_place(env!("CARGO_TARGET_TMPDIR"));
    for round in 0..MORNINGS {
        let plan = plan_text(&full_plan_of_either(&mut rng, 64));
        let folder = folder_with(empty_folder(&place, &format!("{title}-{round}")), &plan);
        compare_morning(&mut rng, &mut tally, &folder, &plan, rule);
        fs::remove_dir_all(folder).unwrap();
    }
    let _ = fs::remove_dir(place);
    tally.finish(10_000, &[0, 3, 4, 10, 11, 12, 13, 14, 15, 19, 21]);
}

#[test]
fn a_hundred_mornings_by_early_start_are_answered_as_by_the_second_desk() {
    compare_mornings(Rule::EarlyStart, "desk-early-start");
}

#[test]
fn a_hundred_mornings_by_the_clash_rule_are_answered_as_by_the_second_desk() {
    compare_mornings(Rule::Clash, "desk-clash");
}

/// Ends and drops, refused by the book or not, come to the log that `runlog` prints of them.
#[test]
fn without_ends_the_desk_prints_the_log_of_its_lines() {
    let folder = plan_folder("desk-as-runlog", PLAN_A);
    let lines = [b"drop\t0\nend\t9\t1\n", ENDS_A, b"end\t1\t5\n"].concat();
    let mut live = Live::start(desk_command(&folder));
    live.hand(&lines);
    let left = live.end();
    assert!(left.printed == run_log(PLAN_A, &lines));
    assert_eq!(fs::read(folder.join("ends.txt")).unwrap(), ENDS_A);
    assert_eq!((left.said.as_str(), left.status.code()), ("", Some(0)));
}
