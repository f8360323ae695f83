//! Desks that are nearly right: each is told from the right one by a short dialogue on plan A, by what it prints or by
//! what a kill leaves behind.

use dispatcher::sample::desk_lines::opened;
use dispatcher::sample::plan_a::PLAN_A;
use dispatcher::{run_log, Desk};

/// What a desk does for a line, one after the other.
#[derive(Clone, PartialEq, Eq, Debug)]
enum Does {
    Keep,
    Print(Vec<u8>),
}

/// A desk takes a line, without its LF.
type Takes = fn(&mut Desk, &[u8]) -> Vec<Does>;

fn right(desk: &mut Desk, line: &[u8]) -> Vec<Does> {
    let reply = desk.take(line, true);
    let print = Does::Print(reply.answer);
    if reply.is_kept {
        return vec![Does::Keep, print];
    }
    vec![print]
}

/// Impostor: the answer is out before the line is kept.
fn answers_first(desk: &mut Desk, line: &[u8]) -> Vec<Does> {
    let mut does = right(desk, line);
    does.reverse();
    does
}

/// Impostor: a question moves the clock.
fn clock_moves(desk: &mut Desk, line: &[u8]) -> Vec<Does> {
    let does = right(desk, line);
    if does.len() == 1 {
        desk.book.clock += 1;
    }
    does
}

/// Impostor: a line that the book refuses is kept.
fn keeps_refused(desk: &mut Desk, line: &[u8]) -> Vec<Does> {
    let does = right(desk, line);
    let is_step = line.starts_with(b"end\t") || line.starts_with(b"drop\t");
    if is_step && does.len() == 1 {
        return [vec![Does::Keep], does].concat();
    }
    does
}

/// Impostor: a rule is taken after the first line kept.
fn rule_at_any_time(desk: &mut Desk, line: &[u8]) -> Vec<Does> {
    let kept = desk.kept;
    if line.starts_with(b"rule\t") {
        desk.kept = 0;
    }
    let does = right(desk, line);
    desk.kept = desk.kept.max(kept);
    does
}

/// Impostor: a line that is kept counts twice, when it is read and when it is kept.
fn counts_twice(desk: &mut Desk, line: &[u8]) -> Vec<Does> {
    let does = right(desk, line);
    if does.len() == 2 {
        desk.lines += 1;
    }
    does
}

/// All that the desk prints for these lines, typed with blanks for tabs.
fn printed(takes: Takes, lines: &[&str]) -> String {
    let (_, mut desk) = opened(PLAN_A, b"");
    let mut printed = Vec::new();
    for line in lines {
        for does in takes(&mut desk, line.replace(' ', "\t").as_bytes()) {
            if let Does::Print(answer) = does {
                printed.extend(answer);
            }
        }
    }
    String::from_utf8(printed).unwrap()
}

/// Whether after a kill at any moment the log of the folder is that of the lines answered, or of these and the one in flight.
fn survives_kills(takes: Takes, lines: &[&str]) -> bool {
    let (_, mut desk) = opened(PLAN_A, b"");
    let mut judge = desk.clone();
    let (mut ends, mut answered) = (Vec::new(), Vec::new());
    for line in lines {
        let line = line.replace(' ', "\t");
        let whole = format!("{line}\n").into_bytes();
        let is_to_keep = right(&mut judge, line.as_bytes()).len() == 2;
        let with_it = [answered.clone(), whole.clone()].concat();
        let with_it = if is_to_keep {
            with_it
        } else {
            answered.clone()
        };
        for does in takes(&mut desk, line.as_bytes()) {
            match does {
                Does::Keep => ends.extend_from_slice(&whole),
                Does::Print(_) => answered.clone_from(&with_it),
            }
            let log = run_log(PLAN_A, &ends);
            if log != run_log(PLAN_A, &answered) && log != run_log(PLAN_A, &with_it) {
                return false;
            }
        }
    }
    true
}

const LINES: [&str; 8] = [
    "early",
    "end 2 5",
    "end 2 3",
    "drop 4",
    "rule clash",
    "now",
    "end 1 9",
    "end 1 4",
];

#[test]
fn the_right_desk_survives_kills() {
    assert!(survives_kills(right, &LINES));
}

#[test]
fn an_answer_before_the_line_is_kept_is_told_by_a_kill() {
    assert_eq!(printed(answers_first, &LINES), printed(right, &LINES));
    assert!(!survives_kills(answers_first, &["end 2 3"]));
}

#[test]
fn a_question_that_moves_the_clock_is_told_by_the_next_one() {
    assert_eq!(
        printed(right, &["early", "early"]),
        "early\t0\t0\nearly\t0\t0\n"
    );
    assert_eq!(
        printed(clock_moves, &["early", "early"]),
        "early\t0\t0\nearly\t1\t0\n"
    );
}

/// Refused once more at the next start, it would stand in the log, which the desk never printed so.
#[test]
fn a_refused_line_that_is_kept_is_told_by_the_next_start() {
    assert_eq!(printed(keeps_refused, &LINES), printed(right, &LINES));
    assert!(!survives_kills(keeps_refused, &["end 2 5"]));
}

#[test]
fn a_rule_taken_late_is_told_by_its_answer() {
    let lines = ["end 2 3", "rule clash"];
    assert!(printed(right, &lines).ends_with("refused\t3\t2\t1\n"));
    assert!(printed(rule_at_any_time, &lines).contains("run\t2\t2\t5\tclash\n"));
}

#[test]
fn a_line_counted_twice_is_told_by_the_next_slip() {
    let lines = ["end 2 3", "x"];
    assert!(printed(right, &lines).ends_with("refused\t3\t2\t1\n"));
    assert!(printed(counts_twice, &lines).ends_with("refused\t3\t3\t1\n"));
}
