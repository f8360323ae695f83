//! The log judge: whether another school's log keeps its plan, and how early each task ended.
//!
//! Settled here where the document is silent: an empty log has a faulty line 1; the
//! ticks early of a `start` or `end` line may be -1,000,000 to 1,000,000; a word that
//! a log without drops has not, `drop` and `skip` too, is a faulty line.

use super::fields::{first_field, line_of, push_number, read_number, split_fields, split_line};
use super::judge::{clashes_if_accepted, Clashes};
use super::runlog::refused_line;
use super::text::plan_of;
use super::values::{refusal, Answer, JudgedLog, Plan, KNOWN, LAST_TICK, LONGEST_TEXT};

/// The number of the `run` line.
const FIRST_LINE: u32 = 1;

/// What the lines said so far of one task: how many starts and ends, the ticks of
/// the last of each, and whether all of them name its board.
#[derive(Clone, Copy)]
struct Noted {
    starts: u32,
    ends: u32,
    start: u32,
    end: u32,
    is_on_its_board: bool,
}

/// A line after the first one that is of its form.
enum LogLine {
    Start(Place),
    End(Place),
    /// An `early` or `refused` line, of which only the form counts.
    Other,
}

/// The task index, board and tick of a `start` or `end` line.
struct Place {
    i: usize,
    board: u32,
    tick: u32,
}

/// All that `judgelog` prints. A missing file counts as empty.
pub fn judged_text(plan_text: &[u8], log: &[u8]) -> Vec<u8> {
    match plan_of(plan_text) {
        Ok(plan) => judged_lines(&plan, &judge_log(&plan, log)),
        Err(answer) => refused_line(answer),
    }
}

/// A line for each task whose ticks are known, and the answer.
fn judged_lines(plan: &Plan, judged: &JudgedLog) -> Vec<u8> {
    let mut text = Vec::new();
    for i in (0..plan.task_count()).filter(|&i| judged.is_known(i)) {
        push_number(&mut text, i as u32 + 1);
        text.push(b'\t');
        push_difference(&mut text, plan.finish[i], judged.end[i]);
        text.push(b'\n');
    }
    if judged.answer.is_accepted() {
        text.extend(line_of("accepted", &[]));
    } else {
        text.extend(refused_line(judged.answer));
    }
    text
}

/// Ticks early as a signed number, negative where the tick is after the planned one.
fn push_difference(text: &mut Vec<u8>, planned: u32, tick: u32) {
    if tick > planned {
        text.push(b'-');
    }
    push_number(text, planned.abs_diff(tick));
}

/// Whether the log is accepted, and what it says of each task.
pub fn judge_log(plan: &Plan, log: &[u8]) -> JudgedLog {
    let Some(clashes) = clashes_if_accepted(plan) else {
        return JudgedLog::nothing(Answer::UNSOUND);
    };
    if log.len() > LONGEST_TEXT {
        return JudgedLog::nothing(refusal(1, 0, 0));
    }
    match noted_lines(plan, log) {
        Ok(noted) => judged_times(plan, &clashes, &noted),
        Err(line) => JudgedLog::nothing(refusal(23, line, 0)),
    }
}

/// What the lines say of each task; the error is the number of the first faulty line.
fn noted_lines(plan: &Plan, log: &[u8]) -> Result<[Noted; 64], u32> {
    let mut noted = [Noted::NOTHING; 64];
    let (first, mut rest) = split_line(log).ok_or(FIRST_LINE)?;
    if !is_run_line(plan, first) {
        return Err(FIRST_LINE);
    }
    let mut line_number = FIRST_LINE + 1;
    while !rest.is_empty() {
        let (line, next) = split_line(rest).ok_or(line_number)?;
        match read_log_line(plan, line).ok_or(line_number)? {
            LogLine::Start(place) => noted[place.i].take_start(plan, &place),
            LogLine::End(place) => noted[place.i].take_end(plan, &place),
            LogLine::Other => {}
        }
        line_number += 1;
        rest = next;
    }
    Ok(noted)
}

/// By either rule, with the boards and tasks of the plan.
fn is_run_line(plan: &Plan, line: &[u8]) -> bool {
    let fields = match split_fields::<4>(line) {
        Some([word, b"1", boards, tasks]) => Some([word, boards, tasks]),
        Some(_) => None,
        None => match split_fields::<5>(line) {
            Some([word, b"2", boards, tasks, b"clash"]) => Some([word, boards, tasks]),
            _ => None,
        },
    };
    let Some([word, boards, tasks]) = fields else {
        return false;
    };
    word == b"run"
        && read_number(boards) == Some(plan.boards.into())
        && read_number(tasks) == Some(plan.tasks.into())
}

/// None where the line is not of its form, or a number is out of range.
fn read_log_line(plan: &Plan, line: &[u8]) -> Option<LogLine> {
    match first_field(line) {
        b"start" => Some(LogLine::Start(read_place(plan, line)?)),
        b"end" => Some(LogLine::End(read_place(plan, line)?)),
        b"early" => {
            let [_, clock, figure] = split_fields(line)?;
            read_in_range(clock)?;
            read_in_range(figure)?;
            Some(LogLine::Other)
        }
        b"refused" => {
            let [_, code, first, second] = split_fields(line)?;
            read_in_range(code)?;
            read_in_range(first)?;
            read_in_range(second)?;
            Some(LogLine::Other)
        }
        _ => None,
    }
}

fn read_place(plan: &Plan, line: &[u8]) -> Option<Place> {
    let [_, task, board, tick, early] = split_fields(line)?;
    let task = read_number(task).filter(|task| (1..=u32::from(plan.tasks)).contains(task))?;
    let board = read_number(board).filter(|board| (1..=u32::from(plan.boards)).contains(board))?;
    let tick = read_in_range(tick)?;
    if !is_ticks_early(early) {
        return None;
    }
    let i = task as usize - 1;
    Some(Place { i, board, tick })
}

fn read_in_range(field: &[u8]) -> Option<u32> {
    read_number(field).filter(|&number| number <= LAST_TICK)
}

/// Only here may a number be negative; 0 has no sign.
fn is_ticks_early(field: &[u8]) -> bool {
    match field.strip_prefix(b"-") {
        Some(late) => read_in_range(late).is_some_and(|ticks| ticks > 0),
        None => read_in_range(field).is_some(),
    }
}

impl Noted {
    const NOTHING: Noted = Noted {
        starts: 0,
        ends: 0,
        start: 0,
        end: 0,
        is_on_its_board: true,
    };

    fn take_start(&mut self, plan: &Plan, place: &Place) {
        self.starts += 1;
        self.start = place.tick;
        self.take_board(plan, place);
    }

    fn take_end(&mut self, plan: &Plan, place: &Place) {
        self.ends += 1;
        self.end = place.tick;
        self.take_board(plan, place);
    }

    fn take_board(&mut self, plan: &Plan, place: &Place) {
        self.is_on_its_board &= place.board == u32::from(plan.board[place.i]);
    }

    fn is_known(&self) -> bool {
        self.starts == 1 && self.ends == 1
    }
}

fn judged_times(plan: &Plan, clashes: &Clashes, noted: &[Noted; 64]) -> JudgedLog {
    let answer = fault_of(plan, clashes, noted).unwrap_or(Answer::ACCEPTED);
    let mut judged = JudgedLog::nothing(answer);
    for (i, task) in noted.iter().enumerate().filter(|(_, task)| task.is_known()) {
        judged.known[i] = KNOWN;
        judged.start[i] = task.start;
        judged.end[i] = task.end;
    }
    judged
}

/// Code by code over all tasks; later ones look at ticks that earlier ones make sure of.
fn fault_of(plan: &Plan, clashes: &Clashes, noted: &[Noted; 64]) -> Option<Answer> {
    let tasks = &noted[..plan.task_count()];
    let is_missing = |task: &Noted| !task.is_known() || !task.is_on_its_board;
    let first_missing = tasks.iter().position(is_missing);
    if let Some(i) = first_missing {
        return Some(refusal(24, i as u32 + 1, 0));
    }
    if let Some(i) = (0..tasks.len()).find(|&i| has_bad_length(plan, &tasks[i], i)) {
        return Some(refusal(25, i as u32 + 1, 0));
    }
    if let Some((a, b)) = first_bad_pair(plan, clashes, tasks) {
        return Some(refusal(26, a as u32 + 1, b as u32 + 1));
    }
    let is_untimely =
        |i: &usize| tasks[*i].start > plan.begin[*i] || tasks[*i].start < plan.ready[*i];
    let i = (0..tasks.len()).find(is_untimely)?;
    Some(refusal(27, i as u32 + 1, 0))
}

fn has_bad_length(plan: &Plan, task: &Noted, i: usize) -> bool {
    let planned = plan.finish[i] - plan.begin[i];
    task.end <= task.start || task.end - task.start > planned
}

/// Of two that clash, the one planned first must have ended when the other starts.
fn first_bad_pair(plan: &Plan, clashes: &Clashes, tasks: &[Noted]) -> Option<(usize, usize)> {
    for a in 0..tasks.len() {
        for b in a + 1..tasks.len() {
            let (first, second) = if plan.begin[a] < plan.begin[b] {
                (a, b)
            } else {
                (b, a)
            };
            if tasks[first].end > tasks[second].start && clashes.between(a, b) {
                return Some((a, b));
            }
        }
    }
    None
}
