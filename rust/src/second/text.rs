//! Reading and writing the plan text.
//!
//! Settled here where the document is silent: a number too long for any range
//! is out of range in line 1 as well (2); one stray LF after the last task line
//! is already bytes that follow it (5).

use super::fields::{line_of, push_number, read_number, split_fields, split_line};
use super::judge::{accepted, first_faulty_pair, late_beginning};
use super::task_line::{read_task, Shared};
use super::values::{
    drive_of, is_exclusive, items, refusal, Answer, Plan, Reading, WriteResult, EDITION_1,
    EDITION_2, LONGEST_TEXT, MOST_BOARDS, MOST_TASKS,
};

/// The first line is not as a call wants it.
pub const NO_FIRST_LINE: Answer = refusal(2, 1, 0);

/// The plan a text spells, or its first refusal and a plan of zeros.
pub fn read_plan(text: &[u8]) -> Reading {
    reading_of(plan_of(text))
}

/// What a call answers with a plan: a refusal comes with a plan of zeros.
pub fn reading_of(plan: Result<Plan, Answer>) -> Reading {
    match plan {
        Ok(plan) => Reading {
            answer: Answer::ACCEPTED,
            plan,
        },
        Err(answer) => Reading {
            answer,
            plan: Plan::ZERO,
        },
    }
}

/// Writes an accepted plan's text to the front of `out`, and nothing else.
pub fn write_plan(plan: &Plan, out: &mut [u8]) -> WriteResult {
    if !accepted(plan) {
        return WriteResult {
            answer: Answer::UNSOUND,
            length: 0,
        };
    }
    let text = plan_text(plan);
    let length = text.len() as u32;
    if out.len() < text.len() {
        return WriteResult {
            answer: refusal(16, length, 0),
            length: 0,
        };
    }
    out[..text.len()].copy_from_slice(&text);
    WriteResult {
        answer: Answer::ACCEPTED,
        length,
    }
}

/// The text of a plan value, spelt out without judging it.
pub fn plan_text(plan: &Plan) -> Vec<u8> {
    let sizes = [plan.edition, plan.boards, plan.tasks];
    let mut text = line_of("plan", &sizes.map(u32::from));
    for i in 0..plan.task_count() {
        text.extend_from_slice(b"task");
        push_field(&mut text, i as u32 + 1);
        push_field(&mut text, plan.board[i].into());
        if plan.edition == EDITION_2 {
            push_field(&mut text, plan.ready[i]);
        }
        push_field(&mut text, plan.begin[i]);
        push_field(&mut text, plan.finish[i]);
        push_list(&mut text, items(plan.hold_places(i)), push_hold);
        push_list(&mut text, items(plan.after_places(i)), |text, task| {
            push_number(text, task.into())
        });
        text.push(b'\n');
    }
    text
}

fn push_field(text: &mut Vec<u8>, number: u32) {
    text.push(b'\t');
    push_number(text, number);
}

fn push_hold(text: &mut Vec<u8>, hold: u8) {
    text.push(if is_exclusive(hold) { b'e' } else { b's' });
    push_number(text, drive_of(hold));
}

fn push_list(text: &mut Vec<u8>, list: &[u8], push_item: fn(&mut Vec<u8>, u8)) {
    text.push(b'\t');
    if list.is_empty() {
        text.push(b'-');
    }
    for (k, &item) in list.iter().enumerate() {
        if k > 0 {
            text.push(b',');
        }
        push_item(text, item);
    }
}

pub fn plan_of(text: &[u8]) -> Result<Plan, Answer> {
    let (sizes, rest) = read_first_line(text)?;
    judged(read_task_lines(sizes, rest, Shared::Refused)?)
}

/// The very plan, when it has no refusal 17, 6, 7 or 8.
pub fn judged(plan: Plan) -> Result<Plan, Answer> {
    match late_beginning(&plan).or_else(|| first_faulty_pair(&plan)) {
        Some(answer) => Err(answer),
        None => Ok(plan),
    }
}

/// A plan of the stated edition and sizes with no task in it, and the rest of the
/// text; or refusal 1 or 2.
pub fn read_first_line(text: &[u8]) -> Result<(Plan, &[u8]), Answer> {
    if text.len() > LONGEST_TEXT {
        return Err(refusal(1, 0, 0));
    }
    let (line, rest) = split_line(text).ok_or(NO_FIRST_LINE)?;
    let sizes = read_sizes(line).ok_or(NO_FIRST_LINE)?;
    Ok((sizes, rest))
}

fn read_sizes(line: &[u8]) -> Option<Plan> {
    let [word, edition, boards, tasks] = split_fields(line)?;
    let edition = match edition {
        b"1" => EDITION_1,
        b"2" => EDITION_2,
        _ => return None,
    };
    if word != b"plan" {
        return None;
    }
    let boards = u8::try_from(read_number(boards)?).ok()?;
    let tasks = u8::try_from(read_number(tasks)?).ok()?;
    if !(1..=MOST_BOARDS).contains(&boards) || !(1..=MOST_TASKS).contains(&tasks) {
        return None;
    }
    Some(Plan {
        edition,
        boards,
        tasks,
        ..Plan::ZERO
    })
}

/// The plan with what its task lines say; or refusal 3, 4, 20, 18 or 5.
pub fn read_task_lines(sizes: Plan, lines: &[u8], shared: Shared) -> Result<Plan, Answer> {
    let (mut plan, mut rest) = (sizes, lines);
    for i in 0..plan.task_count() {
        rest = read_task(&mut plan, i, rest, shared)?;
    }
    if !rest.is_empty() {
        return Err(refusal(5, u32::from(plan.tasks) + 2, 0));
    }
    Ok(plan)
}
