//! The output of the program `timetable`, from the contents of its two files.
//!
//! Settled here where the document is silent: what a `length` or a `drop` line
//! says of a task stands whichever of the two comes first; with a refused plan
//! `lengths.txt` is not looked at, however long.

use super::fields::{is_number, line_of, Spelling};
use super::lines::{chosen_rule, take_lines, Line, NUMBER_FIELD, TASK_FIELD};
use super::runlog::refused_line;
use super::text::plan_of;
use super::timetable::timetable;
use super::values::{
    refusal, Answer, Lengths, LengthsResult, Plan, Rule, Timetable, DROPPED, LAST_TICK,
    LONGEST_TEXT,
};

/// How each field of a `length` line is spelt.
const LENGTH_LINE: [Spelling; 3] = [|word| word == b"length", is_number, is_number];

/// What the lines said so far, and for which tasks there was a `length` line.
struct Said {
    lengths: Lengths,
    has_length: [bool; 64],
}

/// All that `timetable` prints. A missing file counts as empty.
pub fn timetable_text(plan_text: &[u8], lengths_text: &[u8]) -> Vec<u8> {
    match printed(plan_text, lengths_text) {
        Ok(text) => text,
        Err(answer) => refused_line(answer),
    }
}

fn printed(plan_text: &[u8], lengths_text: &[u8]) -> Result<Vec<u8>, Answer> {
    let plan = plan_of(plan_text)?;
    let (rule, given) = read_lengths(&plan, lengths_text)?;
    let found = timetable(&plan, rule, &given);
    if !found.answer.is_accepted() {
        return Err(found.answer);
    }
    Ok(task_lines(&plan, &found))
}

fn task_lines(plan: &Plan, found: &Timetable) -> Vec<u8> {
    let line = |i: usize| {
        let (number, board) = (i as u32 + 1, plan.board[i].into());
        line_of("task", &[number, board, found.start[i], found.end[i]])
    };
    (0..plan.task_count()).flat_map(line).collect()
}

/// The rule, lengths and drops that a text chooses for a plan; or refusal 1, 3 or 4.
pub fn read_lengths(plan: &Plan, text: &[u8]) -> Result<(Rule, Lengths), Answer> {
    if text.len() > LONGEST_TEXT {
        return Err(refusal(1, 0, 0));
    }
    let mut said = Said {
        lengths: Lengths::planned(plan),
        has_length: [false; 64],
    };
    take_lines(text, &LENGTH_LINE, |line| {
        said.take(plan.task_count() as u32, &line)
    })?;
    Ok((chosen_rule(text), said.lengths))
}

/// The same as a value: Early Start and zeros where the text is refused.
pub fn asking(plan: &Plan, text: &[u8]) -> LengthsResult {
    let (answer, rule, given) = match read_lengths(plan, text) {
        Ok((rule, given)) => (Answer::ACCEPTED, rule, given),
        Err(answer) => (answer, Rule::EarlyStart, Lengths::ZERO),
    };
    let rule = rule as u8;
    LengthsResult {
        answer,
        rule,
        given,
    }
}

impl Said {
    /// Takes in what the line says; the error is the leftmost field that is out of range, or
    /// names a task for which such a line was there already.
    fn take(&mut self, tasks: u32, line: &Line) -> Result<(), usize> {
        let (Line::Told { task, .. } | Line::Drop { task }) = *line;
        if task == 0 || task > tasks {
            return Err(TASK_FIELD);
        }
        let i = task as usize - 1;
        let is_second = match line {
            Line::Told { .. } => self.has_length[i],
            Line::Drop { .. } => self.lengths.is_dropped(i),
        };
        if is_second {
            return Err(TASK_FIELD);
        }
        match *line {
            Line::Told { number, .. } if number > LAST_TICK => return Err(NUMBER_FIELD),
            Line::Told { number, .. } => {
                self.has_length[i] = true;
                self.lengths.length[i] = number;
            }
            Line::Drop { .. } => self.lengths.dropped[i] = DROPPED,
        }
        Ok(())
    }
}
