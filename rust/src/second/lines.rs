//! The lines of `ends.txt` and of `lengths.txt`: the first may choose the rule, and each other one
//! tells a number of a task or drops it.
//!
//! Settled here where the document is silent: a first line whose word is `rule` and that is no
//! rule line is 3, the rule being Early Start; a line whose word is none of the text's words is 3
//! at its first byte; a line that is both malformed and out of range is 3.

use super::fields::{
    field_column, first_field, first_line, is_number, malformed_column, read_number, split_fields,
    split_line, Spelling,
};
use super::values::{refusal, Answer, Rule};

/// How each field of a line is spelt, by the line's word.
pub const DROP_LINE: [Spelling; 2] = [|word| word == b"drop", is_number];
pub const RULE_LINE: [Spelling; 2] = [|word| word == b"rule", |rule| rule == b"clash"];

/// The one line that chooses a rule.
const CLASH_LINE: &[u8] = b"rule\tclash\n";

/// Where the numbers stand in a line, fields counted from 0.
pub const TASK_FIELD: usize = 1;
pub const NUMBER_FIELD: usize = 2;

/// What a well formed line says, its numbers not yet held to any range.
pub enum Line {
    /// By the text's own word: a tick or a length.
    Told {
        task: u32,
        number: u32,
    },
    Drop {
        task: u32,
    },
}

pub fn chosen_rule(text: &[u8]) -> Rule {
    if text.starts_with(CLASH_LINE) {
        Rule::Clash
    } else {
        Rule::EarlyStart
    }
}

/// Hands `take` each line in turn, the rule line apart; `own` is the form of a line with the text's
/// own word. Stops at the first refusal: 3, or 4 at the field that `take` says is out of range.
pub fn take_lines(
    text: &[u8],
    own: &[Spelling; 3],
    mut take: impl FnMut(Line) -> Result<(), usize>,
) -> Result<(), Answer> {
    let (mut rest, mut number) = match text.strip_prefix(CLASH_LINE) {
        Some(rest) => (rest, 2),
        None => (text, 1),
    };
    while !rest.is_empty() {
        let (line, next) = read_line(rest, own).ok_or_else(|| {
            let column = fault_column(first_line(rest), own, number);
            refusal(3, number, column)
        })?;
        take(line).map_err(|field| refusal(4, number, field_column(first_line(rest), field)))?;
        number += 1;
        rest = next;
    }
    Ok(())
}

/// A well formed line and the rest of the text; None is refusal 3.
fn read_line<'a>(text: &'a [u8], own: &[Spelling; 3]) -> Option<(Line, &'a [u8])> {
    let (line, rest) = split_line(text)?;
    let line = read_told(line, own).or_else(|| read_drop(line))?;
    Some((line, rest))
}

fn read_told(line: &[u8], own: &[Spelling; 3]) -> Option<Line> {
    let [word, task, number] = split_fields(line)?;
    if !own[0](word) {
        return None;
    }
    Some(Line::Told {
        task: read_number(task)?,
        number: read_number(number)?,
    })
}

fn read_drop(line: &[u8]) -> Option<Line> {
    let [word, task] = split_fields(line)?;
    if word != b"drop" {
        return None;
    }
    Some(Line::Drop {
        task: read_number(task)?,
    })
}

/// Where a line stops being what its first field makes it: a drop by the word `drop`, in line 1 a
/// rule line by the word `rule`, and else a line with the text's own word.
fn fault_column(line: &[u8], own: &[Spelling], number: u32) -> u32 {
    let form = match first_field(line) {
        b"drop" => &DROP_LINE,
        b"rule" if number == 1 => &RULE_LINE,
        _ => own,
    };
    malformed_column(line, form)
}
