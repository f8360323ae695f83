//! Reading one task line of a plan text.
//!
//! Settled here where the document is silent: `e` and `s` are lower case only;
//! a number too long for any range is well formed (4); a planned start over the
//! last tick is that field's own fault (4 there).

use super::fields::{
    field_column, first_line, is_number, malformed_column, read_number, split_fields, split_line,
    Spelling,
};
use super::values::{
    is_exclusive, refusal, Answer, Plan, AFTER_PLACES, EDITION_1, EDITION_2, HOLD_PLACES,
    LAST_TICK, MOST_DRIVES, MOST_TASKS,
};

/// How each field of a task line is spelt. Edition 1 has no ready field.
const TASK_LINE: [Spelling; 8] = [
    |word| word == b"task",
    is_number,
    is_number,
    is_number,
    is_number,
    is_number,
    |holds| read_list::<HOLD_PLACES>(holds, MOST_DRIVES, read_hold).is_some(),
    |after| read_list::<AFTER_PLACES>(after, MOST_TASKS.into(), read_listed_task).is_some(),
];

/// The places of the ready field and of holds among these.
const READY: usize = 3;
const HOLDS: usize = 6;

/// What becomes of a shared hold in a text of edition 2; edition 1 keeps its own.
#[derive(Clone, Copy, PartialEq, Eq)]
pub enum Shared {
    Refused,
    Allowed,
}

/// A well formed task line whose numbers are not yet held to any range.
struct TaskLine {
    number: u32,
    board: u32,
    ready: u32,
    begin: u32,
    finish: u32,
    holds: List<HOLD_PLACES>,
    after: List<AFTER_PLACES>,
}

/// A well formed list as a plan keeps it, as far as it keeps its rule.
struct List<const N: usize> {
    places: [u8; N],
    rises_in_range: bool,
}

/// What must rise along a list, and what a plan keeps of the item.
struct Item {
    number: u32,
    kept: u32,
}

/// Keeps in the plan what the text's first line says of task index i, and hands
/// on the rest of the text; or the line's refusal, 3, 4, 20 or 18.
pub fn read_task<'a>(
    plan: &mut Plan,
    i: usize,
    text: &'a [u8],
    shared: Shared,
) -> Result<&'a [u8], Answer> {
    let line_number = i as u32 + 2;
    let Some((task, rest)) = read_task_line(text, plan) else {
        let column = malformed_column(first_line(text), &task_form(plan.edition));
        return Err(refusal(3, line_number, column));
    };
    if let Some((code, field)) = fault_of_range(&task, i, plan, shared) {
        let column = field_column(first_line(text), place_in(plan.edition, field));
        return Err(refusal(code, line_number, column));
    }
    keep_task(plan, i, &task);
    Ok(rest)
}

/// How each field of a task line of the edition is spelt.
fn task_form(edition: u8) -> Vec<Spelling> {
    let mut form = TASK_LINE.to_vec();
    if edition == EDITION_1 {
        form.remove(READY);
    }
    form
}

/// The place, in a line of the edition, of a field of `TASK_LINE`.
fn place_in(edition: u8, field: usize) -> usize {
    field - usize::from(edition == EDITION_1 && field > READY)
}

/// The line's fields, where they are as many as its edition has.
fn task_fields(line: &[u8], edition: u8) -> Option<[&[u8]; 8]> {
    if edition == EDITION_2 {
        return split_fields(line);
    }
    let [word, number, board, begin, finish, holds, after] = split_fields(line)?;
    Some([word, number, board, b"0", begin, finish, holds, after])
}

/// A well formed task line and the rest of the text; None is refusal 3.
fn read_task_line<'a>(text: &'a [u8], plan: &Plan) -> Option<(TaskLine, &'a [u8])> {
    let (line, rest) = split_line(text)?;
    let [word, number, board, ready, begin, finish, holds, after] =
        task_fields(line, plan.edition)?;
    if word != b"task" {
        return None;
    }
    let task = TaskLine {
        number: read_number(number)?,
        board: read_number(board)?,
        ready: read_number(ready)?,
        begin: read_number(begin)?,
        finish: read_number(finish)?,
        holds: read_list(holds, MOST_DRIVES, read_hold)?,
        after: read_list(after, plan.tasks.into(), read_listed_task)?,
    };
    Some((task, rest))
}

/// The list a field spells, empty for `-`; None when any item is misspelt.
fn read_list<const N: usize>(
    field: &[u8],
    last: u32,
    read_item: fn(&[u8]) -> Option<Item>,
) -> Option<List<N>> {
    let mut list = List {
        places: [0; N],
        rises_in_range: true,
    };
    if field == b"-" {
        return Some(list);
    }
    let mut number_before = 0;
    for (k, item) in field.split(|&byte| byte == b',').enumerate() {
        let Item { number, kept } = read_item(item)?;
        list.rises_in_range &= number_before < number && number <= last;
        if list.rises_in_range {
            // Rising within 1 to `last`, so there is a place for it.
            list.places[k] = kept as u8;
        }
        number_before = number;
    }
    Some(list)
}

fn read_hold(item: &[u8]) -> Option<Item> {
    let (&letter, digits) = item.split_first()?;
    if letter != b'e' && letter != b's' {
        return None;
    }
    let drive = read_number(digits)?;
    let shared = u32::from(letter == b's');
    Some(Item {
        number: drive,
        kept: drive.saturating_mul(2).saturating_add(shared),
    })
}

fn read_listed_task(item: &[u8]) -> Option<Item> {
    let task = read_number(item)?;
    Some(Item {
        number: task,
        kept: task,
    })
}

/// Refusal 4, 20 or 18 and the field of `TASK_LINE` that it names.
fn fault_of_range(task: &TaskLine, i: usize, plan: &Plan, shared: Shared) -> Option<(u32, usize)> {
    if let Some(field) = first_field_out_of_range(task, i, plan) {
        return Some((4, field));
    }
    let takes_shared = plan.edition == EDITION_1 || shared == Shared::Allowed;
    if !takes_shared && !task.holds.places.iter().all(|&hold| is_exclusive(hold)) {
        return Some((20, HOLDS));
    }
    (task.ready > task.begin).then_some((18, READY))
}

/// The leftmost field that breaks its range or rule, counted from 0.
fn first_field_out_of_range(task: &TaskLine, i: usize, plan: &Plan) -> Option<usize> {
    let in_range = [
        // The word has no range.
        true,
        task.number == i as u32 + 1,
        (1..=u32::from(plan.boards)).contains(&task.board),
        task.ready <= LAST_TICK,
        task.begin <= LAST_TICK,
        task.begin < task.finish && task.finish <= LAST_TICK,
        task.holds.rises_in_range,
        task.after.rises_in_range,
    ];
    in_range.iter().position(|&in_range| !in_range)
}

fn keep_task(plan: &mut Plan, i: usize, task: &TaskLine) {
    plan.board[i] = task.board as u8;
    plan.ready[i] = task.ready;
    plan.begin[i] = task.begin;
    plan.finish[i] = task.finish;
    plan.holds[HOLD_PLACES * i..][..HOLD_PLACES].copy_from_slice(&task.holds.places);
    plan.after[AFTER_PLACES * i..][..AFTER_PLACES].copy_from_slice(&task.after.places);
}
