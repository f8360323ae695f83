//! The year in whole numbers: totals over the logs that are accepted, a log at a time.
//!
//! Settled here where the document is silent: totals are refused by what they hold alone, before
//! the plan or the log is looked at; a greatest and a least need not fit each other or the sum.

use super::fields::{line_of, push_number};
use super::log_judge::judge_log;
use super::runlog::refused_line;
use super::text::read_plan;
use super::values::{refusal, AddResult, Answer, JudgedLog, Plan, Totals, LAST_TICK};
use super::values::{MOST_LOGS, MOST_TASKS};

/// The 10,001st log.
const ONE_TOO_MANY: Answer = refusal(28, 0, 0);

/// What is told of a board, or of all.
struct Row {
    ended: u64,
    sum: u64,
    /// The greatest and the least; none where no task has ended.
    ends: Option<(u32, u32)>,
}

/// All that `year` prints of the folders that a list names, each a plan's text and a log.
pub fn year_text<'a>(folders: impl IntoIterator<Item = (&'a [u8], &'a [u8])>) -> Vec<u8> {
    let mut totals = Totals::ZERO;
    for (plan_text, log) in folders {
        let added = add_log(&totals, &read_plan(plan_text).plan, log);
        if added.answer == ONE_TOO_MANY {
            return report_text(&totals, true);
        }
        totals = added.totals;
    }
    report_text(&totals, false)
}

/// The totals with one log more; or refusal 9 or 28, and the totals as they were.
pub fn add_log(totals: &Totals, plan: &Plan, log: &[u8]) -> AddResult {
    if let Some(answer) = refused_totals(totals) {
        return AddResult {
            answer,
            judged: JudgedLog::nothing(Answer::ACCEPTED),
            totals: *totals,
        };
    }
    let judged = judge_log(plan, log);
    let mut after = *totals;
    if judged.answer.is_accepted() {
        after.accepted += 1;
        take_figures(&mut after, plan, &judged);
    } else {
        after.refused += 1;
    }
    AddResult {
        answer: Answer::ACCEPTED,
        judged,
        totals: after,
    }
}

fn logs_in(totals: &Totals) -> u64 {
    u64::from(totals.accepted) + u64::from(totals.refused)
}

fn refused_totals(totals: &Totals) -> Option<Answer> {
    if !keep_bounds(totals) {
        return Some(Answer::UNSOUND);
    }
    (logs_in(totals) == MOST_LOGS).then_some(ONE_TOO_MANY)
}

/// Nothing overflows here, whatever the totals hold.
fn keep_bounds(totals: &Totals) -> bool {
    let most_tasks = u64::from(MOST_TASKS) * u64::from(totals.accepted);
    let ended: u64 = totals.ended.iter().copied().map(u64::from).sum();
    let board_keeps = |b: usize| {
        totals.sum[b] <= u64::from(LAST_TICK) * u64::from(totals.ended[b])
            && totals.greatest[b] <= LAST_TICK
            && totals.least[b] <= LAST_TICK
    };
    logs_in(totals) <= MOST_LOGS && ended <= most_tasks && (0..8).all(board_keeps)
}

/// Every task of an accepted log is known, and ended by its planned finish.
fn take_figures(totals: &mut Totals, plan: &Plan, judged: &JudgedLog) {
    for i in 0..plan.task_count() {
        let (b, early) = (
            usize::from(plan.board[i]) - 1,
            plan.finish[i] - judged.end[i],
        );
        let is_first = totals.ended[b] == 0;
        if is_first || early > totals.greatest[b] {
            totals.greatest[b] = early;
        }
        if is_first || early < totals.least[b] {
            totals.least[b] = early;
        }
        totals.ended[b] += 1;
        totals.sum[b] += u64::from(early);
    }
}

/// The report of the totals, with 28 behind it where names were left over; or the one line that refuses the totals.
pub fn report_text(totals: &Totals, past: bool) -> Vec<u8> {
    if !keep_bounds(totals) {
        return refused_line(Answer::UNSOUND);
    }
    let mut text = line_of("logs", &[totals.accepted, totals.refused]);
    let rows: Vec<Row> = (0..8).map(|b| row_of(totals, b)).collect();
    for (row, number) in rows.iter().zip(1u32..) {
        text.extend_from_slice(b"board\t");
        push_number(&mut text, number);
        push_row(&mut text, row);
    }
    text.extend_from_slice(b"all");
    push_row(&mut text, &row_of_all(&rows));
    if past {
        text.extend(refused_line(ONE_TOO_MANY));
    }
    text
}

fn row_of(totals: &Totals, b: usize) -> Row {
    Row {
        ended: totals.ended[b].into(),
        sum: totals.sum[b],
        ends: (totals.ended[b] > 0).then_some((totals.greatest[b], totals.least[b])),
    }
}

/// Worked out from the boards' rows.
fn row_of_all(rows: &[Row]) -> Row {
    let ends = rows.iter().filter_map(|row| row.ends);
    Row {
        ended: rows.iter().map(|row| row.ended).sum(),
        sum: rows.iter().map(|row| row.sum).sum(),
        ends: ends.reduce(|(most, least), (other_most, other_least)| {
            (most.max(other_most), least.min(other_least))
        }),
    }
}

fn push_row(text: &mut Vec<u8>, row: &Row) {
    text.extend(format!("\t{}\t{}\t", row.ended, row.sum).bytes());
    match row.ends {
        Some((greatest, least)) => text.extend(format!("{greatest}\t{least}\n").bytes()),
        None => text.extend_from_slice(b"-\t-\n"),
    }
}
