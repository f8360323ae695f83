//! Old plans made into plans of edition 2 that share no drive.
//!
//! Settled here where the document is silent: the second call holds a line to its
//! rules as it stands, shared holds apart, and makes them exclusive before tasks are
//! compared; a text that is too long is 1 whatever its edition.

use super::judge::accepted;
use super::runlog::refused_line;
use super::task_line::Shared;
use super::text::{
    judged, plan_of, plan_text, read_first_line, read_task_lines, reading_of, NO_FIRST_LINE,
};
use super::values::{made_exclusive, Answer, Plan, Reading, EDITION_1, EDITION_2};

/// An accepted plan of edition 1 in edition 2, judged anew; 9 for any other.
pub fn convert(plan: &Plan) -> Reading {
    reading_of(converted(plan))
}

/// The plan of an edition 2 text in which shared holds may stand, each made
/// exclusive; 2 for a text of edition 1.
pub fn read_exclusive(text: &[u8]) -> Reading {
    reading_of(exclusive_plan_of(text))
}

/// All that `convert` prints. A missing file counts as empty.
pub fn convert_text(text: &[u8]) -> Vec<u8> {
    match converted_plan_of(text) {
        Ok(plan) => plan_text(&plan),
        Err(answer) => refused_line(answer),
    }
}

fn converted(plan: &Plan) -> Result<Plan, Answer> {
    if plan.edition != EDITION_1 || !accepted(plan) {
        return Err(Answer::UNSOUND);
    }
    // Its ready ticks are 0 already.
    judged(Plan {
        edition: EDITION_2,
        ..with_exclusive_holds(plan)
    })
}

fn exclusive_plan_of(text: &[u8]) -> Result<Plan, Answer> {
    let (sizes, rest) = read_first_line(text)?;
    if sizes.edition != EDITION_2 {
        return Err(NO_FIRST_LINE);
    }
    let plan = read_task_lines(sizes, rest, Shared::Allowed)?;
    judged(with_exclusive_holds(&plan))
}

/// By the call for the edition that the first line names.
fn converted_plan_of(text: &[u8]) -> Result<Plan, Answer> {
    let (sizes, _) = read_first_line(text)?;
    if sizes.edition == EDITION_2 {
        return exclusive_plan_of(text);
    }
    converted(&plan_of(text)?)
}

fn with_exclusive_holds(plan: &Plan) -> Plan {
    Plan {
        holds: plan.holds.map(made_exclusive),
        ..*plan
    }
}
