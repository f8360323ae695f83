//! The second engine: all starts and ends at once, with no reports in it.
//!
//! Settled here where the document is silent: a task is dropped where its byte
//! is 1, and not where it is any other number.

use super::judge::clashes_if_accepted;
use super::values::{refusal, Answer, Lengths, Plan, Rule, Timetable};
use super::waits::Waits;

/// Each task's start and end by that rule, with these lengths and drops; or a
/// refusal and a timetable of zeros.
pub fn timetable(plan: &Plan, rule: Rule, given: &Lengths) -> Timetable {
    match worked_out(plan, rule, given) {
        Ok(timetable) => timetable,
        Err(answer) => Timetable {
            answer,
            ..Timetable::ZERO
        },
    }
}

fn worked_out(plan: &Plan, rule: Rule, given: &Lengths) -> Result<Timetable, Answer> {
    let clashes = clashes_if_accepted(plan).ok_or(Answer::UNSOUND)?;
    let count = plan.task_count();
    if let Some(i) = (0..count).find(|&i| has_wrong_length(plan, given, i)) {
        return Err(refusal(22, i as u32 + 1, 0));
    }
    let waits = Waits::by(rule, plan, &clashes);
    if let Some(i) = (0..count).find(|&i| given.is_dropped(i) && waits.of(i).next().is_none()) {
        return Err(refusal(19, i as u32 + 1, 0));
    }
    Ok(filled_in(plan, &waits, given))
}

/// The length of a dropped task is not looked at.
fn has_wrong_length(plan: &Plan, given: &Lengths, i: usize) -> bool {
    let planned = plan.finish[i] - plan.begin[i];
    !given.is_dropped(i) && !(1..=planned).contains(&given.length[i])
}

/// By planned start, since each task then comes after all it waits for.
fn filled_in(plan: &Plan, waits: &Waits, given: &Lengths) -> Timetable {
    let mut timetable = Timetable::ZERO;
    let mut order: [u8; 64] = std::array::from_fn(|i| i as u8);
    let order = &mut order[..plan.task_count()];
    order.sort_unstable_by_key(|&i| plan.begin[usize::from(i)]);
    for i in order.iter().map(|&i| usize::from(i)) {
        // A dropped task takes no time, and its ready tick counts for nothing.
        let (ready, length) = if given.is_dropped(i) {
            (0, 0)
        } else {
            (plan.ready[i], given.length[i])
        };
        let ends = waits.of(i).map(|j| timetable.end[j]);
        let start = ends.fold(ready, u32::max);
        timetable.start[i] = start;
        timetable.end[i] = start + length;
    }
    timetable
}
