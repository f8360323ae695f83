//! Plans with no task at tick 0, with a faulty pair or with a shared hold where there
//! must be none, and damaged texts.

use super::lent::shown;
use super::plans::moved_later;
use super::Rng;
use crate::second::values::{
    items, Answer, Plan, Reading, AFTER_PLACES, EDITION_1, EDITION_2, HOLD_PLACES, LAST_TICK,
    MOST_DRIVES,
};

/// The plan with no task at tick 0: all of it later where there is room, else
/// only what began there, which may then clash with others.
pub fn late_plan(rng: &mut Rng, plan: &Plan) -> Plan {
    let near = rng.within(1, 50);
    let by = rng.pick(&[1, near, 30_000, LAST_TICK - 1]);
    let later = moved_later(plan, by);
    if later.finish.iter().all(|&finish| finish <= LAST_TICK) {
        return later;
    }
    let mut late = *plan;
    for i in (0..plan.task_count()).filter(|&i| plan.begin[i] == 0) {
        late.begin[i] = later.begin[i];
        late.finish[i] = later.finish[i].min(LAST_TICK);
    }
    late
}

/// A plan whose only faults, if it has any, are faulty pairs.
pub fn faulty_pair_plan(rng: &mut Rng, plan: &Plan) -> Plan {
    let mut faulty = *plan;
    let i = rng.index(plan.task_count());
    let j = rng.index(plan.task_count());
    // What begins at 0 keeps its times, so that there is still such a task.
    let (from, to) = if plan.begin[j] == 0 { (j, i) } else { (i, j) };
    match rng.within(1, 3) {
        1 => copy_times(&mut faulty, from, to),
        2 => {
            copy_times(&mut faulty, from, to);
            set_only_holds(&mut faulty, i, &[2]);
            // In edition 2 a shared hold would be a fault of its own.
            let other = if plan.edition == EDITION_1 { 3 } else { 2 };
            set_only_holds(&mut faulty, j, &[rng.pick(&[2, other])]);
        }
        _ => set_only_after(&mut faulty, i, j as u8 + 1),
    }
    faulty
}

/// The plan in edition 2 with one hold shared, which makes it a faulty one.
pub fn sharing_plan(rng: &mut Rng, plan: &Plan) -> Plan {
    let mut sharing = Plan {
        edition: EDITION_2,
        ..*plan
    };
    let first = HOLD_PLACES * rng.index(plan.task_count());
    let places = &mut sharing.holds[first..first + HOLD_PLACES];
    let held = items(places).len();
    if held == 0 {
        places[0] = 2 * rng.within(1, MOST_DRIVES) as u8;
    }
    places[rng.index(held.max(1))] |= 1;
    sharing
}

/// The text with a few bytes changed, taken out, put in or doubled.
pub fn damaged_text(rng: &mut Rng, text: &[u8]) -> Vec<u8> {
    let mut damaged = text.to_vec();
    for _ in 0..rng.within(1, 3) {
        damage_once(rng, &mut damaged);
    }
    damaged
}

fn damage_once(rng: &mut Rng, text: &mut Vec<u8>) {
    const LIKELY: &[u8] = b"\t\n-,es0123456789ptlakndro \r\0";
    if text.is_empty() {
        text.push(rng.pick(LIKELY));
        return;
    }
    let at = rng.index(text.len());
    match rng.within(1, 7) {
        1 => text[at] = rng.pick(LIKELY),
        2 => text[at] = rng.byte(),
        3 => text.insert(at, rng.pick(LIKELY)),
        4 => drop(text.remove(at)),
        5 => text.truncate(at),
        6 => text.swap(at, 0),
        _ => {
            let until = (at + rng.index(40)).min(text.len());
            let doubled = text[at..until].to_vec();
            text.splice(at..at, doubled);
        }
    }
}

fn copy_times(plan: &mut Plan, from: usize, to: usize) {
    plan.ready[to] = plan.ready[from];
    plan.begin[to] = plan.begin[from];
    plan.finish[to] = plan.finish[from];
}

fn set_only_holds(plan: &mut Plan, i: usize, holds: &[u8]) {
    plan.holds[HOLD_PLACES * i..HOLD_PLACES * (i + 1)].fill(0);
    plan.holds[HOLD_PLACES * i..][..holds.len()].copy_from_slice(holds);
}

fn set_only_after(plan: &mut Plan, i: usize, task: u8) {
    plan.after[AFTER_PLACES * i..AFTER_PLACES * (i + 1)].fill(0);
    plan.after[AFTER_PLACES * i] = task;
}

/// The text's reading is refused by this, and comes with a plan of zeros.
pub fn check_reading(reading: Reading, text: &[u8], answer: Answer) {
    let shown = shown(text);
    assert_eq!(reading.answer, answer, "{shown}");
    assert_eq!(reading.plan, Plan::ZERO, "{shown}");
}
