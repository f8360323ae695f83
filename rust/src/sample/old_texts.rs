//! Texts as teachers still have them, of either edition and with drives shared in both.

use super::damage::mutated_plan;
use super::faults::{damaged_text, faulty_pair_plan, late_plan};
use super::lines::damaged_lines;
use super::one_fault::one_fault;
use super::Rng;
use crate::second::text::plan_text;
use crate::second::values::{Plan, EDITION_2};

/// A text of the plan or near it: right, of another edition, faulty or damaged.
pub fn old_text(rng: &mut Rng, plan: &Plan) -> Vec<u8> {
    let sharing = with_shared_holds(rng, plan);
    match rng.within(1, 10) {
        1 | 2 => plan_text(&sharing),
        3 => plan_text(&second_edition(plan)),
        4 => plan_text(&late_plan(rng, &sharing)),
        5 | 6 => one_fault(rng, plan).text,
        7 => plan_text(&faulty_pair_plan(rng, &sharing)),
        8 => plan_text(&mutated_plan(rng, &sharing)),
        9 => damaged_lines(rng, &plan_text(&sharing)),
        _ => damaged_text(rng, &plan_text(&sharing)),
    }
}

/// The plan with none, some or all of its holds shared; those that were, still are.
pub fn with_shared_holds(rng: &mut Rng, plan: &Plan) -> Plan {
    let percent = rng.pick(&[0, 20, 60, 100]);
    let mut sharing = *plan;
    for hold in sharing.holds.iter_mut().filter(|hold| **hold != 0) {
        *hold |= u8::from(rng.chance(percent));
    }
    sharing
}

/// The plan with all of its holds shared.
pub fn with_all_shared(plan: &Plan) -> Plan {
    Plan {
        holds: plan.holds.map(|hold| hold | u8::from(hold != 0)),
        ..*plan
    }
}

/// The plan called one of edition 2, its shared holds left in it.
pub fn second_edition(plan: &Plan) -> Plan {
    Plan {
        edition: EDITION_2,
        ..*plan
    }
}
