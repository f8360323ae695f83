//! Who waits for whom, pair by pair, as the request says it.

use super::Rng;
use crate::second::judge::clash;
use crate::second::values::{Book, Plan, Rule};

pub fn either_rule(rng: &mut Rng) -> Rule {
    rng.pick(&Rule::BOTH)
}

/// The rule of a sound book.
pub fn rule_of(book: &Book) -> Rule {
    Rule::of_byte(book.rule).expect("a sound book has one of the two rules")
}

/// Whether task index i waits for task index j.
pub fn waits_for(plan: &Plan, rule: Rule, i: usize, j: usize) -> bool {
    plan.finish[j] <= plan.begin[i] && (rule == Rule::EarlyStart || clash(plan, i, j))
}

/// The task indices that i waits for.
pub fn awaited(plan: &Plan, rule: Rule, i: usize) -> Vec<usize> {
    (0..plan.task_count())
        .filter(|&j| waits_for(plan, rule, i, j))
        .collect()
}
