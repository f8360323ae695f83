//! Whom each task of a plan waits for, by either rule.

use super::judge::Clashes;
use super::values::{Plan, Rule};
use std::iter;

/// Place i is a set: bit j stands for task index j, for which i waits.
pub struct Waits([u64; 64]);

impl Waits {
    pub fn by(rule: Rule, plan: &Plan, clashes: &Clashes) -> Waits {
        let mut sets = planned_before(plan);
        if rule == Rule::Clash {
            keep_clashing(&mut sets, clashes);
        }
        Waits(sets)
    }

    /// Whether all that i waits for are in the set.
    pub fn are_all_in(&self, i: usize, set: u64) -> bool {
        self.0[i] & !set == 0
    }

    /// The task indices that i waits for.
    pub fn of(&self, i: usize) -> impl Iterator<Item = usize> {
        bits(self.0[i])
    }
}

/// For each task index i those j with planned finish j <= planned start i.
fn planned_before(plan: &Plan) -> [u64; 64] {
    let count = plan.task_count();
    let mut sets = [0; 64];
    for (set, begin) in sets[..count].iter_mut().zip(plan.begin) {
        for (j, finish) in plan.finish[..count].iter().enumerate() {
            *set |= u64::from(*finish <= begin) << j;
        }
    }
    sets
}

/// Takes out of each set the tasks that do not clash with its own.
fn keep_clashing(sets: &mut [u64; 64], clashes: &Clashes) {
    for (i, set) in sets.iter_mut().enumerate() {
        let kept = bits(*set).filter(|&j| clashes.between(i, j));
        *set = kept.fold(0, |kept, j| kept | 1 << j);
    }
}

/// The places of the bits that are set, from the lowest up.
fn bits(set: u64) -> impl Iterator<Item = usize> {
    let mut left = set;
    iter::from_fn(move || {
        let lowest = (left != 0).then_some(left.trailing_zeros() as usize)?;
        left ^= 1 << lowest;
        Some(lowest)
    })
}
