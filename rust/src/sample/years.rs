//! Totals of a year: such as calls hand out, at their bounds, one past each, and of any bits.

use super::log_damage::any_log;
use super::logs::{plan_of_a_log, school_log, school_times};
use super::Rng;
use crate::second::values::{Plan, Totals, LAST_TICK};

/// A plan and a log of it.
pub type Folder = (Plan, Vec<u8>);

/// A log that is mostly accepted, or any other.
pub fn any_folder(rng: &mut Rng) -> Folder {
    let plan = plan_of_a_log(rng);
    if rng.chance(30) {
        return (plan, any_log(rng, &plan));
    }
    let times = school_times(rng, &plan);
    (plan, school_log(rng, &plan, &times))
}

/// Totals that keep their bounds, some of which no logs come to: on boards where no task has
/// ended anything stands for the greatest and the least.
pub fn any_totals(rng: &mut Rng) -> Totals {
    let mut totals = Totals::ZERO;
    let logs = any_count(rng);
    totals.accepted = match rng.within(1, 3) {
        1 => logs,
        2 => 0,
        _ => rng.within(0, logs),
    };
    totals.refused = logs - totals.accepted;
    let mut left = 64 * totals.accepted;
    for b in 0..8 {
        let any = rng.within(0, left);
        totals.ended[b] = rng.pick(&[0, any.min(1), any, any / 8, left]);
        left -= totals.ended[b];
        let most = u64::from(LAST_TICK) * u64::from(totals.ended[b]);
        let any = rng.number() % (most + 1);
        totals.sum[b] = rng.pick(&[0, any, any / 1_000, most]);
        totals.greatest[b] = any_tick(rng);
        totals.least[b] = any_tick(rng);
    }
    totals
}

/// At the bound and just below it more often than elsewhere.
fn any_count(rng: &mut Rng) -> u32 {
    let any = rng.within(0, 10_000);
    rng.pick(&[0, 1, any, any, 9_999, 9_999, 10_000])
}

fn any_tick(rng: &mut Rng) -> u32 {
    let any = rng.within(0, LAST_TICK);
    rng.pick(&[0, 1, any, any, LAST_TICK - 1, LAST_TICK])
}

/// Totals with one number, or some, just past a bound or far from it; a few still keep all.
pub fn broken_totals(rng: &mut Rng) -> Totals {
    let mut totals = any_totals(rng);
    for _ in 0..rng.pick(&[1, 1, 2]) {
        break_once(rng, &mut totals);
    }
    totals
}

fn break_once(rng: &mut Rng, totals: &mut Totals) {
    let b = rng.index(8);
    let ended: u64 = totals.ended.iter().copied().map(u64::from).sum();
    let past_ended = (64 * u64::from(totals.accepted.min(10_000))).saturating_sub(ended) + 1;
    match rng.within(1, 9) {
        1 => totals.refused = 10_001 - totals.accepted.min(10_001),
        2 => totals.accepted = 10_001u32.saturating_sub(totals.refused),
        3 => totals.ended[b] = totals.ended[b].saturating_add(past_ended as u32),
        4 => totals.sum[b] = u64::from(LAST_TICK) * u64::from(totals.ended[b]) + 1,
        5 => totals.greatest[b] = LAST_TICK + 1,
        6 => totals.least[b] = LAST_TICK + 1,
        7 => totals.accepted = rng.pick(&[u32::MAX, 1 << 31, 67_108_864, 67_108_865]),
        8 => totals.refused = rng.pick(&[u32::MAX, u32::MAX - 9_999, 1 << 31]),
        _ => totals.sum[b] = rng.pick(&[u64::MAX, 1 << 63, 1 << 32, u64::from(u32::MAX)]),
    }
    // A sum of counts that is no longer one of 32 bits must not be taken for a small one.
    if rng.chance(10) {
        totals.ended = [1 << 29; 8];
    }
}

/// Totals of any bits.
pub fn wild_totals(rng: &mut Rng) -> Totals {
    let mut any = || rng.number() as u32;
    Totals {
        accepted: any(),
        refused: any(),
        ended: [0; 8].map(|_: u32| any()),
        sum: [0; 8].map(|_: u64| u64::from(any()) << 32 | u64::from(any())),
        greatest: [0; 8].map(|_: u32| any()),
        least: [0; 8].map(|_: u32| any()),
    }
}

/// Every bit is set.
pub const ALL_ONES: Totals = Totals {
    accepted: u32::MAX,
    refused: u32::MAX,
    ended: [u32::MAX; 8],
    sum: [u64::MAX; 8],
    greatest: [u32::MAX; 8],
    least: [u32::MAX; 8],
};
