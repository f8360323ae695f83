//! Random accepted plans, placed so that clashing tasks never overlap.

use super::Rng;
use crate::second::judge::{clash, overlap};
use crate::second::text::read_plan;
use crate::second::values::{
    drive_of, items, made_exclusive, Answer, Plan, AFTER_PLACES, EDITION_1, EDITION_2, HOLD_PLACES,
    LAST_TICK,
};

/// How dense the lists are and how wide the times.
struct Shape {
    hold_percent: u32,
    exclusive_percent: u32,
    after_percent: u32,
    longest: u32,
    widest_gap: u32,
}

/// A random plan of either edition that keeps every rule: what is placed first
/// begins at tick 0.
pub fn random_plan(rng: &mut Rng) -> Plan {
    let largest = rng.pick(&[1, 3, 6, 12, 24, 64, 64]);
    let tasks = if rng.chance(10) {
        largest
    } else {
        rng.within(1, largest)
    };
    let boards = rng.within(1, 8);
    let shape = random_shape(rng);
    let mut plan = Plan {
        edition: EDITION_1,
        boards: boards as u8,
        tasks: tasks as u8,
        ..Plan::ZERO
    };
    let mut order: Vec<usize> = (0..tasks as usize).collect();
    if rng.chance(70) {
        // Task numbers need not follow planned times.
        rng.shuffle(&mut order);
    }
    for placed in 0..order.len() {
        place_task(rng, &mut plan, &shape, &order[..placed], order[placed]);
    }
    fill_after_lists(rng, &mut plan, shape.after_percent);
    if rng.chance(12) {
        reach_the_last_tick(&mut plan);
    }
    in_either_edition(rng, &plan)
}

/// A plan of so few and so short tasks that every run of it can be tried.
pub fn small_plan(rng: &mut Rng, tasks: u8) -> Plan {
    let shape = Shape {
        hold_percent: rng.pick(&[0, 2, 5]),
        exclusive_percent: 50,
        after_percent: rng.pick(&[0, 30]),
        longest: 3,
        widest_gap: 1,
    };
    let mut plan = Plan {
        edition: EDITION_1,
        boards: rng.within(1, 3) as u8,
        tasks,
        ..Plan::ZERO
    };
    let mut order: Vec<usize> = (0..plan.task_count()).collect();
    rng.shuffle(&mut order);
    for placed in 0..order.len() {
        place_task(rng, &mut plan, &shape, &order[..placed], order[placed]);
    }
    fill_after_lists(rng, &mut plan, shape.after_percent);
    in_either_edition(rng, &plan)
}

/// A full plan of either edition.
pub fn full_plan_of_either(rng: &mut Rng, tasks: u8) -> Plan {
    let plan = full_plan(rng, tasks);
    in_either_edition(rng, &plan)
}

/// The plan of a text, which must be accepted.
pub fn accepted_plan(text: &[u8]) -> Plan {
    let reading = read_plan(text);
    assert_eq!(reading.answer, Answer::ACCEPTED);
    reading.plan
}

/// The plan as it is, or with ready ticks and exclusive holds.
pub fn in_either_edition(rng: &mut Rng, plan: &Plan) -> Plan {
    if rng.chance(50) {
        return *plan;
    }
    with_ready_ticks(rng, plan)
}

/// The plan in edition 1, with no ready tick left.
pub fn first_edition(plan: &Plan) -> Plan {
    Plan {
        edition: EDITION_1,
        ready: [0; 64],
        ..*plan
    }
}

/// The plan in edition 2, where nobody shares a drive, with ready ticks for none,
/// some or all of its tasks.
pub fn with_ready_ticks(rng: &mut Rng, plan: &Plan) -> Plan {
    let mut awaited = Plan {
        edition: EDITION_2,
        ready: [0; 64],
        ..exclusively_held(plan)
    };
    let percent = rng.pick(&[0, 50, 100, 100]);
    let late_percent = rng.pick(&[0, 30, 90]);
    for i in 0..plan.task_count() {
        if rng.chance(percent) {
            awaited.ready[i] = ready_tick(rng, plan.begin[i], late_percent);
        }
    }
    awaited
}

/// The plan in edition 2, each task ready once three quarters of the time to its
/// planned start are over.
pub fn with_even_ready_ticks(plan: &Plan) -> Plan {
    Plan {
        edition: EDITION_2,
        ready: plan.begin.map(|begin| begin - begin / 4),
        ..exclusively_held(plan)
    }
}

/// The plan with every hold exclusive: of tasks that hold a drive at the same time
/// the one of lowest number keeps it.
pub fn exclusively_held(plan: &Plan) -> Plan {
    let mut alone = Plan {
        holds: [0; 2048],
        ..*plan
    };
    // Bit n stands for drive n.
    let mut kept = [0u128; 64];
    for i in 0..plan.task_count() {
        let at_once = (0..i).filter(|&j| overlap(plan, i, j));
        let taken = at_once.fold(0, |drives, j| drives | kept[j]);
        let free = |hold: &&u8| taken & (1 << drive_of(**hold)) == 0;
        for (k, &hold) in items(plan.hold_places(i)).iter().filter(free).enumerate() {
            alone.holds[HOLD_PLACES * i + k] = made_exclusive(hold);
            kept[i] |= 1 << drive_of(hold);
        }
    }
    alone
}

/// So often at or just before the planned start; else anywhere before it, or early.
fn ready_tick(rng: &mut Rng, begin: u32, late_percent: u32) -> u32 {
    if rng.chance(late_percent) {
        return begin.saturating_sub(rng.within(0, 2));
    }
    match rng.within(1, 3) {
        1 => begin.min(rng.within(0, 3)),
        _ => rng.within(0, begin),
    }
}

/// A busy plan of edition 1, of that many tasks: 8 boards in turn, 4 to 8 holds a task, most
/// of them shared so that boards work side by side, and up to 3 tasks under after.
pub fn full_plan(rng: &mut Rng, tasks: u8) -> Plan {
    let mut plan = Plan {
        edition: EDITION_1,
        boards: 8,
        tasks,
        ..Plan::ZERO
    };
    for i in 0..plan.task_count() {
        plan.board[i] = i as u8 % 8 + 1;
        fill_some_holds(rng, &mut plan, i);
        let clashing = (0..i).filter(|&j| clash(&plan, i, j));
        let free_from = clashing.map(|j| plan.finish[j]).max().unwrap_or(0);
        let length = rng.within(50, 2000);
        set_times(&mut plan, i, free_from, length);
        fill_some_after(rng, &mut plan, i);
    }
    plan
}

/// The plan with all its tasks planned so many ticks later.
pub fn moved_later(plan: &Plan, by: u32) -> Plan {
    let mut later = *plan;
    let count = plan.task_count();
    for tick in later.begin[..count]
        .iter_mut()
        .chain(&mut later.finish[..count])
    {
        *tick = tick.saturating_add(by);
    }
    later
}

fn random_shape(rng: &mut Rng) -> Shape {
    Shape {
        hold_percent: rng.pick(&[0, 2, 5, 5, 15, 60, 100]),
        exclusive_percent: rng.pick(&[0, 10, 30, 50, 100]),
        after_percent: rng.pick(&[0, 0, 0, 3, 20, 70, 100]),
        // 64 tasks one after the other must still finish by the last tick.
        longest: rng.pick(&[1, 2, 4, 10, 100, 15_000]),
        widest_gap: rng.pick(&[0, 0, 1, 5, 600]),
    }
}

fn place_task(rng: &mut Rng, plan: &mut Plan, shape: &Shape, placed: &[usize], i: usize) {
    plan.board[i] = rng.within(1, u32::from(plan.boards)) as u8;
    fill_holds(rng, plan, shape, i);
    let length = rng.within(1, shape.longest);
    let latest = placed.iter().map(|&j| plan.finish[j]).max().unwrap_or(0);
    for _ in 0..4 {
        set_times(plan, i, rng.within(0, latest), length);
        if fits(plan, placed, i) && plan.finish[i] <= latest.max(length) {
            return;
        }
    }
    let clashing = placed.iter().filter(|&&j| clash(plan, i, j));
    let free_from = clashing.map(|&j| plan.finish[j]).max().unwrap_or(0);
    let gap = rng.within(0, shape.widest_gap);
    set_times(plan, i, free_from + gap, length);
}

fn set_times(plan: &mut Plan, i: usize, begin: u32, length: u32) {
    plan.begin[i] = begin;
    plan.finish[i] = begin + length;
}

fn fits(plan: &Plan, placed: &[usize], i: usize) -> bool {
    !placed
        .iter()
        .any(|&j| clash(plan, i, j) && overlap(plan, i, j))
}

fn fill_holds(rng: &mut Rng, plan: &mut Plan, shape: &Shape, i: usize) {
    let mut place = HOLD_PLACES * i;
    for drive in 1..=32u8 {
        if rng.chance(shape.hold_percent) {
            let shared = !rng.chance(shape.exclusive_percent);
            plan.holds[place] = 2 * drive + u8::from(shared);
            place += 1;
        }
    }
}

fn fill_some_holds(rng: &mut Rng, plan: &mut Plan, i: usize) {
    let mut drives: Vec<u8> = (1..=32).collect();
    rng.shuffle(&mut drives);
    drives.truncate(rng.within(4, 8) as usize);
    drives.sort();
    for (k, drive) in drives.into_iter().enumerate() {
        let shared = !rng.chance(5);
        plan.holds[HOLD_PLACES * i + k] = 2 * drive + u8::from(shared);
    }
}

/// Up to 3 of the tasks before it that are planned to finish by its start.
fn fill_some_after(rng: &mut Rng, plan: &mut Plan, i: usize) {
    let mut earlier: Vec<usize> = (0..i)
        .filter(|&j| plan.finish[j] <= plan.begin[i])
        .collect();
    rng.shuffle(&mut earlier);
    earlier.truncate(rng.within(0, 3) as usize);
    earlier.sort();
    for (k, j) in earlier.into_iter().enumerate() {
        plan.after[AFTER_PLACES * i + k] = j as u8 + 1;
    }
}

fn fill_after_lists(rng: &mut Rng, plan: &mut Plan, percent: u32) {
    for i in 0..plan.task_count() {
        let mut place = AFTER_PLACES * i;
        for j in 0..plan.task_count() {
            if plan.finish[j] <= plan.begin[i] && rng.chance(percent) {
                plan.after[place] = j as u8 + 1;
                place += 1;
            }
        }
    }
}

/// Moves all that does not begin at 0 so that its last planned finish is the last
/// tick; where all begin at 0, one of them lasts until then.
fn reach_the_last_tick(plan: &mut Plan) {
    let movable = |i: &usize| plan.begin[*i] > 0;
    let moved: Vec<usize> = (0..plan.task_count()).filter(movable).collect();
    let Some(latest) = moved.iter().map(|&i| plan.finish[i]).max() else {
        plan.finish[0] = LAST_TICK;
        return;
    };
    for i in moved {
        plan.begin[i] += LAST_TICK - latest;
        plan.finish[i] += LAST_TICK - latest;
    }
}

/// 64 tasks on one board, each planned right after the one before.
pub fn single_file() -> Plan {
    let mut plan = Plan {
        edition: EDITION_1,
        boards: 1,
        tasks: 64,
        board: [1; 64],
        ..Plan::ZERO
    };
    for i in 0..64 {
        plan.begin[i] = 10 * i as u32;
        plan.finish[i] = plan.begin[i] + 10;
    }
    plan
}
