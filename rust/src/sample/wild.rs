//! Plan and book values far from any rule, or breaking just one.

use super::faults::{late_plan, sharing_plan};
use super::waiting::either_rule;
use super::Rng;
use crate::second::values::{
    items, made_exclusive, Book, Plan, AFTER_PLACES, EDITION_2, HOLD_PLACES,
};

/// A plan of random bytes, in some plans with sizes in range and empty places
/// past the last task, so that the later checks are met too.
pub fn wild_plan(rng: &mut Rng) -> Plan {
    let mut plan = Plan {
        edition: rng.byte(),
        boards: rng.byte(),
        tasks: rng.byte(),
        board: [0; 64].map(|_| rng.byte()),
        ready: [0; 64].map(|_| wild_tick(rng)),
        begin: [0; 64].map(|_| wild_tick(rng)),
        finish: [0; 64].map(|_| wild_tick(rng)),
        holds: [0; 2048].map(|_| rng.byte()),
        after: [0; 4096].map(|_| rng.byte()),
    };
    if rng.chance(70) {
        plan.edition = rng.pick(&[1, 2]);
        plan.boards = rng.within(1, 8) as u8;
        plan.tasks = rng.pick(&[1, 1, 2, 3, 64]);
    }
    if rng.chance(70) {
        tame_places(rng, &mut plan);
    }
    plan
}

/// A book of random bytes, in some books on the plan of a sound one.
pub fn wild_book(rng: &mut Rng, sound: &Book) -> Book {
    if rng.chance(20) {
        let (plan, rule) = (wild_plan(rng), either_rule(rng));
        return with_wild_morning(rng, &Book::on(&plan, rule));
    }
    with_wild_morning(rng, sound)
}

/// The plan changed in one place against some rule; rarely it is still accepted.
pub fn one_rule_broken(rng: &mut Rng, plan: &Plan) -> Plan {
    let mut broken = *plan;
    let i = rng.index(plan.task_count());
    match rng.within(1, 14) {
        1 => broken.boards = rng.pick(&[0, 9, 255]),
        2 => broken.tasks = rng.pick(&[0, 65, 255]),
        3 => broken.tasks = plan.tasks.wrapping_add(rng.pick(&[1, 255])),
        4 => broken.board[i] = rng.pick(&[0, plan.boards + 1, 255]),
        5 => broken.finish[i] = rng.pick(&[0, plan.begin[i], 1_000_001, u32::MAX]),
        6 => broken.begin[i] = rng.pick(&[plan.finish[i], 1_000_000, u32::MAX]),
        7 => break_holds(rng, &mut broken, i),
        8 => break_after(rng, &mut broken, i),
        9 => put_past_a_list(rng, &mut broken, i),
        10 => broken = late_plan(rng, plan),
        11 => broken.edition = rng.pick(&[0, 1, 3, 255]),
        12 => broken.ready[i] = rng.pick(&[1, plan.begin[i] + 1, 1_000_001, u32::MAX]),
        13 => broken = sharing_plan(rng, plan),
        _ => put_past_the_last_task(rng, &mut broken),
    }
    broken
}

fn wild_tick(rng: &mut Rng) -> u32 {
    match rng.within(1, 3) {
        1 => rng.number() as u32,
        2 => rng.within(0, 1_000_001),
        _ => rng.within(0, 9),
    }
}

/// Brings numbers into range, cuts lists short and empties unused places.
fn tame_places(rng: &mut Rng, plan: &mut Plan) {
    let count = plan.task_count();
    for i in 0..count {
        plan.board[i] = rng.within(1, 8) as u8;
        plan.begin[i] = if i == 0 && rng.chance(80) {
            0
        } else {
            rng.within(0, 20)
        };
        plan.finish[i] = plan.begin[i] + rng.within(0, 4);
        plan.ready[i] = if rng.chance(30) {
            rng.within(0, plan.begin[i] + 1)
        } else {
            0
        };
        let keep = rng.index(4);
        plan.holds[HOLD_PLACES * i + keep..HOLD_PLACES * (i + 1)].fill(0);
        plan.after[AFTER_PLACES * i + keep / 2..AFTER_PLACES * (i + 1)].fill(0);
        plan.after[AFTER_PLACES * i] %= 4;
    }
    if plan.edition == EDITION_2 && rng.chance(80) {
        plan.holds = plan.holds.map(made_exclusive);
    }
    plan.board[count..].fill(0);
    plan.ready[count..].fill(0);
    plan.begin[count..].fill(0);
    plan.finish[count..].fill(0);
    plan.holds[HOLD_PLACES * count..].fill(0);
    plan.after[AFTER_PLACES * count..].fill(0);
}

fn break_holds(rng: &mut Rng, plan: &mut Plan, i: usize) {
    let places = &mut plan.holds[HOLD_PLACES * i..HOLD_PLACES * (i + 1)];
    let length = items(places).len();
    // Drive 0, drive 33, and the first drive once more.
    let wrong = [1, 66, 67, 255, places[0], places[0] ^ 1];
    places[length.min(31)] = rng.pick(&wrong);
}

fn break_after(rng: &mut Rng, plan: &mut Plan, i: usize) {
    let places = &mut plan.after[AFTER_PLACES * i..AFTER_PLACES * (i + 1)];
    let length = items(places).len();
    let wrong = [plan.tasks.wrapping_add(1), 65, 255, places[0], i as u8 + 1];
    places[length.min(63)] = rng.pick(&wrong);
}

/// An item behind an empty place.
fn put_past_a_list(rng: &mut Rng, plan: &mut Plan, i: usize) {
    let holds = items(plan.hold_places(i)).len();
    let after = items(plan.after_places(i)).len();
    if rng.chance(50) && holds < HOLD_PLACES - 1 {
        plan.holds[HOLD_PLACES * i + rng.within(holds as u32 + 1, 31) as usize] = 64;
    } else if after < AFTER_PLACES - 1 {
        plan.after[AFTER_PLACES * i + rng.within(after as u32 + 1, 63) as usize] = plan.tasks;
    }
}

fn put_past_the_last_task(rng: &mut Rng, plan: &mut Plan) {
    let count = plan.task_count();
    if count == 64 {
        return;
    }
    let i = rng.within(count as u32, 63) as usize;
    match rng.within(1, 6) {
        1 => plan.board[i] = 1,
        2 => plan.ready[i] = 1,
        3 => plan.begin[i] = 1,
        4 => plan.finish[i] = 1,
        5 => plan.holds[HOLD_PLACES * i + rng.index(HOLD_PLACES)] = 2,
        _ => plan.after[AFTER_PLACES * i + rng.index(AFTER_PLACES)] = 1,
    }
}

/// Random clock, starts, ends, marks and drops, past the last task only sometimes,
/// and in some books a random rule.
fn with_wild_morning(rng: &mut Rng, book: &Book) -> Book {
    let mut wild = *book;
    let tame = rng.chance(80);
    let count = if tame { book.tasks.min(64).into() } else { 64 };
    wild.clock = wild_tick(rng);
    for i in 0..count {
        let mark = if tame {
            rng.within(0, 2) as u8
        } else {
            rng.byte()
        };
        wild.mark[i] = mark;
        wild.start[i] = if mark == 0 { 0 } else { wild_tick(rng) };
        wild.end[i] = if mark < 2 { 0 } else { wild_tick(rng) };
        wild.dropped[i] = if tame {
            u8::from(mark != 1 && rng.chance(30))
        } else {
            rng.byte()
        };
        if tame && wild.dropped[i] == 1 {
            wild.end[i] = wild.start[i];
        }
    }
    if rng.chance(50) {
        wild.clock = wild.end.iter().max().copied().unwrap_or(0);
    }
    if rng.chance(20) {
        wild.rule = rng.byte();
    }
    wild
}
