//! Logs to be judged: our own, other schools', and such with their ticks moved.

use super::events::{event_line, rule_line, take, Event};
use super::lengths::planned_length;
use super::plans::{full_plan_of_either, random_plan};
use super::reports::{accepted_report, any_report};
use super::waiting::either_rule;
use super::Rng;
use crate::second::book::open_book;
use crate::second::fields::line_of;
use crate::second::judge::clash;
use crate::second::runlog::run_log;
use crate::second::text::plan_text;
use crate::second::values::{Book, Plan, Rule, LAST_TICK, WAITING};

/// When each task starts and ends, by a log.
#[derive(Clone, Copy)]
pub struct Times {
    pub start: [u32; 64],
    pub end: [u32; 64],
}

/// Any plan that is accepted, of 64 tasks at times.
pub fn plan_of_a_log(rng: &mut Rng) -> Plan {
    if rng.chance(5) {
        return full_plan_of_either(rng, 64);
    }
    random_plan(rng)
}

/// A text of `ends.txt` that ends every task and drops none: refused reports and drops are among
/// it, and sometimes a last line is refused by 3 or 4.
pub fn whole_ends(rng: &mut Rng, plan: &Plan, rule: Rule) -> Vec<u8> {
    let mut text = rule_line(rule).to_vec();
    let mut book = open_book(plan, rule).book;
    let odd_percent = rng.pick(&[0, 0, 30]);
    while let Some((task, tick)) = accepted_report(rng, &book) {
        if rng.chance(odd_percent) {
            put_refused_event(rng, &mut text, &book);
        }
        let event = Event::End(task, tick);
        text.extend(event_line(event));
        book = take(&book, event).1;
    }
    if rng.chance(20) {
        let last: [&[u8]; 4] = [
            b"end\n",
            b"end\t1\t1",
            b"drop\t1000001\n",
            b"end\t1\t1000001\n",
        ];
        text.extend(rng.pick(&last));
    }
    text
}

/// One that changes nothing, its numbers in range: a drop of a task that waits would be accepted.
fn put_refused_event(rng: &mut Rng, text: &mut Vec<u8>, book: &Book) {
    let (task, tick) = any_report(rng, book);
    let waits =
        (1..=u32::from(book.tasks)).contains(&task) && book.mark[task as usize - 1] == WAITING;
    let event = if rng.chance(50) && !waits {
        Event::Drop(task)
    } else {
        Event::End(task, tick)
    };
    if task.max(tick) <= LAST_TICK && !take(book, event).0.is_accepted() {
        text.extend(event_line(event));
    }
}

/// Our own log of a morning in which all tasks ended and none was dropped.
pub fn own_log(rng: &mut Rng, plan: &Plan, rule: Rule) -> Vec<u8> {
    let ends = whole_ends(rng, plan, rule);
    run_log(&plan_text(plan), &ends)
}

/// Times that a log may have: each task starts once all that clash with it and are planned before
/// have ended and it is ready, or some time later, up to its planned start.
pub fn school_times(rng: &mut Rng, plan: &Plan) -> Times {
    let mut times = Times {
        start: [0; 64],
        end: [0; 64],
    };
    let mut order: Vec<usize> = (0..plan.task_count()).collect();
    order.sort_by_key(|&i| plan.begin[i]);
    let later_percent = rng.pick(&[0, 30, 100]);
    for (k, &i) in order.iter().enumerate() {
        let before = order[..k].iter().filter(|&&j| clash(plan, i, j));
        let soonest = before.map(|&j| times.end[j]).fold(plan.ready[i], u32::max);
        times.start[i] = soonest;
        if rng.chance(later_percent) {
            let any = rng.within(soonest, plan.begin[i]);
            times.start[i] = rng.pick(&[any, plan.begin[i]]);
        }
        let planned = planned_length(plan, i);
        let any = rng.within(1, planned);
        times.end[i] = times.start[i] + rng.pick(&[1, any, planned]);
    }
    times
}

/// The times with one to three tasks moved, or ended too soon or too late.
pub fn moved_times(rng: &mut Rng, plan: &Plan, times: &Times) -> Times {
    let mut moved = *times;
    for _ in 0..rng.pick(&[1, 1, 1, 2, 3]) {
        let i = rng.index(plan.task_count());
        let length = moved.end[i].saturating_sub(moved.start[i]);
        let other = rng.index(plan.task_count());
        match rng.within(1, 10) {
            1 => moved.end[i] = moved.start[i],
            2 => moved.end[i] = moved.start[i] + planned_length(plan, i) + rng.within(1, 2),
            3 => moved.end[i] = moved.start[i].saturating_sub(rng.within(1, 3)),
            4 => moved.start[i] = moved.start[i].saturating_sub(rng.within(1, 2)),
            // Late, which those that follow may have to pay for.
            5 | 6 => move_to(&mut moved, i, plan.begin[i] + rng.within(1, 2), length),
            7 | 8 => move_before_ready(rng, plan, &mut moved),
            9 => move_to(&mut moved, i, rng.within(0, plan.begin[i]), length),
            // Where another one runs, which it may clash with.
            _ => move_to(&mut moved, i, times.start[other], length),
        }
        moved.start[i] = moved.start[i].min(LAST_TICK);
        moved.end[i] = moved.end[i].min(LAST_TICK);
    }
    moved
}

/// A task that awaits a class starts a tick too soon, and takes a tick: so it may clash with nobody.
fn move_before_ready(rng: &mut Rng, plan: &Plan, times: &mut Times) {
    let awaits = |i: &usize| plan.ready[*i] > 0;
    let awaited: Vec<usize> = (0..plan.task_count()).filter(awaits).collect();
    if !awaited.is_empty() {
        let i = rng.pick(&awaited);
        move_to(times, i, plan.ready[i] - 1, 1);
    }
}

fn move_to(times: &mut Times, i: usize, start: u32, length: u32) {
    times.start[i] = start;
    times.end[i] = start + length;
}

/// A school's log of these times: by either first line, its lines by time or in any order, ticks
/// early as they are or as anybody may have them, other lines among them.
pub fn school_log(rng: &mut Rng, plan: &Plan, times: &Times) -> Vec<u8> {
    let truthful = rng.chance(50);
    let mut lines = Vec::new();
    for i in 0..plan.task_count() {
        let of_task = [
            ("start", times.start[i], plan.begin[i]),
            ("end", times.end[i], plan.finish[i]),
        ];
        for (word, tick, planned) in of_task {
            let early = if truthful {
                signed(planned, tick)
            } else {
                any_early(rng)
            };
            let line = format!("{word}\t{}\t{}\t{tick}\t{early}\n", i + 1, plan.board[i]);
            lines.push((tick, line.into_bytes()));
        }
    }
    lines.sort_by_key(|(tick, _)| *tick);
    let mut lines: Vec<Vec<u8>> = lines.into_iter().map(|(_, line)| line).collect();
    if rng.chance(30) {
        rng.shuffle(&mut lines);
    }
    for _ in 0..rng.pick(&[0, 2, 8]) {
        let at = rng.index(lines.len() + 1);
        lines.insert(at, other_line(rng));
    }
    lines.insert(0, first_line_of(plan, either_rule(rng)));
    lines.concat()
}

pub fn first_line_of(plan: &Plan, rule: Rule) -> Vec<u8> {
    let (boards, tasks) = (plan.boards, plan.tasks);
    match rule {
        Rule::EarlyStart => format!("run\t1\t{boards}\t{tasks}\n").into_bytes(),
        Rule::Clash => format!("run\t2\t{boards}\t{tasks}\tclash\n").into_bytes(),
    }
}

fn signed(planned: u32, tick: u32) -> String {
    (i64::from(planned) - i64::from(tick)).to_string()
}

fn any_early(rng: &mut Rng) -> String {
    let near = i64::from(rng.within(0, 40)) - 20;
    rng.pick(&[near, 0, 1_000_000, -1_000_000]).to_string()
}

fn other_line(rng: &mut Rng) -> Vec<u8> {
    let numbers = [0; 3].map(|_: u32| {
        let near = rng.within(0, 40);
        rng.pick(&[near, 0, LAST_TICK])
    });
    if rng.chance(50) {
        return line_of("early", &numbers[..2]);
    }
    line_of("refused", &numbers)
}
