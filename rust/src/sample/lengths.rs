//! Lengths and drops for the engine without reports, and texts that say them.

use super::events::{first_drops, rule_line};
use super::plans::{full_plan_of_either, random_plan};
use super::waiting::{awaited, either_rule};
use super::Rng;
use crate::second::book::open_book;
use crate::second::fields::line_of;
use crate::second::values::{Lengths, Plan, Rule, DROPPED, LAST_TICK};

/// What the engine is handed.
pub struct Case {
    pub plan: Plan,
    pub rule: Rule,
    pub given: Lengths,
}

/// Lines of `lengths.txt` that are not well formed or out of range, and some that are neither but
/// look so.
const ODD_LINES: [&[u8]; 44] = [
    b"length\n",
    b"length\t\n",
    b"length\t1\n",
    b"length\t1\t\n",
    b"length\t\t1\n",
    b"length\t1\t1",
    b"length\t1\t1\t\n",
    b"length\t1\t1\t1\n",
    b"length\t01\t1\n",
    b"length\t1\t01\n",
    b"length\t1\t00\n",
    b"length\t-\t1\n",
    b"length\t1\t-\n",
    b"length\t1\t1\r\n",
    b"length 1\t1\n",
    b"Length\t1\t1\n",
    b"lengths\t1\t1\n",
    b"lengt\t1\t1\n",
    b"\tlength\t1\t1\n",
    b"length\t0\t1\n",
    b"length\t65\t1\n",
    b"length\t1\t0\n",
    b"length\t1\t1000000\n",
    b"length\t1\t1000001\n",
    b"length\t1\t4294967297\n",
    b"length\t18446744073709551617\t1\n",
    b"length\t0\t01\n",
    b"length\t65\t1000001\n",
    b"drop\n",
    b"drop\t\n",
    b"drop\t1",
    b"drop\t1\t1\n",
    b"drop\t01\n",
    b"drop\t0\n",
    b"drop\t65\n",
    b"drop\t1000001\n",
    b"drop\t4294967297\n",
    b"Drop\t1\n",
    b"end\t1\t1\n",
    b"task\t1\t1\t0\t1\n",
    b"1\n",
    b"\n",
    b"rule\tclash\n",
    b"rule\n",
];

/// What may stand in the place of a field.
const ODD_FIELDS: [&[u8]; 20] = [
    b"",
    b"-",
    b"0",
    b"1",
    b"2",
    b"00",
    b"01",
    b"+1",
    b"1 ",
    b"64",
    b"65",
    b"256",
    b"1000000",
    b"1000001",
    b"4294967295",
    b"4294967297",
    b"18446744073709551617",
    b"length",
    b"drop",
    b"clash",
];

/// Any plan that is accepted, and lengths and drops that mostly are.
pub fn random_case(rng: &mut Rng) -> Case {
    let plan = if rng.chance(10) {
        full_plan_of_either(rng, 64)
    } else {
        random_plan(rng)
    };
    let rule = either_rule(rng);
    let given = any_lengths(rng, &plan, rule);
    Case { plan, rule, given }
}

/// The planned length of task index i.
pub fn planned_length(plan: &Plan, i: usize) -> u32 {
    plan.finish[i] - plan.begin[i]
}

/// The task indices that the rule lets nobody hold back.
fn free_tasks(plan: &Plan, rule: Rule) -> Vec<usize> {
    (0..plan.task_count())
        .filter(|&i| awaited(plan, rule, i).is_empty())
        .collect()
}

/// Lengths and drops that are taken, or refused by 22, by 19 or by both.
pub fn any_lengths(rng: &mut Rng, plan: &Plan, rule: Rule) -> Lengths {
    let mut given = taken_lengths(rng, plan, rule);
    let fault = rng.within(1, 10);
    if fault == 1 || fault == 2 {
        drop_free_tasks(rng, plan, rule, &mut given);
    }
    if fault == 2 || fault == 3 {
        spoil_lengths(rng, plan, &mut given);
    }
    if fault == 4 {
        given.dropped = given.dropped.map(|_| rng.pick(&[0, 1, 2, 255]));
    }
    given
}

/// Full, short or mixed lengths, drops that the rule takes, and anything where nothing is read.
pub fn taken_lengths(rng: &mut Rng, plan: &Plan, rule: Rule) -> Lengths {
    let mut given = Lengths::planned(plan);
    let short_percent = rng.pick(&[0, 30, 100, 100]);
    // Where none takes longer than this, many end on one tick.
    let most = rng.pick(&[1, 3, u32::MAX, u32::MAX]);
    for i in 0..plan.task_count() {
        let planned = planned_length(plan, i);
        if rng.chance(short_percent) {
            let any = rng.within(1, planned);
            given.length[i] = rng.pick(&[1, any, any, planned]).min(most);
        }
    }
    let fresh = open_book(plan, rule).book;
    for task in first_drops(rng, &fresh) {
        given.dropped[task as usize - 1] = DROPPED;
    }
    fill_what_is_not_read(rng, plan, &mut given);
    given
}

/// Lengths of dropped tasks, and all that stands past the last task; and a byte other than 0 for
/// some tasks that are not dropped.
fn fill_what_is_not_read(rng: &mut Rng, plan: &Plan, given: &mut Lengths) {
    if rng.chance(20) {
        return;
    }
    let count = plan.task_count();
    for i in 0..64 {
        if i >= count || (given.is_dropped(i) && rng.chance(80)) {
            given.length[i] = wild_length(rng);
        }
        if i >= count {
            given.dropped[i] = rng.pick(&[0, 1, 1, 2, 255]);
        } else if !given.is_dropped(i) && rng.chance(20) {
            given.dropped[i] = rng.within(2, 255) as u8;
        }
    }
}

fn wild_length(rng: &mut Rng) -> u32 {
    let any = rng.number() as u32;
    rng.pick(&[0, 0, 1, 7, LAST_TICK, LAST_TICK + 1, u32::MAX, any])
}

/// Some tasks are dropped too that wait for nobody.
fn drop_free_tasks(rng: &mut Rng, plan: &Plan, rule: Rule, given: &mut Lengths) {
    let free = free_tasks(plan, rule);
    for _ in 0..rng.within(1, 3) {
        given.dropped[rng.pick(&free)] = DROPPED;
    }
}

/// Some lengths are out of range, of tasks that mostly are not dropped.
fn spoil_lengths(rng: &mut Rng, plan: &Plan, given: &mut Lengths) {
    for _ in 0..rng.within(1, 4) {
        let i = rng.index(plan.task_count());
        let over = planned_length(plan, i) + 1;
        given.length[i] = rng.pick(&[0, 0, over, over, LAST_TICK, LAST_TICK + 1, u32::MAX]);
    }
}

/// A text that says this, its lines in any order; a task that takes its planned length has a line
/// only sometimes. Lengths that are not read are put in range, mostly.
pub fn lengths_text(rng: &mut Rng, case: &Case) -> Vec<u8> {
    let (plan, given) = (&case.plan, &case.given);
    let own_percent = rng.pick(&[0, 50, 100]);
    let mut lines = Vec::new();
    for i in 0..plan.task_count() {
        let (task, mut ticks) = (i as u32 + 1, given.length[i]);
        if given.is_dropped(i) {
            lines.push(line_of("drop", &[task]));
            if rng.chance(95) {
                ticks = ticks.min(LAST_TICK);
            }
        }
        if ticks != planned_length(plan, i) || rng.chance(own_percent) {
            lines.push(line_of("length", &[task, ticks]));
        }
    }
    if rng.chance(70) {
        rng.shuffle(&mut lines);
    }
    [rule_line(case.rule).to_vec(), lines.concat()].concat()
}

/// The text with an odd line put between two of its lines.
pub fn with_odd_lengths_line(rng: &mut Rng, text: &[u8]) -> Vec<u8> {
    let mut lines: Vec<&[u8]> = text.split_inclusive(|&byte| byte == b'\n').collect();
    lines.insert(rng.index(lines.len() + 1), rng.pick(&ODD_LINES));
    lines.concat()
}

/// The text with one field of one line replaced, taken out or put in.
pub fn with_odd_field(rng: &mut Rng, text: &[u8]) -> Vec<u8> {
    let mut lines: Vec<Vec<u8>> = text
        .split_inclusive(|&byte| byte == b'\n')
        .map(<[u8]>::to_vec)
        .collect();
    if lines.is_empty() {
        return rng.pick(&ODD_FIELDS).to_vec();
    }
    let at = rng.index(lines.len());
    let line = lines[at].strip_suffix(b"\n").unwrap_or(&lines[at]).to_vec();
    let mut fields: Vec<&[u8]> = line.split(|&byte| byte == b'\t').collect();
    let (field, odd) = (rng.index(fields.len()), rng.pick(&ODD_FIELDS));
    match rng.within(1, 6) {
        1 => fields.insert(field, odd),
        2 => fields.push(odd),
        3 => drop(fields.remove(field)),
        _ => fields[field] = odd,
    }
    lines[at] = [fields.join(&b'\t'), b"\n".to_vec()].concat();
    lines.concat()
}

/// Every odd line, alone, after another and before one.
pub fn odd_lengths_texts() -> Vec<Vec<u8>> {
    let around = |odd: &'static [u8]| {
        [
            odd.to_vec(),
            [b"length\t1\t1\n", odd].concat(),
            [b"drop\t1\n", odd].concat(),
            [odd, b"length\t1\t1\n"].concat(),
            [odd, b"drop\t5\n"].concat(),
            [b"rule\tclash\n", odd].concat(),
        ]
    };
    ODD_LINES.into_iter().flat_map(around).collect()
}
