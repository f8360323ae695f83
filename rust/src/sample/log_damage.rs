//! Logs damaged by line, field, byte, number, sign, order, board and tick, and long ones.

use super::faults::damaged_text;
use super::lines::{damaged_lines, noise, stretched_text};
use super::logs::{moved_times, own_log, school_log, school_times};
use super::waiting::either_rule;
use super::Rng;
use crate::second::values::{Plan, LONGEST_TEXT};

/// Lines of a log that are not of their form, and some that are but look odd.
const ODD_LINES: [&[u8]; 50] = [
    b"\n",
    b"start\n",
    b"start\t1\t1\t0\n",
    b"start\t1\t1\t0\t0\t\n",
    b"start\t1\t1\t0\t0\t0\n",
    b"start\t0\t1\t0\t0\n",
    b"start\t1\t0\t0\t0\n",
    b"start\t01\t1\t0\t0\n",
    b"start\t1\t1\t-1\t0\n",
    b"start\t-1\t1\t0\t0\n",
    b"start\t1\t-1\t0\t0\n",
    b"start\t64\t8\t0\t0\n",
    b"start\t65\t1\t0\t0\n",
    b"start\t1\t9\t0\t0\n",
    b"start\t1\t1\t1000001\t0\n",
    b"start\t1\t1\t0\t-0\n",
    b"start\t1\t1\t0\t-01\n",
    b"start\t1\t1\t0\t+1\n",
    b"start\t1\t1\t0\t--1\n",
    b"start\t1\t1\t0\t-\n",
    b"start\t1\t1\t0\t-1000001\n",
    b"start\t1\t1\t0\t1000001\n",
    b"start\t257\t1\t0\t0\n",
    b"start\t4294967297\t1\t0\t0\n",
    b"start\t18446744073709551617\t1\t0\t0\n",
    b"Start\t1\t1\t0\t0\n",
    b"starts\t1\t1\t0\t0\n",
    b"end\t1\t1\t0\n",
    b"end\t1\t1\t4294967296\t0\n",
    b"end\t1\t1\t1\t-4294967297\n",
    b"end\t1\t1\t5\t1\r\n",
    b"end 1 1 5 1\n",
    b"ends\t1\t1\t5\t1\n",
    b"early\t0\n",
    b"early\t0\t-1\n",
    b"early\t-1\t0\n",
    b"early\t0\t0\t0\n",
    b"early\t1000001\t0\n",
    b"early\t1000000\t1000000\n",
    b"refused\t10\t0\n",
    b"refused\t10\t0\t-1\n",
    b"refused\t10\t0\t1000001\n",
    b"refused\t28\t1000000\t1000000\n",
    b"refused\t10\t1\t1\t1\n",
    b"drop\t1\t1\n",
    b"skip\t1\t1\t0\t0\n",
    b"run\t1\t1\t1\n",
    b"run\t2\t1\t1\tclash\n",
    b"accepted\n",
    b"start\t1\t1\t0\t0",
];

/// What may stand in the place of a field.
const ODD_FIELDS: [&[u8]; 26] = [
    b"",
    b"-",
    b"0",
    b"1",
    b"2",
    b"8",
    b"9",
    b"00",
    b"01",
    b"-0",
    b"-1",
    b"-01",
    b"+1",
    b"1 ",
    b"64",
    b"65",
    b"256",
    b"1000000",
    b"1000001",
    b"-1000000",
    b"-1000001",
    b"4294967297",
    b"start",
    b"end",
    b"drop",
    b"clash",
];

/// Every odd line of a log.
pub fn odd_log_lines() -> impl Iterator<Item = &'static [u8]> {
    ODD_LINES.into_iter()
}

fn lines_of(log: &[u8]) -> Vec<Vec<u8>> {
    let lines = log.split_inclusive(|&byte| byte == b'\n');
    lines.map(<[u8]>::to_vec).collect()
}

/// The log with one of its lines, of which there is one, changed field by field.
fn with_line_changed(log: &[u8], at: usize, change: impl FnOnce(&mut Vec<Vec<u8>>)) -> Vec<u8> {
    let mut lines = lines_of(log);
    let line = lines[at].strip_suffix(b"\n").unwrap_or(&lines[at]);
    let mut fields: Vec<Vec<u8>> = line
        .split(|&byte| byte == b'\t')
        .map(<[u8]>::to_vec)
        .collect();
    change(&mut fields);
    lines[at] = [fields.join(&b'\t'), b"\n".to_vec()].concat();
    lines.concat()
}

/// A line of which something is judged; the first line where there is none.
fn start_or_end(rng: &mut Rng, log: &[u8]) -> usize {
    let lines = lines_of(log);
    let is_judged = |line: &[u8]| line.starts_with(b"start\t") || line.starts_with(b"end\t");
    let judged: Vec<usize> = (0..lines.len()).filter(|&k| is_judged(&lines[k])).collect();
    if judged.is_empty() {
        return 0;
    }
    rng.pick(&judged)
}

/// A `start` or `end` line names another board.
fn with_other_board(rng: &mut Rng, plan: &Plan, log: &[u8]) -> Vec<u8> {
    let board = rng.within(1, plan.boards.into());
    let at = start_or_end(rng, log);
    with_line_changed(log, at, |fields| {
        if let Some(field) = fields.get_mut(2) {
            *field = board.to_string().into_bytes();
        }
    })
}

/// A `start` or `end` line names another task, or one past the last.
fn with_other_task(rng: &mut Rng, plan: &Plan, log: &[u8]) -> Vec<u8> {
    let last = u32::from(plan.tasks);
    let task = if rng.chance(50) {
        last + 1
    } else {
        rng.within(1, last)
    };
    let at = start_or_end(rng, log);
    with_line_changed(log, at, |fields| {
        if let Some(field) = fields.get_mut(1) {
            *field = task.to_string().into_bytes();
        }
    })
}

/// The tick of a `start` or `end` line is one to three later or earlier.
fn with_tick_moved(rng: &mut Rng, log: &[u8]) -> Vec<u8> {
    let by = rng.within(1, 3);
    let later = rng.chance(50);
    let at = start_or_end(rng, log);
    with_line_changed(log, at, |fields| {
        let Some(field) = fields.get_mut(3) else {
            return;
        };
        let tick: u32 = String::from_utf8_lossy(field).parse().unwrap_or(0);
        let tick = if later {
            tick + by
        } else {
            tick.saturating_sub(by)
        };
        *field = tick.to_string().into_bytes();
    })
}

/// A sign before one field, or taken from it.
fn with_sign(rng: &mut Rng, log: &[u8]) -> Vec<u8> {
    let at = rng.index(lines_of(log).len());
    let sign = rng.pick(&[b"-", b"-", b"-", b"+"]);
    let place = rng.number() as usize;
    let last = rng.chance(40);
    with_line_changed(log, at, |fields| {
        let place = if last {
            fields.len() - 1
        } else {
            place % fields.len()
        };
        let field = &mut fields[place];
        *field = match field.strip_prefix(b"-") {
            Some(number) => number.to_vec(),
            None => [sign, &field[..]].concat(),
        };
    })
}

/// One field replaced, taken out or put in.
fn with_odd_field(rng: &mut Rng, log: &[u8]) -> Vec<u8> {
    let at = rng.index(lines_of(log).len());
    let (odd, place, kind) = (
        rng.pick(&ODD_FIELDS).to_vec(),
        rng.number() as usize,
        rng.within(1, 6),
    );
    with_line_changed(log, at, |fields| {
        let place = place % fields.len();
        match kind {
            1 => fields.insert(place, odd),
            2 => fields.push(odd),
            3 => drop(fields.remove(place)),
            _ => fields[place] = odd,
        }
    })
}

/// One line more, somewhere: odd, or one that stands there already, mostly behind the first.
fn with_line_more(rng: &mut Rng, log: &[u8], is_odd: bool) -> Vec<u8> {
    let mut lines = lines_of(log);
    let line = if is_odd {
        rng.pick(&ODD_LINES).to_vec()
    } else {
        lines[start_or_end(rng, log)].clone()
    };
    let least = usize::from(rng.chance(90));
    let at = least + rng.index(lines.len() + 1 - least);
    lines.insert(at, line);
    lines.concat()
}

/// One line less, mostly not the first.
fn with_line_missing(rng: &mut Rng, log: &[u8]) -> Vec<u8> {
    let mut lines = lines_of(log);
    let at = if rng.chance(90) {
        start_or_end(rng, log)
    } else {
        rng.index(lines.len())
    };
    lines.remove(at);
    lines.concat()
}

/// All lines after the first in another order.
pub fn in_other_order(rng: &mut Rng, log: &[u8]) -> Vec<u8> {
    let mut lines = lines_of(log);
    rng.shuffle(&mut lines[1..]);
    lines.concat()
}

/// The log with one damage, of which some leave it accepted.
pub fn damaged_log(rng: &mut Rng, plan: &Plan, log: &[u8]) -> Vec<u8> {
    if log.is_empty() {
        return noise(rng);
    }
    match rng.within(1, 20) {
        1 => damaged_lines(rng, log),
        2 => damaged_text(rng, log),
        3 => with_odd_field(rng, log),
        4 => with_sign(rng, log),
        5 => with_line_more(rng, log, true),
        6 | 7 => with_line_more(rng, log, false),
        8 => with_line_missing(rng, log),
        9 | 10 => with_other_board(rng, plan, log),
        11 => with_other_task(rng, plan, log),
        12 => in_other_order(rng, log),
        _ => with_tick_moved(rng, log),
    }
}

/// A plan's log: our own or a school's, as it is or with its times moved, and then mostly damaged.
pub fn any_log(rng: &mut Rng, plan: &Plan) -> Vec<u8> {
    let mut log = if rng.chance(15) {
        let rule = either_rule(rng);
        own_log(rng, plan, rule)
    } else {
        let mut times = school_times(rng, plan);
        if rng.chance(50) {
            times = moved_times(rng, plan, &times);
        }
        school_log(rng, plan, &times)
    };
    for _ in 0..rng.pick(&[0, 0, 1, 1, 2]) {
        log = damaged_log(rng, plan, &log);
    }
    log
}

/// The log with lines that are only looked at for their form, up to a length that it may have, or
/// one byte more; or with something put in over and over.
pub fn long_log(rng: &mut Rng, log: &[u8]) -> Vec<u8> {
    let length = rng.pick(&[LONGEST_TEXT, LONGEST_TEXT, LONGEST_TEXT + 1]);
    if rng.chance(30) {
        return stretched_text(rng, log, length);
    }
    // The shortest such line has 10 bytes, and the first one takes what is left over.
    let room = length.saturating_sub(log.len());
    let mut long = log.to_vec();
    for k in 0..room / 10 {
        let more = if k == 0 { room % 10 } else { 0 };
        let (clock, figure) = (1 + more.min(5), 1 + more - more.min(5));
        long.extend(format!("early\t{}\t{}\n", "1".repeat(clock), "1".repeat(figure)).bytes());
    }
    long
}
