//! Lines for the desk: steps, questions, slips of the hand.

use super::events::{accepted_event, any_drop, event_line};
use super::lines::{noise, odd_ends_line, odd_rule_line};
use super::reports::any_report;
use super::Rng;
use crate::second::desk::{Desk, Start, LONGEST_LINE};
use crate::second::fields::line_of;

/// Lines that are nearly questions, and some that are.
const ODD_QUESTIONS: [&[u8]; 24] = [
    b"early\t\n",
    b"early\t1\n",
    b"Early\n",
    b" early\n",
    b"early\r\n",
    b"exact\t\n",
    b"exactly\n",
    b"now\tx\n",
    b"no\n",
    b"drive\n",
    b"drive\t\n",
    b"drive\t-1\n",
    b"drive\t07\n",
    b"drive\t7\t\n",
    b"drive\t7\t7\n",
    b"drive\t1000001\n",
    b"drive\t4294967303\n",
    b"why\n",
    b"why\tx\n",
    b"why\t1\t1\n",
    b"why\t1000001\n",
    b"why\t18446744073709551617\n",
    b"help\n",
    b"\n",
];

/// The second desk on these texts, which must open, and the log that it prints.
pub fn opened(plan: &[u8], ends: &[u8]) -> (Vec<u8>, Desk) {
    match Desk::start(plan, ends) {
        Start::Open(log, desk) => (log, *desk),
        _ => panic!("the desk does not open"),
    }
}

/// The next step of the morning; None once every task has ended.
pub fn next_step(rng: &mut Rng, desk: &Desk, drop_percent: u32) -> Option<Vec<u8>> {
    accepted_event(rng, &desk.book, drop_percent).map(event_line)
}

pub fn any_question(rng: &mut Rng, desk: &Desk) -> Vec<u8> {
    let last = u32::from(desk.book.tasks);
    match rng.within(1, 6) {
        1 => b"early\n".to_vec(),
        2 => b"exact\n".to_vec(),
        3 => b"now\n".to_vec(),
        4 => line_of("drive", &[rng.within(1, 32)]),
        5 => {
            let drive = rng.pick(&[0, 33, 256, 1_000_000, 1_000_001]);
            line_of("drive", &[drive])
        }
        _ => {
            let beyond = rng.pick(&[0, last + 1, 256 + last, 1_000_000]);
            let task = rng.within(1, last);
            line_of("why", &[if rng.chance(15) { beyond } else { task }])
        }
    }
}

/// A line that is no step of the morning, ended by its LF: a question, a step that the book may
/// refuse, or one that is not of its form.
pub fn any_line(rng: &mut Rng, desk: &Desk) -> Vec<u8> {
    match rng.within(1, 12) {
        1..=4 => any_question(rng, desk),
        5..=9 => {
            let (task, tick) = any_report(rng, &desk.book);
            line_of("end", &[task, tick])
        }
        10 => line_of("drop", &[any_drop(rng, &desk.book)]),
        11 => odd_line(rng, desk),
        _ => long_line(rng),
    }
}

fn odd_line(rng: &mut Rng, desk: &Desk) -> Vec<u8> {
    match rng.within(1, 5) {
        1 => ended(&odd_ends_line(rng)),
        2 => ended(&noise(rng)),
        // Before the first line is kept a rule would be taken.
        3 if desk.kept > 0 => ended(&odd_rule_line(rng)),
        _ => rng.pick(&ODD_QUESTIONS).to_vec(),
    }
}

/// A line at or about the greatest length.
fn long_line(rng: &mut Rng) -> Vec<u8> {
    let mut line = rng
        .pick(&[b"early\t".as_slice(), b"end\t1\t", b"why\t", b"x"])
        .to_vec();
    let length = LONGEST_LINE + rng.pick(&[0, 1, 2, 300, 5_000]) - usize::from(rng.chance(20));
    line.resize(length, rng.pick(b"19\tx\0\xff"));
    line.push(b'\n');
    line
}

/// The first line of a text, with its LF.
fn ended(text: &[u8]) -> Vec<u8> {
    let first = text.split(|&byte| byte == b'\n').next().unwrap_or(b"");
    [first, b"\n"].concat()
}
