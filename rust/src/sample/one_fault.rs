//! Texts made wrong in one place, and the answer each must meet.

use super::faults::late_plan;
use super::plans::exclusively_held;
use super::Rng;
use crate::second::text::plan_text;
use crate::second::values::{refusal, Answer, Plan, EDITION_2, LAST_TICK, LONGEST_TEXT};

pub struct OneFault {
    pub text: Vec<u8>,
    pub answer: Answer,
}

/// Where the ready field stands in a task line of edition 2.
const READY: usize = 3;

/// Where the fields after it stand, in a task line of a plan's edition.
struct Places {
    begin: usize,
    finish: usize,
    holds: usize,
    after: usize,
}

const FORTY_DIGITS: &str = "1234567890123456789012345678901234567890";

/// Misspelt in any field that takes a number.
const MISSPELT_NUMBERS: [&str; 14] = [
    "", "-", "+1", "-1", "01", "00", " 1", "1 ", "1.0", "0x1", "1\r", "1\0", "one", "1,2",
];
const MISSPELT_HOLDS: [&str; 18] = [
    "", ",", ",e1", "e1,", "e1,,e2", "e01", "e", "s", "x1", "E1", "1", "e1 ", "e 1", "-,e1",
    "e1,-", "e-1", "e+1", "--",
];
const MISSPELT_AFTERS: [&str; 14] = [
    "", ",", ",1", "1,", "1,,2", "01", "00", "e1", "-1", "+1", "--", "1,-", "1 ", "1;2",
];
const HOLDS_OUT_OF_RULE: [&str; 8] = [
    "e0",
    "s0",
    "e33",
    "e1,e1",
    "e1,s1",
    "s2,e1",
    "e0,e1",
    "s4294967298",
];
/// Right in edition 1.
const SHARED_HOLDS: [&str; 7] = [
    "s1",
    "s32",
    "s9,s10",
    "e1,s2",
    "s1,e2",
    "e3,s4,e5",
    "e1,e31,s32",
];
const AFTERS_OUT_OF_RULE: [&str; 6] = ["0", "1,1", "2,1", "65", "0,1", "4294967297"];

/// A fault of code 1 to 5, 17, 18 or 20 in the text of an accepted plan.
pub fn one_fault(rng: &mut Rng, plan: &Plan) -> OneFault {
    if rng.chance(10) {
        return no_task_at_0(rng, plan);
    }
    if rng.chance(15) {
        // A late beginning, which must not be seen first.
        let late = late_plan(rng, plan);
        return fault_of_the_text(rng, &late);
    }
    fault_of_the_text(rng, plan)
}

fn no_task_at_0(rng: &mut Rng, plan: &Plan) -> OneFault {
    let late = late_plan(rng, plan);
    let least = late.begin[..late.task_count()].iter().min().copied();
    OneFault {
        text: plan_text(&late),
        answer: refusal(17, least.unwrap_or(0), 0),
    }
}

fn fault_of_the_text(rng: &mut Rng, plan: &Plan) -> OneFault {
    match rng.within(1, 14) {
        1 => too_long(rng, plan),
        2 | 3 => first_line_fault(rng, plan),
        4 => bytes_after_the_last_line(rng, plan),
        5 | 6 => out_of_range_fault(rng, plan),
        7 => line_shape_fault(rng, plan),
        8 => cut_short(rng, plan),
        9..=11 => fault_of_edition_2(rng, plan),
        12 => other_edition(plan),
        _ => misspelt_fault(rng, plan),
    }
}

impl Places {
    fn of(plan: &Plan) -> Places {
        let begin = READY + usize::from(plan.edition == EDITION_2);
        Places {
            begin,
            finish: begin + 1,
            holds: begin + 2,
            after: begin + 3,
        }
    }
}

fn too_long(rng: &mut Rng, plan: &Plan) -> OneFault {
    let mut text = plan_text(plan);
    text.resize(LONGEST_TEXT + rng.within(1, 50) as usize, b'\n');
    OneFault {
        text,
        answer: refusal(1, 0, 0),
    }
}

fn bytes_after_the_last_line(rng: &mut Rng, plan: &Plan) -> OneFault {
    let mut text = plan_text(plan);
    let tail: [&[u8]; 4] = [b"\n", b"x", b"task\t1\t1\t0\t1\t-\t-\n", b"\0"];
    text.extend_from_slice(rng.pick(&tail));
    OneFault {
        text,
        answer: refusal(5, u32::from(plan.tasks) + 2, 0),
    }
}

fn first_line_fault(rng: &mut Rng, plan: &Plan) -> OneFault {
    let mut lines = lines_of(plan);
    match rng.within(1, 5) {
        1 => lines[0][0] = rng.pick(&["Plan", "plans", "", "task", " plan"]).into(),
        2 => {
            lines[0][1] = rng
                .pick(&["", "0", "3", "01", "02", "-", "11", "12"])
                .into()
        }
        3 => lines[0][2] = rng.pick(&["0", "9", "-", "", "08", FORTY_DIGITS]).into(),
        4 => lines[0][3] = rng.pick(&["0", "65", "-", "", "064", FORTY_DIGITS]).into(),
        _ => drop(change_field_count(rng, &mut lines[0], 0)),
    }
    OneFault {
        text: text_of(&lines),
        answer: refusal(2, 1, 0),
    }
}

/// The first line names the edition that the others are not of.
fn other_edition(plan: &Plan) -> OneFault {
    let mut lines = lines_of(plan);
    lines[0][1] = (3 - plan.edition).to_string();
    // One field is too many or too few before it: holds stand where the planned
    // finish is looked for, or the other way round.
    fault_in_line(&lines, 3, 1, 5)
}

fn misspelt_fault(rng: &mut Rng, plan: &Plan) -> OneFault {
    let mut lines = lines_of(plan);
    let places = Places::of(plan);
    let at = 1 + rng.index(plan.task_count());
    let field = 1 + rng.index(places.after);
    lines[at][field] = if field == places.holds {
        rng.pick(&MISSPELT_HOLDS).into()
    } else if field == places.after {
        rng.pick(&MISSPELT_AFTERS).into()
    } else {
        rng.pick(&MISSPELT_NUMBERS).into()
    };
    if rng.chance(30) {
        // A number out of range in the same line must not be seen first.
        lines[at][1 + field % 4] = FORTY_DIGITS.into();
    }
    fault_in_line(&lines, 3, at, field)
}

fn line_shape_fault(rng: &mut Rng, plan: &Plan) -> OneFault {
    let mut lines = lines_of(plan);
    let at = 1 + rng.index(plan.task_count());
    let field = if rng.chance(30) {
        lines[at][0] = rng.pick(&["", "Task", "tasks", "plan", "end"]).into();
        0
    } else {
        change_field_count(rng, &mut lines[at], Places::of(plan).holds)
    };
    fault_in_line(&lines, 3, at, field)
}

fn out_of_range_fault(rng: &mut Rng, plan: &Plan) -> OneFault {
    let mut lines = lines_of(plan);
    let places = Places::of(plan);
    let at = 1 + rng.index(plan.task_count());
    let begin = lines[at][places.begin].clone();
    let finish = lines[at][places.finish].clone();
    let board_past_the_last = (u32::from(plan.boards) + 1).to_string();
    let over = rng.pick(&["1000001", "4294967296", FORTY_DIGITS]);
    let (field, value): (usize, &str) = match rng.within(1, 10) {
        1 => (1, rng.pick(&["0", "65", FORTY_DIGITS])),
        2 => (2, &board_past_the_last),
        3 => (2, rng.pick(&["0", "256", "257", FORTY_DIGITS])),
        // The ready tick where there is one.
        4 => (READY, over),
        5 => (places.begin, over),
        6 => (places.finish, &begin),
        7 => (places.finish, over),
        8 => (places.holds, rng.pick(&HOLDS_OUT_OF_RULE)),
        9 => (places.after, rng.pick(&AFTERS_OUT_OF_RULE)),
        _ => {
            // The start is in range, and the finish no longer above it.
            lines[at][places.begin] = finish.clone();
            (places.finish, &finish)
        }
    };
    lines[at][field] = value.into();
    fault_in_line(&lines, 4, at, field)
}

/// A shared hold, a ready tick after the planned start, or both, 20 going before 18;
/// a 3 or a 4 in the line goes before them, and what later lines hold does not count.
fn fault_of_edition_2(rng: &mut Rng, plan: &Plan) -> OneFault {
    let second = Plan {
        edition: EDITION_2,
        ..exclusively_held(plan)
    };
    let (mut lines, places) = (lines_of(&second), Places::of(&second));
    let at = 1 + rng.index(plan.task_count());
    if rng.chance(40) && at < lines.len() - 1 {
        let later = rng.within(at as u32 + 1, u32::from(plan.tasks)) as usize;
        put_any_fault(rng, &mut lines[later], &places);
    }
    let is_shared = rng.chance(60);
    if is_shared {
        lines[at][places.holds] = rng.pick(&SHARED_HOLDS).into();
    }
    if !is_shared || rng.chance(40) {
        let ready = rng.pick(&[plan.begin[at - 1] + 1, LAST_TICK]);
        lines[at][READY] = ready.to_string();
    }
    let (code, field) = match rng.within(1, 6) {
        1 => put_misspelt_list(rng, &mut lines[at], &places),
        2 => {
            lines[at][places.after] = rng.pick(&AFTERS_OUT_OF_RULE).into();
            (4, places.after)
        }
        _ if is_shared => (20, places.holds),
        _ => (18, READY),
    };
    fault_in_line(&lines, code, at, field)
}

/// A 3 in one of the lists, which takes a shared hold's place or stands beside it.
fn put_misspelt_list(rng: &mut Rng, line: &mut [String], places: &Places) -> (u32, usize) {
    let (field, misspelt) = if rng.chance(50) {
        (places.holds, rng.pick(&MISSPELT_HOLDS))
    } else {
        (places.after, rng.pick(&MISSPELT_AFTERS))
    };
    line[field] = misspelt.into();
    (3, field)
}

/// A 3, 4, 18 or 20 in a line of edition 2.
fn put_any_fault(rng: &mut Rng, line: &mut [String], places: &Places) {
    let (field, value) = match rng.within(1, 4) {
        1 => (0, "Task"),
        2 => (2, "9"),
        3 => (READY, "1000000"),
        _ => (places.holds, rng.pick(&SHARED_HOLDS)),
    };
    line[field] = value.into();
}

/// The text ends inside or just before some task line.
fn cut_short(rng: &mut Rng, plan: &Plan) -> OneFault {
    let lines = lines_of(plan);
    let at = 1 + rng.index(plan.task_count());
    let mut text = text_of(&lines[..at]);
    let line = text_of(&lines[at..at + 1]);
    let cut = &line[..rng.index(line.len())];
    text.extend_from_slice(cut);
    OneFault {
        text,
        answer: refusal(3, at as u32 + 1, cut_column(cut)),
    }
}

/// Just past the cut, unless it leaves a part of the word or of a list behind.
fn cut_column(cut: &[u8]) -> u32 {
    let in_a_word_or_list = cut.last().is_some_and(|byte| b"tase,".contains(byte));
    let last_tab = cut.iter().rposition(|&byte| byte == b'\t');
    let column = if in_a_word_or_list {
        last_tab.map_or(1, |tab| tab + 2)
    } else {
        cut.len() + 1
    };
    column as u32
}

/// The first field, from 0, that is then faulty in a task line with holds there.
fn change_field_count(rng: &mut Rng, fields: &mut Vec<String>, holds: usize) -> usize {
    match rng.within(1, 3) {
        1 => {
            fields.push(String::new());
            fields.len() - 1
        }
        2 => {
            fields.insert(1, "1".into());
            // The planned finish stands where holds are looked for.
            holds
        }
        _ => {
            fields.pop();
            fields.len()
        }
    }
}

fn fault_in_line(lines: &[Vec<String>], code: u32, at: usize, field: usize) -> OneFault {
    OneFault {
        text: text_of(lines),
        answer: refusal(code, at as u32 + 1, column_of(&lines[at], field)),
    }
}

/// Where that field begins; of one that is missing, just past the line.
fn column_of(fields: &[String], field: usize) -> u32 {
    let before = fields[..field].join("\t").len();
    let is_behind_a_tab = field > 0 && field < fields.len();
    (before + usize::from(is_behind_a_tab)) as u32 + 1
}

fn lines_of(plan: &Plan) -> Vec<Vec<String>> {
    let text = String::from_utf8_lossy(&plan_text(plan)).into_owned();
    text.lines()
        .map(|line| line.split('\t').map(str::to_string).collect())
        .collect()
}

fn text_of(lines: &[Vec<String>]) -> Vec<u8> {
    let mut text = String::new();
    for fields in lines {
        text.push_str(&fields.join("\t"));
        text.push('\n');
    }
    text.into_bytes()
}
