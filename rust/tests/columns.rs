//! Request P2: the column that refusals 3 and 4 name. First by hand, row by row
//! of its table; then against its sentences, said once more over whole texts.

use dispatcher::sample::columns::{
    every_damaged_ends, every_damaged_plan, every_damaged_rule_line,
};
use dispatcher::sample::faults::damaged_text;
use dispatcher::sample::mixtures::{every_mixture, READING, SECOND_CALL};
use dispatcher::sample::plan_a::PLAN_A;
use dispatcher::sample::plans::random_plan;
use dispatcher::sample::tally::Tally;
use dispatcher::second::text::plan_text;
use dispatcher::second::values::{refusal, EDITION_1, EDITION_2};
use dispatcher::{read_exclusive, read_plan, run_log, Answer};

/// A plan of two tasks with this second one, its LF included where it has one.
fn check_task_line(line: &str, code: u32, column: u32) {
    let text = format!("plan\t1\t2\t2\ntask\t1\t1\t0\t5\te1\t-\n{line}");
    let answer = read_plan(text.as_bytes()).answer;
    assert_eq!(answer, refusal(code, 3, column), "{line:?}");
}

/// The line as the only one of `ends.txt` on plan A.
fn check_ends_line(line: &str, code: u32, column: u32) {
    let log = String::from_utf8(run_log(PLAN_A, line.as_bytes())).unwrap();
    let refused = format!("early\t0\t0\nrefused\t{code}\t1\t{column}\n");
    assert!(log.ends_with(&refused), "{line:?}: {log}");
}

#[test]
fn a_faulty_field_is_named_where_it_begins() {
    // The line without a fault is "task\t2\t2\t5\t9\te1,s2\t1\n".
    check_task_line("Task\t2\t2\t5\t9\te1,s2\t1\n", 3, 1);
    check_task_line("task\t02\t2\t5\t9\te1,s2\t1\n", 3, 6);
    check_task_line("task\t2\tx\t5\t9\te1,s2\t1\n", 3, 8);
    check_task_line("task\t2\t2\t5.\t9\te1,s2\t1\n", 3, 10);
    check_task_line("task\t2\t2\t5\t-\te1,s2\t1\n", 3, 12);
    check_task_line("task\t2\t2\t5\t9\te1,2\t1\n", 3, 14);
    check_task_line("task\t2\t2\t5\t9\te1,s2\t1,\n", 3, 20);
    check_task_line("task\t3\t2\t5\t9\te1,s2\t1\n", 4, 6);
    check_task_line("task\t2\t3\t5\t9\te1,s2\t1\n", 4, 8);
    check_task_line("task\t2\t2\t1000001\t9\te1,s2\t1\n", 4, 10);
    check_task_line("task\t2\t2\t5\t1000001\te1,s2\t1\n", 4, 12);
    check_task_line("task\t2\t2\t5\t9\te1,s33\t1\n", 4, 14);
    check_task_line("task\t2\t2\t5\t9\te1,s2\t1,1\n", 4, 20);
    check_ends_line("ends\t2\t3\n", 3, 1);
    check_ends_line("end\t2,\t3\n", 3, 5);
    check_ends_line("end\t2\t3,\n", 3, 7);
    check_ends_line("end\t1000001\t3\n", 4, 5);
    check_ends_line("end\t2\t1000001\n", 4, 7);
    check_ends_line("drop\t3,\n", 3, 6);
    check_ends_line("drop\t1000001\n", 4, 6);
}

#[test]
fn an_empty_field_is_named_where_it_begins() {
    check_task_line("\t2\t2\t5\t9\te1,s2\t1\n", 3, 1);
    check_task_line("task\t\t2\t5\t9\te1,s2\t1\n", 3, 6);
    check_task_line("task\t2\t\t5\t9\te1,s2\t1\n", 3, 8);
    check_task_line("task\t2\t2\t\t9\te1,s2\t1\n", 3, 10);
    check_task_line("task\t2\t2\t5\t\te1,s2\t1\n", 3, 12);
    check_task_line("task\t2\t2\t5\t9\t\t1\n", 3, 14);
    check_task_line("task\t2\t2\t5\t9\te1,s2\t\n", 3, 20);
    check_task_line("\n", 3, 1);
    check_ends_line("\n", 3, 1);
    check_ends_line("\t2\t3\n", 3, 1);
    check_ends_line("end\t\t3\n", 3, 5);
    check_ends_line("end\t2\t\n", 3, 7);
    check_ends_line("drop\t\n", 3, 6);
}

#[test]
fn a_missing_field_is_named_just_past_the_line() {
    check_task_line("task\n", 3, 5);
    check_task_line("task\t2\n", 3, 7);
    check_task_line("task\t2\t2\t5\t9\n", 3, 13);
    check_task_line("task\t2\t2\t5\t9\te1,s2\n", 3, 19);
    check_ends_line("end\n", 3, 4);
    check_ends_line("end\t2\n", 3, 6);
    check_ends_line("drop\n", 3, 5);
}

#[test]
fn a_missing_lf_is_named_just_past_the_line() {
    check_task_line("task\t2\t2\t5\t9\te1,s2\t1", 3, 21);
    check_task_line("task\t2\t2\t5\t9\te1,s2", 3, 19);
    check_task_line("task", 3, 5);
    check_ends_line("end\t2\t3", 3, 8);
    check_ends_line("end\t2", 3, 6);
    check_ends_line("drop\t3", 3, 7);
    check_ends_line("drop", 3, 5);
}

#[test]
fn a_missing_line_is_named_at_1() {
    check_task_line("", 3, 1);
    assert_eq!(
        read_plan(b"plan\t1\t1\t1\n").answer,
        refusal(3, 2, 1),
        "no task line at all"
    );
}

#[test]
fn of_too_many_fields_the_first_extra_one_is_named() {
    check_task_line("task\t2\t2\t5\t9\te1,s2\t1\tmore\n", 3, 22);
    check_task_line("task\t2\t2\t5\t9\te1,s2\t1\t\n", 3, 22);
    check_task_line("task\t2\t2\t5\t9\te1,s2\t1\t\t\t\n", 3, 22);
    check_task_line("task\t2\t2\t5\t9\te1,s2\t1\tmore", 3, 22);
    check_ends_line("end\t2\t3\t4\n", 3, 9);
    check_ends_line("end\t2\t3\t\t5\n", 3, 9);
    check_ends_line("drop\t3\t3\n", 3, 8);
    check_ends_line("drop\t3\t", 3, 8);
}

#[test]
fn of_two_faults_3_goes_before_4_each_at_its_leftmost_field() {
    // A misspelt field and a missing LF.
    check_task_line("task\t2\t2\t5\tx\te1,s2\t1", 3, 12);
    check_ends_line("end\tx\t3", 3, 5);
    // A misspelt fifth field and a missing seventh.
    check_task_line("task\t2\t2\t5\tx\te1,s2\n", 3, 12);
    // A tick over range in field 4, and field 6 misspelt.
    check_task_line("task\t2\t2\t1000001\t9\tx1\t1\n", 3, 20);
    check_ends_line("end\t1000001\tx\n", 3, 13);
    check_ends_line("drop\t1000001\tx\n", 3, 14);
    // A missing field and a range fault.
    check_task_line("task\t2\t2\t1000001\t9\te1\n", 3, 22);
    check_ends_line("end\t1000001\n", 3, 12);
    // An extra field and a range fault.
    check_task_line("task\t3\t2\t5\t9\te1\t1\t-\n", 3, 19);
    // Two of 3, three of 3, two of 4, three of 4.
    check_task_line("task\t2\tx\t5\t9\tx\t1\n", 3, 8);
    check_task_line("task\t2\t2\t\t\t\t1\n", 3, 10);
    check_task_line("task\t2\t9\t5\t4\te1\t1\n", 4, 8);
    check_task_line("task\t2\t2\t5\t5\te33\t0\n", 4, 12);
    check_ends_line("end\t1000001\t1000001\n", 4, 5);
    // One of 4 on each side of one of 3.
    check_task_line("task\t9\t2\t05\t9\te33\t1\n", 3, 10);
}

#[test]
fn the_planned_finish_is_faulty_where_it_is_not_above_the_start() {
    check_task_line("task\t2\t2\t9\t9\te1,s2\t1\n", 4, 12);
    check_task_line("task\t2\t2\t10\t9\te1,s2\t1\n", 4, 13);
    check_task_line("task\t2\t2\t1000000\t1000000\te1,s2\t1\n", 4, 18);
    check_task_line("task\t2\t2\t1000000\t1000001\te1,s2\t1\n", 4, 18);
    // Over its own range the start is the faulty one.
    check_task_line("task\t2\t2\t1000001\t1000002\te1,s2\t1\n", 4, 10);
}

#[test]
fn only_the_word_drop_makes_a_line_a_drop() {
    check_ends_line("skip\t3\n", 3, 1);
    check_ends_line("drops\t3\n", 3, 1);
    check_ends_line("\tdrop\t3\n", 3, 1);
    check_ends_line("dro\t3\n", 3, 1);
    check_ends_line("end\t3\n", 3, 6);
    check_ends_line("drop\t3\t4\n", 3, 8);
}

#[test]
fn codes_2_and_5_name_no_column() {
    assert_eq!(read_plan(b"plan\t1\t2\tx\n").answer, refusal(2, 1, 0));
    let text = b"plan\t1\t1\t1\ntask\t1\t1\t0\t5\t-\t-\nx\tx\n";
    assert_eq!(read_plan(text).answer, refusal(5, 3, 0));
}

/// What stands in a line, field by field.
const TASK_1: [&str; 7] = [
    "task", "number", "board", "start", "finish", "holds", "after",
];
const TASK_2: [&str; 8] = [
    "task", "number", "board", "ready", "start", "finish", "own", "after",
];
/// As the second call reads it, where a drive may still be shared.
const TASK_2_SHARING: [&str; 8] = [
    "task", "number", "board", "ready", "start", "finish", "holds", "after",
];
const END: [&str; 3] = ["end", "any", "any"];
const DROP: [&str; 2] = ["drop", "any"];
const RULE: [&str; 2] = ["rule", "clash"];

/// A line's fault as (code, column); where it has several, the first by code and then by column is the one.
type Fault = (u32, usize);

/// The first fault of a line of that form, from all it has.
fn first_fault(
    line: &[u8],
    form: &[&str],
    code_of: impl Fn(&str, &[u8]) -> Option<u32>,
) -> Option<Fault> {
    let without_lf = line.strip_suffix(b"\n");
    let bytes = without_lf.unwrap_or(line);
    let fields: Vec<&[u8]> = bytes.split(|&byte| byte == b'\t').collect();
    let mut faults = Vec::new();
    let mut begins = 1;
    for (place, field) in fields.iter().enumerate() {
        // One too many is as bad as a misspelt one.
        let code = form.get(place).map_or(Some(3), |name| code_of(name, field));
        faults.extend(code.map(|code| (code, begins)));
        begins += field.len() + 1;
    }
    if fields.len() < form.len() || without_lf.is_none() {
        faults.push((3, bytes.len() + 1));
    }
    let rank = |code| READING.iter().position(|known| *known == code);
    faults
        .into_iter()
        .min_by_key(|&(code, column)| (rank(code), column))
}

/// The number that these bytes spell, however large.
fn number_of(field: &[u8]) -> Option<u128> {
    let spelt = std::str::from_utf8(field).ok()?;
    let has_digits_only = !spelt.is_empty() && spelt.bytes().all(|byte| byte.is_ascii_digit());
    if !has_digits_only || (spelt.starts_with('0') && spelt != "0") {
        return None;
    }
    Some(spelt.parse().unwrap_or(u128::MAX))
}

/// The numbers of a list, `-` having none; None where it is misspelt.
fn list_of(field: &[u8], letters: &[u8]) -> Option<Vec<u128>> {
    if field == b"-" {
        return Some(Vec::new());
    }
    let items = field.split(|&byte| byte == b',');
    let digits = |item: &[u8]| match letters {
        [] => number_of(item),
        _ if letters.contains(item.first()?) => number_of(&item[1..]),
        _ => None,
    };
    items.map(digits).collect()
}

fn rises_within(list: &[u128], last: u128) -> bool {
    let in_range = list.iter().all(|item| (1..=last).contains(item));
    in_range && list.windows(2).all(|pair| pair[0] < pair[1])
}

/// What the first line says.
struct Sizes {
    form: &'static [&'static str],
    boards: u128,
    tasks: u128,
}

/// The first fault of the task line of that number.
fn task_fault(line: &[u8], number: u128, sizes: &Sizes) -> Option<Fault> {
    let start_place = sizes.form.iter().position(|name| *name == "start")?;
    let mut fields = line.split(|&byte| byte == b'\t');
    let start = fields.nth(start_place).and_then(number_of);
    first_fault(line, sizes.form, |name, field| match name {
        "task" => (field != b"task").then_some(3),
        "holds" => list_code(list_of(field, b"es"), 32),
        "own" => list_code(list_of(field, b"es"), 32).or(field.contains(&b's').then_some(20)),
        "after" => list_code(list_of(field, b""), sizes.tasks),
        _ => number_code(name, number_of(field), start, number, sizes.boards),
    })
}

fn list_code(list: Option<Vec<u128>>, last: u128) -> Option<u32> {
    match list {
        None => Some(3),
        Some(list) => (!rises_within(&list, last)).then_some(4),
    }
}

fn number_code(
    name: &str,
    value: Option<u128>,
    start: Option<u128>,
    number: u128,
    boards: u128,
) -> Option<u32> {
    let Some(value) = value else {
        return Some(3);
    };
    let in_range = match name {
        "number" => value == number,
        "board" => (1..=boards).contains(&value),
        "finish" => value <= 1_000_000 && start.is_none_or(|start| start < value),
        _ => value <= 1_000_000,
    };
    let too_late = name == "ready" && start.is_some_and(|start| start < value);
    match (in_range, too_late) {
        (false, _) => Some(4),
        (true, true) => Some(18),
        (true, false) => None,
    }
}

/// The first fault of a line of `ends.txt`; as the first line it may choose the rule.
fn ends_fault(line: &[u8], is_first: bool) -> Option<Fault> {
    let end_of_word = line.iter().position(|byte| b"\t\n".contains(byte));
    let form: &[&str] = match &line[..end_of_word.unwrap_or(line.len())] {
        b"drop" => &DROP,
        b"rule" if is_first => &RULE,
        _ => &END,
    };
    first_fault(line, form, |name, field| match (name, number_of(field)) {
        ("any", Some(value)) => (value > 1_000_000).then_some(4),
        ("any", None) => Some(3),
        (word, _) => (field != word.as_bytes()).then_some(3),
    })
}

fn refused(line: usize, fault: Fault) -> Answer {
    refusal(fault.0, line as u32, fault.1 as u32)
}

/// The first 3, 4, 20 or 18 of a text whose first line is well formed, its lines in
/// edition 2 of that form.
fn plan_fault(text: &[u8], second: &'static [&'static str]) -> Option<Answer> {
    let lines: Vec<&[u8]> = text.split_inclusive(|&byte| byte == b'\n').collect();
    let first: Vec<&[u8]> = lines[0].trim_ascii_end().split(|&b| b == b'\t').collect();
    let sizes = Sizes {
        form: if first[1] == b"1" { &TASK_1 } else { second },
        boards: number_of(first[2])?,
        tasks: number_of(first[3])?,
    };
    (1..=sizes.tasks as usize).find_map(|k| {
        let line = lines.get(k).copied().unwrap_or(b"");
        let fault = task_fault(line, k as u128, &sizes)?;
        Some(refused(k + 1, fault))
    })
}

/// The answer where it is of a line, else None.
fn said_of_a_line(answer: Answer) -> Option<Answer> {
    READING.contains(&answer.code).then_some(answer)
}

#[test]
fn every_damaged_task_line_is_refused_by_its_first_fault() {
    let mut tally = Tally::new("columns of task lines");
    for text in every_damaged_plan() {
        let answer = read_plan(&text).answer;
        let shown = String::from_utf8_lossy(&text);
        let wanted = plan_fault(&text, &TASK_2);
        assert_eq!(said_of_a_line(answer), wanted, "{shown:?}");
        tally.count(answer);
    }
    tally.finish(25_000, &[3, 4]);
}

#[test]
fn the_second_call_refuses_every_damaged_task_line_by_its_first_fault_but_20() {
    let mut tally = Tally::new("columns of task lines with shared holds");
    for text in every_damaged_plan() {
        let answer = read_exclusive(&text).answer;
        let shown = String::from_utf8_lossy(&text);
        tally.count(answer);
        if text.starts_with(b"plan\t1") {
            assert_eq!(answer, refusal(2, 1, 0), "{shown:?}");
            continue;
        }
        let wanted = plan_fault(&text, &TASK_2_SHARING);
        assert_eq!(said_of_a_line(answer), wanted, "{shown:?}");
    }
    tally.finish(25_000, &[2, 3, 4]);
}

#[test]
fn every_mixture_of_3_4_18_and_20_is_refused_by_its_first() {
    let mut tally = Tally::new("mixtures");
    for edition in [EDITION_1, EDITION_2] {
        for mixture in every_mixture(edition) {
            let answer = read_plan(&mixture.text).answer;
            let shown = String::from_utf8_lossy(&mixture.text);
            assert_eq!(answer, mixture.answer(&READING), "{shown:?}");
            tally.count(answer);
            let second = read_exclusive(&mixture.text).answer;
            let wanted = match edition {
                EDITION_1 => refusal(2, 1, 0),
                _ => mixture.answer(&SECOND_CALL),
            };
            assert_eq!(second, wanted, "{shown:?}");
        }
    }
    tally.finish(8_192, &[3, 4, 18, 20]);
}

#[test]
fn every_damaged_line_of_ends_is_refused_by_its_first_fault() {
    let mut by_code = [0; 5];
    for text in every_damaged_ends() {
        let mut lines = text.split_inclusive(|&byte| byte == b'\n').skip(1);
        let fault = lines.next().and_then(|line| ends_fault(line, false));
        let log = String::from_utf8(run_log(PLAN_A, &text)).unwrap();
        let shown = String::from_utf8_lossy(&text);
        let Some((code, column)) = fault else {
            let stopped = log.contains("refused\t3\t") || log.contains("refused\t4\t");
            assert!(!stopped, "{shown:?}: {log}");
            continue;
        };
        let last = format!("refused\t{code}\t2\t{column}\n");
        assert!(log.ends_with(&last), "{shown:?}: {log}");
        by_code[code as usize] += 1;
    }
    println!("{} refused by 3, {} by 4", by_code[3], by_code[4]);
    assert!(by_code[3] > 1_500 && by_code[4] > 10);
}

#[test]
fn every_damaged_rule_line_is_refused_by_its_first_fault() {
    let (mut refused, mut chosen) = (0, 0);
    for text in every_damaged_rule_line() {
        let Some(first) = text.split_inclusive(|&byte| byte == b'\n').next() else {
            continue; // nothing is left of it
        };
        let fault = ends_fault(first, true);
        let log = String::from_utf8(run_log(PLAN_A, &text)).unwrap();
        let shown = String::from_utf8_lossy(&text);
        let Some((code, column)) = fault else {
            assert!(log.starts_with("run\t2\t2\t5\tclash\n"), "{shown:?}: {log}");
            assert!(!log.contains("refused"), "{shown:?}: {log}");
            chosen += 1;
            continue;
        };
        let last = format!("early\t0\t0\nrefused\t{code}\t1\t{column}\n");
        assert!(log.starts_with("run\t1\t2\t5\n"), "{shown:?}: {log}");
        assert!(log.ends_with(&last), "{shown:?}: {log}");
        refused += 1;
    }
    println!("{refused} refused, {chosen} not");
    assert!(refused > 150 && chosen == 2);
}

#[test]
fn damaged_texts_are_refused_by_their_first_fault() {
    let (mut rng, mut tally) = Tally::seeded("columns of damaged texts");
    for _ in 0..3000 {
        let text = plan_text(&random_plan(&mut rng));
        for _ in 0..10 {
            let damaged = damaged_text(&mut rng, &text);
            let answer = read_plan(&damaged).answer;
            tally.count(answer);
            // Without a first line there is nothing to hold the others to.
            if ![1, 2].contains(&answer.code) {
                let shown = String::from_utf8_lossy(&damaged);
                let wanted = plan_fault(&damaged, &TASK_2);
                assert_eq!(said_of_a_line(answer), wanted, "{shown:?}");
            }
        }
    }
    tally.finish(30_000, &[3, 4]);
}
