//! Whole logs of the proved library compared with the second dispatcher's.

use dispatcher::proved::{write_log, LONGEST_LOG};
use dispatcher::sample::events::{
    accepted_event, any_event, event_line, first_drops, must_take, rule_line, Event,
};
use dispatcher::sample::faults::{damaged_text, late_plan, sharing_plan};
use dispatcher::sample::lent::{expect_room, Lent};
use dispatcher::sample::lines::{
    damaged_lines, damaged_rule_lines, noise, rule_lines_with_one_byte_wrong, with_odd_ends_line,
    with_odd_rule_line,
};
use dispatcher::sample::one_fault::one_fault;
use dispatcher::sample::plan_a::{ENDS_A, PLAN_A};
use dispatcher::sample::plans::{full_plan, full_plan_of_either, random_plan};
use dispatcher::sample::waiting::either_rule;
use dispatcher::sample::Rng;
use dispatcher::second::text::plan_text;
use dispatcher::{open_book, run_log, Plan, Rule};

/// A multiple of 2100, so that every kind of pair comes as often as planned.
const ROUNDS: u32 = 10_500;

/// The rule, ends and drops of a morning to its end, wrong ones among them.
fn morning_ends(rng: &mut Rng, plan: &Plan) -> Vec<u8> {
    let rule = either_rule(rng);
    let mut book = open_book(plan, rule).book;
    let mut ends = rule_line(rule).to_vec();
    for task in first_drops(rng, &book) {
        ends.extend(event_line(Event::Drop(task)));
        book = must_take(&book, Event::Drop(task));
    }
    let drop_percent = rng.pick(&[0, 15, 50]);
    while let Some(next) = accepted_event(rng, &book, drop_percent) {
        if rng.chance(30) {
            ends.extend(event_line(any_event(rng, &book)));
        }
        ends.extend(event_line(next));
        book = must_take(&book, next);
    }
    ends
}

/// Both logs are the same bytes, and nothing past the log is touched.
fn compare(out: &mut Lent, plan: &[u8], ends: &[u8]) -> Vec<u8> {
    let expected = run_log(plan, ends);
    out.expect(&expected, &[plan, ends], |out| write_log(plan, ends, out));
    expected
}

fn has_line(log: &[u8], word: &str) -> bool {
    log.split(|&byte| byte == b'\n')
        .any(|line| line.starts_with(word.as_bytes()))
}

#[test]
fn logs_are_the_same() {
    let mut rng = Rng::announced("logs");
    let mut out = Lent::new(LONGEST_LOG);
    let (mut refused, mut late, mut unready, mut shared) = (0, 0, 0, 0);
    let (mut skipped, mut longest, mut clash, mut misruled) = (0, 0, 0, 0);
    for round in 0..ROUNDS {
        let plan = if round % 100 == 0 {
            full_plan_of_either(&mut rng, 64)
        } else {
            random_plan(&mut rng)
        };
        let mut text = plan_text(&plan);
        let mut ends = morning_ends(&mut rng, &plan);
        match round % 7 {
            0 => text = damaged_text(&mut rng, &text),
            1 => ends = damaged_text(&mut rng, &ends),
            2 if round % 3 == 0 => ends = with_odd_rule_line(&mut rng, &ends),
            2 => ends = damaged_text(&mut rng, &ends),
            3 => ends = damaged_lines(&mut rng, &ends),
            4 if round % 3 == 0 => ends = noise(&mut rng),
            4 => ends = with_odd_ends_line(&mut rng, &ends),
            5 if round % 5 == 0 => text = plan_text(&late_plan(&mut rng, &plan)),
            5 if round % 5 == 1 => text = one_fault(&mut rng, &plan).text,
            5 if round % 5 == 2 => text = plan_text(&sharing_plan(&mut rng, &plan)),
            _ => {}
        }
        let log = compare(&mut out, &text, &ends);
        longest = longest.max(log.len());
        refused += u32::from(has_line(&log, "refused"));
        late += u32::from(has_line(&log, "refused\t17"));
        unready += u32::from(has_line(&log, "refused\t18"));
        shared += u32::from(has_line(&log, "refused\t20"));
        skipped += u32::from(has_line(&log, "skip"));
        clash += u32::from(log.starts_with(b"run\t2\t"));
        misruled += u32::from(ends.starts_with(b"rule") && log.starts_with(b"run\t1\t"));
    }
    println!("{ROUNDS} pairs of texts, {refused} logs with a refusal, {skipped} with a skip");
    println!("{clash} by the clash rule, {misruled} with a rule line that is none");
    println!("the longest has {longest} bytes; {late} are refused by 17, {unready} by 18, {shared} by 20");
    assert!(refused > 2_500 && refused < 10_000);
    assert!(late >= 300 && unready >= 5 && shared >= 100);
    assert!(skipped > 1_900 && skipped < 10_000);
    assert!(clash > 2_000 && clash < 5_000 && misruled > 150);
}

/// Each first line damaged in every way, alone, before other lines and on a refused plan.
#[test]
fn damaged_rule_lines_are_answered_alike() {
    let mut out = Lent::new(LONGEST_LOG);
    let (mut early_start, mut clash) = (0, 0);
    for line in damaged_rule_lines() {
        for rest in [b"".as_slice(), ENDS_A, b"rule\tclash\n"] {
            let ends = [&line, rest].concat();
            let log = compare(&mut out, PLAN_A, &ends);
            early_start += u32::from(log.starts_with(b"run\t1\t"));
            clash += u32::from(log.starts_with(b"run\t2\t"));
            compare(&mut out, b"plan\t1\t1\t0\n", &ends);
        }
    }
    for ends in rule_lines_with_one_byte_wrong() {
        let log = compare(&mut out, PLAN_A, &ends);
        assert!(log.starts_with(b"run\t1\t"));
    }
    println!("{early_start} logs by Early Start, {clash} by the clash rule");
    assert!(early_start > 100 && clash >= 3);
}

#[test]
fn ends_of_the_greatest_length() {
    let plan = plan_text(&full_plan(&mut Rng::announced("long ends"), 64));
    let mut out = Lent::new(LONGEST_LOG);
    for line in ["end\t0\t0\n", "drop\t0\n", "drop\t64\n"] {
        for rule in Rule::BOTH {
            let lines = (32_768 - rule_line(rule).len()) / line.len();
            let ends = [rule_line(rule), line.repeat(lines).as_bytes()].concat();
            assert!(compare(&mut out, &plan, &ends).len() > 60_000);
        }
    }
    let mut ends = b"end\t0\t0\n".repeat(32_768 / 8);
    ends.push(b'\n');
    assert_eq!(compare(&mut out, &plan, &ends), b"refused\t1\t0\t0\n");
    assert_eq!(compare(&mut out, b"", b""), b"refused\t2\t1\t0\n");
}

#[test]
fn a_buffer_that_is_too_short_gets_nothing_and_a_longer_one_only_the_log() {
    for (plan, ends) in [(b"".as_slice(), b"".as_slice()), (PLAN_A, ENDS_A)] {
        let wanted = run_log(plan, ends);
        expect_room(LONGEST_LOG, &wanted, |out| write_log(plan, ends, out));
    }
}
