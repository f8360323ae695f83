//! Reading, judging and writing plans: the proved implementation must answer
//! every input as the second dispatcher does, to the last byte.

use dispatcher::sample::damage::mutated_plan;
use dispatcher::sample::faults::{damaged_text, faulty_pair_plan, sharing_plan};
use dispatcher::sample::lent::{pattern, shown};
use dispatcher::sample::lines::{damaged_lines, noise, stretched_text};
use dispatcher::sample::one_fault::one_fault;
use dispatcher::sample::plan_a::PLAN_A;
use dispatcher::sample::plan_b::PLAN_B;
use dispatcher::sample::plans::random_plan;
use dispatcher::sample::tally::Tally;
use dispatcher::sample::wild::{one_rule_broken, wild_plan};
use dispatcher::sample::Rng;
use dispatcher::second::text::plan_text;
use dispatcher::second::values::LONGEST_TEXT;
use dispatcher::{accepted, judge_plan, proved, read_plan, write_plan};
use dispatcher::{Plan, WriteResult};

/// Bytes that are right in some places of a text and wrong in others.
const LIKELY_BYTES: &[u8] = b"\t\n\r\0 -,es0123456789";

/// What stands in every field once; each is right in some field and wrong in others.
const FIELD_VALUES: &str = "|-|--|0|00|01|1|2|3|4|5|6|7|8|9|10|11|63|64|65|99|255|256|257|999999|\
    1000000|1000001|4294967295|4294967296|4294967297|18446744073709551615|18446744073709551616|\
    18446744073709551617|340282366920938463463374607431768211457|plan|task|Task|end|e1|s1|e32|e33|\
    e0|s0|e1,e2|e2,e1|e1,s1|s31,s32|e1,|,e1|e|e01|E1|1,2|2,1|1,1|1,,2|1,5|5,6|e4294967297|\
    s4294967298| 1|1 ";

fn compare_reading(tally: &mut Tally, text: &[u8]) {
    let wanted = read_plan(text);
    let got = proved::read_plan(text);
    assert_eq!(got.answer, wanted.answer, "{}", shown(text));
    assert!(got.plan == wanted.plan, "{}", shown(text));
    tally.count(wanted.answer);
}

fn compare_judging(tally: &mut Tally, plan: &Plan) {
    let wanted = accepted(plan);
    assert_eq!(proved::accepted(plan), wanted, "{plan:?}");
    let answer = judge_plan(plan);
    assert_eq!(proved::judge_plan(plan), answer, "{plan:?}");
    assert_eq!(answer.is_accepted(), wanted, "{plan:?}");
    tally.count_judged(wanted);
}

/// What a writer answered, and all bytes of the buffer lent and of those behind it.
fn written(
    write: fn(&Plan, &mut [u8]) -> WriteResult,
    plan: &Plan,
    length: usize,
) -> (WriteResult, Vec<u8>) {
    let mut bytes = pattern(length + 64);
    let written = write(plan, &mut bytes[..length]);
    (written, bytes)
}

fn compare_writing(tally: &mut Tally, plan: &Plan, length: usize) {
    let wanted = written(write_plan, plan, length);
    let got = written(proved::write_plan, plan, length);
    assert_eq!(got.0, wanted.0, "{length} bytes lent, {plan:?}");
    assert!(got.1 == wanted.1, "{length} bytes lent, {plan:?}");
    tally.count(wanted.0.answer);
}

fn read_faulty_texts(rng: &mut Rng, tally: &mut Tally, plan: &Plan) {
    for _ in 0..20 {
        compare_reading(tally, &one_fault(rng, plan).text);
    }
    for _ in 0..10 {
        compare_reading(tally, &plan_text(&faulty_pair_plan(rng, plan)));
    }
    for _ in 0..5 {
        compare_reading(tally, &plan_text(&mutated_plan(rng, plan)));
    }
}

fn read_damaged_texts(rng: &mut Rng, tally: &mut Tally, text: &[u8]) {
    for _ in 0..20 {
        compare_reading(tally, &damaged_text(rng, text));
    }
    for _ in 0..10 {
        compare_reading(tally, &damaged_lines(rng, text));
    }
}

fn read_random_plans(rng: &mut Rng, tally: &mut Tally) {
    for _ in 0..1000 {
        let plan = random_plan(rng);
        let text = plan_text(&plan);
        compare_reading(tally, &text);
        read_faulty_texts(rng, tally, &plan);
        read_damaged_texts(rng, tally, &text);
    }
    tally.finish_kind("texts of plans, of one fault and damaged ones");
}

/// The bytes behind a cut are there, and must not be looked at.
fn read_every_cut(rng: &mut Rng, tally: &mut Tally) {
    for _ in 0..30 {
        let text = plan_text(&random_plan(rng));
        for end in 0..text.len().min(1200) {
            compare_reading(tally, &text[..end]);
        }
    }
    for text in [PLAN_A, PLAN_B] {
        for end in 0..=text.len() {
            compare_reading(tally, &text[..end]);
        }
    }
    tally.finish_kind("cut texts");
}

fn read_every_changed_byte(tally: &mut Tally) {
    let every_byte: Vec<u8> = (0..=255).collect();
    for (plan, bytes) in [(PLAN_A, &every_byte[..]), (PLAN_B, LIKELY_BYTES)] {
        for at in 0..plan.len() {
            for &byte in bytes {
                let mut text = plan.to_vec();
                text[at] = byte;
                compare_reading(tally, &text);
            }
        }
    }
    tally.finish_kind("texts of plans A and B with one byte changed to another");
}

fn read_every_byte_put_in_or_out(tally: &mut Tally) {
    for plan in [PLAN_A, PLAN_B] {
        for at in 0..plan.len() {
            for &byte in LIKELY_BYTES {
                let mut text = plan.to_vec();
                text.insert(at, byte);
                compare_reading(tally, &text);
            }
            let mut text = plan.to_vec();
            text.remove(at);
            compare_reading(tally, &text);
        }
    }
    tally.finish_kind("texts of plans A and B with one byte put in or taken out");
}

/// The plan's text with one field of one line replaced.
fn with_field(plan: &[u8], line: usize, field: usize, value: &str) -> Vec<u8> {
    let text = std::str::from_utf8(plan).expect("a plan is plain text");
    let mut lines: Vec<String> = text.lines().map(str::to_string).collect();
    let mut fields: Vec<&str> = lines[line].split('\t').collect();
    fields[field] = value;
    lines[line] = fields.join("\t");
    (lines.join("\n") + "\n").into_bytes()
}

fn read_every_changed_field(tally: &mut Tally) {
    for (plan, task_fields) in [(PLAN_A, 7), (PLAN_B, 8)] {
        for line in 0..6 {
            let fields = if line == 0 { 4 } else { task_fields };
            for field in 0..fields {
                for value in FIELD_VALUES.split('|') {
                    compare_reading(tally, &with_field(plan, line, field, value));
                }
            }
        }
    }
    tally.finish_kind("texts of plans A and B with one field replaced");
}

fn read_long_texts(rng: &mut Rng, tally: &mut Tally) {
    for _ in 0..1000 {
        let text = plan_text(&random_plan(rng));
        let length = LONGEST_TEXT + 1 - rng.index(3);
        compare_reading(tally, &stretched_text(rng, &text, length));
        compare_reading(tally, &stretched_text(rng, PLAN_A, length));
    }
    for length in [LONGEST_TEXT, LONGEST_TEXT + 1] {
        for byte in 0..=255 {
            compare_reading(tally, &vec![byte; length]);
        }
    }
    tally.finish_kind("texts of 32,767 to 32,769 bytes");
}

fn read_noise(rng: &mut Rng, tally: &mut Tally) {
    compare_reading(tally, &[]);
    for byte in 0..=255 {
        compare_reading(tally, &[byte]);
    }
    for _ in 0..10_000 {
        compare_reading(tally, &noise(rng));
    }
    tally.finish_kind("single bytes and texts of noise");
}

/// A buffer's length, mostly near the length of the plan's text.
fn likely_length(rng: &mut Rng, plan: &Plan) -> usize {
    let needed = plan_text(plan).len();
    match rng.within(1, 6) {
        1 => 0,
        2 => needed.saturating_sub(1),
        3 => needed,
        4 => needed + 1,
        5 => rng.index(needed + 1),
        _ => needed + rng.index(100),
    }
}

fn compare_value(rng: &mut Rng, tally: &mut Tally, plan: &Plan) {
    compare_judging(tally, plan);
    let length = likely_length(rng, plan);
    compare_writing(tally, plan, length);
}

fn judge_and_write_changed_plans(rng: &mut Rng, tally: &mut Tally) {
    for _ in 0..1000 {
        let plan = random_plan(rng);
        compare_value(rng, tally, &plan);
        for _ in 0..7 {
            let changed = mutated_plan(rng, &plan);
            compare_value(rng, tally, &changed);
            let broken = one_rule_broken(rng, &plan);
            compare_value(rng, tally, &broken);
            let faulty = faulty_pair_plan(rng, &plan);
            compare_value(rng, tally, &faulty);
        }
        let sharing = sharing_plan(rng, &plan);
        compare_value(rng, tally, &sharing);
        compare_reading(tally, &plan_text(&sharing));
    }
    tally.finish_kind("plan values, right and changed, judged and written");
}

fn judge_and_write_wild_plans(rng: &mut Rng, tally: &mut Tally) {
    compare_value(rng, tally, &Plan::ZERO);
    for _ in 0..5_000 {
        let plan = wild_plan(rng);
        compare_value(rng, tally, &plan);
    }
    tally.finish_kind("plan values of random bytes, judged and written");
}

fn write_to_every_length(rng: &mut Rng, tally: &mut Tally) {
    for _ in 0..30 {
        let plan = random_plan(rng);
        let needed = plan_text(&plan).len();
        // Every length for a text under 500 bytes; long texts take wider steps.
        let step = needed / 500 + 1;
        for length in (0..needed).step_by(step) {
            compare_writing(tally, &plan, length);
        }
        for length in needed.saturating_sub(3)..=needed + 3 {
            compare_writing(tally, &plan, length);
        }
    }
    for text in [PLAN_A, PLAN_B] {
        let plan = read_plan(text).plan;
        for length in 0..=text.len() + 3 {
            compare_writing(tally, &plan, length);
        }
    }
    tally.finish_kind("buffer lengths written to");
}

#[test]
fn texts_are_read_alike() {
    let (mut rng, mut tally) = Tally::seeded("compare_text");
    read_random_plans(&mut rng, &mut tally);
    read_every_cut(&mut rng, &mut tally);
    read_every_changed_byte(&mut tally);
    read_every_byte_put_in_or_out(&mut tally);
    read_every_changed_field(&mut tally);
    read_long_texts(&mut rng, &mut tally);
    read_noise(&mut rng, &mut tally);
    tally.finish(120_000, &[0, 1, 2, 3, 4, 5, 6, 7, 8, 17, 18, 20]);
}

#[test]
fn plan_values_are_judged_and_written_alike() {
    let (mut rng, mut tally) = Tally::seeded("compare_text, values");
    judge_and_write_changed_plans(&mut rng, &mut tally);
    judge_and_write_wild_plans(&mut rng, &mut tally);
    write_to_every_length(&mut rng, &mut tally);
    tally.finish(60_000, &[0, 9, 16, 20]);
}
